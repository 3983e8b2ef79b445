# Completion of rtbx's words for bash.
_rtbx() {
    local now=${COMP_WORDS[COMP_CWORD]} before=${COMP_WORDS[COMP_CWORD - 1]}
    case $before in
    --journal | --into | --key | --former-key)
        mapfile -t COMPREPLY < <(compgen -f -- "$now")
        return
        ;;
    esac
    local words=
    if [ "$COMP_CWORD" -eq 1 ]; then
        words="serve recover compact follow audit make try which --help --version"
    else
        case ${COMP_WORDS[1]} in
        serve) words="--listen --journal --existing --public --key --former-key --workers --ttl --sales --patience --help --version" ;;
        recover) words="--journal --help --version" ;;
        audit) words="--journal --key --former-key --help --version" ;;
        compact) words="--journal --into --keep --beside --help --version" ;;
        follow) words="--listen --journal --help --version" ;;
        make) words="trace --help --version" ;;
        which) words="--help --version" ;;
        esac
    fi
    mapfile -t COMPREPLY < <(compgen -W "$words" -- "$now")
}
complete -F _rtbx rtbx
