"""Lines of cases: a call and its arguments with ` | ` between, and behind ` => ` the answer.

A field stands for its bytes, but that `%HH` is the byte with that hexadecimal number, in capitals, and `%(N*TEXT)` is
TEXT as often as N says, where a `#` in TEXT is the number of the turn, from 1 on."""

import re

PIECE = re.compile(rb"%\((\d+)\*([^)%]*)\)|%([0-9A-F]{2})")


def cases(path):
    """The cases of a file, each as its line, its call, its arguments and its answer."""
    for line in path.read_bytes().split(b"\n"):
        if line and not line.startswith(b"#"):
            asked, _, told = line.partition(b" => ")
            call, *args = asked.split(b" | ")
            yield line.decode(), call.decode(), [bytes_of(it) for it in args], bytes_of(told)


def bytes_of(field):
    """The bytes that the field stands for."""
    return PIECE.sub(piece, field)


def piece(found):
    turns, text, byte = found.groups()
    if byte:
        return bytes([int(byte, 16)])
    return b"".join(text.replace(b"#", str(turn).encode()) for turn in range(1, int(turns) + 1))


def words_of(field):
    """The words of a line; no word stands on an empty line."""
    return field.split(b" ") if field else []
