"""Calls of commands that end by themselves. WORDS are words with one space between two.

- `explain | WORDS`: what is said on standard error of words that are of no command.
- `try_took | WORDS | REQUEST`: how many bytes are taken from standard input.
- `try_slow | WORDS | REQUEST | WRITES`: the status, and what is written, where a write takes one byte and those with these
  numbers fail, from 1 on.
- `make_audited | WORDS`: what the audit of the trace that `make WORDS trace` prints comes to, over an empty journal.
- `make_changed | WORDS | BACK | BYTE`: the same, where the trace has this byte so many places before its end.
- `run | WORDS | FIELD | ..`: the status, and what is written. `journal BYTES` is what the file has that the words name,
  and is empty where that is missing, `key BYTES` what the first file of a key has that they name, and then the second, none
  of which is there without it, `source BYTES` what is read, and `reads N ..` and `writes N ..` are the numbers of
  the reads and of the writes that fail.
- `files | WORDS | FIELD | ..`: the same, with `file BYTES` for the file that is written, and behind it in brackets what
  the two files have then, each `=` where it is what it was.
"""

import os
import subprocess

from answering.lines import words_of
from serving.checks import LIMIT

# What the world of the system has, and what a run may ask of it here.
ASKED = {b"journal", b"file", b"key", b"source", b"reads", b"writes"}


def ended(program, folder, words, given=b"", env=None):
    """The status of a command in the folder, what it wrote, and what it said on standard error."""
    env = env and {**os.environ, **env}
    done = subprocess.run([program, *words], cwd=folder, input=given, capture_output=True, timeout=LIMIT, env=env)
    return done.returncode, done.stdout, done.stderr


def told(status, written):
    """The status, and what was written, if anything was."""
    return b" ".join([str(status).encode(), *([written] if written else [])])


def explain(program, folder, words):
    (folder / "j").write_bytes(b"\x01RTBXJ01\x00")
    (folder / "k").unlink(missing_ok=True)
    return ended(program, folder, words_of(words))[2]


def took(program, folder, words, given):
    with open(folder / "source", "w+b") as source:
        source.write(given)
        source.flush()
        source.seek(0)
        subprocess.run([program, *words_of(words)], cwd=folder, stdin=source, capture_output=True, timeout=LIMIT)
        return str(os.lseek(source.fileno(), 0, os.SEEK_CUR)).encode()


def slow(program, folder, system, words, given, writes):
    env = system.env(slow="yes", writes=writes.decode())
    return told(*ended(program, folder, words_of(words), given, env)[:2])


def trace_of(program, folder, words):
    return ended(program, folder, [b"make", *words_of(words), b"trace"])[1]


def audited(program, folder, trace):
    (folder / "p").write_bytes(b"")
    return told(*ended(program, folder, ["audit", "--journal", "p"], trace)[:2])


def changed(program, folder, words, back, byte):
    trace = trace_of(program, folder, words)
    place = len(trace) - int(back)
    return audited(program, folder, trace[:place] + byte + trace[place + 1 :])


def fields_in(args):
    """The words of a run, and its fields by name."""
    return words_of(args[0]), dict(it.partition(b" ")[::2] for it in args[1:])


def is_asked(call, args, wanted):
    """Whether the run asks for nothing that the system does not have, and ends by itself."""
    words, fields = fields_in(args)
    serves = words[:1] in ([b"serve"], [b"follow"]) and not wanted.startswith(b"2 ")
    return call in ("run", "files") and set(fields) <= ASKED and not serves and b" none" not in wanted


def put_keys(folder, words, args):
    """The files of keys that the words name."""
    keys = [it.partition(b" ")[2] for it in args[1:] if it.startswith(b"key ")]
    for option, name in zip(words, words[1:]):
        if option in (b"--key", b"--former-key"):
            path = folder / name.decode()
            path.write_bytes(keys.pop(0)) if keys else path.unlink(missing_ok=True)


def run(program, folder, system, call, args):
    words, fields = fields_in(args)
    journal, file = fields.get(b"journal", b""), fields.get(b"file", b"")
    for name in "jp":
        (folder / name).write_bytes(journal)
    for name in "kq":
        (folder / name).write_bytes(file)
    put_keys(folder, words, args)
    fails = {name: fields[name.encode()].decode() for name in ("reads", "writes") if name.encode() in fields}
    env = system.env(**fails) if fails else None
    came = told(*ended(program, folder, words, fields.get(b"source", b""), env)[:2])
    return came if call == "run" else came + files_told(folder, [("p", journal), ("q", file)])


def files_told(folder, files):
    found = [((folder / name).read_bytes(), before) for name, before in files]
    return b"".join(b" [=]" if now == before else b" [" + now + b"]" for now, before in found)
