"""What `serve` and `recover` make of files."""

from serving.checks import CHECKS
from serving.messages import get, number, post, report
from serving.program import converse, counts, ended, free_port, recovered, running, serve_words


def block(payload):
    return b"\x01" + len(payload).to_bytes(8, "big") + payload


HEAD = b"\x01RTBXJ01"
PAUSE_1 = bytes.fromhex("00000000000003e80400000001")


def damaged():
    """Files that are no journals, with the place at which each is damaged."""
    whole = journal_of_one()
    return {
        "a text": (b"This is no journal.\n", 0),
        "another name": (b"\x01RTBXX01\x00", 0),
        "a gate that is not open": (b"\x00RTBXJ01\x00\x00", 0),
        "a block that is cut short": (HEAD + block(PAUSE_1), 8),
        "a length past the end": (HEAD + b"\x01" + b"\xff" * 8 + b"\x00", 8),
        "a block of no effect": (HEAD + block(b"hello") + b"\x00", 8),
        "an effect that does not fit": (HEAD + block(PAUSE_1) + b"\x00", 8),
        "a second block that is cut short": (whole[:-1] + block(PAUSE_1)[:-1], len(whole) - 1),
    }


def journal_of_one():
    """A journal with the campaign of docs/FORMATS.md."""
    facts = bytes.fromhex(
        "000000027331 00000003612e62 00000000 010000012c000000fa 0000000100000007 01 00000000002625a0 00000000"
        "000000012a05f200 000000033c623e 0000000163 00"
    )
    everything = bytes.fromhex("0000000100000000")
    return HEAD + block(bytes.fromhex("00000000000003e8") + b"\x02" + facts + everything) + b"\x00"


def try_journals(program, folder):
    """What `serve` and `recover` make of files."""
    for name, (data, place) in damaged().items():
        path = folder / "damaged"
        path.write_bytes(data)
        for command in [serve_words(program, path, free_port()), [program, "recover", "--journal", path]]:
            came = ended(command)
            CHECKS.same(f"{name}: {command[1]}", came[:2], (6, f"rtbx: damaged at {place}\n".encode()))
            CHECKS.same(f"{name}: {command[1]} leaves it", path.read_bytes(), data)
    path = folder / "one"
    path.write_bytes(journal_of_one())
    CHECKS.same("a journal of one campaign", recovered(program, path), counts(campaigns=1, live=1))
    path.write_bytes(journal_of_one() + b"what a crash left behind the gate")
    with running(program, path) as server:
        converse(
            server,
            [
                ("what follows a closed gate has no meaning", get("/campaign/1"), report(1, budget="5")),
                ("and is written over", post("/pause/1"), number(1)),
            ],
        )
    CHECKS.same("the pause is there", recovered(program, path), counts(campaigns=1, live=0))
    begun(program, folder)


def begun(program, folder):
    """Files that a creation left unfinished, and none at all."""
    for name, data in {"empty": b"", "no gate": b"\x00RTBXJ01", "a gate not open": b"\x00RTBXJ01\x00"}.items():
        path = folder / "begun"
        path.write_bytes(data)
        CHECKS.same(f"{name}: recover", recovered(program, path), counts())
        CHECKS.same(f"{name}: recover leaves it", path.read_bytes(), data)
        with running(program, path):
            CHECKS.same(f"{name}: serve completes it", path.read_bytes(), HEAD + b"\x00")
    path = folder / "new"
    with running(program, path):
        CHECKS.same("a journal is made", path.read_bytes(), HEAD + b"\x00")
