"""The program `dossier` in bad company: inputs that cannot be read, outputs that cannot be written.

    python3 tests/company.py      from anywhere; the program is proved and built first, where that is not done yet

Each case says what the program must write on standard output and on standard
error.  The gate cannot make these cases: it gives a program a file to read.
"""

import os
import pathlib
import socket
import subprocess
import sys

ROOT = pathlib.Path(__file__).parent.parent
DOSSIER = [ROOT / "examples" / "dossier"]
TAPE = (ROOT / "crates" / "dossier" / "stdin").read_bytes()
PAGE = (ROOT / "crates" / "dossier" / "stdout").read_bytes()
UNREADABLE = b"dossier: standard input cannot be read\n"
UNWRITABLE = b"dossier: standard output cannot be written\n"


def on(**company):
    done = subprocess.run(DOSSIER, stderr=subprocess.PIPE, check=False, **company)
    return done.stdout, done.stderr


def on_file(path):
    with open(path, "rb") as given:
        return on(stdin=given, stdout=subprocess.PIPE)


def on_folder():
    folder = os.open("/", os.O_RDONLY)
    try:
        return on(stdin=folder, stdout=subprocess.PIPE)
    finally:
        os.close(folder)


def on_nothing_open():
    closed = ["sh", "-c", 'exec "$0" <&-', *DOSSIER]
    done = subprocess.run(closed, stdout=subprocess.PIPE, stderr=subprocess.PIPE, check=False)
    return done.stdout, done.stderr


def on_broken_off(given):
    """Bytes, and then a read that fails: the other end of a socket goes while it has not read what was sent to it."""
    far, near = socket.socketpair()
    far.sendall(given)
    near.sendall(b"unread")
    far.close()
    with near:
        return on(stdin=near, stdout=subprocess.PIPE)


def on_full_disk():
    with open("/dev/full", "wb") as full:
        return on(input=TAPE, stdout=full)


CASES = [
    ("the worked tape", lambda: on(input=TAPE, stdout=subprocess.PIPE), (PAGE, b"")),
    ("the same from a file", lambda: on_file(ROOT / "crates" / "dossier" / "stdin"), (PAGE, b"")),
    ("a folder as input", on_folder, (b"", UNREADABLE)),
    ("no input open", on_nothing_open, (b"", UNREADABLE)),
    ("a read that fails after a whole request", lambda: on_broken_off(TAPE[:14]), (b"", UNREADABLE)),
    ("a read that fails after the whole tape", lambda: on_broken_off(TAPE), (b"", UNREADABLE)),
    ("a full disk as output", on_full_disk, (None, UNWRITABLE)),
]


def main():
    on(input=b"", stdout=subprocess.PIPE)  # proved and built, so that no case has its words on standard error
    failed = 0
    for said, made, wanted in CASES:
        got = made()
        if got != wanted:
            failed += 1
            print(f"{said}: {got}, and not {wanted}")
    print(f"{len(CASES) - failed} passed, {failed} failed")
    sys.exit(failed > 0)


if __name__ == "__main__":
    main()
