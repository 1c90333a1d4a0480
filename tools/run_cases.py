#!/usr/bin/env python3
"""Runs the built program over kept traces and compares what it writes and says with what is wanted.

    run_cases.py [PROGRAM]      else crates/switch_run/out/switch_run

A folder of cases has a file CASES, with a line for each: the name, the program's word, the status
and what is said of it. NAME.trace is the input and NAME.out the output. Ends with status 1 where
some case differs.

data/cases has one trace for each thing that the switch does; data/corpus has long random ones.
What is wanted of them was made by another program, written from the same rules. data/races is for
race_cases.py.

data/lines/LINES has lines, each with where it stands and what it is read as, between bars: behind
nothing, `before` or `after` the `begin` of the settings below; `read` as no record, as `data` or
`control`, or the name of the reason to refuse it. An escape stands for an octet, and {X*N} for X
so many times.
"""

import codecs
import os
import re
import subprocess
import sys

TOP = os.path.dirname(os.path.dirname(os.path.abspath(__file__)))
PROGRAM = os.path.join(TOP, "crates", "switch_run", "out", "switch_run")
FOLDERS = ("cases", "corpus")

# Traces that are too long to be kept: a name, the trace, the status, and what is said.
SETTINGS = b"server 192.0.2.20 1812 736563726574\nport 1 10 auto\nbegin\n"
LONG = [
    ("as_many_seconds_as_a_history_holds",
     lambda: SETTINGS + b"tick\n" * 1048577, 6, b"full: 1048576"),
    ("as_many_links_as_a_history_holds",
     lambda: SETTINGS + b"link 1 up\n" * 1048577, 6, b"full: 1048576"),
    ("comments_of_too_many_octets", lambda: b"# 345678\n" * 7456541, 8, b"too long: 67108864"),
    ("one_comment_of_too_many_octets", lambda: b"#" * 67108865, 8, b"too long: 67108864"),
]

# What stands before a line of data/lines.
SERVER = b"server 192.0.2.20 1812 736563726574\n"
BEFORE = SERVER + b"""port 1 10 auto
port 3 10 auto
restricted 3 99
guest 3 77
set guest-wait 5
set require-ma on
client 192.0.2.30 64796e
client 192.0.2.31 64796e
client 192.0.2.32 64796e
client 192.0.2.33 64796e
"""
STANDS = {"nothing": b"", "before": BEFORE, "after": BEFORE + b"begin\n"}

# What `check` counts where a line is read.
COUNTS = {"read": b"ok 0 0\n", "data": b"ok 1 0\n", "control": b"ok 1 1\n"}


def differs(program, word, trace, status, said, out):
    """What differs from what is wanted, or None."""
    ran = subprocess.run([program, word], input=trace, capture_output=True, timeout=600)
    if ran.returncode != status:
        return f"status {ran.returncode}, wanted {status}"
    if ran.stderr.strip() != said:
        return f"said {ran.stderr!r}, wanted {said!r}"
    if ran.stdout == out:
        return None
    pairs = zip(ran.stdout.split(b"\n"), out.split(b"\n"))
    differing = ((at, got, want) for at, (got, want) in enumerate(pairs, 1) if got != want)
    at, got, want = next(differing, (0, b"", b""))
    return f"line {at} of the output is {got[:160]!r}, wanted {want[:160]!r}"


def read(path):
    """The octets of a file."""
    with open(path, "rb") as file:
        return file.read()


def kept(folder):
    """The cases of a folder: name, word, input, status, what is said, output."""
    at = os.path.join(TOP, "data", folder)
    for line in read(os.path.join(at, "CASES")).decode().splitlines():
        name, word, status, *said = line.split(" ", 3)
        trace, out = (read(os.path.join(at, name + end)) for end in (".trace", ".out"))
        yield name, word, trace, int(status), "".join(said).encode(), out


def octets_of(text):
    """The octets of a line as it is written in data/lines."""
    full = re.sub(r"\{(..?)\*(\d+)\}", lambda fill: fill[1] * int(fill[2]), text)
    return codecs.escape_decode(full)[0]


def lines():
    """The lines of data/lines, as cases."""
    path = os.path.join(TOP, "data", "lines", "LINES")
    for row in read(path).decode("ascii").splitlines():
        if row.startswith("# "):
            continue
        when, wanted, text = row.split("|", 2)
        front, line = STANDS[when], octets_of(text)
        name = f"lines/{row[:60]}"
        if wanted not in COUNTS:
            at = front.count(b"\n") + 1
            yield name, "check", front + line, 3, f"line {at}: {wanted}".encode(), b""
            continue
        end = b"" if when == "after" or line == b"begin" else b"\nbegin"
        if when == "nothing":
            end = b"\n" + SERVER + b"begin"
        yield name, "check", front + line + end, 0, b"", COUNTS[wanted]


def all_cases():
    """Each case: its name, and what `differs` takes."""
    for folder in FOLDERS:
        for name, *case in kept(folder):
            yield f"{folder}/{name}", case
    for name, *case in lines():
        yield name, case
    for name, trace, status, said in LONG:
        yield name, ("replay", trace(), status, said, b"")


def main():
    program = sys.argv[1] if len(sys.argv) > 1 else PROGRAM
    count = failed = 0
    for name, case in all_cases():
        found = differs(program, *case)
        count += 1
        if found:
            failed += 1
            print(f"{name}: {found}")
    print(f"{count} cases, {failed} differ")
    sys.exit(1 if failed else 0)


if __name__ == "__main__":
    main()
