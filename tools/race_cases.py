#!/usr/bin/env python3
"""Runs `race` of the built program with all numbers of workers and lanes, and checks its output.

    race_cases.py [PROGRAM]      else crates/switch_run/out/switch_run

data/races has worked races. Its file CASES has a line for each: the name, the workers, the lanes.
NAME.trace is the input; NAME.lines has, for each line of the output, what it may be, with ` | `
between. Each is run some times, since a race has many outputs.

Then traces of data/cases and data/corpus are raced under each number of workers and lanes. Their
status and what is said have to be those of `replay`, and each output legal (legal.py), with no
front beyond the phase of its record, so that nothing was read ahead. Words that are no race, and
streams that fail, come last. Ends with status 1 where something is not as it should be.
"""

import os
import subprocess
import sys

import legal
import run_cases

TOP = run_cases.TOP
WORKERS, LANES = range(1, 9), range(1, 4)
TIMES = 20
CORPUS_TRACES = 27
NO_RACES = ["race", "race 1", "race 1 1 1", "race 0 1", "race 1 0", "race 9 1", "race 1 4",
            "race 01 1", "race 1 +1", "race one 1", "Race 1 1"]


def run(program, words, **streams):
    """The program's run over a stream or octets."""
    streams = {"stderr": subprocess.PIPE, "timeout": legal.SECONDS, **streams}
    return subprocess.run([program, *words], **streams)


def race(program, workers, lanes, trace):
    """What a race writes, its status, and what it says."""
    ran = run(program, ["race", str(workers), str(lanes)], input=trace, stdout=subprocess.PIPE)
    return ran.stdout, ran.returncode, ran.stderr.strip()


def reads_ahead(trace, output):
    """The first record that was decided after control records of a later phase, or None."""
    blocks = legal.read_blocks(output)
    _, records = legal.read_trace(trace, len(blocks))
    upto, controls = {}, 0
    for record in records:
        controls += record.lane is not None
        upto[record.phase] = controls
    for record, block in zip(records, blocks):
        if block.count > upto[record.phase]:
            return record.number
    return None


def broken(program, workers, lanes, trace, status, said):
    """What is wrong with one race, or None; and its output."""
    output, ended, told = race(program, workers, lanes, trace)
    if (ended, told) != (status, said):
        return f"status {ended}, said {told!r}; wanted {status}, {said!r}", output
    found = legal.why_not(program, workers, lanes, trace, output)
    if found is None and reads_ahead(trace, output) is not None:
        found = f"record {reads_ahead(trace, output)} is decided after records of a later phase"
    return found, output


def line_that_differs(output, allowed):
    """The first line that is none of those that it may be, or None."""
    lines = output.decode().splitlines()
    if len(lines) != len(allowed):
        return f"{len(lines)} lines, wanted {len(allowed)}"
    for line, choices in zip(lines, allowed):
        if line not in choices.split(" | "):
            return f"{line!r}, wanted {choices!r}"
    return None


def worked(program):
    """The worked races: pairs of a name and what is wrong with it."""
    folder = os.path.join(TOP, "data", "races")
    with open(os.path.join(folder, "CASES"), encoding="ascii") as listed:
        for name, workers, lanes in (line.split() for line in listed):
            with open(os.path.join(folder, name + ".trace"), "rb") as trace:
                octets = trace.read()
            with open(os.path.join(folder, name + ".lines"), encoding="ascii") as lines:
                allowed = lines.read().splitlines()
            for _ in range(TIMES):
                found, output = broken(program, int(workers), int(lanes), octets, 0, b"")
                yield name, found or line_that_differs(output, allowed)


def chosen():
    """The kept traces that are raced: of the corpus the first few, of the cases one in five."""
    cases = [case for case in run_cases.kept("cases") if case[1] == "replay"]
    corpus = [case for case in run_cases.kept("corpus") if len(case[2]) > 2000]
    return cases[::5] + corpus[:CORPUS_TRACES]


def every_number(program):
    """Each chosen trace under each number of workers and lanes."""
    for name, _, trace, status, said, _ in chosen():
        for workers in WORKERS:
            for lanes in LANES:
                found, _ = broken(program, workers, lanes, trace, status, said)
                yield f"{name} as race {workers} {lanes}", found


def outside(program):
    """Words that are no race, a source that fails and a sink that does."""
    trace = chosen()[0][2]

    def wrong(words, wanted, **streams):
        ran = run(program, words.split(), **streams)
        ended = (ran.returncode, ran.stderr, ran.stdout or b"")
        return None if ended == (*wanted, b"") else f"ended with {ended}"

    for words in NO_RACES:
        yield words, wrong(words, (2, b"usage\n"), input=trace, stdout=subprocess.PIPE)
    folder = os.open("/", os.O_RDONLY)
    found = wrong("race 2 3", (4, b"read fault\n"), stdin=folder, stdout=subprocess.PIPE)
    yield "a source that fails", found
    with open("/dev/full", "wb") as full:
        found = wrong("race 2 3", (5, b"write fault\n"), input=trace, stdout=full)
    yield "a sink that fails", found


def main():
    program = sys.argv[1] if len(sys.argv) > 1 else legal.PROGRAM
    count = failed = 0
    for cases in (worked, every_number, outside):
        for name, found in cases(program):
            count += 1
            if found:
                failed += 1
                print(f"{name}: {found}")
    print(f"{count} races, {failed} not as they should be")
    sys.exit(1 if failed else 0)


if __name__ == "__main__":
    main()
