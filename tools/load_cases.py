#!/usr/bin/env python3
"""Runs `load` of the built program and compares what it writes with a small model of a day.

    load_cases.py [PROGRAM]      else crates/switch_run/out/switch_run

The model knows of a host whether it is let in and from when on it is asked for its identity, and
of the day what is done in its course. The input cannot be read, since `load` reads nothing.
Words that ask for no day and a sink that fails come last. Ends with status 1 where something is
not as it should be.
"""

import os
import subprocess
import sys

from run_cases import PROGRAM

DAYS = (1, 2, 17, 120, 240)
PORTS, HOURS, FRAMES_AN_HOUR, SECONDS_A_FRAME = 60, 24, 10, 360
REAUTH_PERIOD = 3600
NO_DAYS = ["load", "load 0", "load 241", "load 01", "load 1 2", "load x", "load +1", "Load 1"]
WORKED = {120: b"load 120 controls 92580 data 31680 forwarded 31680 sessions 120\n"}
SECONDS = 600


class Host:
    """A host: whether it is let in, and from which second on it is asked for its identity."""

    def __init__(self):
        self.let_in, self.asked_from = False, None


class Day:
    """A day of so many hosts: its second, and how many records and frames that go out there are."""

    def __init__(self, hosts):
        self.hosts = [Host() for _ in range(hosts)]
        self.now = self.controls = self.frames = self.forwarded = 0

    def links_come_up(self):
        """The link of each port comes up."""
        self.controls += PORTS

    def second(self):
        """A second goes by."""
        self.controls += 1
        self.now += 1

    def start(self, host):
        """A host starts, and is asked for its identity."""
        self.controls += 1
        host.asked_from = self.now

    def answer(self, host):
        """A host that is asked gives its identity, and the server lets it in."""
        if host.asked_from is not None and host.asked_from <= self.now:
            self.controls += 2
            host.let_in, host.asked_from = True, self.now + REAUTH_PERIOD

    def send(self, host):
        """A host sends a frame, which goes out where the host is let in."""
        self.frames += 1
        self.forwarded += host.let_in

    def hour(self):
        """An hour goes by with ten frames of each host; then all answer and send one frame more."""
        for _ in range(FRAMES_AN_HOUR):
            for _ in range(SECONDS_A_FRAME):
                self.second()
            for host in self.hosts:
                self.send(host)
        for host in self.hosts:
            self.answer(host)
            self.send(host)


def line_of(hosts):
    """The line that tells what a day of so many hosts comes to."""
    day = Day(hosts)
    day.links_come_up()
    for host in day.hosts:
        day.start(host)
        day.answer(host)
    for _ in range(HOURS):
        day.hour()
    sessions = sum(host.let_in for host in day.hosts)
    return (f"load {hosts} controls {day.controls} data {day.frames} forwarded {day.forwarded} "
            f"sessions {sessions}\n").encode()


def ended(program, words, out=subprocess.PIPE):
    """The status of a run over an input that cannot be read, what it says, and what it writes."""
    folder = os.open("/", os.O_RDONLY)
    try:
        ran = subprocess.run([program, *words.split()], stdin=folder, stdout=out,
                             stderr=subprocess.PIPE, timeout=SECONDS)
    finally:
        os.close(folder)
    return ran.returncode, ran.stderr, ran.stdout or b""


def cases(program):
    """Pairs of words and how they end, with how they have to end."""
    for hosts in DAYS:
        line = line_of(hosts)
        words = f"load {hosts}"
        yield "the model of " + words, line, WORKED.get(hosts, line)
        yield words, ended(program, words), (0, b"", line)
    for words in NO_DAYS:
        yield words, ended(program, words), (2, b"usage\n", b"")
    if os.path.exists("/dev/full"):
        with open("/dev/full", "wb") as full:
            found = ended(program, "load 1", full)
        yield "load 1 into a sink that fails", found, (5, b"write fault\n", b"")


def main():
    program = sys.argv[1] if len(sys.argv) > 1 else PROGRAM
    count = failed = 0
    for name, found, wanted in cases(program):
        count += 1
        if found != wanted:
            failed += 1
            print(f"{name}: {found!r}, wanted {wanted!r}")
    print(f"{count} days and words, {failed} not as they should be")
    sys.exit(1 if failed else 0)


if __name__ == "__main__":
    main()
