#!/usr/bin/env python3
"""Says whether an output is one that `race W L` may write for a trace.

    legal.py W L TRACE OUTPUT [--program PROGRAM]      else crates/switch_run/out/switch_run

It follows crates/legal_defs/specs/Legal.antt. Of the phases of the trace that are run, an output
is legal where it has one block for each record, in record order, and there is one history of the
control records that it tells of:

    serials     those of the control records are the numbers from 0 on, each once
    lanes       of two control records that ran on one lane the later has the greater serial
    phases      a serial is below each serial and below each front of a later phase
    workers     of two data records of one worker the later has no smaller front
    replies     the block of a control record is the authenticator's reply at its serial
    decisions   that of a data record is decided after as many control records as its front says,
                and there are so many

For the last two the records are put into the order of the history, each data record behind as
many control records as its front says, and the program replays that trace on one thread, which
is proved to write what its definition says. So what is compared shares the authenticator with
`race`, and nothing of lanes, workers and the order of their blocks.

Prints `legal`, or the first thing that is broken, and then ends with status 1.
"""

import argparse
import functools
import subprocess
import sys
from collections import namedtuple

from run_cases import PROGRAM

SECONDS = 300

# A record of a trace: its number from 1, that of its phase, its line without a lane, and either the
# lane that the line names or the port of a data frame.
Record = namedtuple("Record", "number phase line lane port")

# What is printed of a record: its number, the lane of a control record, its serial or front, and
# what stands behind that.
Block = namedtuple("Block", "number lane count rest")


class Broken(Exception):
    """What an output shows that it may not."""


def need(holds, what):
    """Something that has to hold of a legal output."""
    if not holds:
        raise Broken(what)


def is_eapol(word):
    """Whether hexadecimal digits are a frame of 14 to 1,518 octets with the type 88-8E."""
    return 28 <= len(word) <= 3036 and word[24:28].lower() == b"888e"


def record_of(number, phase, words):
    """The record that a line with these words is."""
    lane = 1
    if words[0][:1] == b"@":
        lane, words = int(words[0][1:]), words[1:]
    if words[0] == b"frame" and not is_eapol(words[2]):
        return Record(number, phase, b" ".join(words), None, int(words[1]))
    return Record(number, phase, b" ".join(words), lane, None)


def read_trace(trace, most):
    """The lines up to `begin`, and the first so many records, which are good."""
    settings, records, phase, begun = [], [], 0, False
    for line in trace.split(b"\n"):
        words = [] if line[:1] == b"#" else line.removesuffix(b"\r").split(b" ")
        words = [word for word in words if word]
        if not begun:
            settings.append(line)
            begun = words == [b"begin"]
        elif len(records) == most:
            break
        elif words == [b"sync"]:
            phase += 1
        elif words:
            records.append(record_of(len(records) + 1, phase, words))
    return settings, records


def block_of(lines):
    """The block that these lines are."""
    head = lines[0].split(b" ")
    at = 3 if head[0] == b"c" else 2
    lane = int(head[2].removeprefix(b"@")) if head[0] == b"c" else None
    return Block(int(head[1]), lane, int(head[at]), [b" ".join(head[at + 1:])] + lines[1:])


def read_blocks(output):
    """The blocks of an output."""
    lines = output.split(b"\n")
    need(lines.pop() == b"", "the output does not end with a line feed")
    blocks = []
    for line in lines:
        if line[:2] in (b"c ", b"d "):
            blocks.append([line])
        else:
            need(blocks and line[:2] in (b"f ", b"r ", b"y "), f"a line of no block: {line!r}")
            blocks[-1].append(line)
    return [block_of(lines) for lines in blocks]


def check_blocks(records, blocks, lanes):
    """One block for each record, in record order, with the lane that runs it."""
    need(len(records) == len(blocks), f"{len(blocks)} blocks for {len(records)} records")
    for record, block in zip(records, blocks):
        number = record.number
        need(block.number == number, f"block {number} is that of record {block.number}")
        runs_on = None if record.lane is None else (record.lane - 1) % lanes + 1
        need(block.lane == runs_on, f"record {number} ran on lane {block.lane}, not {runs_on}")


def check_orders(records, blocks, workers):
    """The serials and the fronts: each serial once, and the orders of lanes, phases and workers."""
    serials = sorted(block.count for block in blocks if block.lane is not None)
    need(serials == list(range(len(serials))), "the serials are not those from 0 on, each once")
    on_lane, of_worker = {}, {}
    phase, before, highest = 0, -1, -1
    for record, block in zip(records, blocks):
        at, number = block.count, record.number
        if record.phase != phase:
            phase, before = record.phase, highest
        need(at > before, f"record {number} shows {at}, which a phase before it reached")
        if record.lane is not None:
            need(at > on_lane.get(block.lane, -1), f"record {number} is not behind its lane")
            on_lane[block.lane] = at
            highest = max(highest, at)
        else:
            worker = (record.port - 1) % workers
            need(at >= of_worker.get(worker, 0), f"record {number} is before one of its worker")
            need(at <= len(serials), f"record {number} is decided after more than there are")
            of_worker[worker] = at


@functools.lru_cache(maxsize=1)
def records_run(program, trace):
    """How many records of a trace are run."""
    return len(read_blocks(replay(program, trace)[0]))


def replay(program, trace):
    """What the program writes for a trace on one thread, and its status."""
    ran = subprocess.run([program, "replay"], input=trace, capture_output=True, timeout=SECONDS)
    return ran.stdout, ran.returncode


def check_history(program, settings, records, blocks):
    """The replies and decisions, as one thread gives them in the order of the history."""
    if not records:
        return  # then the settings themselves may be what is refused
    pairs = sorted(zip(records, blocks), key=lambda pair: (pair[1].count, pair[0].lane is not None))
    lines = settings + [record.line for record, _ in pairs]
    output, status = replay(program, b"\n".join(lines) + b"\n")
    need(status == 0, f"the records in the order of the history end with status {status}")
    for (record, block), due in zip(pairs, read_blocks(output), strict=True):
        shown, wanted = (block.count, block.rest), (due.count, due.rest)
        need(shown == wanted, f"record {record.number} shows {shown}, wanted {wanted}")


def why_not(program, workers, lanes, trace, output):
    """What is broken in an output, or None where it is legal.

    How many records are run, a trace says by what `replay` of it writes.
    """
    try:
        settings, records = read_trace(trace, records_run(program, trace))
        blocks = read_blocks(output)
        check_blocks(records, blocks, lanes)
        check_orders(records, blocks, workers)
        check_history(program, settings, records, blocks)
    except (Broken, ValueError, IndexError) as broken:
        return str(broken)
    return None


def main():
    parser = argparse.ArgumentParser(description="Is this an output that `race W L` may write?")
    parser.add_argument("workers", type=int)
    parser.add_argument("lanes", type=int)
    parser.add_argument("trace")
    parser.add_argument("output")
    parser.add_argument("--program", default=PROGRAM)
    given = parser.parse_args()
    with open(given.trace, "rb") as trace, open(given.output, "rb") as output:
        broken = why_not(given.program, given.workers, given.lanes, trace.read(), output.read())
    print(broken or "legal")
    sys.exit(1 if broken else 0)


if __name__ == "__main__":
    main()
