#!/usr/bin/env python3
"""Runs the gate and writes what each crate costs it into the table of docs/GATE.md.

    tools/gate_times.py              the gate over the whole repository
    tools/gate_times.py NAME ..      over these crates and those below them

While `rt ci` runs, the processor time and the memory of each of its processes are read from /proc.
What a run takes from its store of earlier proofs costs nothing and leaves its row as it was; on a
machine where the gate never ran each row is new. Ends with the status of the gate, and prints what
it printed.
"""
import os
import re
import subprocess
import sys
import threading
import time
from pathlib import Path

ROOT = Path(__file__).resolve().parent.parent
PAGE = ROOT / "docs" / "GATE.md"
BEGIN, END = "<!-- times: begin -->\n", "<!-- times: end -->\n"
TICKS = os.sysconf("SC_CLK_TCK")
HEAD = (
    "| Crate | Own proof | Tests | Edits | Edits, together | The dearest | Memory |\n"
    "|---|---|---|---|---|---|---|\n"
)


class Watch(threading.Thread):
    """Seconds and memory of each process of the prover, by crate and by what the process does."""

    def __init__(self):
        super().__init__(daemon=True)
        self.seen = {}
        self.over = threading.Event()

    def run(self):
        while not self.over.wait(0.1):
            self.look()

    def look(self):
        for pid in filter(str.isdigit, os.listdir("/proc")):
            try:
                words = Path(f"/proc/{pid}/cmdline").read_bytes().split(b"\0")
                if not words[0].endswith(b"/rattle") or b"--crate-name" not in words:
                    continue
                place = os.readlink(f"/proc/{pid}/cwd")
                fields = Path(f"/proc/{pid}/stat").read_text().rsplit(")", 1)[1].split()
                peak = re.search(r"VmHWM:\s+(\d+)", Path(f"/proc/{pid}/status").read_text())
            except OSError:
                continue
            crate = words[words.index(b"--crate-name") + 1].decode()
            kind = "edits" if "/rt-edit" in place else "tests" if b"--test" in words else "own"
            seconds = (int(fields[11]) + int(fields[12])) / TICKS
            gigabytes = int(peak.group(1)) / 2**20 if peak else 0
            self.seen[pid, fields[19]] = (crate, kind, place, seconds, gigabytes)

    def rows(self):
        """For each crate the seconds of its proof, its tests, its edits and the dearest, and GB."""
        rows = {}
        for crate, kind, _, seconds, gigabytes in self.seen.values():
            kinds = ("own", "tests", "edits", "dearest", "memory")
            row = rows.setdefault(crate, dict.fromkeys(kinds, 0))
            row[kind] += seconds
            row["memory"] = max(row["memory"], gigabytes)
            if kind == "edits":
                row["dearest"] = max(row["dearest"], seconds)
        return rows


def crates():
    lines = (ROOT / "crates.txt").read_text().splitlines()
    return [line.split(":")[0].split()[0] for line in lines if line and not line.startswith("#")]


def edits(crate):
    return len(list((ROOT / "crates" / crate / "must-fail").glob("*.edit")))


def old_rows(table):
    rows = {}
    for line in table.splitlines()[2:]:
        cells = [cell.strip() for cell in line.strip("|").split("|")]
        if len(cells) == 7 and cells[0] != "together":
            rows[cells[0]] = cells
    return rows


def number(cell):
    return float(cell.split()[0]) if cell else 0.0


def new_table(table, measured):
    """The table with a row for each crate of crates.txt, lowest first, and the sums."""
    old, lines, sums = old_rows(table), [], [0.0, 0.0, 0, 0.0]
    for crate in crates():
        row, cells = measured.get(crate), old.get(crate, [crate] + [""] * 6)
        cells[3] = str(edits(crate) or "")
        if row:
            for place, kind in ((1, "own"), (2, "tests"), (4, "edits"), (5, "dearest")):
                if row[kind] >= 0.5:
                    cells[place] = f"{row[kind]:.0f}"
            cells[6] = f"{max(row['memory'], number(cells[6])):.1f} GB"
        if not edits(crate):
            cells[4] = cells[5] = ""
        lines.append("| " + " | ".join(cells) + " |\n")
        sums = [a + b for a, b in zip(sums, map(number, cells[1:5]))]
    own, tests, count, together = sums
    lines.append(f"| together | {own:.0f} | {tests:.0f} | {count:.0f} | {together:.0f} | | |\n")
    return HEAD + "".join(lines)


def main(names):
    watch, begun = Watch(), time.time()
    watch.start()
    status = subprocess.run(["rt", "ci", *names], cwd=ROOT, check=False).returncode
    watch.over.set()
    watch.join()
    text = PAGE.read_text()
    before, rest = text.split(BEGIN)
    table, after = rest.split(END)
    PAGE.write_text(before + BEGIN + new_table(table, watch.rows()) + END + after)
    spent = sum(seconds for *_, seconds, _ in watch.seen.values())
    clock = time.time() - begun
    print(f"{spent / 60:.0f} processor minutes, {clock / 60:.0f} on the clock, status {status}")
    return status


if __name__ == "__main__":
    sys.exit(main(sys.argv[1:]))
