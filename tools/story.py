#!/usr/bin/env python3
"""Tells a log of `serve`, or a trace and its output, as lines that a person reads.

    story.py [LOG]                    each record in words; else from standard input
    story.py --trace TRACE [OUTPUT]   of an output of `replay` or `race`, with the trace it is of
    story.py --follow LOG             as it grows, until it is interrupted
    story.py --sessions [LOG]         a table of the sessions, as a switch shows them
    story.py --json [LOG]             an object for each record, one a line
    story.py --html [LOG]             one page with a time line of each session, for any browser
    story.py --metrics [LOG]          counters as Prometheus' text files have them

Seconds without anything to tell are left out, and so are data frames that pass, unless --all is
given. Times are those of the settings' clock, as UTC; with --seconds as seconds. The lines are
those that the program printed: nothing is judged here anew.
"""

import argparse
import json
import sys
import time

import metrics
import names
import page
import sessions as s

IDLE = 0.2  # how long a growing log must rest before its last record is told


def clock_text(at, seconds=False):
    """A second of the clock as text."""
    if seconds:
        return str(at)
    return time.strftime("%Y-%m-%d %H:%M:%S", time.gmtime(at))


def address(octets):
    """An address of six octets as text."""
    return octets.hex(":")


def who(row):
    """The session of a row, where it is known."""
    if row is None or row.number is None:
        return ""
    name = f' "{names.printable(row.name)}"' if row.name else ""
    return f"session {row.number:08X}{name}"


def came(record):
    """What came in, in words."""
    if record.kind in ("frame", "data"):
        source = address(record.host) if len(record.octets) >= 12 else "nobody"
        return f"port {record.port} <- {source}  {s.frame_text(record.octets)}"
    if record.kind == "radius":
        return f"server -> {s.radius_text(record.octets)}"
    if record.kind == "dyn":
        return "client {}:{} -> ".format(*record.source) + s.radius_text(record.octets)
    if record.kind in ("link", "control"):
        return f"port {record.port}  {record.kind} {record.words[1]}"
    return {"tick": "a second went by", None: f"record {record.number}"}[record.kind]


def went(sent):
    """What was sent, in words."""
    if sent.kind == "frame":
        return f"port {sent.place} -> {address(sent.octets[:6])}  {s.frame_text(sent.octets)}"
    if sent.kind == "radius":
        by = f" by socket {sent.place}" if sent.place else ""
        return f"server <- {s.radius_text(sent.octets)}{by}"
    return "client {}:{} <- ".format(*sent.place) + s.radius_text(sent.octets)


def became(record):
    """What became of a record, in words, or nothing where it is plain."""
    if record.outcome is None:
        return "cut off: no block"
    if record.outcome == "forward":
        return f"forwarded into VLAN {record.vlan}, session {record.session:08X}"
    of = record.kind if record.kind in names.DROPS else "frame"
    if record.front is not None:
        of = "data"
    text = names.outcome(of, record.outcome)
    return "" if text == "done" and (record.sent or record.kind != "dyn") else text


def story(record, row, states, options):
    """The lines for a record; `states` keeps what was told of each session."""
    dull = record.kind == "tick" and not record.sent
    dull = dull or record.front is not None and record.outcome == "forward"
    if dull and not options.all:
        return
    at = clock_text(record.at, options.seconds)
    if record.kind != "tick" or not record.sent or options.all:
        yield f"{at}  {came(record)}"
    end = became(record)
    if end and end != "done":
        yield f"{at}      = {end}"
    for sent in record.sent:
        yield f"{at}  {went(sent)}"
    if row is not None and states.get((row.port, row.host)) != (row.state, row.vlan):
        states[row.port, row.host] = row.state, row.vlan
        yield f"{at}    * {change(row)}"


SAID = {"asked": "is asked for its identity", "login": "logs in", "authorised": "is let in",
        "restricted": "is let in, restricted", "held": "is held", "ended": "has ended"}


def change(row):
    """A session's state in words."""
    vlan = f", VLAN {row.vlan}" if row.vlan else ""
    cause = f": {row.cause}" if row.cause and row.state in ("ended", "held", "restricted") else ""
    known = " " + who(row) if who(row) else ""
    return f"port {row.port} {address(row.host)}{known} {SAID[row.state]}{vlan}{cause}"


def as_object(record, row):
    """A record as an object of JSON."""
    out = {"record": record.number, "serial": record.serial, "time": record.at,
           "kind": record.kind, "port": record.port, "outcome": record.outcome,
           "text": came(record), "sent": [went(sent) for sent in record.sent]}
    if record.kind in ("frame", "data") and len(record.octets) >= 12:
        out["host"] = address(record.host)
    if record.outcome not in (None, "ok", "ack", "again", "forward"):
        out["cause"] = became(record)
    if record.vlan:
        out.update(session=f"{record.session:08X}", vlan=record.vlan)
    if row is not None:
        out["host"] = address(row.host)
        out["state"] = row.state
        out.update({"session": f"{row.number:08X}"} if row.number is not None else {})
        out.update({"user": names.printable(row.name)} if row.name else {})
        out.update({"vlan": row.vlan} if row.vlan else {})
        out.update({"eap": row.eap} if row.eap else {})
    return {key: value for key, value in out.items() if value is not None}


COLUMNS = ("Port", "Host", "User", "EAP", "State", "VLAN", "Session", "For", "Ends in")


def cells(row, now):
    """The cells of a row of the table of sessions."""
    state = row.state + (", asked again" if row.again else "")
    ends = f"{row.ends - now} s" if row.ends and row.is_open else "-"
    number = f"{row.number:08X}" if row.number is not None else "-"
    name = names.printable(row.name) if row.name else "-"
    return (str(row.port), address(row.host), name, row.eap or "-", state, str(row.vlan or "-"),
            number, f"{now - row.at} s", ends)


def session_table(table):
    """The table of sessions as lines."""
    rows = [cells(row, table.at) for _, row in sorted(table.rows.items())]
    wide = [max(len(row[k]) for row in [COLUMNS] + rows) for k in range(len(COLUMNS))]
    for row in [COLUMNS] + rows:
        yield "  ".join(cell.ljust(width) for cell, width in zip(row, wide)).rstrip()
    yield f"{len(rows)} sessions, {sum(row.is_open for row in table.rows.values())} let in"


def growing(path):
    """The lines of a file as it grows; None where it rests."""
    with open(path, encoding="latin-1") as file:
        part = ""
        while True:
            part += file.readline()
            if part.endswith("\n"):
                yield part
                part = ""
            else:
                yield None
                time.sleep(IDLE)


def told(lines, reader):
    """The records of lines; where the lines rest, the last one too."""
    for line in lines:
        done = reader.finish() if line is None else reader.take(line.rstrip("\r\n"))
        if done is not None:
            yield done
    done = reader.finish()
    if done is not None:
        yield done


def text_lines(path):
    """The lines of a file, else of standard input."""
    if path in (None, "-"):
        sys.stdin.reconfigure(encoding="latin-1")
        return sys.stdin
    return open(path, encoding="latin-1")


def source(options):
    """The lines that the options name."""
    if options.follow:
        return growing(options.log)
    lines = text_lines(options.log)
    if options.trace is None:
        return lines
    with open(options.trace, encoding="latin-1") as trace:
        return list(s.joined([x.rstrip("\r\n") for x in trace], (x.rstrip("\n") for x in lines)))


def words():
    """The words of the command."""
    about, _, more = __doc__.partition("\n\n")
    parser = argparse.ArgumentParser(description=about, epilog=more,
                                     formatter_class=argparse.RawDescriptionHelpFormatter)
    parser.add_argument("log", nargs="?", help="a log, or with --trace an output")
    parser.add_argument("--trace", help="the trace that the output is of")
    parser.add_argument("--follow", action="store_true", help="read on as the log grows")
    form = parser.add_mutually_exclusive_group()
    for name, what in (("sessions", "a table of the sessions"), ("json", "objects, one a line"),
                       ("html", "a page with time lines"), ("metrics", "counters")):
        form.add_argument("--" + name, action="store_true", help=what)
    parser.add_argument("--all", action="store_true", help="also seconds and frames that pass")
    parser.add_argument("--seconds", action="store_true", help="times as seconds")
    options = parser.parse_args()
    if options.follow and (options.log is None or options.trace or options.sessions
                           or options.html or options.metrics):
        parser.error("--follow takes a log, and tells it in words or as --json")
    return options


def main():
    options = words()
    reader = s.Reader()
    table, counted, states = s.Table(reader), metrics.Counted(), {}
    for record in told(source(options), reader):
        row = table.take(record)
        counted.take(record)
        if options.json:
            print(json.dumps(as_object(record, row)), flush=options.follow)
        elif not (options.sessions or options.html or options.metrics):
            for line in story(record, row, states, options):
                print(line, flush=options.follow)
    if options.sessions:
        print("\n".join(session_table(table)))
    if options.metrics:
        sys.stdout.write(counted.text(reader, table))
    if options.html:
        sys.stdout.write(page.page(reader, table, counted, clock_text))
    if reader.unread:
        print(f"{reader.unread} lines could not be read", file=sys.stderr)


if __name__ == "__main__":
    try:
        main()
    except (KeyboardInterrupt, BrokenPipeError):
        sys.exit(0)
    except OSError as cannot:
        sys.exit(f"story.py: {cannot}")
