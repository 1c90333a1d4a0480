#!/usr/bin/env python3
"""Runs the tools for people over what the built program writes.

    people_cases.py [PROGRAM [CASE..]]      else crates/switch_run/out/switch_run, and all cases

Each tool is given fresh logs of `serve`, and the traces of data/ with what the program writes for
them. What a tool says of a host must be what the program decides on its data frames; names must be
those of docs/TRACE.md; captures must be read by tshark without a complaint; pages must stand in a
browser. Where a package or a right is missing, the case is skipped and says so. Ends with status 1
where something is not as it should be.
"""

import functools
import json
import os
import re
import shutil
import socket
import subprocess
import sys
import tempfile

import names
import packets as p
import run_cases
import serve_cases as serve
import sessions as s
from serve_cases import Wrong, need

TOOLS = os.path.dirname(os.path.abspath(__file__))
SECONDS = 120


class Skipped(Exception):
    """A case for which something is missing."""


def wants(name, package):
    """A program that a case needs."""
    if shutil.which(name) is None:
        raise Skipped(f"no {name} (Debian's package {package})")


@functools.cache
def with_scapy():
    """A Python that has scapy."""
    for python in (sys.executable, "/usr/bin/python3"):
        words = [python, "-c", "import scapy.utils"]
        if os.path.exists(python) and subprocess.run(words, capture_output=True).returncode == 0:
            return python
    raise Skipped("no scapy (Debian's package python3-scapy)")


def tool(name, *words, text=None, status=0, python=sys.executable):
    """What a tool prints."""
    ran = subprocess.run([python, os.path.join(TOOLS, name), *words], capture_output=True,
                         input=text, timeout=SECONDS)
    need(ran.returncode == status, f"{name} {' '.join(words)} ended with {ran.returncode}: "
         + ran.stderr.decode(errors="replace")[-300:])
    return ran.stdout


def a_log(program):
    """A log of `serve`: a login, data frames, a Disconnect, wrong datagrams between them."""
    try:
        ports = serve.free_ports()
    except OSError as cannot:
        raise Skipped(f"no sockets ({cannot})") from cannot
    peers = serve.Peers(ports, os.urandom(32))
    server = serve.Server(program, peers.settings(), ports)
    try:
        server.waits_for(f"\nlink {serve.PORT} up\n# c 1 ")
        peers.dialogue(server)
        need(server.ended() == (0, b""), "the server did not end well")
        return server.text().encode()
    finally:
        server.close()
        peers.close()


@functools.cache
def written(program):
    """Each kept trace that is replayed: its name, its lines, and what the program writes for it."""
    found = []
    for folder in run_cases.FOLDERS:
        for name, word, trace, _, _, _ in run_cases.kept(folder):
            if word == "replay":
                ran = subprocess.run([program, word], input=trace, capture_output=True,
                                     timeout=SECONDS)
                lines = (trace, ran.stdout)
                found.append((name, *(x.decode("latin-1").split("\n") for x in lines)))
    return found


def names_are_those_of_the_program(program):
    """Drops, causes and reasons have the names that are printed and that docs/TRACE.md has."""
    met = {of: set() for of in names.DROPS}
    causes = set()
    for _, trace, output in written(program):
        for record in s.records(s.joined(trace, output)):
            of = "data" if record.front is not None else record.kind
            head, *rest = (record.outcome or "").split(" ")
            if head == "drop":
                met[of].add(rest[0])
            elif head == "nak":
                causes.add(int(rest[0]))
    for of, table in names.DROPS.items():
        need(met[of] <= set(table), f"no name for the drops {met[of] - set(table)} of {of}")
        unseen = set(table) - met[of] - {"control"}
        need(not unseen, f"names of drops of {of} that no trace shows: {unseen}")
    need(causes == set(names.ERROR_CAUSES), f"causes that differ: {causes}")
    with open(os.path.join(run_cases.TOP, "docs", "TRACE.md"), encoding="utf-8") as file:
        part = file.read().split("## Reasons to refuse a line")[1].split("\n## ")[0]
    told = set(re.findall(r"^\| \d+ \| `([a-z]+)`", part, re.M))
    need(told == set(names.REASONS), f"reasons that differ: {told ^ set(names.REASONS)}")


def names_are_those_of_packets(_):
    """The numbers of packets.py have the same names here."""
    for number, (name, _) in names.ATTRIBUTES.items():
        there = getattr(p, name.upper().replace("-", "_"), number)
        need(there == number, f"{name} is {number} here and {there} in packets.py")
    for number, name in names.RADIUS_CODES.items():
        there = getattr(p, name.upper().replace("-", "_"), number)
        need(there == number, f"{name} is {number} here and {there} in packets.py")


def sessions_are_those_of_the_program(program):
    """Whether a host is let in, and its VLAN, as the tool says before each data frame."""
    decided = mistaken = 0
    for _, trace, output in written(program):
        reader = s.Reader()
        table = s.Table(reader)
        for record in s.records(s.joined(trace, output), reader):
            table.take(record)
            decided += record.outcome in ("drop unauthorised",) or bool(record.session)
        mistaken += table.mistaken
    # Not all that ends a session is printed: it may be over in silence. Its next frame tells.
    right = decided > 800 and mistaken <= 2
    need(right, f"{mistaken} of {decided} decisions were foreseen wrongly")


def a_story_is_told(program):
    """The story of a log in words, as objects, as a table and as counters."""
    log = a_log(program)
    text = tool("story.py", text=log).decode()
    for wanted in ('EAP Response 1 Identity "bob"', "is let in, VLAN 42", "Disconnect-ACK 7",
                   "has ended: the server asked for its end", "no RADIUS packet (malformed)",
                   "dropped: its source is not authorised (unauthorised)"):
        need(wanted in text, f"the story does not tell {wanted!r}")
    objects = [json.loads(line) for line in tool("story.py", "--json", text=log).splitlines()]
    serials = [x["serial"] for x in objects if "serial" in x]
    need(serials == list(range(len(serials))), "objects of control records are missing")
    need(any(x.get("vlan") == 42 and x.get("user") == "bob" for x in objects), "no VLAN of bob")
    early = log[:log.index(b"\ndyn ") + 1]
    shown = tool("story.py", "--sessions", text=early).decode().splitlines()
    need(shown[1].split()[:7] == ["1", "02:00:00:00:00:aa", "bob", "-", "authorised", "42",
                                  "00000001"], f"the table shows {shown}")
    need(shown[-1] == "1 sessions, 1 let in", f"the table ends with {shown[-1]}")
    counted = tool("story.py", "--metrics", text=log).decode()
    for wanted in ('dot1xAuthEapolStartFramesRx{port="1"} 1', "radiusAuthClientAccessRequests 1",
                   "radiusDynAuthServerDisconAcks 1", "radiusDynAuthServerDupDisconRequests 1",
                   'switch_drops{of="data",reason="runt"} 1', 'switch_data_forwarded{port="1"} 1'):
        need(f"\n{wanted}\n" in counted, f"the counters have no {wanted}")


def counters_are_the_programs(program):
    """Counters over the kept traces: each is what plain counting of lines gives."""
    for name, trace, output in written(program):
        merged = "\n".join(s.joined(trace, output)).encode("latin-1")
        controls = sum(line[:2] == "c " for line in output)
        if controls < 300:
            continue
        text = tool("story.py", "--metrics", text=merged).decode()
        got = dict(line.rsplit(" ", 1) for line in text.splitlines() if line[0] != "#")
        need(int(got["switch_control_records"]) == controls, f"{name}: control records")
        sent = sum(int(n) for k, n in got.items() if k.startswith("dot1xAuthEapolFramesTx"))
        need(sent == sum(line[:2] == "f " for line in output), f"{name}: frames that were sent")
        asked = sum(int(got["radiusAuthClientAccess" + k]) for k in ("Requests", "Retransmissions"))
        need(asked == sum(line[:2] == "r " for line in output), f"{name}: Access-Requests")


def a_page_stands_in_a_browser(program):
    """The page of a log, laid out by a real browser: a row and a bar for each session."""
    wants("chromium", "chromium")
    with tempfile.TemporaryDirectory() as folder:
        at = os.path.join(folder, "page.html")
        probe = ("<script>document.title = [document.querySelectorAll('tr.session').length, "
                 "[...document.querySelectorAll('.bar')].every(b => b.offsetWidth > 200), "
                 "document.documentElement.scrollWidth <= innerWidth].join()</script>")
        log = a_log(program)
        text = tool("story.py", "--html", text=log).decode()
        need("://" not in text, "the page names something on a network")
        with open(at, "w", encoding="utf-8") as file:
            file.write(text.replace("</body>", probe + "</body>"))
        words = ["chromium", "--headless", "--no-sandbox", "--disable-gpu",
                 "--window-size=1400,900", f"--user-data-dir={folder}/profile", "--dump-dom",
                 "file://" + at]
        ran = subprocess.run(words, capture_output=True, timeout=SECONDS)
        title = re.search(rb"<title>(.*?)</title>", ran.stdout)
        if title is None:
            raise Skipped("chromium does not run: " + ran.stderr.decode(errors="replace")[-200:])
        need(title[1] == b"1,true,true", f"the browser found {title[1].decode()}")


def tshark(capture, *words):
    """The lines that tshark prints of a capture."""
    ran = subprocess.run(["tshark", "-r", capture, *words], capture_output=True, timeout=SECONDS)
    need(ran.returncode == 0, f"tshark: {ran.stderr.decode(errors='replace')[-200:]}")
    return ran.stdout.decode(errors="replace").splitlines()


def a_log_is_a_capture(program):
    """The capture of a log: all packets, and of those of the switch none with a complaint."""
    python = with_scapy()
    wants("tshark", "tshark")
    log = a_log(program)
    with tempfile.TemporaryDirectory() as folder:
        at = os.path.join(folder, "log.pcapng")
        said = tool("log2pcap.py", "--write", at, text=log, python=python).decode()
        count = sum(re.match(r"(frame|radius|dyn|# [fry]) ", line) is not None
                    for line in log.decode().splitlines())
        need(said == f"{count} packets\n", f"{said!r} of {count}")
        fields = ("frame.comment", "_ws.expert.severity", "_ws.malformed", "radius.code")
        rows = tshark(at, "-d", "udp.port==50000,radius", "-T", "fields",
                      *(word for field in fields for word in ("-e", field)))
        need(len(rows) == count, f"tshark reads {len(rows)} packets of {count}")
        for row in rows:
            comment, severity, malformed, _ = row.split("\t")
            # 0x600000 is a warning, 0x800000 an error; what was dropped may have both.
            grave = [x for x in severity.split(",") if x and int(x, 0) >= 0x600000]
            cut = "dropped" in comment or "forwarded" in comment  # the data frames are cut short
            need(cut or not (grave or malformed), f"tshark complains of {row!r}")
        codes = [int(row.rsplit("\t", 1)[1]) for row in rows if row.rsplit("\t", 1)[1]]
        need({1, 2, 40, 41} <= set(codes), f"codes of RADIUS: {codes}")


# Settings that people write wrongly: the lines, and what the remedy has to say.
WRONG_SETTINGS = (
    (b"server 127.0.0.1 1812 testing123\nbegin\n", "write 74657374696e67313233"),
    (b"server 127.0.0.1 1812 00\n" + b"".join(b"client 10.0.0.%d 00\n" % k for k in range(1, 6))
     + b"begin\n", "at most 4 clients"),
    (b"server 127.0.0.1 1812 00\nport 1-48 10 auto\nbegin\n", "--ports 1-48"),
    (b"server 127.0.0.1 1812 00\nport\t1 10 auto\nbegin\n", "a tab"),
    (b"server 127.0.0.1 1812 00\nport 1 10 auto # uplink\nbegin\n", "a line of its own"),
    (b"server 127.0.0.1 1812 00\n  # ports\nbegin\n", "very first octet"),
    (b"port 1 10 auto\nbegin\n", "server IP PORT SECRET"),
    (b"server 127.0.0.1 1812 00\nrestricted 1 99\nbegin\n", "the `port` before it"),
    (b"server 127.0.0.1 1812 00\nport 1 10 open\nbegin\n", "force-unauth"),
    (b"server 127.0.0.1 1812 00\nseed 00\nbegin\n", "64 hexadecimal digits"),
)


def settings_are_made_and_explained(program):
    """Settings that are made are right; those that people write wrongly have their remedy."""
    made = tool("settings.py", "--ports", "1-47", "--native", "10", "--restricted", "99", "--guest",
                "98", "--uplink", "48", "--set", "reauth=on")
    lines = made.decode().splitlines()
    need(sum(line.endswith(" 10 auto") for line in lines) == 47, "not 47 guarded ports")
    need("port 48 10 force-auth" in lines and "restricted 47 99" in lines, "no uplink, or no VLAN")
    with tempfile.TemporaryDirectory() as folder:
        at = os.path.join(folder, "settings")
        for text, wanted in ((made, "are right"), *WRONG_SETTINGS):
            with open(at, "wb") as file:
                file.write(text)
            status = 0 if text is made else 1
            said = tool("settings.py", "--explain", at, "--program", program, status=status)
            need(wanted in said.decode(), f"of {text!r} is said {said.decode()!r}")


def stock_peers_log_in(program):
    """peers/try.sh: three EAP methods, another VLAN, a Disconnect, the log replayed."""
    ran = subprocess.run([os.path.join(run_cases.TOP, "peers", "try.sh"), program],
                         capture_output=True, timeout=2 * SECONDS)
    said = ran.stdout.decode(errors="replace")
    if ran.returncode == 77:
        raise Skipped(said.strip().removeprefix("try.sh: skipped, "))
    need(ran.returncode == 0, "\n".join(x for x in said.splitlines() if "NOT SEEN" in x))


def datagrams_are_relayed(_):
    """The relay: each socket of `serve` reaches the server, each client comes as itself."""
    try:
        frames, first, listen = serve.free_ports()
        requests = [serve.bound(first + k) for k in range(serve.ANSWER_SOCKETS)]
    except OSError as cannot:
        raise Skipped(f"no sockets ({cannot})") from cannot
    server, switch, client, stranger = (socket.socket(socket.AF_INET, socket.SOCK_DGRAM)
                                        for _ in range(4))
    own = [*requests, server, switch, client, stranger]
    for one, at in zip(own[4:], ("127.0.0.2", "127.0.0.1", "127.0.0.3", "127.0.0.4")):
        one.settimeout(serve.SECONDS)
        one.bind((at, 0))
    at = ["{}:{}".format(*one.getsockname()) for one in own]
    words = ["--server", at[4], "--listen", f"127.0.0.1:{listen}", "--sources", str(first),
             "--dynamic", f"127.0.0.1:{frames}", "--client", "127.0.0.3=127.0.0.30",
             "--serve", at[5]]
    relay = subprocess.Popen([sys.executable, os.path.join(run_cases.TOP, "peers", "relay.py"),
                              *words], stdout=subprocess.PIPE)
    try:
        need(relay.stdout.readline() == b"ready\n", "the relay is not ready")
        for number, one in enumerate(requests):
            for text in (b"first %d" % number, b"second %d" % number):
                one.sendto(text, ("127.0.0.1", listen))
        got = [server.recvfrom(99) for _ in range(8)]
        need(len({sender for _, sender in got}) == 4, "the four sockets do not come as four")
        for text, sender in got:
            server.sendto(b"to " + text, sender)
        for number, one in enumerate(requests):
            back = {one.recvfrom(99)[0] for _ in range(2)}
            need(back == {b"to first %d" % number, b"to second %d" % number}, f"back came {back}")
        stranger.sendto(b"of a stranger", ("127.0.0.1", frames))
        client.sendto(b"request", ("127.0.0.1", frames))
        text, sender = switch.recvfrom(99)
        need((text, sender[0]) == (b"request", "127.0.0.30"), f"{text} came from {sender}")
        switch.sendto(b"reply", sender)
        need(client.recvfrom(99) == (b"reply", ("127.0.0.1", frames)), "no reply to the client")
    finally:
        relay.terminate()
        relay.wait()
        relay.stdout.close()
        for one in own:
            one.close()


CASES = (names_are_those_of_the_program, names_are_those_of_packets,
         sessions_are_those_of_the_program, a_story_is_told, counters_are_the_programs,
         a_page_stands_in_a_browser, a_log_is_a_capture,
         settings_are_made_and_explained, datagrams_are_relayed, stock_peers_log_in)


def main():
    program = sys.argv[1] if len(sys.argv) > 1 else run_cases.PROGRAM
    failed = skipped = 0
    cases = [case for case in CASES if not sys.argv[2:] or case.__name__ in sys.argv[2:]]
    for case in cases:
        try:
            case(program)
        except Skipped as why:
            skipped += 1
            print(f"{case.__name__}: skipped, {why}")
        except (Wrong, OSError, ValueError, subprocess.TimeoutExpired) as wrong:
            failed += 1
            print(f"{case.__name__}: {wrong}")
    print(f"{len(cases)} cases of the tools for people, {skipped} skipped, {failed} not as they "
          "should be")
    sys.exit(1 if failed else 0)


if __name__ == "__main__":
    main()
