#!/usr/bin/env python3
"""Puts `serve` of the program between real interfaces: frames in, frames out, and its log kept.

    bridge.py --settings FILE --log LOG --port 1=eth1 --port 2=eth2 [--uplink eth0]
              [--program PROGRAM] [--words 5001 5010 3799] [--mode ask|all] [--rate 20] [--links]

Linux, and the right to open packet sockets. It starts `serve` with a fresh seed, writes its log to
LOG.1, LOG.2 and so on, one for each run, and begins a new run a second after one has ended. Until
then all ports are shut. On SIGTERM it ends `serve` by its word and waits for it.

EAPOL frames of a port, at most so many a second as --rate says, go to `serve` from a socket that
the port has for itself; what comes back there goes out of the port.

Data frames with --mode ask: of a source whose answer is not known, an empty frame asks `serve`; the
answer stands until a control record that may change it passes in the log. So data goes at the
kernel's speed, and the log grows with hosts and seconds. With --mode all each frame passes `serve`
and its log. Frames that pass go to the uplink, tagged; from there a tagged frame goes to the ports
where such a host is let into its VLAN, by the same answers.

--links tells of carriers by the words of `switch`: 64 + P alone is `link P down`, 128 + P alone
`link P up`. `serve` has no such word: without --links a lost carrier is told as a Logoff of each
of the port's sources, and they are asked for anew.
"""

import argparse
import collections
import fcntl
import os
import selectors
import signal
import socket
import struct
import subprocess
import sys
import time

HERE = "127.0.0.1"
PROGRAM = os.path.join(os.path.dirname(os.path.dirname(os.path.abspath(__file__))), "crates",
                       "switch_run", "out", "switch_run")
PAE_GROUP, PAE_TYPE, TAG = bytes.fromhex("0180c2000003"), b"\x88\x8e", b"\x81\x00"
LOGOFF = PAE_TYPE + bytes.fromhex("01020000")
ASKING = bytes.fromhex("020000000000")  # the destination of a frame that only asks
TURNS = 100000000
# Of packet(7): the level, and what is set there.
LEVEL, MEMBERSHIP, AUXILIARY, NO_OUTGOING = 263, 1, 8, 23
MULTICAST, PROMISCUOUS, EVERY_TYPE = 0, 1, 3
TAG_IS_THERE, TAG_TYPE_IS_THERE = 0x10, 0x40
FLAGS_OF_INTERFACE, IS_RUNNING = 0x8913, 0x40
SOURCES, WAITING = 4096, 32  # sources kept of a port, frames kept of a source that is asked about
BURST = 400  # EAPOL frames of a port that are taken at once
SHORTEST = 60  # octets of a frame without its check sequence
PATIENCE = 0.2  # seconds after which a question is put again


def packet_socket(name):
    """A packet socket on an interface, which also gets what is for the port access entities."""
    own = socket.socket(socket.AF_PACKET, socket.SOCK_RAW, 0)
    own.setsockopt(LEVEL, NO_OUTGOING, 1)
    own.setsockopt(LEVEL, AUXILIARY, 1)
    index = socket.if_nametoindex(name)
    for kind, address in ((MULTICAST, PAE_GROUP), (PROMISCUOUS, b"")):
        wanted = struct.pack("iHH8s", index, kind, len(address), address)
        own.setsockopt(LEVEL, MEMBERSHIP, wanted)
    own.bind((name, EVERY_TYPE))
    own.setblocking(False)
    return own


def taken(own):
    """The next frame of a packet socket, with the tag that the kernel has put aside, or None."""
    try:
        octets, beside, _, _ = own.recvmsg(65535, 64)
    except OSError:
        return None
    for level, kind, data in beside:
        if level == LEVEL and kind == AUXILIARY:
            status, _, _, _, _, control, tag = struct.unpack("IIIHHHH", data[:20])
            if status & TAG_IS_THERE:
                tag = tag if status & TAG_TYPE_IS_THERE else 0x8100
                return octets[:12] + struct.pack(">HH", tag, control) + octets[12:]
    return octets


def put(own, octets, least=SHORTEST):
    """Sends a frame, padded; whether it could be sent."""
    try:
        own.send(octets.ljust(least, b"\0"))
        return True
    except OSError:
        return False


def tagged(octets, vlan):
    """A frame with the tag of a VLAN."""
    return octets[:12] + TAG + struct.pack(">H", vlan) + octets[12:]


class Source:
    """A source of data frames: its VLAN, or 0 where it is not let in, and whether that is sure."""

    def __init__(self):
        self.vlan, self.sure, self.asked, self.waiting = 0, False, 0.0, []


class Port:
    """A port of the switch, and the interface that it is."""

    def __init__(self, number, name, rate):
        self.number, self.name, self.rate = number, name, rate
        self.wire, self.serve = packet_socket(name), None
        self.sources = collections.OrderedDict()
        self.up, self.left, self.filled = True, BURST, time.monotonic()

    def source(self, address):
        """What is known of a source; the oldest is forgotten where there are too many."""
        if address not in self.sources:
            self.sources[address] = Source()
            if len(self.sources) > SOURCES:
                self.sources.popitem(last=False)
        return self.sources[address]

    def may_send(self):
        """Whether one more EAPOL frame is within the rate."""
        now = time.monotonic()
        self.left = min(BURST, self.left + (now - self.filled) * self.rate)
        self.filled = now
        if self.left < 1:
            return False
        self.left -= 1
        return True

    def carrier(self):
        """Whether the interface has a carrier."""
        try:
            asked = struct.pack("16sH14x", self.name.encode(), 0)
            got = fcntl.ioctl(self.wire, FLAGS_OF_INTERFACE, asked)
            return bool(struct.unpack("16xH", got[:18])[0] & IS_RUNNING)
        except OSError:
            return False

    def tell(self, octets):
        """Hands a datagram to `serve`."""
        if self.serve is not None:
            try:
                self.serve.send(octets)
            except OSError:
                pass


class Bridge:
    """The ports, the uplink, and `serve` with its log."""

    def __init__(self, options):
        self.options = options
        self.select = selectors.DefaultSelector()
        self.ports, self.count = {}, collections.Counter()
        for text in options.port:
            number, _, name = text.partition("=")
            port = self.ports[int(number)] = Port(int(number), name, options.rate)
            self.watch(port.wire, self.from_wire, port)
        self.uplink = packet_socket(options.uplink) if options.uplink else None
        if self.uplink:
            self.watch(self.uplink, self.from_uplink, None)
        self.child = self.log = self.record = None
        self.part, self.runs, self.ending, self.again = b"", 0, False, 0.0
        self.begin()

    def watch(self, file, call, about):
        """Calls so where a file has something to read."""
        self.select.register(file, selectors.EVENT_READ, (call, about))

    def say(self, text):
        """A line for whoever looks after it."""
        print(time.strftime("%H:%M:%S"), text, file=sys.stderr, flush=True)

    # A run of `serve`.

    def settings(self):
        """The settings of a run, with a fresh seed."""
        with open(self.options.settings, encoding="ascii") as file:
            lines = file.read().split("\n")
        lines = [x for x in lines if x.split()[:1] not in (["begin"], ["seed"])]
        return "\n".join([*lines, f"seed {os.urandom(32).hex()}", "begin", ""]).encode()

    def begin(self):
        """Begins a run."""
        self.runs += 1
        path = f"{self.options.log}.{self.runs}"
        self.log = os.fdopen(os.open(path, os.O_WRONLY | os.O_CREAT | os.O_TRUNC, 0o600), "wb")
        words = [self.options.program, "serve", *map(str, self.options.words), str(TURNS)]
        self.child = subprocess.Popen(words, stdin=subprocess.PIPE, stdout=subprocess.PIPE)
        self.child.stdin.write(self.settings())
        self.child.stdin.close()
        os.set_blocking(self.child.stdout.fileno(), False)
        self.part, self.record = b"", b""
        self.watch(self.child.stdout, self.from_log, None)
        for port in self.ports.values():
            port.sources.clear()
            port.serve = socket.socket(socket.AF_INET, socket.SOCK_DGRAM)
            port.serve.bind((HERE, 0))
            port.serve.connect((HERE, self.options.words[0]))
            port.serve.setblocking(False)
            self.watch(port.serve, self.from_serve, port)

    def ended(self):
        """A run has ended: the ports are shut."""
        status = self.child.wait()
        self.say(f"serve ended with status {status}, log {self.options.log}.{self.runs}")
        self.select.unregister(self.child.stdout)
        self.child.stdout.close()
        self.log.close()
        for port in self.ports.values():
            self.select.unregister(port.serve)
            port.serve.close()
            port.serve = None
            port.sources.clear()
        self.child, self.again = None, time.monotonic() + 1
        if status in (2, 3):  # the same words and settings would end so again
            sys.exit(status)

    def end(self, *_):
        """Ends `serve` by its word."""
        self.ending = True
        with socket.socket(socket.AF_INET, socket.SOCK_DGRAM) as own:
            own.sendto(b"\xff", (HERE, self.options.words[0]))

    # Its log.

    def from_log(self, _):
        """What it has written."""
        octets = os.read(self.child.stdout.fileno(), 1 << 20)
        if not octets:
            self.ended()
            return
        self.log.write(octets)
        self.log.flush()
        *lines, self.part = (self.part + octets).split(b"\n")
        for line in lines:
            if line[:2] == b"# ":
                self.block(line[2:].split(b" "))
            else:
                self.record = line
                if line == b"begin":
                    self.tell_ports()

    def tell_ports(self):
        """`serve` learns which socket is a port's by a first datagram."""
        for port in self.ports.values():
            if self.options.links:
                port.up = port.carrier()
                port.tell(bytes([128 * port.up + 64 * (not port.up) + port.number]))
            else:
                port.tell(bytes([port.number]))

    def block(self, words):
        """A line of a block: a decision, or one after which decisions may differ."""
        about = self.record.split(b" ")
        if words[0] == b"d":
            self.decided(about, words)
        elif words[0] == b"f" and about[0] == b"link":
            # As the run begins `serve` does not know yet where its ports are.
            port = self.ports.get(int(words[1]))
            if port and not self.options.links:
                put(port.wire, bytes.fromhex(words[2].decode()))
        elif words[0] == b"c" and words[4] in (b"ok", b"ack"):
            number = int(about[1]) if about[0] == b"frame" else None
            for port in self.ports.values():
                if number in (None, port.number):
                    for source in port.sources.values():
                        source.sure = False

    def decided(self, about, words):
        """What was decided on a data frame."""
        port = self.ports.get(int(about[1]))
        octets = bytes.fromhex(about[2].decode()) if about[2] != b"-" else b""
        if port is None or len(octets) < 14:
            return
        source = port.source(octets[6:12])
        source.vlan = int(words[5]) if words[3] == b"forward" else 0
        source.sure, source.asked = True, 0.0
        asking = octets[:6] == ASKING and len(octets) == 14
        if not asking and self.options.mode == "all":
            self.passes(port, source, octets)
        waiting, source.waiting = source.waiting, []
        for vlan, frame in waiting:
            if vlan is None:
                self.passes(port, source, frame)
            elif vlan == source.vlan:
                put(port.wire, frame)

    def ask(self, port, address, source):
        """Asks whether a source is let in."""
        now = time.monotonic()
        if now - source.asked > PATIENCE:
            source.asked = now
            self.count["asked"] += 1
            port.tell(bytes([port.number]) + ASKING + address + b"\x08\x00")

    # Frames.

    def from_wire(self, port):
        """Frames that come in on a port."""
        for _ in range(64):
            octets = taken(port.wire)
            if octets is None:
                return
            if self.child is None or len(octets) < 14:
                continue
            if octets[12:14] == PAE_TYPE:
                if port.may_send():
                    port.source(octets[6:12])
                    port.tell(bytes([port.number]) + octets)
            elif port.up and self.options.mode == "all":
                port.tell(bytes([port.number]) + octets)
            elif port.up and self.may_pass(octets):
                self.from_host(port, octets)

    def may_pass(self, octets):
        """Whether no reason is against a data frame but, perhaps, its source."""
        reserved = octets[:5] == PAE_GROUP[:5] and octets[5] < 16
        return not (len(octets) > 1518 or reserved or octets[12:14] == TAG or octets[6] & 1)

    def from_host(self, port, octets):
        """A data frame of a host: it passes, is dropped, or waits for the answer."""
        source = port.source(octets[6:12])
        if source.sure:
            self.passes(port, source, octets)
            return
        if len(source.waiting) < WAITING:
            source.waiting.append((None, octets))
        self.ask(port, octets[6:12], source)

    def passes(self, port, source, octets):
        """A data frame whose source is known: into its VLAN, or nowhere."""
        if not source.vlan:
            self.count["dropped"] += 1
            return
        self.count["forwarded"] += 1
        if octets[0] & 1:
            self.to_group(source.vlan, octets, port)
        elif self.to_host(source.vlan, octets, port):
            return
        if self.uplink:
            put(self.uplink, tagged(octets, source.vlan), SHORTEST + 4)

    def from_serve(self, port):
        """Frames for the hosts of a port."""
        for _ in range(64):
            try:
                put(port.wire, port.serve.recv(4096))
            except OSError:
                return

    def from_uplink(self, _):
        """Tagged frames of the uplink."""
        for _ in range(64):
            octets = taken(self.uplink)
            if octets is None:
                return
            if len(octets) >= 18 and octets[12:14] == TAG:
                vlan = struct.unpack(">H", octets[14:16])[0] & 4095
                bare = octets[:12] + octets[16:]
                reach = self.to_group if bare[0] & 1 else self.to_host
                reach(vlan, bare, None)

    def to_host(self, vlan, octets, but):
        """To the port of a host that is in the VLAN; whether it is on a port here."""
        met = False
        for port in self.ports.values():
            source = port.sources.get(octets[:6])
            if source is None or source.vlan not in ((vlan,) if source.sure else (0, vlan)):
                continue
            met = met or source.vlan == vlan
            if port is not but and source.sure:
                put(port.wire, octets)
            elif port is not but:
                if len(source.waiting) < WAITING:
                    source.waiting.append((vlan, octets))
                self.ask(port, octets[:6], source)
        return met

    def to_group(self, vlan, octets, but):
        """To each other port that has a host of the VLAN."""
        for port in self.ports.values():
            if port is not but and any(s.vlan == vlan for s in port.sources.values()):
                put(port.wire, octets)

    # Time.

    def look(self):
        """Carriers, and whether a new run is due."""
        for port in self.ports.values():
            up = port.carrier()
            if up != port.up and self.options.links:
                port.tell(bytes([(128 if up else 64) + port.number]))
            elif port.up and not up:
                self.say(f"port {port.number} has no carrier")
                for address in port.sources:
                    port.tell(bytes([port.number]) + PAE_GROUP + address + LOGOFF)
            if port.up and not up:
                port.sources.clear()
            port.up = up
        if self.child is None and time.monotonic() >= self.again:
            self.begin()

    def work(self):
        """Works until it is told to end and `serve` has ended."""
        due = time.monotonic()
        while not (self.ending and self.child is None):
            for key, _ in self.select.select(0.1):
                if key.fileobj in self.select.get_map():
                    call, about = key.data
                    call(about)
            if time.monotonic() >= due and not self.ending:
                due = time.monotonic() + 0.25
                self.look()
        self.say(", ".join(f"{n} {what}" for what, n in self.count.items()) or "no data frames")


def words():
    """The words of the command."""
    about, _, more = __doc__.partition("\n\n")
    parser = argparse.ArgumentParser(description=about, epilog=more,
                                     formatter_class=argparse.RawDescriptionHelpFormatter)
    parser.add_argument("--settings", required=True, help="settings up to `begin`")
    parser.add_argument("--log", required=True, help="logs are LOG.1, LOG.2, ..")
    parser.add_argument("--port", action="append", required=True, help="NUMBER=INTERFACE")
    parser.add_argument("--uplink", help="the interface with tagged frames")
    parser.add_argument("--program", default=PROGRAM, help="the built program")
    parser.add_argument("--words", nargs=3, type=int, default=[5001, 5010, 3799],
                        help="the ports of `serve`: frames, first of four for answers, requests")
    parser.add_argument("--mode", choices=("ask", "all"), default="ask", help="for data frames")
    parser.add_argument("--rate", type=float, default=20, help="EAPOL frames a second and port")
    parser.add_argument("--links", action="store_true", help="tell links by the words of switch")
    return parser.parse_args()


def main():
    bridge = Bridge(words())
    for number in (signal.SIGTERM, signal.SIGINT):
        signal.signal(number, bridge.end)
    bridge.work()


if __name__ == "__main__":
    try:
        main()
    except OSError as cannot:
        sys.exit(f"bridge.py: {cannot}")
