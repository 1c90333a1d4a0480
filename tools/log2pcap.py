#!/usr/bin/env python3
"""Writes a log of `serve`, or a trace and its output, as a capture for Wireshark and tshark.

    log2pcap.py [LOG] --write FILE.pcapng              else from standard input
    log2pcap.py --trace TRACE [OUTPUT] --write FILE    of an output, with the trace it is of

Needs scapy (Debian's package python3-scapy). EAPOL and data frames are packets as they are; RADIUS
goes in UDP between the addresses of `nas`, `server` and the clients, sockets 0 to 3 of the switch
as ports 50000 to 50003, dynamic requests to port 3799. Each packet has a comment: the port of the
switch, the record and what became of it. A frame that came in and was dropped is there too.
"""

import argparse
import sys

import sessions as s
from story import became, source

FIRST_PORT, DYNAMIC_PORT = 50000, 3799
WIRE, OTHER = "02:00:00:00:01:01", "02:00:00:00:00:02"  # of Ethernet between switch and servers


def scapy():
    """What is used of scapy, or an end that says what is missing."""
    try:
        from scapy.config import conf
        conf.ipv6_enabled = False
        from scapy.layers.inet import IP, UDP
        from scapy.layers.l2 import Ether
        from scapy.packet import Raw
        from scapy.utils import PcapNgWriter
    except ImportError as missing:
        sys.exit(f"log2pcap.py: scapy is missing (Debian's package python3-scapy): {missing}")
    return Ether, IP, UDP, Raw, PcapNgWriter


class Wire:
    """Packets of a capture, by the settings of a log."""

    def __init__(self, reader):
        self.reader = reader
        self.made = scapy()

    def datagram(self, source, destination, octets):
        """A datagram between two addresses and ports."""
        ether, ip, udp, raw, _ = self.made
        return (ether(src=WIRE, dst=OTHER) / ip(src=source[0], dst=destination[0])
                / udp(sport=source[1], dport=destination[1]) / raw(octets))

    def frame(self, octets):
        """A frame as it is."""
        return self.made[3](octets)

    def nas(self, port):
        """The switch's address with a port."""
        return self.reader.get("nas", "192.0.2.10", "sw1")[0], port

    def server(self):
        """The server's address and port."""
        words = self.reader.get("server", "0.0.0.0", "1812")
        return words[0], int(words[1])

    def came(self, record):
        """The packet of what came in, or None where nothing did."""
        if record.kind in ("frame", "data"):
            return self.frame(record.octets)
        if record.kind == "radius":
            return self.datagram(self.server(), self.nas(FIRST_PORT + record.socket), record.octets)
        if record.kind == "dyn":
            return self.datagram(record.source, self.nas(DYNAMIC_PORT), record.octets)
        return None

    def went(self, sent):
        """The packet of what was sent."""
        if sent.kind == "frame":
            return self.frame(sent.octets)
        if sent.kind == "radius":
            return self.datagram(self.nas(FIRST_PORT + sent.place), self.server(), sent.octets)
        return self.datagram(self.nas(DYNAMIC_PORT), sent.place, sent.octets)


def packets(wire, record):
    """The packets of a record: what came in, and what was sent for it, each with a comment."""
    came = wire.came(record)
    at = f"record {record.number}" if record.number is not None else "no block"
    if came is not None:
        place = f"port {record.port} in, " if record.port is not None else ""
        yield came, f"{place}{at}, {became(record) or 'done'}"
    for sent in record.sent:
        place = f"port {sent.place} out, " if sent.kind == "frame" else ""
        yield wire.went(sent), f"{place}{at}"


def words():
    """The words of the command."""
    about, _, more = __doc__.partition("\n\n")
    parser = argparse.ArgumentParser(description=about, epilog=more,
                                     formatter_class=argparse.RawDescriptionHelpFormatter)
    parser.add_argument("log", nargs="?", help="a log, or with --trace an output")
    parser.add_argument("--trace", help="the trace that the output is of")
    parser.add_argument("--write", required=True, help="the capture that is written")
    parser.set_defaults(follow=False)
    return parser.parse_args()


def main():
    options = words()
    reader = s.Reader()
    wire = Wire(reader)
    count, second, within = 0, None, 0
    writer = wire.made[4](options.write)
    writer.write_header(wire.made[0]())  # Ethernet is the link of all
    try:
        for record in s.records(source(options), reader):
            for packet, comment in packets(wire, record):
                second, within = record.at, within + 1 if second == record.at else 0
                packet.time = second + min(within, 999999) / 1000000
                packet.comment = comment.encode()
                writer.write_packet(packet)
                count += 1
    finally:
        writer.close()
    print(f"{count} packets")


if __name__ == "__main__":
    try:
        main()
    except OSError as cannot:
        sys.exit(f"log2pcap.py: {cannot}")
