#!/usr/bin/env python3
"""Talks to `serve` of the built program over sockets on 127.0.0.1, and replays its log.

    serve_cases.py [PROGRAM]      else crates/switch_run/out/switch_run

A host, a RADIUS server and a client of dynamic requests are played here. The host logs in, sends a
data frame, is cut off, and sends it again; wrong datagrams of each kind lie between. What comes
back has to be right octet by octet, the log has to have a record for each datagram that counts and
for no other, and `replay` of the log has to write the blocks that the log shows as comments. Then
come settings that are refused and a port that is taken. Where sockets cannot be had, it says so
and ends with status 0. Each step is bounded; the whole takes some seconds. Ends with status 1
where something is not as it should be.
"""

import os
import socket
import subprocess
import sys
import tempfile
import time

import packets as p
from run_cases import PROGRAM

HERE = "127.0.0.1"
SECONDS = 10
TURNS = 1000000
SECRET, CLIENT_SECRET = b"secret", b"dyn"
NAS = (bytes([192, 0, 2, 10]), b"sw1")
BRIDGE = bytes.fromhex("020000010101")
HOST = bytes.fromhex("0200000000aa")
PORT = 1
THE_END = b"\xff"
ANSWER_SOCKETS = 4


class Wrong(Exception):
    """Something that is not as it should be."""


def need(holds, what):
    """Something that has to hold."""
    if not holds:
        raise Wrong(what)


def bound(port=0):
    """A socket on a port, else on a free one."""
    own = socket.socket(socket.AF_INET, socket.SOCK_DGRAM)
    own.settimeout(SECONDS)
    own.bind((HERE, port))
    return own


def free_ports():
    """A port for frames, the first of four for answers, and one for dynamic requests, all free."""
    for _ in range(50):
        taken = []
        try:
            taken += [bound(), bound(), bound()]
            frames, first, dynamic = (s.getsockname()[1] for s in taken)
            taken += [bound(first + k) for k in range(1, ANSWER_SOCKETS)]
            return frames, first, dynamic
        except (OSError, OverflowError):
            continue
        finally:
            for one in taken:
                one.close()
    raise OSError("no free ports")


class Server:
    """The program as it serves, with its log in a file."""

    def __init__(self, program, settings, ports):
        self.log = tempfile.TemporaryFile()
        words = [program, "serve", *map(str, ports), str(TURNS)]
        self.child = subprocess.Popen(words, stdin=subprocess.PIPE, stdout=self.log,
                                      stderr=subprocess.PIPE)
        try:
            self.child.stdin.write(settings)
            self.child.stdin.close()
        except BrokenPipeError:
            pass

    def text(self):
        """What was logged up to now."""
        return os.pread(self.log.fileno(), 1 << 24, 0).decode()

    def waits_for(self, text):
        """Waits until the log has a text."""
        until = time.monotonic() + SECONDS
        while text not in self.text():
            need(time.monotonic() < until, f"{text!r} was not logged in {SECONDS} seconds")
            need(self.child.poll() is None, "it ended while it should serve")
            time.sleep(0.01)

    def ended(self):
        """Its status and what it said, once it has ended."""
        said = self.child.stderr.read() if self.child.wait(SECONDS) is not None else b""
        return self.child.returncode, said

    def close(self):
        """Ends it, where it has not ended."""
        if self.child.poll() is None:
            self.child.kill()
            self.child.wait()
        self.child.stderr.close()
        self.log.close()


class Peers:
    """The host, the RADIUS server and the client of dynamic requests, and their sockets."""

    def __init__(self, ports, seed):
        self.frames, self.first, self.dynamic = ports
        self.seed = seed
        self.host, self.other, self.radius, self.client = (bound() for _ in range(4))

    def close(self):
        """Gives the sockets back."""
        for one in (self.host, self.other, self.radius, self.client):
            one.close()

    def settings(self):
        """A settings file for these peers."""
        lines = [f"nas 192.0.2.10 {NAS[1].decode()}",
                 f"server {HERE} {self.radius.getsockname()[1]} {SECRET.hex()}",
                 f"client {HERE} {CLIENT_SECRET.hex()}",
                 f"port {PORT} 10 auto", "port 2 20 force-auth", f"seed {self.seed.hex()}", "begin"]
        return "".join(line + "\n" for line in lines).encode()

    def sends_frame(self, octets, port=PORT):
        """The bridge hands a frame of a port to the switch."""
        self.host.sendto(bytes([port]) + octets, (HERE, self.frames))

    def gets_frame(self, packet):
        """The frame that comes back has this EAP packet."""
        wanted = p.eapol(BRIDGE, p.EAP_PACKET, packet, destination=HOST, version=2)
        got, _ = self.host.recvfrom(5001)
        need(got == wanted, f"a frame {got.hex()}, wanted {wanted.hex()}")

    def gets_request(self, response):
        """The Access-Request that comes to the RADIUS server; answers its sender."""
        attributes = p.asked_attributes(b"bob", NAS, PORT, BRIDGE, HOST, 1, response)
        wanted = p.access_request(0, p.request_authenticator(0, self.seed), attributes, SECRET)
        got, sender = self.radius.recvfrom(5001)
        need(got == wanted, f"a request {got.hex()}, wanted {wanted.hex()}")
        need(sender == (HERE, self.first), f"a request from {sender}")
        return sender

    def wrong_datagrams(self):
        """Datagrams that leave no record: on each socket empty, too long, and from strangers."""
        for port in range(self.first, self.first + ANSWER_SOCKETS):
            for octets in (b"", bytes(20), bytes(5001)):
                self.other.sendto(octets, (HERE, port))
                if len(octets) != 20:
                    self.radius.sendto(octets, (HERE, port))
        for octets in (b"", bytes(5001), b"\xff" * 5001):
            self.client.sendto(octets, (HERE, self.dynamic))
            self.other.sendto(octets, (HERE, self.frames))
        for octets in (bytes(60), b"\x03" + bytes(60), bytes([PORT]) + bytes(2001), b"\xff\xff"):
            self.other.sendto(octets, (HERE, self.frames))

    def dialogue(self, server):
        """A login, a data frame, a Disconnect, and the data frame again."""
        data = p.data_frame(HOST)
        self.wrong_datagrams()
        self.sends_frame(p.eapol(HOST, p.START))
        self.gets_frame(p.eap(p.REQUEST, 1, bytes([p.IDENTITY])))
        self.wrong_datagrams()
        response = p.identity(1, b"bob")
        self.sends_frame(p.eapol(HOST, p.EAP_PACKET, response))
        switch = self.gets_request(response)
        attributes = p.tunnel(b"42") + p.eap_message(p.eap(p.SUCCESS, 1))
        under = p.request_authenticator(0, self.seed)
        answer = p.answer(p.ACCESS_ACCEPT, 0, under, attributes, SECRET)
        self.radius.sendto(answer[:-1], switch)
        self.other.sendto(answer, switch)
        self.radius.sendto(answer, switch)
        self.gets_frame(p.eap(p.SUCCESS, 1))
        self.sends_frame(data)
        server.waits_for(" forward 1 42 ")
        self.cut_off()
        self.sends_frame(data)
        self.sends_frame(p.data_frame(HOST), port=2)
        self.sends_frame(b"")
        self.host.sendto(THE_END, (HERE, self.frames))

    def cut_off(self):
        """A Disconnect, and the same once more."""
        named = p.attribute(p.ACCT_SESSION_ID, b"00000001")
        request = p.dynamic_request(p.DISCONNECT_REQUEST, 7, named, CLIENT_SECRET)
        reply = p.answer(p.DISCONNECT_ACK, 7, request[4:20], b"", CLIENT_SECRET)
        for _ in range(2):
            self.client.sendto(request, (HERE, self.dynamic))
            got, sender = self.client.recvfrom(5001)
            need(got == reply, f"a reply {got.hex()}, wanted {reply.hex()}")
            need(sender == (HERE, self.dynamic), f"a reply from {sender}")
        self.gets_frame(p.eap(p.FAILURE, 1))


# What the log has to show of the dialogue, in order, beside seconds: the word of a record's line
# and the end of its block's first line.
SHOWN = [
    ("link", "ok"), ("link", "ok"), ("frame", "ok"), ("frame", "ok"), ("radius", "drop malformed"),
    ("radius", "ok"), ("frame", "forward 1 42"), ("dyn", "ack"), ("dyn", "again"),
    ("frame", "drop unauthorised"), ("frame", "forward 0 20"), ("frame", "drop runt"),
]


def shown(log):
    """The records of a log, without its seconds, as SHOWN has them."""
    lines = log[log.index("begin\n") + 6:].splitlines()
    out = []
    for line, block in zip(lines, lines[1:]):
        words = block.split(" ")
        if line[0] != "#" and line != "tick":
            need(words[0] == "#" and words[1] in ("c", "d"), f"no block behind {line!r}")
            end = words[5:] if words[1] == "c" else words[4:]
            out.append((line.split(" ")[0], " ".join(end[:3])))
    return out


def replays(program, log):
    """The log is a trace, and what it shows as comments is what `replay` writes for it."""
    ran = subprocess.run([program, "replay"], input=log.encode(), capture_output=True,
                         timeout=SECONDS)
    need((ran.returncode, ran.stderr) == (0, b""), f"the log is replayed with {ran}")
    blocks = "".join(line[2:] + "\n" for line in log.splitlines() if line.startswith("# "))
    need(ran.stdout.decode() == blocks, "the log shows other blocks than its replay writes")


def whole_dialogue(program):
    """A login and its end, and what is logged of it."""
    ports = free_ports()
    peers = Peers(ports, os.urandom(32))
    server = Server(program, peers.settings(), ports)
    try:
        server.waits_for(f"\nlink {PORT} up\n# c 1 ")
        peers.dialogue(server)
        ended = server.ended()
        need(ended == (0, b""), f"ended with {ended}")
        log = server.text()
        need(shown(log) == SHOWN, f"the log shows {shown(log)}")
        replays(program, log)
    finally:
        server.close()
        peers.close()


def refused(program):
    """Settings with a line that is refused: the line is named, and nothing is logged."""
    for settings, said in ((b"port 1 10 auto\nbegin\n", b"line 2: missing\n"),
                           (b"port 61 10 auto\n", b"line 1: number\n"),
                           (b"", b"line 1: missing\n")):
        server = Server(program, settings, free_ports())
        try:
            need(server.ended() == (3, said), f"{settings!r} did not end with {said!r}")
            need(server.text() == "", "something was logged")
        finally:
            server.close()


def taken(program):
    """A port that is taken: a link fault, and nothing is logged."""
    for which in range(3):
        ports = free_ports()
        own = bound(ports[which])
        peers = Peers(ports, bytes(32))
        server = Server(program, peers.settings(), ports)
        try:
            ended = server.ended()
            need(ended == (7, b"link fault\n"), f"ended with {ended} where a port was taken")
            need(server.text() == "", "something was logged")
        finally:
            server.close()
            peers.close()
            own.close()


def no_words(program):
    """Words that are no form of `serve`."""
    for words in ("", "1 2", "1 2 3", "0 10 20 5", "1 65533 20 5", "10 10 20 5", "13 10 20 5",
                  "5 10 13 5", "5 10 5 5", "5 10 20 0", "5 10 20 100000001", "5 10 20 5 5"):
        ran = subprocess.run([program, "serve", *words.split()], input=b"", capture_output=True,
                             timeout=SECONDS)
        ended = (ran.returncode, ran.stderr, ran.stdout)
        need(ended == (2, b"usage\n", b""), f"serve {words} ended with {ended}")


def main():
    program = sys.argv[1] if len(sys.argv) > 1 else PROGRAM
    try:
        free_ports()
    except OSError as cannot:
        print(f"skipped: no sockets on {HERE} ({cannot})")
        return
    failed = 0
    for case in (whole_dialogue, refused, taken, no_words):
        try:
            case(program)
        except (Wrong, OSError, subprocess.TimeoutExpired) as wrong:
            failed += 1
            print(f"{case.__name__}: {wrong}")
    print(f"4 cases of serve, {failed} not as they should be")
    sys.exit(1 if failed else 0)


if __name__ == "__main__":
    main()
