#!/usr/bin/env python3
"""Gives the built program wrong packets, and right ones behind them, and compares its output.

    hostile_cases.py [--short] [PROGRAM]      else crates/switch_run/out/switch_run

Right packets of six kinds, and three without a Message-Authenticator where `set require-ma off`
lets them be, are changed in every way that an attacker on a wire has: each bit, each two bits,
each octet, each length, each beginning, padding, attributes of no and of two octets, EAP in one
to seventeen pieces; and attributes are changed by one who knows the secret.
Each wrong packet has to get its named outcome, and the right one behind it has to be taken as if
the wrong one had never come. What is wanted is worked out by script.py and outcomes.py, from the
standards and docs/TRACE.md. About a million cases, in traces of some ten thousand records;
--short tries some of each. Ends with status 1 where some line differs.
"""

import argparse
import itertools
import random
import subprocess
import sys

import packets as p
from run_cases import PROGRAM
from script import CLIENT_SECRET, CLOCK, NAS, SECRET, WINDOW, Script, Unforeseen

HOST = bytes.fromhex("0200000000aa")
NAME = b"bob"
RECORDS_A_TRACE = 50000


class Kind:
    """A kind of packet: the state in which it is right, what it is there, and how it is given."""

    # Whether the switch wants a Message-Authenticator in each answer and each dynamic request.
    need_mark = True

    def ready(self, script):
        """Brings the script to the state in which the packet is right."""

    def make(self, script):
        """The right packet there."""

    def give(self, script, octets):
        """Gives octets in its place."""


class Frame(Kind):
    """A frame of a host."""

    def give(self, script, octets):
        script.frame(octets)


class Start(Frame):
    """The first frame of a host."""

    def ready(self, script):
        script.anew()

    def make(self, script):
        return p.eapol(HOST, p.START)


class Response(Frame):
    """The answer of a host to the request for its identity."""

    def ready(self, script):
        script.anew()
        script.frame(p.eapol(HOST, p.START))

    def make(self, script):
        return p.eapol(HOST, p.EAP_PACKET, p.identity(1, NAME))


class Answer(Kind):
    """An answer of the RADIUS server: its attributes are those of `of`."""

    def ready(self, script):
        RESPONSE.ready(script)
        script.frame(RESPONSE.make(script))

    def signed(self, script, attributes):
        """The answer with these attributes, rightly signed."""
        request = script.sessions[HOST].request
        return p.answer(self.code, script.name % 256, request, attributes, SECRET)

    def make(self, script):
        return self.signed(script, self.attributes)

    def give(self, script, octets):
        script.radius(octets, script.name // 256)


class Accept(Answer):
    """The answer that lets a host in."""

    code = p.ACCESS_ACCEPT
    attributes = p.tunnel(b"42") + p.eap_message(p.eap(p.SUCCESS, 1))


class Challenge(Answer):
    """The answer that asks a host for more."""

    code = p.ACCESS_CHALLENGE
    attributes = p.attribute(p.STATE, b"S1") + p.eap_message(p.eap(p.REQUEST, 9, b"\x04abc"))


class Dynamic(Kind):
    """A dynamic request for a host that is let in."""

    def ready(self, script):
        ACCEPT.ready(script)
        ACCEPT.give(script, ACCEPT.make(script))

    def signed(self, script, attributes):
        """The request with these attributes, rightly signed."""
        return p.dynamic_request(self.code, script.opened % 256, attributes, CLIENT_SECRET)

    def attributes(self, script):
        """What it asks for, of the session that there is."""
        return p.attribute(p.ACCT_SESSION_ID, b"%08X" % script.sessions[HOST].number) + self.wants

    def make(self, script):
        return self.signed(script, self.attributes(script))

    def give(self, script, octets):
        script.dynamic(octets)


class Disconnect(Dynamic):
    """The request that ends a session."""

    code = p.DISCONNECT_REQUEST
    wants = b""


class Change(Dynamic):
    """The request that moves a session to another VLAN."""

    code = p.COA_REQUEST
    wants = p.tunnel(b"43")


class BareAccept(Accept):
    """The answer that lets a host in, without EAP and without a Message-Authenticator."""

    need_mark = False
    attributes = p.tunnel(b"42")

    def signed(self, script, attributes):
        """The answer with these attributes, under its own authenticator alone."""
        request = script.sessions[HOST].request
        return p.sealed(self.code, script.name % 256, request, attributes, SECRET)


class BareDynamic(Dynamic):
    """A dynamic request without a Message-Authenticator."""

    need_mark = False

    def signed(self, script, attributes):
        """The request with these attributes, under its own authenticator alone."""
        identifier = script.opened % 256
        return p.sealed(self.code, identifier, bytes(16), attributes, CLIENT_SECRET)


class BareDisconnect(BareDynamic, Disconnect):
    """The request that ends a session, without a Message-Authenticator."""


class BareChange(BareDynamic, Change):
    """The request that moves a session, without a Message-Authenticator."""


START, RESPONSE, ACCEPT, CHALLENGE = Start(), Response(), Accept(), Challenge()
DISCONNECT, CHANGE = Disconnect(), Change()
BARE_KINDS = [BareAccept(), BareDisconnect(), BareChange()]
KINDS = [START, RESPONSE, ACCEPT, CHALLENGE, DISCONNECT, CHANGE] + BARE_KINDS


class Run:
    """Scripts that go to the program one after another."""

    def __init__(self, program):
        self.program = program
        self.script = Script()
        self.cases = self.wrong = 0

    def script_for(self, kind):
        """The script that is being written, which has the settings that the kind wants."""
        if self.script.need_mark != kind.need_mark:
            self.flush()
            self.script = Script(kind.need_mark)
        return self.script

    def wrongs(self, kind, changes):
        """Wrong packets of a kind, in one state while that stands, then the right one twice."""
        script = self.script_for(kind)
        kind.ready(script)
        for change in changes:
            stands = self.standing()
            octets = change(kind.make(script))
            self.cases += 1
            try:
                kind.give(script, octets)
            except Unforeseen:
                self.cases -= 1
                kind.ready(script)
                continue
            if self.standing() != stands:
                script.frame(p.data_frame(HOST))
                kind.ready(script)
        right = kind.make(script)
        kind.give(script, right)
        kind.give(script, right)
        script.frame(p.data_frame(HOST))
        self.end_of_case()

    def signed(self, kind, attributes):
        """A packet of a kind with these attributes, rightly signed, alone in its state."""
        script = self.script_for(kind)
        kind.ready(script)
        kind.give(script, kind.signed(script, attributes(script)))
        script.frame(p.data_frame(HOST))
        self.cases += 1
        self.end_of_case()

    def standing(self):
        """What a wrong packet must leave alone, or else the right one is no longer right."""
        sessions = self.script.sessions.values()
        return [(s.number, s.waits_for, s.identifier, s.vlan) for s in sessions]

    def end_of_case(self):
        """Runs what was written, where it is long enough."""
        if self.script.records > RECORDS_A_TRACE:
            self.flush()

    def flush(self):
        """Runs what was written, and tells each line that differs."""
        trace, wanted = self.script.trace(), self.script.output()
        words = [self.program, "replay"]
        ran = subprocess.run(words, input=trace, capture_output=True, timeout=600)
        if ran.returncode or ran.stderr:
            self.wrong += 1
            print(f"status {ran.returncode}, said {ran.stderr!r}")
        if ran.stdout != wanted:
            self.tell(ran.stdout.decode().split("\n"), wanted.decode().split("\n"))
        self.script = Script(self.script.need_mark)

    def tell(self, got, wanted):
        """Tells the first lines that differ."""
        differing = [(g, w) for g, w in itertools.zip_longest(got, wanted) if g != w]
        self.wrong += len(differing)
        for line, want in differing[:3]:
            record = want.split(" ")[1] if want and want[0] in "cd" else "?"
            print(f"record {record}: {line!r}, wanted {want!r}")


def flipped(bits):
    """A change of these bits, from the first octet's highest."""
    def change(octets):
        out = bytearray(octets)
        for bit in bits:
            out[bit // 8] ^= 0x80 >> bit % 8
        return bytes(out)
    return change


def put(at, new):
    """A change of the octets from a place on."""
    return lambda octets: octets[:at] + new + octets[at + len(new):]


def cut(length):
    """The first octets alone."""
    return lambda octets: octets[:length]


def padded(length, fill):
    """Octets behind it."""
    return lambda octets: octets + bytes([fill]) * length


def length_of(kind):
    """How many octets the right packet of a kind has."""
    script = Script(kind.need_mark)
    kind.ready(script)
    return len(kind.make(script))


def in_groups(items, size):
    """Lists of so many."""
    items = iter(items)
    return iter(lambda: list(itertools.islice(items, size)), [])


def places_of_lengths(kind):
    """The places of the two-octet lengths in a packet of a kind."""
    return [2] if isinstance(kind, (Answer, Dynamic)) else [16] if kind is START else [16, 20]


def changed_on_the_wire(run, short, chance):
    """What one can do who does not know the secret."""
    for kind in KINDS:
        octets = length_of(kind)
        for bit in range(8 * octets):
            run.wrongs(kind, [flipped([bit])])
        changes = [cut(n) for n in range(octets)]
        changes += [padded(n, fill) for n in list(range(1, 40)) + [1000, 1400] for fill in (0, 255)]
        pairs = itertools.combinations(range(8 * octets), 2)
        changed = ((at, bytes([value])) for at in range(octets) for value in range(256))
        lengths = [(at, n.to_bytes(2, "big"))
                   for at in places_of_lengths(kind) for n in range(65536)]
        if short:
            pairs = chance.sample(list(pairs), 1000)
            changed, lengths = chance.sample(list(changed), 500), chance.sample(lengths, 500)
        changes = itertools.chain(changes, map(flipped, pairs), itertools.starmap(put, changed),
                                  itertools.starmap(put, lengths))
        for group in in_groups(changes, 50):
            run.wrongs(kind, group)


def random_octets(run, count, chance):
    """Octets that are nothing, some behind a right beginning."""
    for kind in KINDS:
        def change(octets):
            keep = chance.choice([0, 0, 1, 4, 14, 18, 20, 22])
            return octets[:keep] + chance.randbytes(chance.choice([0, 1, 3, 13, 20, 40, 90]))
        for _ in range(count // 50):
            run.wrongs(kind, [change] * 50)


def split_attributes(attributes):
    """The attributes one by one, each with its head."""
    out = []
    while attributes:
        out.append(attributes[:attributes[1]])
        attributes = attributes[attributes[1]:]
    return out


def attributes_of(kind):
    """The attributes of a kind's right packet, for a script."""
    return (lambda script: kind.attributes) if isinstance(kind, Answer) else kind.attributes


def changed_with_the_secret(run, short, chance):
    """What one can do who knows the secret: attributes that lie, under right digests."""
    for kind in [ACCEPT, CHALLENGE, DISCONNECT, CHANGE] + BARE_KINDS:
        of = attributes_of(kind)
        script = Script(kind.need_mark)
        kind.ready(script)
        right = of(script)
        values = [(at, value) for at in range(len(right)) for value in range(256)]
        for at, value in chance.sample(values, 300) if short else values:
            run.signed(kind, lambda script, at=at, value=value: put(at, bytes([value]))(of(script)))
        for length in range(len(right)):
            run.signed(kind, lambda script, length=length: of(script)[:length])
        for which in range(len(split_attributes(right))):
            for edit in ATTRIBUTE_EDITS:
                def attributes(script, which=which, edit=edit):
                    parts = split_attributes(of(script))
                    return b"".join(parts[:which] + edit(parts[which]) + parts[which + 1:])
                run.signed(kind, attributes)
        for more in FURTHER:
            run.signed(kind, lambda script, more=more: of(script) + more)
            run.signed(kind, lambda script, more=more: more + of(script))


# What can be done to one attribute.
ATTRIBUTE_EDITS = [
    lambda part: [],
    lambda part: [part, part],
    lambda part: [part[:1] + b"\x00" + part[2:]],
    lambda part: [part[:1] + b"\x01" + part[2:]],
    lambda part: [part[:1] + b"\x02"],
    lambda part: [part[:1] + b"\x02" + part[2:]],
    lambda part: [part[:1] + bytes([part[1] + 1]) + part[2:]],
    lambda part: [part[:1] + bytes([part[1] + 1]) + part[2:] + b"\x00"],
    lambda part: [part[:1] + bytes([part[1] - 1]) + part[2:-1]],
    lambda part: [part[:1] + b"\xff" + part[2:]],
    lambda part: [part[:1] + b"\xff" + part[2:] + bytes(255 - len(part))],
]

# Attributes that a request or an answer may have beside its own: whole ones ..
FURTHER = [
    p.attribute(p.PROXY_STATE, b"one") + p.attribute(p.PROXY_STATE, b"")
    + p.attribute(p.PROXY_STATE, b"two"),
    p.attribute(p.CALLING_STATION_ID, p.station(HOST)),
    p.attribute(p.CALLING_STATION_ID, HOST.hex().encode()),
]

# .. some with octets as their value ..
FURTHER += [p.attribute(kind, value) for kind, value in [
    (p.USER_NAME, NAME), (p.USER_NAME, b"eve"), (p.USER_NAME, b""),
    (p.NAS_IP_ADDRESS, NAS[0]), (p.NAS_IP_ADDRESS, NAS[0][:3]),
    (p.NAS_IDENTIFIER, NAS[1]), (p.NAS_IDENTIFIER, b"sw2"), (p.NAS_IDENTIFIER, b""),
    (p.NAS_PORT, b"\x01"), (p.CALLING_STATION_ID, b"0200.0000.00Aa"),
    (p.CALLING_STATION_ID, b"02-00-00-00-00-A"), (p.CALLING_STATION_ID, b"02 00 00 00 00 AA"),
    (p.CALLING_STATION_ID, HOST), (p.EVENT_TIMESTAMP, b"\x00"), (18, b"text"), (25, b"class"),
    (p.VENDOR_SPECIFIC, bytes(6)), (p.STATE, b"S"), (p.SESSION_TIMEOUT, bytes(3)),
    (p.MESSAGE_AUTHENTICATOR, bytes(16)),
]]

# .. some with a number ..
FURTHER += [p.number(kind, value) for kind, value in [
    (p.NAS_IP_ADDRESS, 1), (p.NAS_PORT, 1), (p.NAS_PORT, 2), (p.SERVICE_TYPE, 17), (49, 6),
    (p.EVENT_TIMESTAMP, CLOCK), (p.EVENT_TIMESTAMP, 0xFFFFFFFF),
    (p.EVENT_TIMESTAMP, CLOCK - WINDOW), (p.EVENT_TIMESTAMP, CLOCK - WINDOW - 1),
    (p.EVENT_TIMESTAMP, CLOCK + WINDOW), (p.EVENT_TIMESTAMP, CLOCK + WINDOW + 1),
    (p.SESSION_TIMEOUT, 600), (p.SESSION_TIMEOUT, 0), (p.TERMINATION_ACTION, 0),
    (p.TERMINATION_ACTION, 1), (p.TERMINATION_ACTION, 2), (p.TUNNEL_TYPE, 13),
    (p.ERROR_CAUSE, 503),
]]

# .. and those of a VLAN.
FURTHER += [p.tunnel(vlan) for vlan in [
    b"4094", b"4095", b"042", b"\x0142", b"", b"\x1f", b"4 2",
]]


# Types of attributes: those that mean something here, and some that do not.
TYPES = (0, 1, 2, 6, 24, 25, 26, 27, 29, 31, 33, 44, 55, 64, 79, 80, 81, 101, 255)


def many_attributes(run):
    """As many attributes of two octets as a packet has room for, and one more than that."""
    for kind, most in ((ACCEPT, 4096), (CHALLENGE, 4096), (DISCONNECT, 4000), (CHANGE, 4000)):
        of = attributes_of(kind)
        for number in TYPES:
            for room in (most - 38, most - 37, 4096 - 38):
                def attributes(script, number=number, room=room):
                    right = of(script)
                    return bytes([number, 2]) * ((room - len(right)) // 2) + right
                run.signed(kind, attributes)


def pieces_of_eap(run):
    """EAP in one to seventeen attributes, of as many octets as it may have and of more."""
    for kind, code in ((CHALLENGE, p.REQUEST), (ACCEPT, p.SUCCESS), (ACCEPT, p.FAILURE)):
        for octets in (5, 17, 253, 254, 1495, 1496, 1497, 1500, 3900):
            for pieces in range(1, 18):
                size = -(-octets // pieces)
                if size > p.VALUE_OCTETS:
                    continue
                packet = p.eap(code, 9, b"\x04" + bytes(octets - 5))
                for whole in (packet, p.eap(code, 9) + bytes(octets - 4)):
                    parts = [whole[at:at + size] for at in range(0, octets, size)]
                    parts += [b""] * (pieces - len(parts))
                    attributes = b"".join(p.attribute(p.EAP_MESSAGE, part) for part in parts)
                    run.signed(kind, lambda script, attributes=attributes: attributes)


def main():
    parser = argparse.ArgumentParser(description="Wrong packets, and right ones behind them.")
    parser.add_argument("--short", action="store_true")
    parser.add_argument("program", nargs="?", default=PROGRAM)
    given = parser.parse_args()
    run, chance = Run(given.program), random.Random(1)
    changed_on_the_wire(run, given.short, chance)
    random_octets(run, 200 if given.short else 10000, chance)
    changed_with_the_secret(run, given.short, chance)
    many_attributes(run)
    pieces_of_eap(run)
    run.flush()
    print(f"{run.cases} cases, {run.wrong} lines differ")
    sys.exit(1 if run.wrong else 0)


if __name__ == "__main__":
    main()
