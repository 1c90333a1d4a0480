#!/usr/bin/env python3
"""Writes a trace in which one kind of record comes again and again, at the input that costs most.

    attacker.py                  prints a line for each case: how often its record is to come, the
                                 octets of the record, the state, and the name
    attacker.py STATE            prints the trace that leads to the state
    attacker.py NAME             prints the trace of a case

The table is full, 960 hosts on 60 ports, and in the states that the case's name says: let in, asked
for their identity, or with the server asked for their longest EAP. Each of four clients has 64 kept
replies of 4,000 octets.
"""

import itertools
import sys

import login_trace
from login_trace import HOSTS_A_PORT, SECRET, host

import packets as p

PORTS = 60
HOSTS = PORTS * HOSTS_A_PORT
CLIENTS = [f"192.0.2.{30 + n}" for n in range(4)]
CLIENT_SECRET = b"dyn"
NAME = b"b"
MOST_FRAME, MOST_RADIUS, MOST_DYNAMIC = 1518, 4096, 4000
MOST_EAP = MOST_FRAME - 18
KEPT = 64
REQUEST_NAMES = 1024
PENDING = 1  # the name of a request that is pending where the hosts wait


def of_two(kind, octets):
    """Attributes of two octets, as many as fit."""
    return bytes([kind, 2]) * (octets // 2)


def dynamic(n, attributes, code=p.DISCONNECT_REQUEST):
    """A dynamic request that is signed rightly; n makes it another one."""
    attributes = p.attribute(25, n.to_bytes(4, "big")) + attributes
    return p.dynamic_request(code, n % 256, attributes, CLIENT_SECRET)


def kept_request(n):
    """One of the requests whose replies are kept: it names no session, and its reply is as long."""
    named = p.attribute(p.ACCT_SESSION_ID, b"FFFFFFFF")
    return dynamic(n, named + of_two(p.PROXY_STATE, MOST_DYNAMIC - 44 - len(named)))


def dyn(octets, client=CLIENTS[0]):
    """The record of a dynamic request."""
    return f"dyn {client} 4000 {octets.hex()}"


def frame(n, octets):
    """The record of a frame on the port of host n."""
    return f"frame {host(n)[0]} {octets.hex()}"


def eapol(n, kind, body=b"", size=0):
    """The record of an EAPOL frame of host n, with padding up to a size."""
    return frame(n, p.eapol(host(n)[1], kind, body).ljust(size, b"\0"))


def begun():
    """The settings, and the links that come up."""
    lines = login_trace.settings(PORTS)
    clients = [f"client {client} {CLIENT_SECRET.hex()}" for client in CLIENTS]
    return lines[:1] + clients + lines[1:]


def let_in():
    """960 hosts that are let in, and the kept replies."""
    lines = begun()
    for n in range(HOSTS):
        lines += [eapol(n, p.START), eapol(n, p.EAP_PACKET, p.identity(1, NAME))]
        attributes = p.tunnel(b"42") + p.eap_message(p.eap(p.SUCCESS, 1))
        lines.append(answered(n, n, p.ACCESS_ACCEPT, attributes))
    return lines + kept()


def answered(n, name, code, attributes):
    """The record of an answer to request n, of this name."""
    octets = p.answer(code, name % 256, p.request_authenticator(n), attributes, SECRET)
    return f"radius {name // 256} {octets.hex()}"


def kept():
    """The requests whose replies are kept, 64 for each client."""
    return [dyn(kept_request(n), client) for client in CLIENTS for n in range(KEPT)]


def asked():
    """960 hosts that are asked for their identity, and the kept replies."""
    return begun() + [eapol(n, p.START) for n in range(HOSTS)] + kept()


def waiting():
    """960 hosts with a request at the server that has the longest EAP, and the kept replies."""
    lines = begun()
    challenge = p.attribute(p.STATE, bytes(253)) + p.eap_message(p.eap(p.REQUEST, 2, b"\x04"))
    answer = p.eap(p.RESPONSE, 2, b"\x04".ljust(MOST_EAP - 4, b"\0"))
    names, pending = itertools.cycle(range(REQUEST_NAMES)), set()
    for n in range(HOSTS):
        name = next(name for name in names if name not in pending)
        lines += [eapol(n, p.START), eapol(n, p.EAP_PACKET, p.identity(1, NAME)),
                  answered(2 * n, name, p.ACCESS_CHALLENGE, challenge),
                  eapol(n, p.EAP_PACKET, answer)]
        pending.add(next(name for name in names if name not in pending))
    return lines + kept()


LAST = HOSTS_A_PORT - 1
STRANGER = bytes.fromhex("020000bbbbbb")


def data(size, source=STRANGER):
    """A data frame of so many octets on port 1, of a stranger or of one of its sixteen hosts."""
    return frame(0, p.data_frame(source, body=bytes(size - 14)))


def answer_of_two(kind, name=0, last=2):
    """An answer under a wrong authenticator, of attributes of two octets, the last as it says."""
    head = bytes([p.ACCESS_ACCEPT, name % 256]) + MOST_RADIUS.to_bytes(2, "big") + bytes(16)
    octets = (head + of_two(kind, MOST_RADIUS - 20))[:-1] + bytes([last])
    return f"radius {name // 256} {octets.hex()}"


def naming(kind, value, last=b""):
    """A request with as many attributes as fit that name sessions. It is refused in the end."""
    one = p.attribute(kind, value)
    named = one * ((MOST_DYNAMIC - 44 - len(last)) // len(one)) + last
    return lambda n: dyn(dynamic(n, named, p.COA_REQUEST))


def unsigned(n):
    """A request of attributes of two octets, under a wrong authenticator."""
    code = bytes([p.DISCONNECT_REQUEST, n % 256]) + MOST_DYNAMIC.to_bytes(2, "big")
    return dyn(code + bytes(16) + of_two(p.PROXY_STATE, MOST_DYNAMIC - 20))


STATES = {"let in": let_in, "asked": asked, "waiting": waiting}

# Each case: the state, how often its record comes, and what makes the one that comes as the n-th.
CASES = {
    "a data frame of 14 octets of a stranger": ("let in", 1000, lambda n: data(14)),
    "a data frame of 60 octets of a stranger": ("let in", 1000, lambda n: data(60)),
    "a data frame of 1518 octets of a stranger": ("let in", 1000, lambda n: data(MOST_FRAME)),
    "a data frame of 60 octets that is forwarded": (
        "let in", 1000, lambda n: data(60, host(LAST)[1])),
    "a data frame of 1518 octets that is forwarded": (
        "let in", 1000, lambda n: data(MOST_FRAME, host(LAST)[1])),
    "a Start of a seventeenth host": (
        "let in", 1000, lambda n: frame(0, p.eapol(STRANGER, p.START))),
    "a Start of a host that is let in": ("let in", 500, lambda n: eapol(LAST, p.START)),
    "a Logoff of a host that is let in": ("let in", 500, lambda n: eapol(n, p.LOGOFF)),
    "a Start of a host that is asked": ("asked", 500, lambda n: eapol(LAST, p.START)),
    "an Identity with another identifier": (
        "asked", 500, lambda n: eapol(LAST, p.EAP_PACKET, p.identity(9, bytes(253)))),
    "an Identity of 253 octets": (
        "asked", 500, lambda n: eapol(n, p.EAP_PACKET, p.identity(1, b"x" * 253))),
    "an EAPOL frame of 1518 octets that is dropped": (
        "asked", 500, lambda n: frame(LAST, p.eapol(host(LAST)[1], p.EAP_PACKET, bytes(MOST_EAP)))),
    "an answer without a request": ("let in", 200, lambda n: answer_of_two(p.EAP_MESSAGE)),
    "an answer with a wrong authenticator": (
        "waiting", 200, lambda n: answer_of_two(p.EAP_MESSAGE, PENDING)),
    "an answer that is malformed at its end": (
        "waiting", 200, lambda n: answer_of_two(p.EAP_MESSAGE, PENDING, 3)),
    "a request of a stranger": ("let in", 200, lambda n: dyn(bytes(MOST_DYNAMIC), "192.0.2.99")),
    "a request with a wrong authenticator": ("let in", 200, unsigned),
    "a signed request that names no session": (
        "let in", 200, lambda n: dyn(kept_request(KEPT + n))),
    "a signed request that names all sessions in each attribute": (
        "let in", 20, naming(p.USER_NAME, NAME)),
    "a signed request that names all sessions in each attribute but the last": (
        "let in", 20, naming(p.USER_NAME, NAME, p.attribute(p.USER_NAME, b"eve"))),
    "a signed request that names a port in each attribute": (
        "let in", 20, naming(p.NAS_PORT, PORTS.to_bytes(4, "big"))),
    "a signed request that names a station in each attribute": (
        "let in", 20, naming(p.CALLING_STATION_ID, p.station(host(HOSTS - 1)[1]))),
    "a request that comes again": ("let in", 200, lambda n: dyn(kept_request(n % KEPT))),
    "a second of hosts that are let in": ("let in", 200, lambda n: "tick"),
    "a second of hosts that are asked": ("asked", 80, lambda n: "tick"),
    "a second of hosts that wait for the server": ("waiting", 15, lambda n: "tick"),
    "a link of sixteen hosts that goes down": (
        "waiting", 60, lambda n: f"link {n + 1} down"),
}


def record_octets(line):
    """The octets that a record hands in: those that its hexadecimal digits write, or its line's."""
    words = line.split(" ")
    return len(words[-1]) // 2 if words[0] in ("frame", "radius", "dyn") else len(line)


def main():
    if len(sys.argv) == 1:
        for name, (state, count, make) in CASES.items():
            print(f"{count}|{record_octets(make(0))}|{state}|{name}")
        return
    state, count, make = CASES.get(sys.argv[1], (sys.argv[1], 0, None))
    print("\n".join(STATES[state]() + ["sync"] + [make(n) for n in range(count)]))


if __name__ == "__main__":
    main()
