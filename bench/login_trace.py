#!/usr/bin/env python3
"""Writes a trace in which hosts log in, and their server answers each request rightly.

    login_trace.py HOSTS [FRAMES [SECONDS [ROUNDS]]]

HOSTS, at most 960, log in one after another, 16 on each port: a Start, the identity, and an
Access-Accept with VLAN 42. Then each sends FRAMES data frames of 60 octets, else 10, and SECONDS
go by, else none. ROUNDS, at most 250 and else 1, is how often each host logs in: it logs off in
between.
"""

import os
import sys

sys.path.append(os.path.join(os.path.dirname(os.path.abspath(__file__)), "..", "tools"))
import packets as p  # noqa: E402: it stands in the folder that was just named

SECRET = b"secret"
HOSTS_A_PORT = 16


def settings(ports):
    """The lines up to the links of so many ports."""
    numbers = range(1, ports + 1)
    return ([f"server 192.0.2.20 1812 {SECRET.hex()}"] + [f"port {n} 10 auto" for n in numbers]
            + ["begin"] + [f"link {n} up" for n in numbers] + ["sync"])


def host(n):
    """The port and the address of host n, from 0."""
    return n // HOSTS_A_PORT + 1, bytes([2, 0, 0, 10]) + n.to_bytes(2, "big")


def login(n, again, asked):
    """The records of a login of host n, which had `again` logins before, after so many requests."""
    port, address = host(n)
    identifier = again + 1
    first = p.eapol(address, p.LOGOFF if again else p.START)
    named = p.eapol(address, p.EAP_PACKET, p.identity(identifier, b"bob"))
    attributes = p.tunnel(b"42") + p.eap_message(p.eap(p.SUCCESS, identifier))
    under = p.request_authenticator(asked)
    answer = p.answer(p.ACCESS_ACCEPT, asked % 256, under, attributes, SECRET)
    return [f"frame {port} {first.hex()}", f"frame {port} {named.hex()}",
            f"radius {asked // 256 % 4} {answer.hex()}"]


def data_frames(n, count):
    """So many data frames of 60 octets of host n."""
    port, address = host(n)
    return [f"frame {port} {p.data_frame(address, body=bytes(range(46))).hex()}"] * count


def main():
    hosts = int(sys.argv[1])
    frames, seconds, rounds = [int(w) for w in sys.argv[2:5]] + [10, 0, 1][len(sys.argv) - 2:]
    out = settings((hosts + HOSTS_A_PORT - 1) // HOSTS_A_PORT)
    for again in range(rounds):
        for n in range(hosts):
            out += login(n, again, again * hosts + n)
        out.append("sync")
    for n in range(hosts):
        out += data_frames(n, frames)
        if n % 100 == 99:
            out.append("sync")
    for n in range(seconds):
        out.append("tick")
        if n % 1000 == 999:
            out.append("sync")
    print("\n".join(out))


if __name__ == "__main__":
    main()
