#!/usr/bin/env python3
"""Writes a trace of data frames of hosts that are let in, with control records between them.

    race_trace.py [FRAMES [PHASE [EVERY]]]

128 hosts log in, 16 on each of eight ports. Then they send FRAMES data frames of 60 octets, else
400,000, in turn from port to port, in phases of PHASE, else 20,000. Behind each EVERY frames, else
200, stands a control record: a second, on lanes 1, 2 and 3 in turn.
"""

import sys

import login_trace

PORTS = 8
HOSTS = PORTS * login_trace.HOSTS_A_PORT
LANES = 3


def main():
    frames, phase, every = [int(w) for w in sys.argv[1:]] + [400000, 20000, 200][len(sys.argv) - 1:]
    out = login_trace.settings(PORTS)
    for n in range(HOSTS):
        out += login_trace.login(n, 0, n)
    out.append("sync")
    hosts = [port * login_trace.HOSTS_A_PORT + n
             for n in range(login_trace.HOSTS_A_PORT) for port in range(PORTS)]
    lines = [login_trace.data_frames(n, 1)[0] for n in hosts]
    for n in range(1, frames + 1):
        out.append(lines[n % HOSTS])
        if n % every == 0:
            out.append(f"@{n // every % LANES + 1} tick")
        if n % phase == 0:
            out.append("sync")
    print("\n".join(out))


if __name__ == "__main__":
    main()
