#!/usr/bin/env python3
"""Makes settings for many ports from a few words, and explains a line that is refused.

    settings.py --ports 1-48 --native 10 --secret testing123 > settings
    settings.py --ports 1-47 --native 10 --restricted 99 --guest 98 --uplink 48 --trunk 1
                --server 127.0.0.1:1812 --client 127.0.0.1=testing123 --set server-timeout=35
    settings.py --explain settings [--program PROGRAM]

Secrets are written as text here and in hexadecimal in the settings. --uplink is a port that is
forced open. --explain asks the program itself, `check`, and says in a sentence what is wrong with
the first line that it refuses, and what to write. It ends with status 1 where a line is refused.
"""

import argparse
import os
import re
import subprocess
import sys

import names
from run_cases import PROGRAM

# Defaults that fit stock servers: a login that is broken off is over sooner (docs/PEERS.md).
STOCK = {"server-timeout": "35", "reauth-max": "4"}
MOST_PORTS, MOST_CLIENTS = 60, 4


def numbers(text):
    """The numbers of a list as `1-4,7`."""
    out = []
    for part in text.split(","):
        first, _, last = part.partition("-")
        out += range(int(first), int(last or first) + 1)
    return out


def hexadecimal(secret):
    """A secret in hexadecimal."""
    return secret.encode().hex()


def settings(options):
    """The lines of the settings."""
    yield f"nas {options.nas} {options.name}"
    address, _, port = options.server.partition(":")
    yield f"server {address} {port or 1812} {hexadecimal(options.secret)}"
    for client in options.client or [f"127.0.0.1={options.secret}"]:
        at, _, secret = client.partition("=")
        yield f"client {at} {hexadecimal(secret or options.secret)}"
    own = numbers(options.ports)
    for number in own:
        yield f"port {number} {options.native} auto"
    for number in numbers(options.uplink) if options.uplink else []:
        yield f"port {number} {options.trunk or options.native} force-auth"
    for word in ("restricted", "guest"):
        vlan = getattr(options, word)
        if vlan:
            yield from (f"{word} {number} {vlan}" for number in own)
    for name, value in {**STOCK, **dict(x.split("=", 1) for x in options.set)}.items():
        yield f"set {name} {value}"
    yield "begin"


def is_text(word):
    """Whether a word that should be hexadecimal is none."""
    return re.fullmatch("(?:[0-9a-fA-F]{2})+", word) is None


def remedy(reason, line):
    """What to write in place of a line that is refused."""
    words = line.split()
    first = words[0] if words else ""
    if reason == "octet" and "\t" in line:
        return "a tab stands in it: put a space there"
    if reason == "octet":
        bad = sorted({f"{ord(c):02x}" for c in line if not " " <= c <= "~"})
        return f"take out the octets {', '.join(bad)}: only the space to the tilde are allowed"
    if reason == "hex" and first in ("server", "client") and is_text(words[-1]):
        return f"a secret is given in hexadecimal: write {hexadecimal(words[-1])}"
    if reason == "hex" and first == "seed":
        return "a seed is 64 hexadecimal digits: openssl rand -hex 32 makes one"
    if reason == "twice" and first == "client":
        return (f"at most {MOST_CLIENTS} clients, each with an address of its own: bring more of "
                "them through a relay (docs/PEERS.md)")
    if reason == "number" and first in ("port", "restricted", "guest") and "-" in words[1]:
        return ("a line is for one port: write one for each, or let "
                f"`settings.py --ports {words[1]}` write them")
    if reason == "number" and first == "port":
        return f"a port is 1 to {MOST_PORTS} and a VLAN 1 to 4094, in figures"
    if reason == "count" and "#" in line:
        return "a comment has a line of its own, with # as its very first octet"
    if reason == "word" and line.startswith(" ") and first.startswith("#"):
        return "a comment begins with # as the very first octet of the line: take the spaces out"
    if reason == "word" and first == "set":
        return "docs/TRACE.md has the words behind `set`"
    if reason == "port":
        return "put the line of the `port` before it"
    if reason == "missing":
        return "write `server IP PORT SECRET` and, as the last line, `begin`"
    if reason == "name" and first == "port":
        return "the control of a port is auto, force-auth or force-unauth"
    return "docs/TRACE.md has each line and its range"


def explained(program, text):
    """What is to be said of settings, and whether they are right."""
    ran = subprocess.run([program, "check"], input=text, capture_output=True, check=False)
    said = ran.stderr.decode(errors="replace").strip()
    if ran.returncode == 0:
        return "the settings are right", True
    found = re.fullmatch(r"line (\d+): ([a-z]+)", said)
    if found is None:
        what = names.of_number(names.STATUSES, ran.returncode, "status")
        return f"{what}: {said}", False
    number, reason = int(found[1]), found[2]
    lines = text.decode("latin-1").split("\n")
    line = lines[number - 1] if number <= len(lines) else ""
    # A line that holds a secret is not shown.
    shown = "" if line.split()[:1] in (["server"], ["client"]) else f" `{line.strip()}`"
    return (f"line {number}{shown} is refused as `{reason}`: {names.REASONS[reason]}.\n"
            f"Remedy: {remedy(reason, line)}."), False


def words():
    """The words of the command."""
    about, _, more = __doc__.partition("\n\n")
    parser = argparse.ArgumentParser(description=about, epilog=more,
                                     formatter_class=argparse.RawDescriptionHelpFormatter)
    parser.add_argument("--ports", default="1-48", help="ports to guard, as 1-48 or 1-4,7")
    parser.add_argument("--native", default="1", help="VLAN where the server names none")
    parser.add_argument("--restricted", help="VLAN of hosts that the server rejected")
    parser.add_argument("--guest", help="VLAN of hosts that do not answer")
    parser.add_argument("--uplink", help="ports that are forced open")
    parser.add_argument("--trunk", help="VLAN of the uplinks, else the native one")
    parser.add_argument("--server", default="127.0.0.1:1812", help="the RADIUS server")
    parser.add_argument("--secret", default="testing123", help="its secret, as text")
    parser.add_argument("--client", action="append", default=[], help="IP=SECRET, at most four")
    parser.add_argument("--nas", default="127.0.0.1", help="the switch's NAS-IP-Address")
    parser.add_argument("--name", default="sw1", help="its NAS-Identifier")
    parser.add_argument("--set", action="append", default=[], help="NAME=VALUE, as reauth=on")
    parser.add_argument("--explain", metavar="FILE", help="settings that were refused")
    parser.add_argument("--program", default=PROGRAM, help="the program that is asked")
    return parser.parse_args()


def main():
    options = words()
    if options.explain is None:
        print("\n".join(settings(options)))
        return
    if not os.path.exists(options.program):
        sys.exit(f"settings.py: there is no {options.program}: build it, or give --program")
    with open(options.explain, "rb") as file:
        text, right = explained(options.program, file.read())
    print(text)
    sys.exit(0 if right else 1)


if __name__ == "__main__":
    try:
        main()
    except (OSError, ValueError) as cannot:
        sys.exit(f"settings.py: {cannot}")
