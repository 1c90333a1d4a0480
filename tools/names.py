#!/usr/bin/env python3
"""Names of what the program reads and prints: RADIUS, EAP, drops, causes, reasons, statuses.

    names.py            prints the tables
    names.py WORD..     prints the lines with a word or a number, say `no-session`, `503` or `81`

Each name stands here once, and the other tools read it from here. people_cases.py holds the table
of drops, causes and reasons against what the program prints and against docs/TRACE.md. A number
without a name is given as a number.
"""

import sys

# Codes of RADIUS packets (RFC 2865, 3; RFC 5176, 2.3).
RADIUS_CODES = {
    1: "Access-Request", 2: "Access-Accept", 3: "Access-Reject", 4: "Accounting-Request",
    5: "Accounting-Response", 11: "Access-Challenge", 12: "Status-Server",
    40: "Disconnect-Request", 41: "Disconnect-ACK", 42: "Disconnect-NAK",
    43: "CoA-Request", 44: "CoA-ACK", 45: "CoA-NAK",
}

# Attributes: name, and how the value is shown (RFC 2865, 5; 2868, 3; 2869, 5; 3162, 2; 5176, 3.5).
TEXT, NUMBER, ADDRESS, OCTETS, TAGGED_NUMBER, TAGGED_TEXT = range(6)
ATTRIBUTES = {
    1: ("User-Name", TEXT), 2: ("User-Password", OCTETS), 3: ("CHAP-Password", OCTETS),
    4: ("NAS-IP-Address", ADDRESS), 5: ("NAS-Port", NUMBER), 6: ("Service-Type", NUMBER),
    7: ("Framed-Protocol", NUMBER), 8: ("Framed-IP-Address", ADDRESS), 11: ("Filter-Id", TEXT),
    12: ("Framed-MTU", NUMBER), 18: ("Reply-Message", TEXT), 24: ("State", OCTETS),
    25: ("Class", OCTETS), 26: ("Vendor-Specific", OCTETS), 27: ("Session-Timeout", NUMBER),
    28: ("Idle-Timeout", NUMBER), 29: ("Termination-Action", NUMBER),
    30: ("Called-Station-Id", TEXT), 31: ("Calling-Station-Id", TEXT), 32: ("NAS-Identifier", TEXT),
    33: ("Proxy-State", OCTETS), 40: ("Acct-Status-Type", NUMBER), 44: ("Acct-Session-Id", TEXT),
    49: ("Acct-Terminate-Cause", NUMBER), 50: ("Acct-Multi-Session-Id", TEXT),
    55: ("Event-Timestamp", NUMBER), 56: ("Egress-VLANID", NUMBER), 58: ("Egress-VLAN-Name", TEXT),
    61: ("NAS-Port-Type", NUMBER), 64: ("Tunnel-Type", TAGGED_NUMBER),
    65: ("Tunnel-Medium-Type", TAGGED_NUMBER), 77: ("Connect-Info", TEXT),
    79: ("EAP-Message", OCTETS), 80: ("Message-Authenticator", OCTETS),
    81: ("Tunnel-Private-Group-Id", TAGGED_TEXT), 85: ("Acct-Interim-Interval", NUMBER),
    87: ("NAS-Port-Id", TEXT), 89: ("Chargeable-User-Identity", OCTETS),
    95: ("NAS-IPv6-Address", OCTETS), 101: ("Error-Cause", NUMBER), 102: ("EAP-Key-Name", OCTETS),
}

# Packet types of EAPOL (IEEE Std 802.1X-2004, 7.5.4); codes and types of EAP (RFC 3748, 4 and 5,
# and the register of IANA behind them).
EAPOL_TYPES = {
    0: "EAP-Packet", 1: "EAPOL-Start", 2: "EAPOL-Logoff", 3: "EAPOL-Key",
    4: "EAPOL-Encapsulated-ASF-Alert",
}
EAP_CODES = {1: "Request", 2: "Response", 3: "Success", 4: "Failure"}
EAP_TYPES = {
    1: "Identity", 2: "Notification", 3: "Nak", 4: "MD5-Challenge", 5: "OTP", 6: "GTC", 13: "TLS",
    17: "LEAP", 18: "SIM", 21: "TTLS", 23: "AKA", 25: "PEAP", 26: "MSCHAPv2", 43: "FAST",
    50: "AKA'", 52: "PWD", 55: "TEAP", 254: "Expanded",
}

# Error-Cause of a NAK: its name, and what it says here (RFC 5176, 3.5).
ERROR_CAUSES = {
    401: ("Unsupported Attribute", "an attribute that such a request may not have"),
    402: ("Missing Attribute", "it names no session, or asks for no whole change"),
    403: ("NAS Identification Mismatch", "it is for another access server"),
    405: ("Unsupported Service", "it has a Service-Type"),
    407: ("Invalid Attribute Value", "a value that cannot be read or followed"),
    503: ("Session Context Not Found", "no session fits, or the one that fits is not authorised"),
    508: ("Multiple Session Selection Unsupported", "several sessions fit"),
}

# Why a record was dropped. Of `frame` those of EAPOL, of `data` those of other frames.
DROPS = {
    "frame": {
        "elsewhere": "its destination is not the group of port access entities, nor the port",
        "group-source": "its source is a group address",
        "down": "the link of its port is down",
        "eapol-short": "fewer than four octets of EAPOL",
        "key": "an EAPOL-Key: there are no keys here",
        "eapol-type": "a type of EAPOL above 3",
        "body-short": "its EAP packet is cut short",
        "eap-short": "fewer than four octets of EAP",
        "eap-code": "a code of EAP that there is not",
        "eap-length": "a length of EAP that does not fit",
        "not-response": "a host may only respond",
        "forced": "the port is forced, and this is no EAPOL-Start",
        "no-session": "a Logoff of a host that has no session",
        "port-full": "sixteen hosts are on the port already",
    },
    "radius": {
        "malformed": "no RADIUS packet",
        "no-request": "no request is pending under its socket and identifier",
        "bad-code": "no Access-Accept, -Reject or -Challenge",
        "bad-authenticator": "its authenticator is not that of an answer: is the secret right?",
        "bad-message-auth": "its Message-Authenticator is wrong, comes twice or is not there",
        "oversize": "more than 1,496 octets of EAP: set the server's fragment_size to 1400",
        "bad-eap": "EAP that does not fit the code",
    },
    "dyn": {
        "stranger": "no client has this address",
        "malformed": "no RADIUS packet",
        "oversize": "more than 4,000 octets",
        "bad-code": "no Disconnect-Request or CoA-Request",
        "bad-authenticator": "its authenticator is not that of the client's secret",
        "bad-message-auth": "its Message-Authenticator is wrong, comes twice or is not there: give "
                            "one, or `set require-ma off`",
        "stale": "its Event-Timestamp is too far from the clock",
    },
    "data": {
        "runt": "fewer than 14 octets",
        "giant": "more than 1,518 octets",
        "control": "a type that is for the authenticator",
        "reserved": "a destination that no bridge forwards",
        "tagged": "it is tagged",
        "group-source": "its source is a group address",
        "down": "the link of its port is down",
        "closed": "its port is forced shut",
        "unauthorised": "its source is not authorised",
    },
}

# Why a line of a trace is refused.
REASONS = {
    "long": "the line has more than 10,240 octets",
    "octet": "an octet that is none of the space to the tilde",
    "lane": "a lane that there is not, or where none may stand",
    "word": "a first word, or a word behind `set`, that there is not",
    "place": "a setting behind `begin`, or a record before it",
    "count": "too few words, or too many",
    "number": "a number or an address that is not written as it must be, or is out of its range",
    "hex": "a word that is no hexadecimal, or of a wrong length",
    "name": "a choice, or a name, that is not allowed",
    "port": "a port that is not configured",
    "twice": "a thing that was given before, or a fifth client",
    "missing": "there is no `server` before `begin`, or no `begin`",
}

# What a status of the program means.
STATUSES = {
    0: "all was done", 1: "out of memory", 2: "words that are no form of the program",
    3: "a line was refused", 4: "reading failed", 5: "writing failed",
    6: "more control records than a history has room for", 7: "the link failed",
    8: "more octets than may be read",
}


def of_number(table, number, kind):
    """The name of a number in a table, else its kind and the number."""
    return table.get(number, f"{kind} {number}")


def radius_code(code):
    """The name of a code of RADIUS."""
    return of_number(RADIUS_CODES, code, "RADIUS code")


def attribute(kind, value):
    """The name of an attribute, and its value as text."""
    name, shown = ATTRIBUTES.get(kind, (f"Attribute-{kind}", OCTETS))
    if shown in (TAGGED_TEXT, TAGGED_NUMBER) and value and value[0] < 0x20:
        value = value[1:]
    if shown in (TEXT, TAGGED_TEXT):
        return name, printable(value)
    if shown in (NUMBER, TAGGED_NUMBER) and len(value) in (3, 4):
        return name, str(int.from_bytes(value, "big"))
    if shown == ADDRESS and len(value) == 4:
        return name, ".".join(map(str, value))
    return name, value.hex()


def printable(octets):
    """Octets as text; whatever is no letter, digit, mark or space of it is escaped."""
    text = octets.decode("utf-8", "backslashreplace")
    return "".join(c if c.isprintable() else f"\\x{ord(c):02x}" for c in text)


def outcome(of, words):
    """What became of a record, in words: `of` is one of DROPS, `words` as the program prints."""
    head, *name = words.split(" ")
    if head == "drop":
        return f"dropped: {DROPS[of].get(name[0], name[0])} ({name[0]})"
    if head == "nak":
        called, why = ERROR_CAUSES.get(int(name[0]), ("Error-Cause", "refused"))
        return f"refused: {why} ({name[0]}, {called})"
    return {"ok": "done", "ack": "done", "again": "a repeat: the reply that was kept"}[head]


def lines():
    """Each name as a line: table, number or word, name, and more."""
    for table, what in ((RADIUS_CODES, "code"), (EAPOL_TYPES, "eapol"), (EAP_CODES, "eap-code"),
                        (EAP_TYPES, "eap-type"), (STATUSES, "status"), (REASONS, "reason")):
        for number, name in table.items():
            yield f"{what:10} {number:<18} {name}"
    for number, (name, _) in ATTRIBUTES.items():
        yield f"{'attribute':10} {number:<18} {name}"
    for number, (name, why) in ERROR_CAUSES.items():
        yield f"{'cause':10} {number:<18} {name}: {why}"
    for of, table in DROPS.items():
        for name, why in table.items():
            yield f"{'drop':10} {of + ' ' + name:<18} {why}"


def main():
    words = sys.argv[1:]
    if words and words[0] in ("-h", "--help"):
        print(__doc__.strip())
        return
    for line in lines():
        if not words or any(word in line.replace(":", " ").split() for word in words):
            print(line)


if __name__ == "__main__":
    main()
