"""What becomes of octets that come in, read anew from docs/TRACE.md and the standards that it
names.

These are the reasons to drop a frame, an answer of the RADIUS server and a dynamic request, in
their order, and what an answer or a request asks for. Other tools import this; it is not run.
"""

import hashlib
import hmac
from collections import namedtuple

import packets as p

MOST_EAP = 1496
MOST_DYNAMIC = 4000
KEPT_REPLIES = 64
KEPT_SECONDS = 30

IGNORED = {18, 25, p.PROXY_STATE, p.EVENT_TIMESTAMP, p.MESSAGE_AUTHENTICATOR}
NAMES = {p.USER_NAME, p.NAS_PORT, p.CALLING_STATION_ID, p.ACCT_SESSION_ID}
TUNNEL = {p.TUNNEL_TYPE, p.TUNNEL_MEDIUM_TYPE, p.TUNNEL_PRIVATE_GROUP_ID}
CHANGES = TUNNEL | {p.SESSION_TIMEOUT}
ALLOWED = {
    p.DISCONNECT_REQUEST: IGNORED | NAMES | {p.NAS_IP_ADDRESS, p.NAS_IDENTIFIER, 49},
    p.COA_REQUEST: IGNORED | NAMES | CHANGES
    | {p.NAS_IP_ADDRESS, p.NAS_IDENTIFIER, p.TERMINATION_ACTION},
}

# Of a session that a dynamic request can name: its number, the name that its host gave, its port
# and the host's address.
Row = namedtuple("Row", "number name port host authorised")


def eap_packet(octets):
    """An EAP packet without its padding, and None or the reason to drop it (RFC 3748, 4)."""
    if len(octets) < 4:
        return None, "eap-short"
    if not 1 <= octets[0] <= 4:
        return None, "eap-code"
    length = int.from_bytes(octets[2:4], "big")
    fits = length >= 5 if octets[0] <= 2 else length == 4
    return (octets[:length], None) if fits and length <= len(octets) else (None, "eap-length")


def is_control(octets):
    """Whether a frame is a control record."""
    return 14 <= len(octets) <= 1518 and octets[12:14] == p.PAE_TYPE


def control_frame(octets, bridge):
    """The EAPOL type and the EAP packet of a control frame, and None or the reason to drop it.

    The reasons are those that depend on the octets and the port's address alone.
    """
    if octets[:6] not in (p.PAE_GROUP, bridge):
        return None, None, "elsewhere"
    if octets[6] & 1:
        return None, None, "group-source"
    body = octets[14:]
    if len(body) < 4:
        return None, None, "eapol-short"
    if body[1] == p.KEY:
        return None, None, "key"
    if body[1] > p.KEY:
        return None, None, "eapol-type"
    length = int.from_bytes(body[2:4], "big")
    if body[1] != p.EAP_PACKET:
        return body[1], None, None
    if length > len(body) - 4:
        return None, None, "body-short"
    packet, wrong = eap_packet(body[4:4 + length])
    if packet is not None and packet[0] != p.RESPONSE:
        wrong = "not-response"
    return (None, None, wrong) if wrong else (p.EAP_PACKET, packet, None)


def data_drop(octets):
    """The reason to drop a data frame that its octets give, or None, on a port whose link is up."""
    if len(octets) < 14:
        return "runt"
    if len(octets) > 1518:
        return "giant"
    if octets[:5] == p.PAE_GROUP[:5] and octets[5] < 16:
        return "reserved"
    if octets[12:14] == b"\x81\x00":
        return "tagged"
    return "group-source" if octets[6] & 1 else None


def radius_packet(octets):
    """A RADIUS packet without its padding, or None where the octets are malformed (RFC 2865, 3)."""
    length = int.from_bytes(octets[2:4], "big")
    if not 20 <= length <= min(len(octets), 4096):
        return None
    at = 20
    while at < length:
        if at + 1 == length or octets[at + 1] < 2:
            return None
        at += octets[at + 1]
    return octets[:length] if at == length else None


def values(attributes, kind):
    """The values of the attributes of a type, in order."""
    return [value for found, value in attributes if found == kind]


def first(attributes, kind):
    """The value of the first attribute of a type, or None."""
    return next(iter(values(attributes, kind)), None)


def is_sealed(packet, under, secret):
    """Whether its authenticator is the digest under another one."""
    return hashlib.md5(packet[:4] + under + packet[20:] + secret).digest() == packet[4:20]


def mark_is_right(packet, under, secret, may_lack):
    """Whether the one Message-Authenticator is right, or may lack (RFC 3579, 3.2)."""
    at, places = 20, []
    while at < len(packet):
        if packet[at] == p.MESSAGE_AUTHENTICATOR:
            places.append(at)
        at += packet[at + 1]
    if len(places) != 1 or packet[places[0] + 1] != 18:
        return may_lack and not places
    mark = slice(places[0] + 2, places[0] + 18)
    bare = packet[:4] + under + packet[20:mark.start] + bytes(16) + packet[mark.stop:]
    return hmac.new(secret, bare, "md5").digest() == packet[mark]


def vlan_of(attributes):
    """What the tunnel attributes say: None, "partial", "bad", or a VLAN (RFC 3580, 3.31)."""
    kind, medium, group = (first(attributes, t) for t in sorted(TUNNEL))
    there = [value for value in (kind, medium, group) if value is not None]
    if not there:
        return None
    if len(there) < 3:
        return "partial"
    text = group[1:] if group and group[0] < 0x20 else group
    good = len(kind) == len(medium) == 4 and (kind[1:], medium[1:]) == (b"\0\0\x0d", b"\0\0\x06")
    if not good or not text.isdigit() or text[:1] == b"0" or not 1 <= int(text) <= 4094:
        return "bad"
    return int(text)


def server_answer(octets, asked, secret, need_mark=True):
    """A taken answer as code, attributes and EAP (or None), or the reason to drop it.

    `asked` gives the authenticator of the request that is pending under an identifier, or None.
    """
    packet = radius_packet(octets)
    if packet is None:
        return "malformed"
    under = asked(packet[1])
    if under is None:
        return "no-request"
    if packet[0] not in (p.ACCESS_ACCEPT, p.ACCESS_REJECT, p.ACCESS_CHALLENGE):
        return "bad-code"
    if not is_sealed(packet, under, secret):
        return "bad-authenticator"
    attributes = p.attributes_of(packet)
    pieces = values(attributes, p.EAP_MESSAGE)
    if not mark_is_right(packet, under, secret, not pieces and not need_mark):
        return "bad-message-auth"
    if not pieces:
        return packet[0], attributes, None
    joined = b"".join(pieces)
    if len(joined) > MOST_EAP:
        return "oversize"
    whole, _ = eap_packet(joined)
    codes = (p.REQUEST,) if packet[0] == p.ACCESS_CHALLENGE else (p.SUCCESS, p.FAILURE)
    if whole is None or whole[0] not in codes:
        return "bad-eap"
    return packet[0], attributes, whole


def dynamic_drop(octets, client, window, clock, secret, need_mark=True):
    """The reason to drop a dynamic request that is no repeat, or None, and the packet.

    `client` says whether its source is a client (RFC 5176, 3 and 6). Before `stale` comes, a repeat
    is looked for.
    """
    if not client:
        return "stranger", None
    packet = radius_packet(octets)
    if packet is None:
        return "malformed", None
    if len(packet) > MOST_DYNAMIC:
        return "oversize", None
    if packet[0] not in ALLOWED:
        return "bad-code", None
    if not is_sealed(packet, bytes(16), secret):
        return "bad-authenticator", None
    if not mark_is_right(packet, bytes(16), secret, not need_mark):
        return "bad-message-auth", None
    stamp = first(p.attributes_of(packet), p.EVENT_TIMESTAMP)
    if stamp is not None and len(stamp) == 4 and abs(int.from_bytes(stamp, "big") - clock) > window:
        return "stale", packet
    return None, packet


def station_octets(text):
    """The address that a Calling-Station-Id has, or None (RFC 3580, 3.21)."""
    digits = bytes(c for c in text if c not in b"-:.")
    if len(digits) != 12 or not all(c in b"0123456789abcdefABCDEF" for c in digits):
        return None
    return bytes.fromhex(digits.decode())


def is_named(row, attributes):
    """Whether the attributes that name a session all fit it (RFC 5176, 3)."""
    rightly = {
        p.USER_NAME: lambda value: value == row.name,
        p.NAS_PORT: lambda value: int.from_bytes(value, "big") == row.port,
        p.CALLING_STATION_ID: lambda value: station_octets(value) == row.host,
        p.ACCT_SESSION_ID: lambda value: value == b"%08X" % row.number,
    }
    return all(rightly[kind](value) for kind, value in attributes if kind in rightly)


def change_refused(attributes, row):
    """The Error-Cause for what a CoA wants of a session, or None."""
    vlan = vlan_of(attributes)
    timeout, action = first(attributes, p.SESSION_TIMEOUT), first(attributes, p.TERMINATION_ACTION)
    if vlan == "partial" or not CHANGES & {kind for kind, _ in attributes}:
        return 402
    if timeout is not None and (len(timeout) != 4 or timeout == bytes(4)):
        return 407
    if action is not None and (len(action) != 4 or int.from_bytes(action, "big") > 1):
        return 407
    if vlan == "bad":
        return 407
    return None if row.authorised else 503


def dynamic_answer(packet, nas, rows):
    """The Error-Cause of a dynamic request, or None, and the session that it names, or None.

    The causes are those of RFC 5176, 3.5.
    """
    attributes = p.attributes_of(packet)
    kinds = {kind for kind, _ in attributes}
    if any(v != nas[0] for v in values(attributes, p.NAS_IP_ADDRESS)):
        return 403, None
    if any(v != nas[1] for v in values(attributes, p.NAS_IDENTIFIER)):
        return 403, None
    if p.SERVICE_TYPE in kinds:
        return 405, None
    if kinds - ALLOWED[packet[0]]:
        return 401, None
    fours = values(attributes, p.NAS_PORT) + values(attributes, p.EVENT_TIMESTAMP)
    stations = map(station_octets, values(attributes, p.CALLING_STATION_ID))
    if any(len(v) != 4 for v in fours) or None in stations:
        return 407, None
    if not kinds & NAMES:
        return 402, None
    named = [row for row in rows if is_named(row, attributes)]
    if len(named) != 1:
        return (508 if named else 503), None
    cause = change_refused(attributes, named[0]) if packet[0] == p.COA_REQUEST else None
    return (cause, None) if cause else (None, named[0])
