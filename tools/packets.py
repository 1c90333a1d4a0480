"""Right packets: EAPOL frames, EAP, RADIUS requests and answers, dynamic requests and replies.

Everything is made from the standards that are named beside each function and from docs/TRACE.md,
with Python's own digests. Octets are `bytes`, numbers go most significant octet first. Other
tools import this; it is not run.
"""

import hashlib
import hmac
import struct

PAE_GROUP = bytes.fromhex("0180c2000003")
PAE_TYPE = bytes.fromhex("888e")

# Packet types of EAPOL (IEEE Std 802.1X-2004, 7.5.4), codes and a type of EAP (RFC 3748, 4 and 5).
EAP_PACKET, START, LOGOFF, KEY = range(4)
REQUEST, RESPONSE, SUCCESS, FAILURE = range(1, 5)
IDENTITY = 1

# Codes of RADIUS (RFC 2865, 3; RFC 5176, 3).
ACCESS_REQUEST, ACCESS_ACCEPT, ACCESS_REJECT, ACCESS_CHALLENGE = 1, 2, 3, 11
DISCONNECT_REQUEST, DISCONNECT_ACK, DISCONNECT_NAK = 40, 41, 42
COA_REQUEST, COA_ACK, COA_NAK = 43, 44, 45

# Types of attributes (RFC 2865, 5; RFC 2868, 3; RFC 2869, 5; RFC 3576, 3.5).
USER_NAME, NAS_IP_ADDRESS, NAS_PORT, SERVICE_TYPE, FRAMED_MTU = 1, 4, 5, 6, 12
STATE, VENDOR_SPECIFIC, SESSION_TIMEOUT, TERMINATION_ACTION = 24, 26, 27, 29
CALLED_STATION_ID, CALLING_STATION_ID, NAS_IDENTIFIER, PROXY_STATE = 30, 31, 32, 33
ACCT_SESSION_ID, EVENT_TIMESTAMP, NAS_PORT_TYPE = 44, 55, 61
TUNNEL_TYPE, TUNNEL_MEDIUM_TYPE, TUNNEL_PRIVATE_GROUP_ID = 64, 65, 81
EAP_MESSAGE, MESSAGE_AUTHENTICATOR, ERROR_CAUSE = 79, 80, 101

VALUE_OCTETS = 253


def eap(code, identifier, data=b""):
    """An EAP packet (RFC 3748, 4)."""
    return struct.pack(">BBH", code, identifier, 4 + len(data)) + data


def identity(identifier, name):
    """The Response to an Identity request (RFC 3748, 5.1)."""
    return eap(RESPONSE, identifier, bytes([IDENTITY]) + name)


def eapol(source, packet_type, body=b"", destination=PAE_GROUP, version=1):
    """A frame with an EAPOL packet (IEEE Std 802.1X-2004, 7.5)."""
    head = struct.pack(">BBH", version, packet_type, len(body))
    return destination + source + PAE_TYPE + head + body


def data_frame(source, destination=b"\xff" * 6, body=b"\x45\x00", kind=b"\x08\x00"):
    """A frame of another type (IEEE Std 802.3, 3.2)."""
    return destination + source + kind + body


def tagged(octets, vlan):
    """A frame with the tag of a VLAN, of priority 0 (IEEE Std 802.1Q)."""
    return octets[:12] + b"\x81\x00" + struct.pack(">H", vlan) + octets[12:]


def attribute(kind, value):
    """One attribute of RADIUS, with at most 253 octets of value (RFC 2865, 5)."""
    return bytes([kind, 2 + len(value)]) + value


def number(kind, value):
    """An attribute with a number of four octets."""
    return attribute(kind, struct.pack(">I", value))


def eap_message(packet):
    """An EAP packet in as many attributes as it needs (RFC 3579, 3.1)."""
    pieces = [packet[at:at + VALUE_OCTETS] for at in range(0, len(packet), VALUE_OCTETS)]
    return b"".join(attribute(EAP_MESSAGE, piece) for piece in pieces)


def tunnel(vlan):
    """The three attributes that put a host into a VLAN, given as text (RFC 3580, 3.31)."""
    kind = number(TUNNEL_TYPE, 13) + number(TUNNEL_MEDIUM_TYPE, 6)
    return kind + attribute(TUNNEL_PRIVATE_GROUP_ID, vlan)


def head_of(code, identifier, octets):
    """The first four octets of a RADIUS packet with so many octets of attributes (RFC 2865, 3)."""
    return struct.pack(">BBH", code, identifier, 20 + octets)


def marked(code, identifier, under, attributes, secret):
    """The attributes, behind a Message-Authenticator under an authenticator (RFC 3579, 3.2)."""
    bare = attribute(MESSAGE_AUTHENTICATOR, bytes(16)) + attributes
    mark = hmac.new(secret, head_of(code, identifier, len(bare)) + under + bare, "md5").digest()
    return attribute(MESSAGE_AUTHENTICATOR, mark) + attributes


def sealed(code, identifier, under, attributes, secret):
    """A packet whose own authenticator is the digest under another one (RFC 2865, 3)."""
    head = head_of(code, identifier, len(attributes))
    return head + hashlib.md5(head + under + attributes + secret).digest() + attributes


def answer(code, identifier, asked, attributes, secret):
    """An answer to the request with the authenticator `asked`, its Message-Authenticator first.

    So is a reply to a dynamic request (RFC 5176, 3.4).
    """
    behind = marked(code, identifier, asked, attributes, secret)
    return sealed(code, identifier, asked, behind, secret)


def dynamic_request(code, identifier, attributes, secret):
    """A dynamic request, its Message-Authenticator first (RFC 5176, 2.3 and 3.4)."""
    return answer(code, identifier, bytes(16), attributes, secret)


def access_request(identifier, authenticator, attributes, secret):
    """An Access-Request, its Message-Authenticator first (RFC 2865, 4.1)."""
    behind = marked(ACCESS_REQUEST, identifier, authenticator, attributes, secret)
    return head_of(ACCESS_REQUEST, identifier, len(behind)) + authenticator + behind


def station(address):
    """An address as a Called- or Calling-Station-Id has it (RFC 3580, 3.20)."""
    return address.hex("-").upper().encode()


def asked_attributes(name, nas, port, bridge, host, session, response, state=None):
    """The attributes of an Access-Request for the Response of a host (RFC 3580, 3).

    `nas` is the access server's address and name, `bridge` and `host` are addresses of six octets.
    """
    address, own_name = nas
    out = attribute(USER_NAME, name) + attribute(NAS_IP_ADDRESS, address) + number(NAS_PORT, port)
    out += number(SERVICE_TYPE, 2) + number(FRAMED_MTU, 1496)
    out += attribute(CALLED_STATION_ID, station(bridge))
    out += attribute(CALLING_STATION_ID, station(host))
    out += attribute(NAS_IDENTIFIER, own_name) + number(NAS_PORT_TYPE, 15)
    out += attribute(ACCT_SESSION_ID, b"%08X" % session)
    if state is not None:
        out += attribute(STATE, state)
    return out + eap_message(response)


def chacha20_block(key, counter):
    """One block of ChaCha20 with nonce 0 (RFC 8439, 2.3), with a counter of 64 bits."""
    def rotated(x, n):
        return ((x << n) | (x >> (32 - n))) & 0xFFFFFFFF

    start = list(struct.unpack("<4I", b"expand 32-byte k")) + list(struct.unpack("<8I", key))
    start += [counter & 0xFFFFFFFF, counter >> 32, 0, 0]
    x = start[:]

    def quarter(a, b, c, d):
        x[a] = (x[a] + x[b]) & 0xFFFFFFFF
        x[d] = rotated(x[d] ^ x[a], 16)
        x[c] = (x[c] + x[d]) & 0xFFFFFFFF
        x[b] = rotated(x[b] ^ x[c], 12)
        x[a] = (x[a] + x[b]) & 0xFFFFFFFF
        x[d] = rotated(x[d] ^ x[a], 8)
        x[c] = (x[c] + x[d]) & 0xFFFFFFFF
        x[b] = rotated(x[b] ^ x[c], 7)

    for _ in range(10):
        for a in range(4):
            quarter(a, a + 4, a + 8, a + 12)
        for a in range(4):
            quarter(a, 4 + (a + 1) % 4, 8 + (a + 2) % 4, 12 + (a + 3) % 4)
    return struct.pack("<16I", *((p + q) & 0xFFFFFFFF for p, q in zip(x, start)))


def request_authenticator(k, seed=bytes(32)):
    """The authenticator of request k, from 0: four words of the key stream of the seed."""
    return chacha20_block(seed, k // 4)[16 * (k % 4):16 * (k % 4) + 16]


def attributes_of(packet):
    """The attributes of a well-formed RADIUS packet: pairs of a type and a value."""
    out, at = [], 20
    while at < len(packet):
        out.append((packet[at], packet[at + 2:at + packet[at + 1]]))
        at += packet[at + 1]
    return out
