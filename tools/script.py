"""A trace that is written together with what has to be printed for it.

A Script has one Auto port, one RADIUS server and one client of dynamic requests. Each record
that is given to it is judged by outcomes.py, and what follows for the hosts on the port is kept
here for the few states that short dialogues reach: a host was asked for its identity or
something else, the server is asked, the host is let in, or it is held. A record whose
consequences are not known here raises Unforeseen before it is written. Other tools import this;
it is not run.
"""

import outcomes as o
import packets as p

PORT = 1
NATIVE = 10
BRIDGE = bytes.fromhex("020000010101")
NAS = (bytes([192, 0, 2, 10]), b"sw1")
SECRET = b"secret"
CLIENT_SECRET = b"dyn"
CLIENT = "192.0.2.30"
CLOCK = 1000
WINDOW = 300
HOSTS_A_PORT = 16
NAMES_OF_REQUESTS = 1024
SETTINGS = [
    f"server 192.0.2.20 1812 {SECRET.hex()}",
    f"client {CLIENT} {CLIENT_SECRET.hex()}",
    f"port {PORT} {NATIVE} auto",
    f"clock {CLOCK}",
    "begin",
]


class Unforeseen(Exception):
    """A record after which this model does not know what follows."""


class Session:
    """A host's session: what it waits for, and what it was told."""

    def __init__(self, number, host):
        self.number, self.host = number, host
        # What it waits for: the host's "identity" or "answer", the "server", "nothing" once it is
        # let in, or "time" while it is held; and what it waited for before the server was asked.
        self.waits_for, self.waited_for = "identity", None
        self.identifier = 1  # of the last request to the host
        self.started = False  # whether it began anew; what a further Start does is not known here
        self.late = False  # whether a Response came while the server was asked
        self.name = self.state = self.request = None
        self.vlan = NATIVE

    def row(self):
        """What a dynamic request can name of it."""
        return o.Row(self.number, self.name, PORT, self.host, self.waits_for == "nothing")


class Script:
    """The lines of a trace and of its output.

    `need_mark` is `set require-ma`: whether a packet without a Message-Authenticator is dropped.
    """

    def __init__(self, need_mark=True):
        self.need_mark = need_mark
        self.lines, self.wanted = list(SETTINGS), []
        if not need_mark:
            self.lines.insert(-1, "set require-ma off")
        self.records = self.controls = self.cases = 0
        self.sessions, self.pending, self.kept = {}, {}, []
        self.opened = self.asked = 0
        self.name = -1
        self.up = False

    def control(self, line, outcome, sent=()):
        """A control record, its outcome and what is sent for it."""
        self.records += 1
        self.lines.append(line)
        self.wanted.append(f"c {self.records} @1 {self.controls} {outcome}")
        self.wanted += sent
        self.controls += 1

    def link(self, up):
        """The link of the port comes up or goes down."""
        sent = []
        if up and not self.up:
            asked = p.eap(p.REQUEST, 0, bytes([p.IDENTITY]))
            sent = [f"f {PORT} {p.eapol(BRIDGE, p.EAP_PACKET, asked, version=2).hex()}"]
        if not up:
            self.sessions, self.pending = {}, {}
        self.up = up
        self.control(f"link {PORT} {'up' if up else 'down'}", "ok", sent)

    def anew(self):
        """All sessions of the port end, and its link is up."""
        self.link(False)
        self.link(True)

    def frame(self, octets):
        """A frame on the port."""
        line = f"frame {PORT} {octets.hex() or '-'}"
        if not o.is_control(octets):
            self.data(line, octets)
            return
        kind, packet, drop = o.control_frame(octets, BRIDGE)
        host = octets[6:12]
        if drop is None and not self.up:
            raise Unforeseen("a link that is down")
        if drop is None and host not in self.sessions:
            if kind == p.LOGOFF:
                drop = "no-session"
            elif len(self.sessions) == HOSTS_A_PORT:
                drop = "port-full"
        if drop:
            self.control(line, "drop " + drop)
        elif host not in self.sessions:
            self.opened += 1
            self.sessions[host] = Session(self.opened, host)
            self.control(line, "ok", self.identity_request(self.sessions[host]))
        elif kind == p.EAP_PACKET:
            self.control(line, "ok", self.response(self.sessions[host], packet))
        else:
            self.control(line, "ok", self.restart(self.sessions[host], kind))

    def data(self, line, octets):
        """A data frame on the port, whose link is up."""
        if not self.up:
            raise Unforeseen("a link that is down")
        self.records += 1
        self.lines.append(line)
        drop = o.data_drop(octets)
        session = self.sessions.get(octets[6:12])
        if drop is None and (session is None or session.waits_for != "nothing"):
            drop = "unauthorised"
        what = f"drop {drop}" if drop else (
            f"forward {session.number} {session.vlan} {p.tagged(octets, session.vlan).hex()}")
        self.wanted.append(f"d {self.records} {self.controls} {what}")

    def to_host(self, session, packet):
        """What is printed of a frame to a host."""
        octets = p.eapol(BRIDGE, p.EAP_PACKET, packet, destination=session.host, version=2)
        return f"f {PORT} {octets.hex()}"

    def identity_request(self, session):
        """The Identity request with the session's identifier."""
        return [self.to_host(session, p.eap(p.REQUEST, session.identifier, bytes([p.IDENTITY])))]

    def restart(self, session, kind):
        """A Start or Logoff of a host with a session."""
        if session.waits_for == "time" and kind == p.START:
            session.started = True
            return []
        if session.waits_for not in ("identity", "answer", "server") or session.started:
            raise Unforeseen("a session that begins anew")
        self.pending = {name: s for name, s in self.pending.items() if s is not session}
        session.waits_for, session.started = "identity", True
        session.identifier = (session.identifier + 1) % 256
        return self.identity_request(session)

    def response(self, session, packet):
        """A Response of a host with a session."""
        if session.waits_for not in ("identity", "answer"):
            session.late = True
            return []
        is_identity = packet[4] == p.IDENTITY
        if packet[1] != session.identifier or (session.waits_for == "identity" and not is_identity):
            return []
        if is_identity:
            if not 1 <= len(packet) - 5 <= p.VALUE_OCTETS:
                return []
            session.name = packet[5:]
        session.waited_for, session.late = session.waits_for, False
        session.waits_for = "server"
        return [self.request(session, packet)]

    def request(self, session, response):
        """The Access-Request for a Response."""
        self.name = (self.name + 1) % NAMES_OF_REQUESTS
        while self.name in self.pending:
            self.name = (self.name + 1) % NAMES_OF_REQUESTS
        session.request = p.request_authenticator(self.asked)
        self.asked += 1
        self.pending[self.name] = session
        attributes = p.asked_attributes(session.name, NAS, PORT, BRIDGE, session.host,
                                        session.number, response, session.state)
        octets = p.access_request(self.name % 256, session.request, attributes, SECRET)
        return "r " + (f"{self.name // 256} " if self.name >= 256 else "") + octets.hex()

    def radius(self, octets, socket):
        """A datagram of the RADIUS server to a socket."""
        def asked(identifier):
            session = self.pending.get(256 * socket + identifier)
            return session and session.request

        found = o.server_answer(octets, asked, SECRET, self.need_mark)
        line = f"radius {socket} {octets.hex() or '-'}"
        if isinstance(found, str):
            self.control(line, "drop " + found)
        else:
            session = self.pending[256 * socket + octets[1]]
            sent = self.answered(session, *found)
            del self.pending[256 * socket + octets[1]]
            self.control(line, "ok", sent)

    def answered(self, session, code, attributes, packet):
        """What follows from a taken answer."""
        if code == p.ACCESS_CHALLENGE:
            if packet is None and session.late:
                raise Unforeseen("a Response that came before the server wanted one more")
            session.state = o.first(attributes, p.STATE)
            if packet is None:
                session.waits_for = session.waited_for
                return []
            session.waits_for, session.identifier = "answer", packet[1]
            return [self.to_host(session, packet)]
        session.state = None
        vlan = o.vlan_of(attributes)
        if code == p.ACCESS_ACCEPT and vlan not in ("partial", "bad"):
            session.waits_for, session.vlan = "nothing", vlan or NATIVE
            return [self.to_host(session, packet or p.eap(p.SUCCESS, session.identifier))]
        session.waits_for = "time"
        if code == p.ACCESS_ACCEPT or packet is None:
            packet = p.eap(p.FAILURE, session.identifier)
        return [self.to_host(session, packet)]

    def dynamic(self, octets, port=4000, source=CLIENT):
        """A dynamic request of the client."""
        line = f"dyn {source} {port} {octets.hex() or '-'}"
        drop, packet = o.dynamic_drop(octets, source == CLIENT, WINDOW, CLOCK, CLIENT_SECRET,
                                      self.need_mark)
        replies = [y for at, kept, y in self.kept if (at, kept) == (port, packet)]
        reply = replies[-1] if replies else None
        if packet is not None and reply is not None:
            self.control(line, "again", [f"y {source} {port} {reply.hex()}"])
            return
        if drop:
            self.control(line, "drop " + drop)
            return
        rows = [session.row() for session in self.sessions.values()]
        cause, row = o.dynamic_answer(packet, NAS, rows)
        reply = self.reply(packet, cause)
        self.kept = (self.kept + [(port, packet, reply)])[-o.KEPT_REPLIES:]
        sent = self.carried_out(packet, row) if row else []
        sent.append(f"y {source} {port} {reply.hex()}")
        self.control(line, f"nak {cause}" if cause else "ack", sent)

    def reply(self, packet, cause):
        """The reply to a dynamic request (RFC 5176, 2.3)."""
        attributes = p.number(p.ERROR_CAUSE, cause) if cause else b""
        for value in o.values(p.attributes_of(packet), p.PROXY_STATE):
            attributes += p.attribute(p.PROXY_STATE, value)
        code = packet[0] + (2 if cause else 1)
        return p.answer(code, packet[1], packet[4:20], attributes, CLIENT_SECRET)

    def carried_out(self, packet, row):
        """What an acknowledged request does to its session."""
        session = self.sessions[row.host]
        if packet[0] == p.COA_REQUEST:
            vlan = o.vlan_of(p.attributes_of(packet))
            session.vlan = session.vlan if vlan is None else vlan
            return []
        del self.sessions[row.host]
        self.pending = {name: s for name, s in self.pending.items() if s is not session}
        return [self.to_host(session, p.eap(p.FAILURE, session.identifier))]

    def trace(self):
        """The octets of the trace."""
        return ("\n".join(self.lines) + "\n").encode()

    def output(self):
        """The octets that have to be printed."""
        return "".join(line + "\n" for line in self.wanted).encode()
