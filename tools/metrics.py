"""Counters of a log, by the names of the standards' MIBs, as Prometheus' text files have them.

Those of a port are dot1xAuth.. of IEEE8021-PAE-MIB (IEEE Std 802.1X-2004, 10), those of the RADIUS
client radiusAuthClient.. (RFC 4668), those of dynamic requests radiusDynAuthServer.. (RFC 4673).
Only what a log shows is counted. Each drop by its printed name is a `switch_drops`. Other tools
import this; it is not run.
"""

from collections import Counter

import names
import packets as p
import sessions as s

# Room that a run has (docs/TRACE.md, statuses 6 and 8).
MOST_CONTROLS, MOST_OCTETS = 1048576, 67108864

HELP = {
    "dot1xAuthEapolFramesRx": "EAPOL frames that came in",
    "dot1xAuthEapolFramesTx": "EAPOL frames that were sent",
    "dot1xAuthEapolStartFramesRx": "EAPOL-Start frames that came in",
    "dot1xAuthEapolLogoffFramesRx": "EAPOL-Logoff frames that came in",
    "dot1xAuthEapolRespIdFramesRx": "Identity Responses that came in",
    "dot1xAuthEapolRespFramesRx": "other Responses that came in",
    "dot1xAuthEapolReqIdFramesTx": "Identity Requests that were sent",
    "dot1xAuthEapolReqFramesTx": "other Requests that were sent",
    "dot1xAuthInvalidEapolFramesRx": "EAPOL frames of a type that there is not",
    "dot1xAuthEapLengthErrorFramesRx": "EAPOL frames whose body is cut short",
    "dot1xAuthBackendAuthSuccesses": "Accepts that were taken",
    "dot1xAuthBackendAuthFails": "Rejects that were taken",
    "dot1xAuthBackendAccessChallenges": "Challenges that were taken",
    "radiusAuthClientAccessRequests": "Access-Requests, without those sent again",
    "radiusAuthClientAccessRetransmissions": "Access-Requests that were sent again",
    "radiusAuthClientAccessAccepts": "Access-Accepts that came in, taken or not",
    "radiusAuthClientAccessRejects": "Access-Rejects that came in, taken or not",
    "radiusAuthClientAccessChallenges": "Access-Challenges that came in, taken or not",
    "radiusAuthClientMalformedAccessResponses": "datagrams of the server that are no packets",
    "radiusAuthClientBadAuthenticators": "answers with a wrong authenticator or mark",
    "radiusAuthClientUnknownTypes": "answers of a code that there is not",
    "radiusAuthClientPacketsDropped": "answers that were dropped for another reason",
    "radiusDynAuthServerDisconRequests": "Disconnect-Requests, repeats with them",
    "radiusDynAuthServerDisconAcks": "Disconnect-ACKs",
    "radiusDynAuthServerDisconNaks": "Disconnect-NAKs",
    "radiusDynAuthServerDupDisconRequests": "Disconnect-Requests that came again",
    "radiusDynAuthServerCoARequests": "CoA-Requests, repeats with them",
    "radiusDynAuthServerCoAAcks": "CoA-ACKs",
    "radiusDynAuthServerCoANaks": "CoA-NAKs",
    "radiusDynAuthServerDupCoARequests": "CoA-Requests that came again",
    "switch_drops": "records that were dropped, by what they are and the printed name",
    "switch_data_forwarded": "data frames that were forwarded",
    "switch_control_records": "control records of the run",
    "switch_control_records_left": "control records that the run has room for",
    "switch_log_octets": "octets of the log",
    "switch_log_octets_left": "octets of log that `replay` still takes",
    "switch_sessions": "sessions, by their state",
}
GAUGES = {"switch_sessions", "switch_control_records_left", "switch_log_octets_left"}

ANSWERS = {p.ACCESS_ACCEPT: ("AccessAccepts", "AuthSuccesses"),
           p.ACCESS_REJECT: ("AccessRejects", "AuthFails"),
           p.ACCESS_CHALLENGE: ("AccessChallenges", "AccessChallenges")}
DROPPED = {"malformed": "MalformedAccessResponses", "bad-authenticator": "BadAuthenticators",
           "bad-message-auth": "BadAuthenticators", "bad-code": "UnknownTypes"}
DYNAMIC = {p.DISCONNECT_REQUEST: "Discon", p.COA_REQUEST: "CoA"}


class Counted:
    """The counters of the records that were given to it: by name and labels."""

    def __init__(self):
        self.count = Counter()
        self.open = {}  # by socket and identifier, the request that was sent last

    def add(self, name, **labels):
        """One more."""
        self.count[name, tuple(sorted(labels.items()))] += 1

    def take(self, record):
        """One record."""
        if record.serial is not None:
            self.add("switch_control_records")
        of = "data" if record.front is not None else record.kind
        if record.outcome and record.outcome.startswith("drop ") and of in names.DROPS:
            self.add("switch_drops", of=of, reason=record.outcome[5:])
        if record.outcome == "forward":
            self.add("switch_data_forwarded", port=record.port)
        if record.kind == "frame":
            self.frame(record)
        elif record.kind == "radius":
            self.answer(record)
        elif record.kind == "dyn":
            self.dynamic(record)
        for sent in record.sent:
            self.sent(sent)

    def frame(self, record):
        """A frame of EAPOL that came in."""
        port, octets = record.port, record.octets
        self.add("dot1xAuthEapolFramesRx", port=port)
        if record.outcome == "drop eapol-type":
            self.add("dot1xAuthInvalidEapolFramesRx", port=port)
        if record.outcome == "drop body-short":
            self.add("dot1xAuthEapLengthErrorFramesRx", port=port)
        if not record.is_done:
            return
        packet = s.eap_of(octets)
        if packet is not None:
            identity = "RespId" if packet[4] == p.IDENTITY else "Resp"
            self.add(f"dot1xAuthEapol{identity}FramesRx", port=port)
        elif octets[15] == p.START:
            self.add("dot1xAuthEapolStartFramesRx", port=port)
        elif octets[15] == p.LOGOFF:
            self.add("dot1xAuthEapolLogoffFramesRx", port=port)

    def sent(self, sent):
        """What was sent."""
        if sent.kind == "frame":
            self.add("dot1xAuthEapolFramesTx", port=sent.place)
            packet = s.eap_of(sent.octets)
            if packet is not None and packet[0] == p.REQUEST:
                identity = "ReqId" if packet[4:5] == bytes([p.IDENTITY]) else "Req"
                self.add(f"dot1xAuthEapol{identity}FramesTx", port=sent.place)
        elif sent.kind == "radius":
            at = sent.place, sent.octets[1]
            again = self.open.get(at) == sent.octets
            self.open[at] = sent.octets
            self.add("radiusAuthClientAccess" + ("Retransmissions" if again else "Requests"))

    def answer(self, record):
        """A datagram of the server."""
        name = DROPPED.get((record.outcome or "").removeprefix("drop "))
        if record.octets[:1] and record.octets[0] in ANSWERS and name != DROPPED["malformed"]:
            access, backend = ANSWERS[record.octets[0]]
            self.add("radiusAuthClient" + access)
            if record.is_done:
                self.add("dot1xAuthBackend" + backend)
        if not record.is_done:
            self.add("radiusAuthClient" + (name or "PacketsDropped"))

    def dynamic(self, record):
        """A dynamic request that was judged."""
        kind = DYNAMIC.get(record.octets[0]) if record.octets else None
        if kind is None or record.outcome is None or record.outcome.startswith("drop "):
            return
        self.add(f"radiusDynAuthServer{kind}Requests")
        if record.outcome == "again":
            self.add(f"radiusDynAuthServerDup{kind}Requests")
        else:
            what = "Acks" if record.outcome == "ack" else "Naks"
            self.add(f"radiusDynAuthServer{kind}{what}")

    def text(self, reader, table):
        """The counters and gauges as a text file of Prometheus."""
        count = Counter(self.count)
        controls = count["switch_control_records", ()]
        count["switch_control_records_left", ()] = MOST_CONTROLS - controls
        count["switch_log_octets", ()] = reader.octets
        count["switch_log_octets_left", ()] = max(0, MOST_OCTETS - reader.octets)
        for row in table.rows.values():
            count["switch_sessions", (("state", row.state),)] += 1
        out = []
        for name, about in HELP.items():
            lines = sorted((labels, n) for (at, labels), n in count.items() if at == name)
            out.append(f"# HELP {name} {about}")
            out.append(f"# TYPE {name} {'gauge' if name in GAUGES else 'counter'}")
            for labels, n in lines or [((), 0)]:
                inside = ",".join(f'{key}="{value}"' for key, value in labels)
                out.append(f"{name}{{{inside}}} {n}" if inside else f"{name} {n}")
        return "\n".join(out) + "\n"
