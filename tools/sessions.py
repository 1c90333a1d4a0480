"""A log, or a trace and its output, as records; and the sessions that they show.

`Reader` takes lines and gives records with what was printed for each; `Table` follows the records
and keeps a row for each host. Nothing is decided here that the program decides: whether a host is
let in is what the program sent to it, and a data frame's own block has the last word. Other tools
import this; it is not run.
"""

from collections import OrderedDict, namedtuple

import names
import outcomes as o
import packets as p

BLOCKS = ("c", "d", "f", "r", "y")
LANES = ("@1", "@2", "@3")
RECORDS = ("frame", "radius", "dyn", "tick", "link", "control", "sync")

# What was sent for a record: "frame" to a port, "radius" by a socket, "dyn" to an address and port.
Sent = namedtuple("Sent", "kind place octets")


class Record:
    """A record and its block.

    `kind` is the word of its line, or `data` for a frame that is no control record, or None where
    only the block is known. `outcome` is the text behind the serial of a control record, or what
    was decided on a data record.
    """

    def __init__(self, at):
        self.at = at  # the second, as the settings' clock and the ticks before it say
        self.number = self.serial = self.kind = self.outcome = self.front = None
        self.line = ""
        self.port = self.socket = self.source = None
        self.octets = b""
        self.words = []
        self.sent = []
        self.session = self.vlan = None  # of a data frame that was forwarded

    @property
    def host(self):
        """The source address of a frame, or None."""
        return self.octets[6:12] if self.kind in ("frame", "data") else None

    @property
    def is_done(self):
        """Whether something was done for it, and it was no repeat."""
        return self.outcome in ("ok", "ack")


def octets_of(word):
    """The octets of a word of a trace."""
    return b"" if word == "-" else bytes.fromhex(word)


def record_of(words, at, line):
    """The record of a line."""
    record = Record(at)
    record.line = line
    if words[0] in LANES:
        words = words[1:]
    record.kind, record.words = words[0], words[1:]
    if record.kind == "frame":
        record.port, record.octets = int(words[1]), octets_of(words[2])
        if not o.is_control(record.octets):
            record.kind = "data"
    elif record.kind == "radius":
        record.socket = int(words[1]) if len(words) == 3 else 0
        record.octets = octets_of(words[-1])
    elif record.kind == "dyn":
        record.source, record.octets = (words[1], int(words[2])), octets_of(words[3])
    elif record.kind in ("link", "control"):
        record.port = int(words[1])
    return record


def put_block(record, words):
    """A line of the block of a record."""
    if words[0] == "c":
        record.number, record.serial = int(words[1]), int(words[3])
        record.outcome = " ".join(words[4:])
    elif words[0] == "d":
        record.number, record.front = int(words[1]), int(words[2])
        record.outcome = " ".join(words[3:5] if words[3] == "drop" else words[3:4])
        if words[3] == "forward":
            record.session, record.vlan = int(words[4]), int(words[5])
    elif words[0] == "f":
        record.sent.append(Sent("frame", int(words[1]), octets_of(words[2])))
    elif words[0] == "r":
        socket = int(words[1]) if len(words) == 3 else 0
        record.sent.append(Sent("radius", socket, octets_of(words[-1])))
    elif words[0] == "y":
        record.sent.append(Sent("dyn", (words[1], int(words[2])), octets_of(words[3])))


class Reader:
    """Takes lines, and gives each record once the next begins or `finish` is called.

    Lines of settings fill `settings`, a list of lists of words; `octets` counts what was read. A
    line that cannot be read, such as the last of a log that is cut, is counted in `unread`.
    """

    def __init__(self):
        self.settings, self.clock = [], 0
        self.octets = self.unread = 0
        self.begun, self.record = False, None

    def take(self, line):
        """One line, without its end; the record that it ends, or None."""
        self.octets += len(line) + 1
        words = line.split()
        shown = words[1:] if words[:1] == ["#"] else words
        try:
            if shown and shown[0] in BLOCKS and (words[0] == "#" or words[0] in BLOCKS):
                return self.block(shown)
            if not words or line[0] == "#":
                return None
            if not self.begun:
                self.setting(words)
                return None
            return self.begins(words, line)
        except (ValueError, IndexError, AttributeError):
            self.unread += 1
            return None

    def setting(self, words):
        """A line of the settings."""
        self.begun = words == ["begin"]
        self.settings.append(words)
        if words[0] == "clock":
            self.clock = int(words[1])

    def begins(self, words, line):
        """The line of a record."""
        if words == ["sync"]:
            return None
        if (words[1:2] if words[0] in LANES else words)[0] not in RECORDS:
            raise ValueError(words[0])
        if words[-1] == "tick":
            self.clock += 1
        done, self.record = self.record, record_of(words, self.clock, line)
        return done

    def block(self, words):
        """A line of a block: of the last record, or of one whose line is not known."""
        done = None
        if words[0] in ("c", "d") and (self.record is None or self.record.outcome is not None):
            done, self.record = self.record, Record(self.clock)
        put_block(self.record, words)
        return done

    def finish(self):
        """The last record, or None."""
        done, self.record = self.record, None
        return done

    def get(self, word, *default):
        """The words behind the setting that begins so, or what is taken where it is not given."""
        return next((s[1:] for s in self.settings if s[0] == word), list(default))

    def ports(self):
        """The configured ports: number to native VLAN and control."""
        return {int(s[1]): (int(s[2]), s[3]) for s in self.settings if s[0] == "port"}

    def vlans(self, word):
        """The `restricted` or `guest` VLANs of the ports."""
        return {int(s[1]): int(s[2]) for s in self.settings if s[0] == word}


def records(lines, reader=None):
    """The records of lines, in order."""
    reader = reader or Reader()
    for line in lines:
        done = reader.take(line.rstrip("\r\n"))
        if done is not None:
            yield done
    done = reader.finish()
    if done is not None:
        yield done


def joined(trace, output):
    """The lines of a trace with the lines of its output behind their records.

    Blank lines, comments and `sync` have no block.
    """
    blocks, begun = [], False
    for line in output:
        if line[:2] in ("c ", "d "):
            blocks.append([])
        if blocks:
            blocks[-1].append(line)
    blocks.reverse()
    for line in trace:
        words = line.split()
        if not words or line[0] == "#":
            continue
        yield line
        if begun and words != ["sync"] and blocks:
            yield from ("# " + block for block in blocks.pop())
        begun = begun or words == ["begin"]


def eap_of(octets):
    """The EAP packet of a frame, or None."""
    body = octets[18:]
    if octets[12:14] != p.PAE_TYPE or len(octets) < 22 or octets[15] != p.EAP_PACKET:
        return None
    return o.eap_packet(body[:int.from_bytes(octets[16:18], "big")])[0]


def eap_text(packet):
    """An EAP packet in words."""
    text = f"EAP {names.of_number(names.EAP_CODES, packet[0], 'code')} {packet[1]}"
    if packet[0] <= p.RESPONSE and len(packet) > 4:
        text += " " + names.of_number(names.EAP_TYPES, packet[4], "type")
        if packet[0] == p.RESPONSE and packet[4] == p.IDENTITY:
            text += f' "{names.printable(packet[5:])}"'
        if packet[0] == p.RESPONSE and packet[4] == 3:
            wished = [names.of_number(names.EAP_TYPES, kind, "type") for kind in packet[5:]]
            text += ", would like " + " or ".join(wished)
    return text


def frame_text(octets):
    """A frame in words."""
    packet = eap_of(octets)
    if packet is not None:
        return eap_text(packet)
    if octets[12:14] == p.PAE_TYPE and len(octets) >= 16:
        return names.of_number(names.EAPOL_TYPES, octets[15], "EAPOL type")
    return f"data of type {octets[12:14].hex('-').upper() or 'none'}, {len(octets)} octets"


def attributes_of(octets):
    """The attributes of a packet, or none where it is malformed."""
    packet = o.radius_packet(octets)
    return p.attributes_of(packet) if packet is not None else []


TOLD = (p.USER_NAME, p.CALLING_STATION_ID, p.ACCT_SESSION_ID, p.NAS_PORT, p.SESSION_TIMEOUT,
        p.TERMINATION_ACTION, p.TUNNEL_PRIVATE_GROUP_ID, p.ERROR_CAUSE, 18)


def radius_text(octets):
    """A RADIUS packet in words."""
    if len(octets) < 2:
        return f"{len(octets)} octets"
    text = f"{names.radius_code(octets[0])} {octets[1]}"
    found = attributes_of(octets)
    for kind, value in found:
        if kind in TOLD:
            text += " {}={}".format(*names.attribute(kind, value))
    packet = o.eap_packet(b"".join(o.values(found, p.EAP_MESSAGE)))[0]
    return text + (f", {eap_text(packet)}" if packet is not None else "")


class Row:
    """A host's session, as the records show it.

    `state` is one of "asked" (for its identity), "login" (between host and server), "authorised",
    "restricted", "held" and "ended". `history` has a second and a state with its VLAN for each
    change, for a timeline.
    """

    def __init__(self, port, host, at):
        self.port, self.host, self.began, self.at = port, host, at, at
        self.number = self.name = self.eap = self.vlan = self.ends = self.server = None
        self.state, self.cause = "asked", ""
        self.identifier = None  # of the last packet to the host
        self.again = False  # whether it is being authenticated again while it is let in
        self.octets = self.frames = 0
        self.history = [(at, "asked", None)]

    @property
    def is_open(self):
        """Whether its data frames pass."""
        return self.state in ("authorised", "restricted")

    def becomes(self, at, state, vlan=None, cause=""):
        """Its next state."""
        self.again = False
        if (state, vlan) != (self.state, self.vlan):
            self.history.append((at, state, vlan))
        self.state, self.vlan, self.at, self.cause = state, vlan, at, cause or self.cause

    def as_named(self):
        """What a dynamic request can name of it."""
        return o.Row(self.number or 0, self.name, self.port, self.host, self.is_open)


class Table:
    """The sessions of a switch, by the records that were given to it."""

    def __init__(self, reader):
        self.reader = reader
        self.rows = OrderedDict()  # by port and host
        self.pending = {}  # by socket and identifier of a request: port and host
        self.controls = {}  # of ports, where a record has set it
        self.ended = []
        self.at = 0
        self.mistaken = 0  # data blocks that say otherwise than the rows did

    def row(self, port, host, at):
        """The row of a host, made where there is none."""
        key = (port, host)
        if key not in self.rows:
            self.rows[key] = Row(port, host, at)
        return self.rows[key]

    def take(self, record):
        """One record; the row that it is about, or None."""
        self.at = record.at
        if record.kind == "data":
            return self.data(record)
        if not record.is_done:
            return None
        about = None
        if record.kind == "frame":
            about = self.frame(record)
        elif record.kind == "radius":
            about = self.answer(record)
        elif record.kind == "dyn":
            about = self.dynamic(record)
        elif record.kind == "link" and record.words[1] == "down":
            self.ends_all(record, "its link went down")
        elif record.kind == "control":
            if self.forced(record.port) != (record.words[1] != "auto"):
                self.ends_all(record, "the control of its port was set")
            self.controls[record.port] = record.words[1]
        for sent in record.sent:
            about = self.sent(record, sent) or about
        return about

    def end(self, key, at, cause):
        """A session ends."""
        row = self.rows.pop(key, None)
        self.pending = {name: k for name, k in self.pending.items() if k != key}
        if row is not None:
            row.becomes(at, "ended", None, cause)
            self.ended.append(row)
        return row

    def ends_all(self, record, cause):
        """All sessions of a port end."""
        for key in [key for key in self.rows if key[0] == record.port]:
            self.end(key, record.at, cause)

    def frame(self, record):
        """A control frame that was taken."""
        if self.forced(record.port):
            return None
        row = self.row(record.port, record.host, record.at)
        packet = eap_of(record.octets)
        if packet is None and record.octets[15] == p.LOGOFF:
            row.becomes(record.at, "asked", None, "it logged off")
        return row

    def forced(self, port):
        """Whether a port is forced, by its settings and the records behind them."""
        _, control = self.reader.ports().get(port, (0, "auto"))
        return self.controls.get(port, control) != "auto"

    def sent(self, record, sent):
        """What was sent for a record: the row that it is about."""
        if sent.kind == "frame":
            return self.to_host(record, sent)
        if sent.kind == "radius":
            return self.asked(record, sent)
        return None

    def to_host(self, record, sent):
        """A frame to a host."""
        host, packet = sent.octets[:6], eap_of(sent.octets)
        row = self.rows.get((sent.place, host))
        if row is None or packet is None:
            return row
        if packet[0] == p.REQUEST and len(packet) > 4 and packet[4] > 3:
            row.eap = names.of_number(names.EAP_TYPES, packet[4], "type")
        if packet[0] == p.FAILURE and record.kind != "radius":
            why = {"tick": "its time is over", "dyn": "the server asked for its end"}
            return self.end((sent.place, host), record.at, why.get(record.kind, "it was let go"))
        before, row.identifier = row.identifier, packet[1]
        if packet[0] == p.REQUEST and row.is_open and record.kind == "tick":
            if before is not None and (packet[1] - before) % 256 > 1:
                row.becomes(record.at, "asked", None, "it did not answer")
        if packet[0] == p.REQUEST and not row.is_open:
            identity = len(packet) > 4 and packet[4] == p.IDENTITY and record.kind != "radius"
            row.becomes(record.at, "asked" if identity else "login")
        elif packet[0] == p.REQUEST:
            row.again = True
        return row

    def asked(self, record, sent):
        """An Access-Request: who it is for."""
        found = attributes_of(sent.octets)
        station, port = o.first(found, p.CALLING_STATION_ID), o.first(found, p.NAS_PORT)
        if station is None or port is None:
            return None
        key = int.from_bytes(port, "big"), o.station_octets(station)
        row = self.row(*key, record.at)
        row.name = o.first(found, p.USER_NAME)
        number = o.first(found, p.ACCT_SESSION_ID)
        row.number = int(number, 16) if number else row.number
        self.pending[sent.place, sent.octets[1]] = key
        if row.is_open:
            row.again = True
        else:
            row.becomes(record.at, "login")
        return row

    def answer(self, record):
        """An answer of the server that was taken."""
        key = self.pending.pop((record.socket, record.octets[1]), None)
        row = self.rows.get(key)
        if row is None or record.octets[0] == p.ACCESS_CHALLENGE:
            return row
        found = attributes_of(record.octets)
        vlan = o.vlan_of(found)
        if record.octets[0] == p.ACCESS_ACCEPT and vlan not in ("partial", "bad"):
            name = o.first(found, p.USER_NAME)
            row.server = name if name != row.name else None
            native = self.reader.ports().get(row.port, (None,))[0]
            row.becomes(record.at, "authorised", vlan or native)
            timeout = o.first(found, p.SESSION_TIMEOUT)
            seconds = int.from_bytes(timeout, "big") if timeout and len(timeout) == 4 else 0
            row.ends = record.at + seconds if seconds else None
        else:
            vlan = self.reader.vlans("restricted").get(row.port)
            cause = "the server rejected it"
            if record.octets[0] == p.ACCESS_ACCEPT:
                cause = "the server's VLAN cannot be followed"
            row.becomes(record.at, "restricted" if vlan else "held", vlan, cause)
        return row

    def dynamic(self, record):
        """A dynamic request that was carried out."""
        found = attributes_of(record.octets)
        row = next((r for r in self.rows.values() if o.is_named(r.as_named(), found)), None)
        if row is None:
            return None
        if record.octets[0] == p.DISCONNECT_REQUEST:
            return self.end((row.port, row.host), record.at, "the server asked for its end")
        vlan = o.vlan_of(found)
        timeout = o.first(found, p.SESSION_TIMEOUT)
        if timeout is not None:
            row.ends = record.at + int.from_bytes(timeout, "big")
        if vlan is not None:
            row.becomes(record.at, row.state, vlan)
        return row

    def data(self, record):
        """A data frame: what the program decided stands, whatever was thought here."""
        row = self.rows.get((record.port, record.host))
        if record.outcome == "forward" and record.session:
            right = row is not None and row.is_open and row.vlan == record.vlan
            right = right and row.number == record.session
            row = self.row(record.port, record.host, record.at)
            row.number = record.session
            row.frames, row.octets = row.frames + 1, row.octets + len(record.octets)
            if not right:
                self.mistaken += 1
                row.becomes(record.at, "authorised", record.vlan)
        elif record.outcome == "drop unauthorised" and row is not None and row.is_open:
            self.mistaken += 1
            row.becomes(record.at, "held", None)
        return row
