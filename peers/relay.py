#!/usr/bin/env python3
"""Carries RADIUS between `serve`, which stands on loopback, and servers and clients elsewhere.

    relay.py --server 192.0.2.20:1812                       Access-Requests and their answers
             [--listen 127.0.0.1:1812] [--sources 5010]     where `serve` sends to, its first port
    relay.py --dynamic 192.0.2.10:3799 --client 192.0.2.30=127.0.0.30
             [--serve 127.0.0.1:3799]                       dynamic requests, and their replies

Each of the four sockets of `serve` has a socket of its own here towards the server, so the same
identifiers do not meet. Each client comes to `serve` from a 127.0.0.x of its own, so that it keeps
its secret: the settings have `client 127.0.0.30 SECRET`. Datagrams of others go nowhere. It does
both where both are given, until it is interrupted.
"""

import argparse
import collections
import selectors
import signal
import socket
import sys

MOST = 8192
PLACES = 256  # clients' ports that are remembered
SOCKETS = 4


def place(text):
    """An address and port as `192.0.2.20:1812`."""
    address, _, port = text.rpartition(":")
    return address, int(port)


def bound(at):
    """A socket on an address and port."""
    own = socket.socket(socket.AF_INET, socket.SOCK_DGRAM)
    own.bind(at)
    own.setblocking(False)
    return own


def datagrams(own):
    """The datagrams that have come, with their senders."""
    for _ in range(64):
        try:
            yield own.recvfrom(MOST)
        except OSError:
            return


def send(own, octets, to):
    """Sends a datagram; one that cannot be sent is lost, as on any network."""
    try:
        own.sendto(octets, to)
    except OSError:
        pass


class Servers:
    """Access-Requests to a server, and its answers back to the socket that asked."""

    def __init__(self, select, listen, server, first):
        self.front, self.server, self.first = bound(listen), server, first
        self.behind = {}
        self.select = select
        select.register(self.front, selectors.EVENT_READ, self.asked)

    def asked(self, _):
        """Requests of `serve`."""
        for octets, sender in datagrams(self.front):
            if sender[0] == "127.0.0.1" and 0 <= sender[1] - self.first < SOCKETS:
                if sender not in self.behind:
                    own = self.behind[sender] = bound(("0.0.0.0", 0))
                    self.select.register(own, selectors.EVENT_READ,
                                         lambda own, to=sender: self.answered(own, to))
                send(self.behind[sender], octets, self.server)

    def answered(self, own, to):
        """Answers of the server."""
        for octets, sender in datagrams(own):
            if sender == self.server:
                send(self.front, octets, to)


class Clients:
    """Dynamic requests of clients, each from an address of its own, and the replies."""

    def __init__(self, select, listen, clients, serve):
        self.front, self.clients, self.serve = bound(listen), clients, serve
        self.behind = collections.OrderedDict()
        self.select = select
        select.register(self.front, selectors.EVENT_READ, self.asked)

    def asked(self, _):
        """Requests of clients."""
        for octets, sender in datagrams(self.front):
            own = self.clients.get(sender[0])
            if own is None:
                continue
            if sender not in self.behind:
                self.opened(sender, own)
            send(self.behind[sender], octets, self.serve)

    def opened(self, sender, own):
        """A socket for a client's address and port; the oldest is closed where there are many."""
        made = self.behind[sender] = bound((own, 0))
        self.select.register(made, selectors.EVENT_READ,
                             lambda made, to=sender: self.replied(made, to))
        if len(self.behind) > PLACES:
            _, old = self.behind.popitem(last=False)
            self.select.unregister(old)
            old.close()

    def replied(self, own, to):
        """Replies of `serve`."""
        for octets, sender in datagrams(own):
            if sender == self.serve:
                send(self.front, octets, to)


def words():
    """The words of the command."""
    about, _, more = __doc__.partition("\n\n")
    parser = argparse.ArgumentParser(description=about, epilog=more,
                                     formatter_class=argparse.RawDescriptionHelpFormatter)
    parser.add_argument("--server", type=place, help="the RADIUS server")
    parser.add_argument("--listen", type=place, default=place("127.0.0.1:1812"),
                        help="the `server` of the settings")
    parser.add_argument("--sources", type=int, default=5010, help="the second port of `serve`")
    parser.add_argument("--dynamic", type=place, help="where clients send their requests to")
    parser.add_argument("--client", action="append", default=[], help="IP=127.0.0.x")
    parser.add_argument("--serve", type=place, default=place("127.0.0.1:3799"),
                        help="the third port of `serve`")
    options = parser.parse_args()
    if options.server is None and options.dynamic is None:
        parser.error("nothing to carry: give --server or --dynamic")
    return options


def main():
    options = words()
    select = selectors.DefaultSelector()
    if options.server:
        Servers(select, options.listen, options.server, options.sources)
    if options.dynamic:
        clients = dict(client.split("=", 1) for client in options.client)
        Clients(select, options.dynamic, clients, options.serve)
    for number in (signal.SIGTERM, signal.SIGINT):
        signal.signal(number, lambda *_: sys.exit(0))
    print("ready", flush=True)
    while True:
        for key, _ in select.select():
            if key.fileobj in select.get_map():
                key.data(key.fileobj)


if __name__ == "__main__":
    try:
        main()
    except OSError as cannot:
        sys.exit(f"relay.py: {cannot}")
