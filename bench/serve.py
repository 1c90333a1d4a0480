#!/usr/bin/env python3
"""Measures `serve` over sockets on 127.0.0.1, without datagrams and with as many as it takes.

    serve.py [PROGRAM]      else crates/switch_run/out/switch_run

Prints the turns that a second has, the share of a processor, and the peak memory: of a server
that nobody talks to, and of one that is sent data frames of 60 octets without a pause, for two
numbers of turns, so that it shows whether memory grows with the log. Each run ends after a minute
at most.
"""

import os
import signal
import socket
import subprocess
import sys
import tempfile
import threading
import time

sys.path.append(os.path.join(os.path.dirname(os.path.abspath(__file__)), "..", "tools"))
import packets as p  # noqa: E402: it stands in the folder that was just named
import run_cases  # noqa: E402
import serve_cases  # noqa: E402

SETTINGS = b"server 127.0.0.1 1812 736563726574\nport 2 20 force-auth\nbegin\n"
FRAME = bytes([2]) + p.data_frame(bytes.fromhex("0200000000bb"), body=bytes(46))
SECONDS = 60
IDLE_TURNS = 2000
LOADED_TURNS = (20000, 200000)


def flood(port):
    """A process that sends data frames until it is told to stop; its number."""
    child = os.fork()
    if child == 0:
        own = socket.socket(socket.AF_INET, socket.SOCK_DGRAM)
        while True:
            try:
                own.sendto(FRAME, ("127.0.0.1", port))
            except OSError:
                time.sleep(0.001)
    return child


def measured(program, turns, loaded):
    """Seconds, those of a processor, peak memory in KB, octets of log, forwarded frames."""
    ports = serve_cases.free_ports()
    with tempfile.TemporaryFile() as log:
        words = [program, "serve", *map(str, ports), str(turns)]
        server = subprocess.Popen(words, stdin=subprocess.PIPE, stdout=log)
        server.stdin.write(SETTINGS)
        server.stdin.close()
        start = time.monotonic()
        sender = flood(ports[0]) if loaded else None
        watch = threading.Timer(SECONDS, server.kill)
        watch.start()
        _, status, used = os.wait4(server.pid, 0)
        wall = time.monotonic() - start
        watch.cancel()
        server.returncode = os.waitstatus_to_exitcode(status)
        if sender is not None:
            os.kill(sender, signal.SIGKILL)
            os.waitpid(sender, 0)
        if status:
            sys.exit(f"serve ended with status {server.returncode}")
        log.seek(0)
        forwarded = sum(b" forward 0 20 " in line for line in log)
        return wall, used.ru_utime + used.ru_stime, used.ru_maxrss, log.tell(), forwarded


def main():
    program = sys.argv[1] if len(sys.argv) > 1 else run_cases.PROGRAM
    for name, turns, loaded in [("idle", IDLE_TURNS, False)] + [
            ("under load", turns, True) for turns in LOADED_TURNS]:
        wall, used, memory, log, forwarded = measured(program, turns, loaded)
        print(f"{name}: {turns} turns, {turns / wall:.0f} a second, "
              f"{100 * used / wall:.2f} % of a processor, {used / turns * 1e6:.1f} us a turn, "
              f"{forwarded} frames, log of {log} octets, peak memory {memory / 1024:.1f} MB")


if __name__ == "__main__":
    main()
