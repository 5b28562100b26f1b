#!/usr/bin/env python3
"""Measures `bnc serve` with and without a journal, in turn, and prints the medians of all rounds.

    journal.py BNC ROUNDS

Full speed: a network sends 100,000 messages of a channel, as fast as they are taken, to 1 session and to
8. It prints how many messages a second went to all of them, and how much processor time a delivery took
with all that was written of it. A start: 64,000 messages, 500 to each of 128 channels, are kept; bnc is
ended and started again until it prints `listening`, and until a client has logged in. A run in which a
session is cut has no figure. It uses free ports of the loopback range.
"""

import hashlib
import os
import pathlib
import selectors
import socket
import statistics
import subprocess
import sys
import tempfile
import time

sys.path.insert(0, str(pathlib.Path(__file__).resolve().parent.parent / "contrib"))
from small_network import SETTINGS, Client, Network, Wrong, reserve_port, wait_for  # noqa: E402

MESSAGES = 100_000
PIECE = 500  # messages that are sent at once
KEPT = 500  # messages of each channel at a start
TICKS = os.sysconf("SC_CLK_TCK")


class Bouncer:
    """bnc in a folder of its own, at a network of one channel."""

    def __init__(self, program, folder, kept, history):
        self.program, self.folder, self.network = program, pathlib.Path(folder), Network(["#c0"])
        self.reserved = reserve_port()
        self.port = self.reserved.getsockname()[1]
        text = SETTINGS.format(
            listen=f'"127.0.0.1:{self.port}"',
            top='kept = "kept"\n' if kept else "",
            address=f"127.0.0.1:{self.network.listener.getsockname()[1]}",
            digest=hashlib.sha256(b"abc").hexdigest(),
            join='"#c0"',
            more="",
        )
        self.settings = self.folder / "bnc.toml"
        self.settings.write_text(text.replace("history = 10000", f"history = {history}"))
        self.settings.chmod(0o600)

    def start(self):
        """Starts it, and answers the seconds until it listens."""
        began = time.monotonic()
        self.process = subprocess.Popen(
            [self.program, "serve", self.settings], stdout=subprocess.PIPE, stderr=subprocess.STDOUT
        )
        while b"listening" not in self.process.stdout.readline():
            if self.process.poll() is not None:
                raise Wrong("bnc has ended")
        return time.monotonic() - began

    def let_in(self):
        self.network.let_in()
        wait_for("#c0", lambda: "#c0" in self.network.joined, self.network.hear)
        self.network.ask()

    def end(self):
        self.process.kill()
        self.process.wait()
        self.process.stdout.close()

    def processor(self):
        """The seconds of processor that it took so far."""
        fields = pathlib.Path(f"/proc/{self.process.pid}/stat").read_text().rsplit(") ", 1)[1].split()
        return (int(fields[11]) + int(fields[12])) / TICKS

    def settle(self):
        """Waits until it does nothing any more: all is written."""
        last, still = self.processor(), 0
        while still < 5:
            time.sleep(0.1)
            now = self.processor()
            still, last = (still + 1, last) if now == last else (0, now)


class Reader:
    """A session that reads all that comes, without looking at it."""

    def __init__(self, port, name):
        self.socket = socket.create_connection(("127.0.0.1", port), 60)
        self.socket.sendall(f"PASS ann@{name}/net:bc\r\nNICK x\r\nUSER x 0 * :x\r\n".encode())
        held = b""
        while b" 366 " not in held:
            piece = self.socket.recv(65536)
            if not piece:
                raise Wrong(f"{name} is not let in: {held}")
            held += piece
        self.count = 0
        self.socket.setblocking(False)


def read_all(readers, count, network_done):
    """Reads until each session has this many lines, with all else left to another process."""
    with selectors.DefaultSelector() as selector:
        for reader in readers:
            selector.register(reader.socket, selectors.EVENT_READ, reader)
        left = len(readers)
        while left:
            for key, _ in selector.select(60) or [(None, None)]:
                if key is None:
                    raise Wrong("nothing comes")
                piece = key.data.socket.recv(1 << 20)
                if not piece:
                    raise Wrong("a session was cut")
                key.data.count += piece.count(b"\n")
                if key.data.count >= count:
                    selector.unregister(key.data.socket)
                    left -= 1
    os.waitpid(network_done, 0)


def send_all(network):
    """Sends the messages from a process of its own; answers its id."""
    text = b":bob!bob@host.example PRIVMSG #c0 :the quick brown fox jumps over the dog\r\n"
    child = os.fork()
    if child == 0:
        try:
            for _ in range(MESSAGES // PIECE):
                network.socket.sendall(text * PIECE)
        finally:
            os._exit(0)
    return child


def full_speed(program, kept, sessions):
    """Messages a second, and microseconds of processor a delivery."""
    with tempfile.TemporaryDirectory() as folder:
        bouncer = Bouncer(program, folder, kept, 500)
        bouncer.start()
        try:
            bouncer.let_in()
            readers = [Reader(bouncer.port, f"r{number}") for number in range(sessions)]
            bouncer.settle()
            before, began = bouncer.processor(), time.monotonic()
            read_all(readers, MESSAGES, send_all(bouncer.network))
            took = time.monotonic() - began
            bouncer.settle()
            used = bouncer.processor() - before
        finally:
            bouncer.end()
    return MESSAGES / took, used * 1e6 / (MESSAGES * sessions)


def start_over(program, kept):
    """Seconds until bnc listens, and until a client has logged in; bytes of the file."""
    with tempfile.TemporaryDirectory() as folder:
        bouncer = Bouncer(program, folder, kept, 500)
        bouncer.start()
        try:
            bouncer.let_in()
            for turn in range(KEPT):
                for channel in range(128):
                    text = "the quick brown fox jumps over the dog"
                    bouncer.network.put(f":bob!b@host.example PRIVMSG #chan{channel} :{text} {turn}")
                bouncer.network.flush()
            bouncer.network.ask()
            bouncer.settle()
            bouncer.end()
            file = bouncer.folder / "kept" / "ann@net"
            size = file.stat().st_size if kept else 0
            bouncer.network.leave("#c0")
            bouncer.network.socket.close()
            began = time.monotonic()
            listening = bouncer.start()
            bouncer.let_in()
            client = Client(bouncer.port, "phone", [])
            wait_for("burst", lambda: client.is_welcome)
            return listening, time.monotonic() - began, size
        finally:
            bouncer.end()


def tell(what, found):
    """Prints the medians without and with `kept`, and how they compare."""
    without, with_it = (statistics.median(values) for values in found)
    print(f"{what}: {without:.2f} without kept, {with_it:.2f} with it, {with_it / without:.2f} times")


def main(program, rounds):
    speeds = {sessions: ([], []) for sessions in (1, 8)}
    starts = ([], [])
    for _ in range(rounds):
        for kept in (False, True):
            for sessions, found in speeds.items():
                found[kept].append(full_speed(program, kept, sessions))
            starts[kept].append(start_over(program, kept))
    for sessions, found in speeds.items():
        with_words = f"at full speed to {sessions} session{'s' * (sessions > 1)}"
        tell(f"messages a second {with_words}", [[run[0] for run in runs] for runs in found])
        tell(f"us of processor a delivery {with_words}", [[run[1] for run in runs] for runs in found])
    tell("ms until listening, 64,000 messages", [[run[0] * 1e3 for run in runs] for runs in starts])
    tell("ms until a client is in", [[run[1] * 1e3 for run in runs] for runs in starts])
    print(f"bytes of the file: {starts[True][0][2]}")


if __name__ == "__main__":
    if len(sys.argv) != 3:
        sys.exit("usage: journal.py BNC ROUNDS")
    main(sys.argv[1], int(sys.argv[2]))
