#!/usr/bin/env python3
"""Clients that vanish, to try that `bnc serve` plays again what they had not read.

    try_vanished.py BNC

It plays an IRC network that says something, and phones at it: some send PING, some came through a proxy,
which names them in a PROXY line. All read for a while; some read no more then, while messages still come,
and their connection is reset, or their proxy closes it. Others say QUIT, or close it themselves. What
each gets when it comes again must be, in order and each once,

- for a phone that vanished and had sent PING: all that it had not read, and no more before that than what
  was said in the last seconds before it was heard;
- for one that left, and for one that vanished and never sent a PING: what was said since its session ended.

Then the same once more, and bnc is killed (SIGKILL) before they come again: the journal says the same.

It uses free ports of the loopback range, and a folder that it makes and removes. It prints `ok` and counts,
or what was wrong, with status 1; also if something has not come after 60 seconds.
"""

import hashlib
import pathlib
import re
import socket
import struct
import subprocess
import sys
import tempfile
import time

from small_network import PATIENCE, SETTINGS, Network, Wrong, marks_of, reserve_port, wait_for

SURE = 5.0  # seconds after which bnc takes what was written for received, once its client is heard
PROXY = b"PROXY TCP4 127.0.0.1 127.0.0.1 40000 6697\r\n"


class Phone:
    """A client that reads when it is told to."""

    def __init__(self, name, port, is_proxied=False):
        self.name, self.held, self.pings = name, b"", 0
        self.socket = socket.create_connection(("127.0.0.1", port), PATIENCE)
        hello = f"PASS ann@{name}/net:bc\r\nNICK x\r\nUSER x 0 * :x\r\n".encode()
        self.socket.sendall((PROXY if is_proxied else b"") + hello)
        self.read_to(rb" 422 ")

    def read_to(self, pattern):
        """Reads until this has come."""
        until = time.monotonic() + PATIENCE
        while not re.search(pattern, self.held):
            self.socket.settimeout(max(0.01, until - time.monotonic()))
            try:
                piece = self.socket.recv(65536)
            except TimeoutError:
                raise Wrong(f"{self.name} got no {pattern}, but {self.held[-200:]}") from None
            if not piece:
                raise Wrong(f"{self.name} was closed: {self.held[-200:]}")
            self.held += piece

    def read_messages(self, number):
        """Reads up to a message."""
        self.read_to(rf" :?message{number}\r\n".encode())

    def messages(self):
        return [int(number) for number in re.findall(rb" :?message(\d+)\r\n", self.held)]

    def ping(self):
        """Sends a PING, without reading its answer."""
        self.pings += 1
        self.socket.sendall(f"PING :{self.name}{self.pings}\r\n".encode())

    def pong(self):
        """What the answer to its last PING is like."""
        return rf"PONG .*{self.name}{self.pings}\r\n".encode()

    def ping_and_read(self):
        self.ping()
        self.read_to(self.pong())

    def is_heard(self):
        """Whether the answer to its last PING is there, which stays unread."""
        self.socket.settimeout(0.05)
        try:
            return re.search(self.pong(), self.socket.recv(65536, socket.MSG_PEEK)) is not None
        except TimeoutError:
            return False

    def reset(self):
        """Its connection is reset, as of a phone that came back under another address."""
        self.socket.setsockopt(socket.SOL_SOCKET, socket.SO_LINGER, struct.pack("ii", 1, 0))
        self.socket.close()

    def close(self):
        """Reads all that there is, and closes; of unread bytes the system would make a reset."""
        self.socket.settimeout(0.05)
        try:
            while piece := self.socket.recv(65536):
                self.held += piece
        except TimeoutError:
            pass
        self.socket.close()

    def quit(self):
        self.socket.sendall(b"QUIT :bye\r\n")
        self.socket.settimeout(PATIENCE)
        while piece := self.socket.recv(65536):
            self.held += piece
        self.socket.close()


# each with whether it comes through a proxy, whether it sends PING, whether it reads to its end, how it
# ends, and whether it has vanished
KINDS = {
    "reset": (False, True, False, Phone.reset, True),
    "proxied": (True, True, False, Phone.reset, True),
    "hung": (True, True, True, Phone.close, True),
    "mute": (False, False, False, Phone.reset, False),
    "closed": (False, True, True, Phone.close, False),
    "quit": (False, True, True, Phone.quit, False),
    "quitter": (True, True, True, Phone.quit, False),
}


class Trial:
    """bnc in a folder, its network, and the phones."""

    def __init__(self, program, folder):
        self.program, self.folder, self.network = program, pathlib.Path(folder), Network(["#c0"])
        self.ports = [reserve_port(), reserve_port()]
        self.port, self.proxy_port = (one.getsockname()[1] for one in self.ports)
        self.settings, self.log = self.folder / "bnc.toml", self.folder / "log"
        text = SETTINGS.format(
            listen=f'"127.0.0.1:{self.port}"',
            top=f'listen_proxy = "127.0.0.1:{self.proxy_port}"\nkept = "kept"\n',
            address=f"127.0.0.1:{self.network.listener.getsockname()[1]}",
            digest=hashlib.sha256(b"abc").hexdigest(),
            join='"#c0"',
            more="",
        )
        self.settings.write_text(text)
        self.settings.chmod(0o600)
        self.file = self.folder / "kept" / "ann@net"
        self.count, self.process, self.repeated = 0, None, []
        self.sessions = 0  # how many began since bnc was started

    def begin(self):
        """Starts bnc and lets it in."""
        self.sessions = 0
        with self.log.open("w") as log:
            self.process = subprocess.Popen([self.program, "serve", self.settings], stdout=log, stderr=log)
        self.network.let_in()
        wait_for("#c0", lambda: "#c0" in self.network.joined, self.network.hear)
        self.network.ask()
        wait_for("a port to log in at", lambda: "listening" in self.log.read_text())

    def kill(self):
        self.process.kill()
        self.process.wait(PATIENCE)

    def come(self, name):
        self.sessions += 1
        is_proxied = KINDS[name][0]
        return Phone(name, self.proxy_port if is_proxied else self.port, is_proxied)

    def say(self, messages):
        """Somebody says so many messages; answers the number of the last one."""
        for _ in range(messages):
            self.count += 1
            self.network.put(f":bob!b@h PRIVMSG #c0 :message{self.count}")
        self.network.ask()
        return self.count

    def rest(self, seconds):
        """Lets so much time go by, and hears bnc meanwhile."""
        until = time.monotonic() + seconds
        while (left := until - time.monotonic()) > 0:
            self.network.hear(left)

    def ends(self):
        return self.log.read_text().count("session ended: ")

    def is_kept(self, early, unread):
        """Whether the file has what each name had read when its session ended."""
        marks = marks_of(self.file)
        for name, (_, _, _, _, has_vanished) in KINDS.items():
            word, number = marks.get(name, ("", 0))
            # a session that goes on has SEEN, with what was written to it
            if word != "MARK" or not (early if has_vanished else unread) <= number <= unread:
                return False
        return True

    def leave_unread(self, late, phones):
        """Says what these phones do not read, while they are heard; answers what they read, and that.

        If that took so long that bnc may take it for received, they read it, and more is said.
        """
        while True:
            began = time.monotonic()
            unread = self.say(10)
            for phone in phones:
                phone.ping()
            for phone in phones:
                wait_for(f"answer to {phone.name}", phone.is_heard)
            if time.monotonic() - began < SURE:
                return late, unread
            for phone in phones:
                phone.read_messages(unread)
            late = unread

    def part(self):
        """The phones read, and end; answers the messages that they read for sure, early and late."""
        phones = {name: self.come(name) for name in KINDS}
        early = self.say(10)
        for phone in phones.values():
            phone.read_messages(early)
        for _ in range(2):
            for name, phone in phones.items():
                if KINDS[name][1]:
                    phone.ping_and_read()
            self.rest(SURE + 1)
        for name, phone in phones.items():
            if KINDS[name][1]:
                phone.ping_and_read()
        late = self.say(10)
        for phone in phones.values():
            phone.read_messages(late)
        deaf = [phone for name, phone in phones.items() if KINDS[name][1] and not KINDS[name][2]]
        late, unread = self.leave_unread(late, deaf)
        for name, phone in phones.items():
            if KINDS[name][2]:
                phone.read_messages(unread)
                phone.ping_and_read()
        for name, phone in phones.items():
            KINDS[name][3](phone)
        wait_for("end of each session", lambda: self.ends() == self.sessions)
        return early, late, unread

    def meet(self, early, late, unread):
        """They come again, and get what they have to."""
        last = self.say(10)
        for name in KINDS:
            phone, has_vanished = self.come(name), KINDS[name][4]
            phone.read_messages(last)
            phone.quit()
            got = phone.messages()
            if has_vanished:
                first, read = got[0] if got else 0, unread if KINDS[name][2] else late
                if not early < first <= read + 1 or got != list(range(first, last + 1)):
                    raise Wrong(f"{name} got {got}, and not all from {read + 1} on")
                self.repeated.append(unread + 1 - first)
            elif got != list(range(unread + 1, last + 1)):
                raise Wrong(f"{name} got {got}, and not what was said from {unread + 1} on")

    def round(self, is_killed):
        early, late, unread = self.part()
        if is_killed:
            kept = lambda: self.is_kept(early, unread)  # noqa: E731
            wait_for("marks in the file", kept, lambda: self.network.hear(0.05))
            self.kill()
            self.network.socket.close()
            self.network.leave("#c0")
            self.begin()
        self.meet(early, late, unread)


def main(program):
    with tempfile.TemporaryDirectory() as folder:
        trial = Trial(program, folder)
        try:
            trial.begin()
            trial.round(False)
            trial.round(True)
        except (Wrong, OSError) as wrong:
            print(f"{wrong}\n{trial.log.read_text()[-1500:]}")
            return 1
        finally:
            if trial.process:
                trial.kill()
    most = max(trial.repeated)
    print(f"try_vanished: {2 * len(KINDS)} sessions, {trial.count} messages, at most {most} played again: ok")
    return 0


if __name__ == "__main__":
    if len(sys.argv) != 2:
        sys.exit("usage: try_vanished.py BNC")
    sys.exit(main(sys.argv[1]))
