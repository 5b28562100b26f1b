#!/usr/bin/env python3
"""Tries what bnc keeps and how it plays it back, by the tables [messages] and [playback].

    try_profile.py BNC

Requests by CTCP, notices of servers, and what is said to or by services are not played back, nor shown
in another client; private messages come in a batch for each person, also over a restart and a change of
our nick; without the tables all comes as ever. A login waits while channels are joined, and ends with a
stop, with its network and with itself.
The status is 1 if anything else happens.
"""

import pathlib
import re
import socket
import subprocess
import sys
import tempfile
import time

from small_network import PATIENCE, Network, Wrong, serving, wait_for

SOON = 40  # seconds that a login may take that need not wait; with `wait = 60` one that waits takes more
TABLES = """[messages]
ctcp = false
server_notices = false
to_self = false
never = ["nickserv"]
[playback]
private_batches = true
"""
HEARD = [
    ":eve!e@h PRIVMSG ann :\x01VERSION\x01",
    ":bob!b@h PRIVMSG ann :\x01ACTION waves\x01",
    ":irc.example.org NOTICE ann :split-mode",
    ":NickServ!s@services NOTICE ann :wrong password",
    ":eve!e@h PRIVMSG ann :yo",
    ":bob!b@h PRIVMSG #c :in the channel",
    ":bob!b@h PRIVMSG ann :hi",
]


class Raw:
    """A client that keeps each line."""

    def __init__(self, port, name, caps=()):
        self.socket = socket.create_connection(("127.0.0.1", port), PATIENCE)
        self.held, self.lines, self.pings = b"", [], 0
        request = "".join(f"CAP REQ :{cap}\r\n" for cap in caps)
        end = "CAP END\r\n" if caps else ""
        self.say(f"{request}PASS ann@{name}/net:bc\r\nNICK x\r\nUSER x 0 * x\r\n{end}".rstrip())

    def say(self, line):
        self.socket.sendall(line.encode() + b"\r\n")

    def ask(self, network):
        """The lines up to here, without what bnc itself answers."""
        self.pings += 1
        self.say(f"PING p{self.pings}")
        wait_for("PONG", lambda: any(f"p{self.pings}" in line for line in self.lines if " PONG " in line), lambda: self.read(network))
        return self.lines

    def read(self, network):
        network.hear()
        self.socket.settimeout(0.01)
        try:
            self.held += self.socket.recv(65536)
        except TimeoutError:
            pass
        *lines, self.held = self.held.split(b"\n")
        self.lines += [line.rstrip(b"\r").decode() for line in lines]

    def messages(self, network):
        """Its messages and batches, without the tags' times."""
        lines = [re.sub(r";?time=[^; ]*;?", "", line).replace("@ ", "") for line in self.ask(network)]
        return [line for line in lines if " PRIVMSG " in line or " NOTICE " in line or "BATCH" in line]


def begun(network):
    network.let_in()
    wait_for("JOIN", lambda: network.joined, network.hear)
    network.ask()


def hear(network):
    for line in HEARD:
        network.put(line)
    network.ask()


def short(lines):
    """The lines without the colon of a last parameter that is a word."""
    return [re.sub(r" :(?=[^ :]\S*$)", " ", line) for line in lines]


def compare(what, found, wanted):
    if short(found) != short(wanted):
        raise Wrong(f"{what}: {found}, wanted {wanted}")


def by_the_tables(program):
    network = Network(["#c"])
    with serving(program, network, ["#c"], TABLES) as port:
        begun(network)
        desk, other = Raw(port, "desk"), Raw(port, "other")
        desk.ask(network), other.ask(network)
        for line in ("PRIVMSG NickServ :IDENTIFY secret", "PRIVMSG ann :to myself", "PRIVMSG eve :\x01PING 1\x01", "PRIVMSG eve :hello"):
            desk.say(line)
        desk.ask(network)
        wait_for("what was said", lambda: "hello" in network.said, network.hear)
        compare("what the network got", network.said, ["IDENTIFY secret", "to myself", "\x01PING 1\x01", "hello"])
        compare("another client", other.messages(network), [":ann PRIVMSG eve :hello"])
        hear(network)
        compare("live", [line for line in other.messages(network) if "split-mode" in line or "VERSION" in line],
                [":eve!e@h PRIVMSG ann :\x01VERSION\x01", ":irc.example.org NOTICE ann :split-mode"])
        late = Raw(port, "late", ["batch", "server-time"])
        compare("a late client", late.messages(network), [
            ":bnc BATCH +h0 chathistory #c", "@batch=h0 :bob!b@h PRIVMSG #c :in the channel", ":bnc BATCH -h0",
            ":bnc BATCH +h1 chathistory eve", "@batch=h1 :ann PRIVMSG eve :hello", "@batch=h1 :eve!e@h PRIVMSG ann :yo", ":bnc BATCH -h1",
            ":bnc BATCH +h2 chathistory bob", "@batch=h2 :bob!b@h PRIVMSG ann :\x01ACTION waves\x01", "@batch=h2 :bob!b@h PRIVMSG ann :hi", ":bnc BATCH -h2",
        ])


def without_tables(program):
    network = Network(["#c"])
    with serving(program, network, ["#c"]) as port:
        begun(network)
        hear(network)
        late = Raw(port, "late", ["batch"])
        compare("a late client without tables", late.messages(network), [
            ":bnc BATCH +h0 chathistory #c", "@batch=h0 :bob!b@h PRIVMSG #c :in the channel", ":bnc BATCH -h0",
            *[line for line in HEARD if "#c" not in line],
        ])


def over_a_restart(program):
    """What a person said to another nick of ours stays with that person."""
    tables = TABLES.replace("to_self", "by_person = true\nto_self")
    with tempfile.TemporaryDirectory() as folder:
        top, file = f'kept = "{folder}/kept"\n', pathlib.Path(folder, "kept", "ann@net")

        def is_kept():
            log = subprocess.run([program, "log", file], capture_output=True, text=True, timeout=PATIENCE)
            return "before the restart" in log.stdout

        network = Network(["#c"])
        with serving(program, network, ["#c"], tables, top=top):
            begun(network)
            network.put(":ann!a@h NICK anna"), network.put(":bob!b@h PRIVMSG anna :before the restart")
            network.ask()
            wait_for("message in the file", is_kept, network.hear)
        network = Network(["#c"])
        with serving(program, network, ["#c"], tables, top=top) as port:
            begun(network)
            network.put(":bob!b@h PRIVMSG ann :after it")
            network.ask()
            late = Raw(port, "late", ["batch"])
            compare("a client after the restart", late.messages(network), [
                ":bnc BATCH +h1 chathistory bob", "@batch=h1 :bob!b@h PRIVMSG anna :before the restart",
                "@batch=h1 :bob!b@h PRIVMSG ann :after it", ":bnc BATCH -h1",
            ])


class Slow(Network):
    """A network that lets bnc join no channel before the trial says so, and refuses #banned."""

    def __init__(self, channels):
        super().__init__(channels)
        self.is_slow, self.asked = True, []

    def join(self, name):
        if self.is_slow:
            self.asked.append(name)
        else:
            super().join(name)


def registered(network, channels):
    """Lets bnc in, and waits until it has asked to join this many channels, and reads on after that."""
    network.let_in()
    wait_for("JOIN", lambda: len(network.asked) == channels, network.hear)
    network.ask()


class Idle:
    """A network that is away."""

    def hear(self):
        pass


def has(client, network, text, seconds=SOON):
    """Whether a client gets such a line within this many seconds."""
    began = time.monotonic()
    while time.monotonic() - began < seconds:
        client.read(network)
        if any(text in line for line in client.lines):
            return True
    return False


def expect(what, is_so):
    if not is_so:
        raise Wrong(what)


def a_login_waits(program):
    """Until each channel was joined or refused; not while the network is away, nor once they are there."""
    network = Slow(["#c", "#banned"])
    with serving(program, network, ["#c", "#banned"], "[playback]\nwait = 60\n") as port:
        registered(network, 2)
        early = Raw(port, "early")
        expect("a login was let in early", not has(early, network, " 001 ", 1.5))
        network.put(":ann!a@h JOIN #c * :Ann"), network.flush()
        expect("a login was let in before #banned", not has(early, network, " 001 ", 0.5))
        network.put(":s 474 ann #banned :no"), network.flush()
        expect("a login was held for too long", has(early, network, " 001 "))
        expect("no JOIN", has(early, network, "JOIN #c"))
        expect("a later login was held", has(Raw(port, "late"), network, " 001 "))
        network.socket.close()
        expect("held while the network is away", has(Raw(port, "away"), Idle(), " 001 "))


def a_wait_is_over(program):
    """After its time since the end of the greeting; or with the client, or at a stop."""
    network, told = Slow(["#c"]), ["ann@gone/net: session ended: gone"]
    with serving(program, network, ["#c"], "[playback]\nwait = 2\n", told=told) as port:
        registered(network, 1)
        early, gone = Raw(port, "early"), Raw(port, "gone")
        gone.read(network), gone.socket.close()
        expect("no login", has(early, network, " 001 "))
        # a greeting without an end would be over after 10 s
        took = time.monotonic() - network.greeted
        expect(f"let in after {took:.1f} s", 1.9 < took < 10)


def a_wait_ends_with_its_network(program):
    network = Slow(["#c"])
    with serving(program, network, ["#c"], "[playback]\nwait = 60\n") as port:
        registered(network, 1)
        early = Raw(port, "early")
        expect("a login was let in early", not has(early, network, " 001 ", 1))
        network.socket.close()
        expect("held although the network went", has(early, Idle(), " 001 "))


def main():
    if len(sys.argv) != 2:
        sys.exit(__doc__)
    trials = (by_the_tables, without_tables, over_a_restart, a_login_waits, a_wait_is_over, a_wait_ends_with_its_network)
    for one in trials:
        try:
            one(sys.argv[1])
        except (Wrong, OSError) as wrong:
            sys.exit(f"try_profile: {one.__name__}: {wrong}")
    print("try_profile: what is kept, and how it is played back, is as it has to be")


if __name__ == "__main__":
    main()
