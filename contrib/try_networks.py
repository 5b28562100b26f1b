#!/usr/bin/env python3
"""Tries what a network or a proxy may ask of bnc besides the plain registration.

    try_networks.py BNC

Lines at connect come before the channels, and no log shows them; a channel with a key is joined again
when its server has restarted; a client that was away is away again after a reconnect; a nick that
another one has is asked for again once that one leaves, unless a client chose one, and one that another
network of the user has once that network was removed or renamed; a channel has its key in the settings
under each name that the network takes for its own, also after lines at connect; further nicks, and
one with digits, are asked for if the network takes no other, and 437 counts as 433 with them alone; 16
lines at connect go at the network's pace, and none is kept; a proxy names its clients; refusals are
logged, one that repeats once; clients come in at two addresses; and, where the machine has IPv6, bnc
listens and dials at [::1]. The status is 1 if anything else happens.
"""

import re
import selectors
import socket
import string
import subprocess
import sys
import time

from small_network import PATIENCE, Client, Network, Wrong, reserve_port, serving, wait_for


class Asked(Network):
    """A network that keeps what it was sent, and lets nobody into a channel without its key."""

    def __init__(self, keys=(), host="127.0.0.1", channels=("#c", "#d")):
        super().__init__(channels, host=host)
        self.keys, self.lines = dict(keys), []
        for name, key in self.keys.items():
            self.channels[name].modes["k"] = key

    def take(self, line):
        self.lines.append((time.monotonic(), line))
        command, _, rest = line.partition(" ")
        if command == "AWAY":
            return self.put(f":s {306 if rest else 305} {self.nick} :so it is")
        if command != "JOIN":
            return super().take(line)
        names, _, keys = rest.partition(" ")
        keys = keys.split(",") if keys else []
        for place, name in enumerate(names.split(",")):
            key = keys[place] if place < len(keys) else None
            if self.keys.get(name) in (None, key):
                self.join(name)
            else:
                self.put(f":s 475 ann {name} :Cannot join channel (+k)")
        return None

    def time_of(self, start):
        """When the first such line came."""
        times = [at for at, line in self.lines if line.startswith(start)]
        return times[0] if times else None

    def come_in(self):
        """Lets bnc in, to its channel."""
        self.let_in()
        wait_for("JOIN", lambda: self.joined, self.hear)
        self.ask()

    def turn_away(self, number):
        """Takes bnc's next connection, and closes it once bnc has said who it is: what is unread at that
        would make a reset of it."""
        self.socket, _ = self.listener.accept()
        self.socket.settimeout(PATIENCE)
        heard = b""
        while not re.search(rb"^USER .*\n", heard, re.MULTILINE):
            piece = self.socket.recv(65536)
            if not piece:
                raise Wrong(f"bnc closed the connection after {heard}")
            heard += piece
        # InspIRCd's ERROR has a number that is the connection's own
        self.put(":s 465 ann :You are not welcome")
        self.put(f"ERROR :Closing Link: ({number}@h)")
        self.flush()
        self.socket.close()

    def restart(self):
        """The server restarts: nobody is on its channels, which have their modes again."""
        self.socket.close()
        for name in list(self.joined):
            self.leave(name)
        self.lines = []
        self.let_in()


class Folding(Asked):
    """A network with a channel `#a{b`, which it also takes for `#A[B` (CASEMAPPING=rfc1459)."""

    LETTERS = str.maketrans(string.ascii_uppercase + "[]\\~", string.ascii_lowercase + "{}|^")

    def __init__(self, key):
        super().__init__({"#a{b": key}, channels=["#a{b"])
        self.tokens = self.tokens.replace("CASEMAPPING=ascii", "CASEMAPPING=rfc1459")

    def take(self, line):
        command, space, rest = line.partition(" ")
        if command == "JOIN":
            names, *key = rest.split(" ")
            rest = " ".join([names.translate(self.LETTERS), *key])
        return super().take(command + space + rest)


class Member:
    """A connection to a crowd's server: its nick, and its user's name."""

    def __init__(self, connection):
        self.socket, self.held = connection, b""
        self.nick, self.user, self.is_open, self.is_in = None, None, False, False

    def put(self, line):
        self.socket.sendall(line.encode() + b"\r\n")


class Crowd:
    """A server for several connections. A nick is free a while after its connection has quit, and then
    the others hear of that, if they are to."""

    def __init__(self, while_=0.0, is_shown=False):
        self.while_, self.is_shown = while_, is_shown
        self.members, self.leaving, self.asked = [], {}, []
        self.quit_at, self.listener = None, socket.create_server(("127.0.0.1", 0))
        self.selector = selectors.DefaultSelector()
        self.selector.register(self.listener, selectors.EVENT_READ)

    def user_of(self, nick):
        """Who has this nick, by its user's name."""
        users = [member.user for member in self.members if member.nick == nick and member.is_in]
        return users[0] if users else None

    def hear(self):
        for nick in [nick for nick, at in self.leaving.items() if time.monotonic() >= at]:
            del self.leaving[nick]
            for member in self.members if self.is_shown else []:
                member.put(f":{nick}!a@h QUIT :gone")
        for key, _ in self.selector.select(0.02):
            if key.data is None:
                connection, _ = self.listener.accept()
                self.members.append(Member(connection))
                self.selector.register(connection, selectors.EVENT_READ, self.members[-1])
            else:
                self.read(key.data)

    def read(self, member):
        try:
            piece = member.socket.recv(65536)
        except OSError:
            piece = b""
        *lines, member.held = (member.held + piece).split(b"\n")
        for line in lines:
            self.take(member, line.rstrip(b"\r").decode())
        if not piece:
            self.selector.unregister(member.socket)
            member.socket.close()
            self.members.remove(member)
            if member.is_in:
                self.quit_at = time.monotonic()
                self.leaving[member.nick] = self.quit_at + self.while_

    def take(self, member, line):
        command, _, rest = line.partition(" ")
        if line.startswith("CAP LS"):
            member.put(":s CAP * LS :")
        elif line.startswith("CAP END"):
            member.is_open = True
        elif command == "USER":
            member.user = rest.split(" ")[0]
        elif command == "NICK":
            self.take_nick(member, rest)
        elif command == "PING":
            member.put(f":s PONG s {rest}")
        if member.is_open and member.nick and member.user and not member.is_in:
            member.is_in = True
            for text in ("001 {} :hi", "376 {} :end"):
                member.put(":s " + text.format(member.nick))

    def take_nick(self, member, nick):
        if member.is_in:
            self.asked.append((time.monotonic(), nick))
        if nick in self.leaving or any(one.nick == nick for one in self.members if one is not member):
            return member.put(f":s 433 {member.nick or '*'} {nick} :Nickname is already in use")
        if member.is_in:
            member.put(f":{member.nick}!a@h NICK :{nick}")
        member.nick = nick
        return None


class Haunted(Asked):
    """A network where another one has bnc's nick, until it leaves."""

    def __init__(self):
        super().__init__()
        self.ghosts, self.asked, self.is_in = {"ann"}, [], False

    def is_registered(self):
        return self.is_open and self.nick not in self.ghosts

    def let_in(self):
        self.is_in = False
        super().let_in()
        self.is_in = True

    def take(self, line):
        command, _, nick = line.partition(" ")
        if command != "NICK":
            return super().take(line)
        self.asked.append(nick)
        if nick in self.ghosts:
            return self.put(f":s 433 {self.nick} {nick} :Nickname is already in use")
        if self.is_in:
            self.put(f":{self.nick}!a@h NICK :{nick}")
            for name in self.joined:
                members = self.channels[name].members
                members[nick] = members.pop(self.nick)
        self.nick = nick
        return None

    def ghost_leaves(self):
        self.ghosts.clear()
        self.put(":ann!a@old QUIT :Ping timeout")
        self.flush()


class Choosy(Asked):
    """A network that answers a nick with a number, or takes it."""

    def __init__(self, number_for):
        super().__init__()
        self.number_for, self.asked, self.is_taken = number_for, [], False
        self.tokens += " NICKLEN=9"

    def is_registered(self):
        return self.is_open and self.is_taken

    def take(self, line):
        command, _, nick = line.partition(" ")
        if command != "NICK":
            return super().take(line)
        self.asked.append(nick)
        number = self.number_for(nick)
        self.is_taken = number is None
        if number:
            return self.put(f":s {number} * {nick} :not that one")
        self.nick = nick
        return None

    def accept(self):
        """Takes bnc's next connection."""
        self.socket, _ = self.listener.accept()
        self.held, self.waiting = b"", b""
        self.is_open, self.is_taken = False, False

    def refuse(self):
        """Takes a connection that bnc closes before it is let in."""
        self.accept()
        is_closed = False

        def hear():
            nonlocal is_closed
            try:
                self.hear(0.05)
            except (Wrong, OSError):
                is_closed = True

        wait_for("end of a registration", lambda: is_closed or self.is_registered(), hear)
        if not is_closed:
            raise Wrong(f"bnc was taken as {self.nick}")


def marked(*nicks):
    """These nicks as a registration asks for them."""
    return [nick + "_" * marks for nick in nicks for marks in range(4)]


def further_nicks(program):
    network, log = Choosy(lambda nick: None if nick == "cid" else 433), []
    told = [f"not registered as {nick}" for nick in ("ann", "bob")]
    with serving(program, network, ["#c"], 'nicks = ["bob", "cid"]\n', log, told=told):
        network.refuse()
        network.refuse()
        network.come_in()
    if network.asked != [*marked("ann", "bob"), "cid"]:
        raise Wrong(f"asked for {network.asked}")
    for nick in ("ann", "bob"):
        words = f"not registered as {nick}: nick in use; it said: not that one"
        if log[0].count(words) != 1:
            raise Wrong(f"the log does not have {words}: {log[0]}")


def a_nick_of_full_length(program):
    network = Choosy({"ann": 433, "ann_": 432}.get)
    with serving(program, network, ["#c"], 'nicks = ["bob"]\n'):
        network.refuse()
        network.come_in()
    if network.asked != ["ann", "ann_", "bob"]:
        raise Wrong(f"asked for {network.asked}")


def a_nick_with_digits(program):
    network = Choosy(lambda nick: None if nick[-2:].isdigit() else 433)
    with serving(program, network, ["#c"], "nicks = []\n"):
        for length in (1, 3):  # NICKLEN is not known at first
            network.refuse()
            network.come_in()
            if network.asked[:4] != marked("ann") or network.asked[4][:-2] != "ann"[:length]:
                raise Wrong(f"asked for {network.asked}")
            network.socket.close()
            network.leave("#c")
            network.asked = []


def a_nick_that_is_not_available(program):
    for more, asked in (("nicks = []\n", ["ann", "ann_"]), ("", ["ann"])):
        network = Choosy({"ann": 437}.get)
        with serving(program, network, ["#c"], more):
            if more:
                network.come_in()
            else:
                network.accept()
                wait_for("NICK", lambda: network.asked, lambda: network.hear(0.05))  # noqa: B023
                for _ in range(20):
                    network.hear(0.05)
        if network.asked != asked:
            raise Wrong(f"asked for {network.asked} with {more}")


def lines_at_a_pace(program):
    network = Asked()
    lines = [f"PRIVMSG NickServ :{place:02} ".ljust(128, "x") for place in range(16)]
    more = f"on_connect = {lines}\njoin_after = 1\n"
    with serving(program, network, ["#c"], more) as port:
        network.let_in()
        wait_for("JOIN", lambda: network.joined, network.hear)
        sent = [(at, line) for at, line in network.lines if line.startswith("PRIVMSG")]
        if [line for _, line in sent] != lines:
            raise Wrong(f"other lines: {sent}")
        # 1,500 bytes at once, and then 100 a second; what comes may be seen late, and never early
        if sent[-1][0] - network.greeted < 5 or network.time_of("JOIN") - network.greeted < 6:
            raise Wrong(f"lines or channels came too soon: {network.lines}")
        network.ask()
        client = Client(port, "pc", [])
        wait_for("channel", lambda: "#c" in client.channels, network.hear)
        client.say("PING :played")
        wait_for("PONG", lambda: client.pongs, network.hear)
        if client.messages:
            raise Wrong(f"lines at connect are kept: {client.messages}")


def lines_at_connect(program):
    network, log = Asked(), []
    more = 'on_connect = ["PRIVMSG NickServ :identify hunter2", "MODE ann +x"]\njoin_after = 1\n'
    with serving(program, network, ["#c"], more, log):
        for _ in range(2):
            network.let_in()
            wait_for("JOIN", lambda: network.joined, network.hear)
            lines = [network.time_of(start) for start in ("PRIVMSG", "MODE ann +x", "JOIN")]
            if None in lines or lines != sorted(lines) or lines[2] - network.greeted < 0.99:
                raise Wrong(f"lines and channels in another order: {network.lines}")
            network.socket.close()
            network.leave("#c")
            network.lines = []
    if "hunter2" in log[0]:
        raise Wrong(f"the log has a line of the settings: {log[0]}")


def a_key_over_a_restart(program):
    network = Asked({"#c": "secret", "#d": "other"})
    with serving(program, network, ["#c"], 'keys = { "#C" = "secret" }\n') as port:
        network.come_in()
        client = Client(port, "pc", [])
        wait_for("channel", lambda: "#c" in client.channels, network.hear)
        client.say("JOIN #d other")
        wait_for("JOIN of a client", lambda: "#d" in network.joined, network.hear)
        network.ask()
        network.restart()
        wait_for("both channels", lambda: network.joined == {"#c", "#d"}, network.hear)
        # the network names the key once, and then no more
        network.put(f":s 324 {network.nick} #d +k other")
        network.ask()
        for _ in range(3):
            network.restart()
            wait_for("both channels", lambda: network.joined == {"#c", "#d"}, network.hear)
            network.ask()


def away_again(program):
    network = Asked()
    with serving(program, network, ["#c"], "away = true\n") as port:
        network.come_in()
        client = Client(port, "pc", [])
        wait_for("channel", lambda: "#c" in client.channels, network.hear)
        for said, again in (("AWAY :gone fishing", "AWAY :gone fishing"), ("AWAY", None)):
            network.lines = []
            client.say(said)
            wait_for(said, lambda: network.time_of(said), network.hear)  # noqa: B023
            network.ask()
            network.restart()
            wait_for("JOIN", lambda: network.joined, network.hear)
            network.ask()
            if again:
                wait_for("AWAY", lambda: network.time_of(again), network.hear)  # noqa: B023
            elif network.time_of("AWAY"):
                raise Wrong(f"away again, though the client is back: {network.lines}")


def a_nick_regained(program):
    for chosen in (None, "bob"):
        network = Haunted()
        with serving(program, network, ["#c"], "nicks = []\n") as port:
            network.come_in()
            client = Client(port, "pc", [])
            wait_for("channel", lambda: "#c" in client.channels, network.hear)  # noqa: B023
            if chosen:
                client.say(f"NICK {chosen}")
                wait_for("NICK", lambda: network.nick == chosen, network.hear)  # noqa: B023
            network.ask()
            count = len(network.asked)
            network.ghost_leaves()
            network.ask()
            if not chosen:
                wait_for("the nick", lambda: network.nick == "ann", network.hear)  # noqa: B023
            network.ask()
            if network.asked[count:] != ([] if chosen else ["ann"]):
                raise Wrong(f"asked for {network.asked} though {chosen} was chosen")


SECOND = """nicks = []
[[user.network]]
name = "second"
address = "127.0.0.1:{port}"
nick = "ann"
user = "second"
realname = "Ann"
join = []
nicks = []
"""


def change(program, path, name, new):
    """Renames a network in the settings, or removes it, and has bnc read them again."""
    start = "[[user.network]]\n"
    with open(path, "r+", encoding="utf-8") as file:
        head, *tables = file.read().split(start)
        place = next(i for i, table in enumerate(tables) if f'name = "{name}"' in table)
        table = tables.pop(place)
        if new:
            tables.append(table.replace(f'name = "{name}"', f'name = "{new}"'))
        file.seek(0)
        file.truncate()
        file.write(start.join([head, *tables]))
    words = [program, "control", path, "reload"]
    given = lambda: subprocess.run(words, capture_output=True, timeout=PATIENCE).returncode == 0  # noqa: E731
    wait_for("reader of the FIFO", given)


def a_nick_of_one_that_leaves(program):
    for new, while_, is_shown in ((None, 0, False), (None, 1.5, False), (None, 0, True), ("other", 0, False)):
        crowd, path_of = Crowd(while_, is_shown), []
        second = SECOND.format(port=crowd.listener.getsockname()[1])
        with serving(program, crowd, [], second, path_of=path_of):
            wait_for("both", lambda: crowd.user_of("ann") and crowd.user_of("ann_"), crowd.hear)  # noqa: B023
            later = time.monotonic() + 6
            wait_for("a while", lambda: time.monotonic() > later, crowd.hear)  # noqa: B023
            if crowd.asked:
                raise Wrong(f"asked for a nick that the user's other network has: {crowd.asked}")
            change(program, path_of[0], "net" if crowd.user_of("ann") == "ann" else "second", new)
            wait_for("end of the first", lambda: crowd.quit_at, crowd.hear)  # noqa: B023
            # it is some 5 s; without what is tried here it would be a minute, which it may still be after a
            # rename, at a network that reads the new NICK before the old QUIT
            until = crowd.quit_at + (90 if new else 30)
            while not crowd.user_of("ann"):
                if time.monotonic() > until:
                    raise Wrong(f"it took too long to get a nick of one that left: {crowd.asked}")
                crowd.hear()


def a_key_by_the_mapping(program):
    network = Folding("secret")
    more = 'on_connect = ["MODE ann +x"]\njoin_after = 0\nkeys = { "#A{b" = "secret" }\n'
    with serving(program, network, ["#a[B"], more):
        for _ in range(2):
            network.let_in()
            wait_for("JOIN with the key", lambda: network.joined, network.hear)
            network.ask()
            network.socket.close()
            network.leave("#a{b")


def says(port, first, is_all=False):
    """What bnc answers one that begins so, and says no more if that is all."""
    with socket.create_connection(("127.0.0.1", port), PATIENCE) as one:
        one.sendall(first)
        if is_all:
            one.shutdown(socket.SHUT_WR)
        answer = b""
        while piece := one.recv(4096):
            answer += piece
    return answer


def a_proxy(program):
    network, log, reserved = Asked(), [], reserve_port()
    door = reserved.getsockname()[1]
    top = f'listen_proxy = "127.0.0.1:{door}"\n'
    words = ("192.0.2.7", "[2001:db8::7]", "no PROXY line", "192.0.2.9")
    with serving(program, network, ["#c"], log=log, top=top, told=words):
        network.come_in()
        for name, line in (
            ("one", "PROXY TCP4 192.0.2.7 198.51.100.1 40004 6668\r\n"),
            ("two", "PROXY TCP6 2001:db8::7 2001:db8::1 40004 6668\r\n"),
            ("three", "PROXY UNKNOWN\r\n"),
        ):
            client = Client(door, name, [], before=line)
            wait_for("channel", lambda: "#c" in client.channels, network.hear)  # noqa: B023
        # health checks, which are not logged
        for look in (b"", b"PROXY UNKNOWN\r\n", b"PROXY TCP4 192.0.2.8 192.0.2.1 1 2\r\n"):
            if says(door, look, is_all=True):
                raise Wrong(f"an answer to {look}")
        for first in (
            b"PASS ann@four/net:bc\r\n",
            b"PROXY TCP4 192.0.2.300 198.51.100.1 40004 6668\r\n",
            b"PROXY UNKNOWN " + b"x" * 100 + b"\r\n",
        ):
            if says(door, first):
                raise Wrong(f"an answer to {first}")
        time.sleep(1.5)  # refusals of one address have a line a second
        says(door, b"PROXY TCP4 192.0.2.9 192.0.2.1 1 2\r\nPASS ann/net:wrong\r\nNICK x\r\nUSER x 0 * x\r\n")
    if ": gone, or too late\n" in log[0] or "192.0.2.8" in log[0]:
        raise Wrong(f"a health check is logged: {log[0]}")


def refusals_told(program):
    network, log = Asked(), []
    told = ("You are not welcome", "repeated once", "a network that the user hasn't")
    with serving(program, network, ["#c"], log=log, told=told) as port:
        for number in (1, 2):
            network.turn_away(number)
        network.come_in()
        if b" 464 " not in says(port, b"PASS ann/other:bc\r\nNICK x\r\nUSER x 0 * x\r\n"):
            raise Wrong("no 464 for a network that the user hasn't")
    for words, count in (
        ("You are not welcome; then: Closing Link: (1@h)", 1), ("Closing Link", 1), ("repeated once", 1),
        ("a network that the user hasn't", 1),
    ):
        if log[0].count(words) != count:
            raise Wrong(f"the log does not have {words} {count} times: {log[0]}")


def two_addresses(program):
    network, reserved, log = Asked(), reserve_port(), []
    second = reserved.getsockname()[1]
    listen = f'["127.0.0.1:PORT", "127.0.0.1:{second}"]'
    with serving(program, network, ["#c"], log=log, listen=listen, told=[f"listening 127.0.0.1:{second}\n"]) as first:
        network.come_in()
        for port in (first, second):
            client = Client(port, f"pc{port}", [])
            wait_for("channel", lambda: "#c" in client.channels, network.hear)  # noqa: B023
    for port in (first, second):
        if f"listening 127.0.0.1:{port}\n" not in log[0]:
            raise Wrong(f"{port} is not printed: {log[0]}")


def over_ipv6(program):
    network = Asked(host="::1")
    with serving(program, network, ["#c"], listen='"[::1]:PORT"') as port:
        network.come_in()
        client = Client(port, "pc", [], host="::1")
        wait_for("channel", lambda: "#c" in client.channels, network.hear)


def has_ipv6():
    try:
        socket.create_server(("::1", 0), family=socket.AF_INET6).close()
    except OSError:
        return False
    return True


def main():
    if len(sys.argv) != 2:
        sys.exit(__doc__)
    tries = [
        lines_at_connect, lines_at_a_pace, a_key_over_a_restart, a_key_by_the_mapping, away_again,
        a_nick_regained, a_nick_of_one_that_leaves,
        further_nicks, a_nick_of_full_length, a_nick_with_digits, a_nick_that_is_not_available,
        a_proxy, refusals_told, two_addresses,
    ]
    if has_ipv6():
        tries.append(over_ipv6)
    else:
        print("try_networks: no IPv6 here, so [::1] was not tried")
    for one in tries:
        try:
            one(sys.argv[1])
        except (Wrong, OSError) as wrong:
            sys.exit(f"try_networks: {one.__name__}: {wrong}")
    print(f"try_networks: {len(tries)} tries as they have to be")


if __name__ == "__main__":
    main()
