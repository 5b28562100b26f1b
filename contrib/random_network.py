"""A network of four channels and twelve persons, on which anything happens, for try_random.py."""

import collections
import socket

from small_network import PATIENCE, Network, Wrong, change_modes


class Past:
    """The messages that came to one name of a network, and what each client name got of them."""

    def __init__(self):
        self.sent = []  # what bnc has taken for sure
        self.since = []  # what it was sent since it had taken all
        self.unsure = []  # lists of messages, of each of which it may have taken the first ones
        self.got, self.own = collections.defaultdict(list), collections.defaultdict(set)
        self.again = collections.defaultdict(set)  # what a name may get again, whose client vanished
        self.channels = set()  # those to be joined when this name is served again

    def take(self):
        """Bnc has taken all that it was sent."""
        self.sent += self.since
        self.since = []

    def cut(self):
        """The connection ended while bnc was sent something."""
        if self.since:
            self.unsure.append(self.since)
        self.since = []

    def compare(self):
        """Each client name must have got every message once, but for its own.

        What a client had got or said that then vanished, its name may have got more often.
        """
        counts = {name: collections.Counter(got) for name, got in self.got.items()}
        everything = set(self.sent)
        for group in self.unsure:
            taken = [message for message in group if any(count[message] for count in counts.values())]
            if taken != group[: len(taken)]:
                raise Wrong(f"of {group} only {taken} came")
            everything.update(taken)
        for name, count in counts.items():
            expected = everything - self.own[name]
            may_repeat = self.again[name]
            wrong = {message: count[message] for message in expected if count[message] != 1}
            wrong |= {message: count[message] for message in set(count) - expected}
            wrong = {m: n for m, n in wrong.items() if m not in may_repeat or n == 0 and m in expected}
            if wrong:
                raise Wrong(f"{name} got so often: {wrong}")


class PastNetwork(Network):
    """A network that knows what bnc has taken for sure."""

    def __init__(self, channels):
        super().__init__(channels)
        self.past = None  # where the messages go that bnc is sent
        self.touched = set()  # the channels that we came to or left since bnc had taken all

    @property
    def port(self):
        return self.listener.getsockname()[1]

    def move(self):
        """Listens at another port; answers the old socket."""
        old, self.listener = self.listener, socket.create_server(("127.0.0.1", 0))
        self.listener.settimeout(PATIENCE)
        return old

    def is_sure(self):
        """Whether bnc has taken all for sure."""
        return not self.past.since and not self.touched

    def take_all(self):
        """Bnc has taken all that it was sent."""
        self.touched.clear()
        self.past.take()

    def join(self, name):
        self.touched.add(name)
        super().join(name)

    def leave(self, name):
        self.touched.add(name)
        super().leave(name)

    def ask(self):
        super().ask()
        self.take_all()

    def forget(self):
        """We are on no channel any more; answers those that bnc has to join again."""
        was = set(self.joined)
        sure = was - self.touched
        for name in was:
            self.leave(name)
        self.past.cut()
        self.touched.clear()
        return sure

    def part(self, text):
        """Bnc closes the connection, with this QUIT if it had taken all that it was sent."""
        is_sure, end = self.is_sure(), b""
        self.socket.settimeout(PATIENCE)
        try:
            while piece := self.socket.recv(65536):
                end = (end + piece)[-400:]
        except ConnectionError:
            pass
        self.socket.close()
        if is_sure and not end.endswith(f"QUIT :{text}\r\n".encode()):
            raise Wrong(f"the network got {end}, and no QUIT :{text}")
        return self.forget()


class RandomNetwork(PastNetwork):
    """A network of four channels and twelve persons, on which anything happens."""

    def __init__(self, rng):
        super().__init__([f"#c{number}" for number in range(4)])
        self.rng, self.fresh, self.count = rng, 0, 0
        self.persons = [f"p{number}" for number in range(12)]
        for person in self.persons:
            for channel in self.channels.values():
                if rng.random() < 0.5:
                    channel.members[person] = {letter for letter in "ov" if rng.random() < 0.3}

    def flush(self):
        """Sends what waits, in pieces cut anywhere."""
        while self.waiting:
            size = self.rng.choice([1, 3, 10, 50, 400, 5000])
            self.socket.sendall(self.waiting[:size])
            self.waiting = self.waiting[size:]

    def in_any_order(self, words):
        return self.rng.sample(words, len(words))

    def is_seen(self, person):
        return any(person in self.channels[name].members for name in self.joined)

    def rename(self, old, new):
        for channel in self.channels.values():
            if old in channel.members:
                channel.members[new] = channel.members.pop(old)

    def happen(self):
        """Something that happens on the network; bnc gets what it can see of it."""
        name, person = self.rng.choice(list(self.channels)), self.rng.choice(self.persons)
        channel, is_on = self.channels[name], name in self.joined
        tell = self.put if is_on else lambda line: None
        kind = self.rng.choice(
            ["come"] * 6 + ["go"] * 4 + ["kick", "quit", "part", "kicked", "join", "ours"]
            + ["nick"] * 4 + ["rank"] * 8 + ["mode"] * 4 + ["topic"] * 2 + ["message"] * 7
        )
        if kind == "come" and person not in channel.members:
            channel.members[person] = set()
            tell(f":{person}!u@h JOIN {name} acc{person} :Real {person}")
        elif kind in ("go", "kick") and person in channel.members:
            del channel.members[person]
            tell(f":{person}!u@h PART {name} :bye" if kind == "go" else f":s KICK {name} {person} :out")
        elif kind == "quit":
            if self.is_seen(person):
                self.put(f":{person}!u@h QUIT :gone")
            for other in self.channels.values():
                other.members.pop(person, None)
        elif kind in ("nick", "ours"):
            old = person if kind == "nick" else self.nick
            self.fresh += 1
            new = f"{old[:3]}x{self.fresh}"
            if kind == "ours" or self.is_seen(person):
                self.put(f":{old}!u@h NICK :{new}")
            self.rename(old, new)
            if kind == "ours":
                self.nick = new
            else:
                self.persons[self.persons.index(old)] = new
        elif kind == "rank" and channel.members:
            self.change_rank(channel, tell, name)
        elif kind == "mode":
            self.change_mode(channel, tell, name)
        elif kind == "topic":
            channel.topic = self.rng.choice([None, f"topic {self.rng.random()}"])
            tell(f":{person}!u@h TOPIC {name} :{channel.topic or ''}")
        elif kind == "join":
            self.join(name)
        elif kind in ("part", "kicked") and is_on:
            self.leave(name)
            self.put(f":{self.nick}!a@h PART {name}" if kind == "part" else f":s KICK {name} {self.nick} :you")
        elif kind == "message" and is_on:
            message = self.next_message()
            self.past.since.append(message)
            self.put(f":{person}!u@h PRIVMSG {self.rng.choice([name, self.nick])} :{message}")
        self.flush()

    def change_rank(self, channel, tell, name):
        nick, letter = self.rng.choice(list(channel.members)), self.rng.choice("ov")
        sign = "-" if letter in channel.members[nick] else "+"
        change_modes(channel, sign + letter, [nick])
        tell(f":s MODE {name} {sign}{letter} {nick}")

    def change_mode(self, channel, tell, name):
        letter = self.rng.choice("imkl")
        sign = "-" if letter in channel.modes else "+"
        param = channel.modes.get(letter) or str(self.rng.randint(1, 99))
        params = [param] if letter == "k" or letter + sign == "l+" else []
        change_modes(channel, sign + letter, params)
        tell(" ".join([f":s MODE {name} {sign}{letter}"] + params))

    def next_message(self):
        self.count += 1
        return f"message{self.count}"

    def cut(self):
        """Loses the connection in mid line."""
        self.socket.sendall(b":s PRIVMSG #c0 :this line is lo")
        self.socket.close()
