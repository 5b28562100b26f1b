#!/usr/bin/env python3
"""A network and clients at random, to try `bnc serve` from outside.

    try_random.py BNC SEED ROUNDS

It plays an IRC network of four channels and twelve persons to BNC, in pieces cut anywhere, and up to
eight clients that come and go with capabilities of their own. In between the connection is lost in mid
line; the settings rename the network, move it to another port, and add and remove a second one, and a
word by the FIFO puts them in force; a word stops BNC, which is started again. That happens at any
moment: while BNC is still sent lines, and while a client logs in.

Clients that have sent a PING vanish too: their connection is reset.

After each round the nick, channels, topics, modes and members of every client, as its lines tell them,
are compared with the network's own. Who has to go is told why, and nobody else is. At the end each
client name must have got every message of each name of a network exactly once, and the network what the
clients said. What a client had got or said before it vanished, its name may get again. Only of messages that BNC may not have read before a connection ended the last ones may be
missing, for all names alike. The same seed gives the same lines.

It uses free ports of the loopback range, and a folder that it makes and removes. It prints `ok` and
counts, or what was wrong, with status 1; also if something has not come after 60 seconds.
"""

import collections
import os
import random
import re
import sys
import tempfile

from bouncer import Bouncer
from random_network import Past, PastNetwork, RandomNetwork
from small_network import CAPABILITIES, PATIENCE, Client, Wrong, wait_for

JOIN = {"#c0", "#c1"}
LATE = ["464 "]  # the answer that a login may get at a reload


class Trial:
    """The networks, the clients, and what each client name has got."""

    def __init__(self, bnc, seed):
        self.bnc, self.rng = bnc, random.Random(seed)
        self.network, self.side = RandomNetwork(self.rng), PastNetwork(["#s"])
        self.pasts = {name: Past() for name in ("net", "knot", "side")}
        self.name, self.has_side = "net", False
        self.network.past, self.side.past = self.pasts["net"], self.pasts["side"]
        self.clients, self.side_client, self.marks = {}, None, 0
        self.said, self.done = [], collections.Counter()

    def begin(self):
        self.write_settings()
        self.bnc.start()
        self.let_in(JOIN)

    def write_settings(self):
        networks = [(self.name, self.network.port, sorted(JOIN))]
        if self.has_side:
            networks.append(("side", self.side.port, ["#s"]))
        self.bnc.write_settings(self.rng.sample(networks, len(networks)))

    def let_in(self, names):
        """Lets bnc in, waits until it is on these channels, and has taken what let it in."""
        self.network.let_in()
        wait_for(f"{names}", lambda: names <= self.network.joined, self.network.hear)
        self.network.ask()

    def let_in_side(self):
        """Lets bnc in at the second network, where a client attaches."""
        self.side.let_in()
        wait_for("#s", lambda: self.side.joined, self.side.hear)
        self.side.ask()
        self.side_client = Client(self.bnc.port, f"s{self.rng.randint(0, 1)}", [], network="side")
        wait_for("burst of the second network", lambda: self.side_client.is_welcome, self.side.hear)

    def mark(self, network, clients):
        """Waits until these clients have heard all of a network."""
        self.marks += 1
        mark = f"mark{self.marks}"
        network.hear()
        network.put(f":s PRIVMSG {network.nick} :{mark}")
        network.flush()
        for client in clients:
            wait_for(f"{mark} for {client.name}: {client.wrong}", lambda: mark in client.marks)
        if clients:
            network.take_all()

    def settle(self):
        """Waits until every client has heard all, and compares them with the network."""
        self.mark(self.network, list(self.clients.values()))
        for client in self.clients.values():
            client.compare(self.network)
        if self.has_side:
            self.mark(self.side, [self.side_client])
            self.side_client.compare(self.side)

    def new_client(self):
        """A client with a free name, if there is room for one, that logs in."""
        name = f"n{self.rng.randint(0, 9)}"
        if name in self.clients or len(self.clients) == 8:
            return None
        caps = [cap for cap in CAPABILITIES if self.rng.random() < 0.5]
        return Client(self.bnc.port, name, caps, network=self.name)

    def come(self):
        client = self.new_client()
        if client:
            self.clients[client.name] = client
            for _ in range(self.rng.randint(0, 20)):
                self.network.happen()
            wait_for(f"burst for {client.name}", lambda: client.is_welcome, self.network.hear)

    def wait_for_end(self, client):
        """Waits until a client is closed."""
        if not client.is_closed.wait(PATIENCE):
            raise Wrong(f"{client.name} is not closed")

    def go(self, name):
        client = self.clients.pop(name)
        client.say("QUIT :bye")
        self.wait_for_end(client)
        self.network.past.got[name] += client.messages

    def vanish(self, name):
        """A client that has sent a PING vanishes: nothing is lost, and some is sent again."""
        client, past = self.clients.pop(name), self.network.past
        # the line of another session that ended just before may be written only now
        its = (name, self.name, client.socket.getsockname()[1])
        client.say("PING :here")
        wait_for(f"PONG for {name}", lambda: client.pongs, self.network.hear)
        client.reset()
        wait_for(f"end of {name}", lambda: self.bnc.has_ended(*its), self.network.hear)
        past.again[name].update(client.messages, past.own[name])
        past.got[name] += client.messages
        self.done["vanished"] += 1

    def end(self, past, clients, text):
        """These clients hear why they have to go."""
        for client in clients:
            self.wait_for_end(client)
            if client.wrong != f"ERROR :{text}":
                raise Wrong(f"{client.name} was not told {text}, but {client.wrong}, {list(client.last)}")
            past.got[client.name] += client.messages

    def meet(self, late, text):
        """One that logged in meanwhile is served, or has heard why not; with a text, it has to go."""
        if text:
            self.wait_for_end(late)
        else:
            is_answered = lambda: late.is_closed.is_set() or late.is_welcome  # noqa: E731
            wait_for(f"answer to {late.name}", is_answered, self.network.hear)
        if not late.is_closed.is_set():
            self.clients[late.name] = late
            return
        told = late.wrong or ""
        expected = ([f"ERROR :{text}"] if text else []) + LATE
        is_unheard = text == "bnc stops" and not late.last  # it was never accepted
        if not is_unheard and not any(told.startswith(start) for start in expected):
            raise Wrong(f"{late.name} logged in meanwhile, and was told {told}, {list(late.last)}")
        self.done["late ones"] += 1
        self.network.past.got[late.name] += late.messages

    def say(self):
        name, message = self.rng.choice(list(self.clients)), self.network.next_message()
        self.said.append(message)
        self.network.past.sent.append(message)
        self.network.past.own[name].add(message)
        self.clients[name].say(f"PRIVMSG #c0 :{message}")
        wait_for(f"{message} upstream", lambda: message in self.network.said, self.network.hear)

    def say_aside(self):
        """Somebody says something on the second network."""
        message = self.network.next_message()
        self.side.past.since.append(message)
        self.side.put(f":p!u@h PRIVMSG #s :{message}")
        self.side.flush()

    def lose(self):
        self.settle()
        self.network.ask()
        self.network.cut()
        self.let_in(self.network.forget() | JOIN)
        self.done["losses"] += 1

    def unsettle(self):
        """A moment at which anything may be under way; answers a client that logs in."""
        late = self.new_client() if self.rng.random() < 0.4 else None
        for _ in range(self.rng.randint(0, 20)):
            self.network.happen()
        if self.rng.random() < 0.5:
            self.network.ask()
        return late

    def leave_side(self, text):
        """The second network is served no more."""
        self.side.part(text)
        self.end(self.side.past, [self.side_client], text)
        self.has_side, self.side_client = False, None

    def reload(self, kinds):
        """Puts settings with these changes in force."""
        late, has_side = self.unsettle(), self.has_side
        name, old = self.name, None
        if "rename" in kinds:
            self.name = "knot" if name == "net" else "net"
        if "move" in kinds:
            old = self.network.move()
        if "side" in kinds:
            self.has_side = not has_side
        self.write_settings()
        self.bnc.order("reload")
        text = "removed" if "rename" in kinds else None
        if "side" in kinds and has_side:
            self.leave_side("removed")
        if "rename" in kinds or "move" in kinds:
            channels = self.network.part(text or "settings changed")
        if text:
            self.leave(text, late, channels)
            late, channels = None, self.network.past.channels
        if old:
            old.close()
        if "rename" in kinds or "move" in kinds:
            self.let_in(channels | JOIN)
        if late:
            self.meet(late, None)
        if "side" in kinds and not has_side:
            self.let_in_side()
        self.bnc.wait_for_reload()
        self.done["reloads"] += 1

    def leave(self, text, late, channels):
        """All clients have to go; the network's name may be another afterwards."""
        past = self.network.past
        self.end(past, self.clients.values(), text)
        self.clients = {}
        if late:
            self.meet(late, text)
        past.channels = channels
        self.network.past = self.pasts[self.name]

    def stop(self):
        """Stops bnc, and starts it again."""
        late = self.unsettle()
        self.bnc.order("stop")
        channels = self.network.part("bnc stops")
        has_side = self.has_side
        if has_side:
            self.leave_side("bnc stops")
        self.bnc.wait_for_end()
        self.leave("bnc stops", late, channels)
        self.has_side = has_side
        self.bnc.start()
        self.let_in(channels | JOIN)
        if has_side:
            self.let_in_side()
        self.done["stops"] += 1

    def round(self):
        for _ in range(self.rng.randint(0, 60)):
            self.network.happen()
            if self.clients and self.rng.random() < 0.06:
                self.say()
            if self.has_side and self.rng.random() < 0.1:
                self.say_aside()
        kind = self.rng.random()
        if kind < 0.45:
            self.come()
        elif kind < 0.6 and self.clients:
            leave = self.vanish if self.rng.random() < 0.4 else self.go
            leave(self.rng.choice(list(self.clients)))
        elif kind < 0.67:
            self.lose()
        elif kind < 0.85:
            self.reload([kind for kind in ("rename", "move", "side") if self.rng.random() < 0.4])
        elif kind < 0.93:
            self.stop()
        self.settle()

    def collect(self, network, name):
        """Has each client name come once more, and compares what it got in all."""
        past = self.pasts[name]
        for client_name in list(past.got):
            client = Client(self.bnc.port, client_name, [], network=name)
            wait_for(f"last burst for {client_name}", lambda: client.is_welcome, network.hear)
            self.mark(network, [client])
            client.say("QUIT :bye")
            self.wait_for_end(client)
            past.got[client_name] += client.messages
        past.compare()

    def finish(self):
        for name in list(self.clients):
            self.go(name)
        if self.network.said != self.said:
            raise Wrong(f"the network got {self.network.said}, and not {self.said}")
        self.network.ask()
        self.collect(self.network, self.name)
        self.reload(["rename"] if self.has_side else ["rename", "side"])
        for name in list(self.clients):
            self.go(name)
        self.collect(self.network, self.name)
        client, self.side_client = self.side_client, None
        client.say("QUIT :bye")
        self.wait_for_end(client)
        self.side.past.got[client.name] += client.messages
        self.collect(self.side, "side")


def main(program, seed, rounds):
    # in memory where that can be: a stop waits 2 s for the disk at most, which others may keep busy
    memory = "/dev/shm" if os.access("/dev/shm", os.W_OK) else None
    with tempfile.TemporaryDirectory(dir=memory) as folder:
        bnc = Bouncer(program, folder)
        trial = Trial(bnc, seed)
        try:
            trial.begin()
            for _ in range(rounds):
                trial.round()
            trial.finish()
        except (Wrong, OSError) as wrong:
            print(f"seed {seed}: {wrong}\n{bnc.log.read_text()[-600:]}")
            return 1
        finally:
            bnc.kill()
    names = sum(len(past.got) for past in trial.pasts.values())
    told = ", ".join(f"{count} {what}" for what, count in sorted(trial.done.items()))
    print(f"try_random: {rounds} rounds, {trial.network.count} messages, {names} client names, {told}: ok")
    return 0


if __name__ == "__main__":
    if len(sys.argv) != 4 or not re.fullmatch("[0-9]+ [0-9]+", " ".join(sys.argv[2:])):
        sys.exit("usage: try_random.py BNC SEED ROUNDS")
    sys.exit(main(sys.argv[1], int(sys.argv[2]), int(sys.argv[3])))
