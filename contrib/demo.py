#!/usr/bin/env python3
"""Shows what a bouncer does: a small network, bnc at it, and a laptop that leaves and attaches late.

    demo.py BNC

It prints lines as they are sent, each with who sent it, and takes some ten seconds. It ends with status
0 if the laptop then has the network's own channel, topic, modes and members, and each message that
it missed once, in order; with status 1 if not, or if something has not come after 60 seconds.
"""

import sys
import time

from small_network import Client, Network, Wrong, serving, wait_for

PAUSE = 1  # seconds between two scenes, to read them


def scene(text):
    time.sleep(PAUSE)
    print(f"\n{time.strftime('%H:%M:%S')}  {text}", flush=True)


def show(sender, line):
    print(f"    {sender:8}{line}", flush=True)


class Laptop(Client):
    """A client that prints what bnc sends it."""

    def __init__(self, port):
        super().__init__(port, "laptop", ["server-time"])

    def take(self, line):
        super().take(line)
        if line.startswith("@") or " PING " not in line:
            show("bnc", line)

    def has(self, message):
        return lambda: message in self.messages

    def leave(self):
        self.say("QUIT :good night")
        show("laptop", "QUIT :good night")
        wait_for("end of the session", self.is_closed.is_set)


class Talk(Network):
    """A network with one channel, on which people talk, come and go."""

    def __init__(self):
        super().__init__(["#rust"])
        self.rust = self.channels["#rust"]
        self.rust.members.update({"bob": {"o"}, "carol": set(), "dan": {"v"}})
        self.rust.topic = "all about Rust"
        self.rust.modes = {"n": "", "t": ""}

    def happens(self, line):
        self.put(line)
        self.flush()
        show("network", line)

    def says(self, nick, text):
        self.happens(f":{nick}!{nick}@example.net PRIVMSG #rust :{text}")

    def comes(self, nick):
        self.rust.members[nick] = set()
        self.happens(f":{nick}!{nick}@example.net JOIN #rust")

    def leaves(self, nick):
        del self.rust.members[nick]
        self.happens(f":{nick}!{nick}@example.net PART #rust :bye")

    def changes_topic(self, nick, topic):
        self.rust.topic = topic
        self.happens(f":{nick}!{nick}@example.net TOPIC #rust :{topic}")


def play(network, port):
    """Plays the evening, and answers the laptop after it."""
    scene("You attach with your laptop.")
    laptop = Laptop(port)
    wait_for("welcome of the laptop", lambda: laptop.is_welcome)
    scene("People talk, and you read it.")
    network.says("bob", "good evening")
    wait_for("message", laptop.has("good evening"))
    scene("You close the laptop. bnc stays on #rust.")
    laptop.leave()
    scene("Meanwhile bob writes, carol leaves and eve joins.")
    network.says("bob", "the build is red")
    network.leaves("carol")
    network.comes("eve")
    network.changes_topic("eve", "the build is red")
    network.says("eve", "I am on it")
    network.ask()
    scene("You attach again: the channel as it is now, then what you missed, each message once.")
    late = Laptop(port)
    wait_for("welcome of the laptop", lambda: late.is_welcome)
    wait_for("playback", late.has("I am on it"))
    scene("You are there again.")
    network.says("eve", "hello, ann")
    wait_for("message", late.has("hello, ann"))
    return late


def main(program):
    network = Talk()
    try:
        with serving(program, network, ["#rust"]) as port:
            scene("bnc connects to the network, and joins #rust.")
            network.let_in()
            wait_for("JOIN", lambda: "#rust" in network.joined, network.hear)
            network.ask()
            late = play(network, port)
            late.compare(network)
            if late.messages != ["the build is red", "I am on it", "hello, ann"]:
                raise Wrong(f"the laptop got {late.messages}")
    except Wrong as wrong:
        print(f"\ndemo: {wrong}")
        return 1
    members = ", ".join(sorted(late.channels["#rust"].members))
    print(f"\ndemo: the laptop knows {members}, and got each message that it missed once")
    return 0


if __name__ == "__main__":
    if len(sys.argv) != 2:
        sys.exit("usage: demo.py BNC")
    sys.exit(main(sys.argv[1]))
