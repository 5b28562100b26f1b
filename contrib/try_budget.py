#!/usr/bin/env python3
"""Tries what becomes of a network that fills the memory.

    try_budget.py BNC

Two networks may keep 8 MiB each. One sends long messages, or lets ever new persons join, until bnc has
enough: its client reads `ERROR :too much memory` as its last line, the log says once what it kept, the
network is dialled again and a client gets nothing of what was sent before; with a journal a channel that
is not in the settings is joined again. Three times in succession bnc then has no more memory than for two
such networks, and some MiB. The client at the other network is served all the while. The status is 1 if
anything else happens.
"""

import hashlib
import itertools
import pathlib
import re
import sys
import tempfile

from bouncer import NETWORK, Bouncer
from small_network import Client, Network, Wrong, wait_for

SETTINGS = """listen = "127.0.0.1:{port}"
history = 10000
memory = 8
retry = 1
{more}[[user]]
name = "ann"
salt = "61"
password = "{digest}"
"""
BUDGET = 8 * 1024  # in KiB, as the system counts
OTHER = 32 * 1024  # threads, rings, what is being written, and what the allocator has not given back
BATCH = 100  # lines, fewer than may wait for a client
BATCHES = 400  # far more than it takes
ROUNDS = 3
BEGUN_ANEW = re.compile(
    r" ann/net: keeps (\d+) bytes, more than its budget of 8 MiB, begun anew: the messages( and marks)? kept "
    r"are gone$",
    re.MULTILINE,
)


def messages():
    """Long messages without end."""
    for number in itertools.count():
        yield f":bob!b@h PRIVMSG #c :message {number} {'x' * 4000}"


def persons():
    """Persons without end, who join a channel."""
    for number in itertools.count():
        yield f":nick{number}!user{number}@{'host.' * 40}net JOIN #c"


def memory_of(bouncer, name):
    """What the system says of the memory of bnc, in KiB."""
    text = pathlib.Path(f"/proc/{bouncer.process.pid}/status").read_text()
    return int(re.search(rf"^{name}:\s+(\d+) kB$", text, re.MULTILINE)[1])


def begin(bouncer, networks, more):
    """Starts bnc at these networks."""
    digest = hashlib.sha256(b"abc").hexdigest()
    text = SETTINGS.format(port=bouncer.port, digest=digest, more=more)
    for name, network in networks.items():
        port = network.listener.getsockname()[1]
        text += NETWORK.format(name=name, port=port, join='"#c"')
    bouncer.settings.write_text(text)
    bouncer.settings.chmod(0o600)
    bouncer.start()


def come_in(network):
    """Lets bnc in, to its channels."""
    for name in list(network.joined):
        network.leave(name)
    network.let_in()
    wait_for("JOIN", lambda: "#c" in network.joined, network.hear)
    network.ask()


def come(bouncer, network, name, of):
    """A client that has attached."""
    client = Client(bouncer.port, name, [], network=of)
    wait_for("channel", lambda: "#c" in client.channels, network.hear)
    return client


def flood(network, client, lines):
    """Sends lines until bnc ends the connection; the client reads them."""
    for number in range(BATCHES):
        for line in itertools.islice(lines, BATCH):
            network.put(line)
        network.put(f":bob!b@h PRIVMSG #c :mark{number}")
        try:
            network.ask()
        except (Wrong, OSError):
            if client.is_closed.wait(10):
                return
            raise
        mark = f"mark{number}"
        wait_for(f"line {mark} at the client", lambda: mark in client.marks or client.wrong)  # noqa: B023
    raise Wrong("bnc took all of it")


def is_told(client):
    """Checks that the client was told why, and nothing after that."""
    if client.wrong != "ERROR :too much memory" or client.last[-1] != client.wrong:
        raise Wrong(f"the client got {client.wrong}, and last {list(client.last)[-1][:80]}")


def fill(bouncer, network, lines, channels):
    """One network sends too much; answers once it was dialled again, and is on these channels."""
    client = come(bouncer, network, "phone", "net")
    if client.messages or client.marks:
        raise Wrong(f"there is still {client.messages[:1]}")
    for name in channels - network.joined:
        client.say(f"JOIN {name}")
        wait_for(f"JOIN of {name}", lambda: name in network.joined, network.hear)  # noqa: B023
        network.ask()
    flood(network, client, lines)
    is_told(client)
    network.socket.close()
    come_in(network)
    wait_for(f"channels {channels}", lambda: channels <= network.joined, network.hear)


def hears(network, client, text):
    """The client of the other network hears something."""
    network.put(f":eve!e@h PRIVMSG #c :{text}")
    network.ask()
    wait_for(f"{text} at the other client", lambda: text in client.messages, network.hear)
    if client.wrong or client.is_closed.is_set():
        raise Wrong(f"the other client got {client.wrong}")


def a_network_that_fills_the_memory(bouncer, lines, more, channels):
    networks = {"net": Network(["#c", "#d"]), "other": Network(["#c"])}
    begin(bouncer, networks, more)
    for network in networks.values():
        come_in(network)
    other = come(bouncer, networks["other"], "pad", "other")
    before = memory_of(bouncer, "VmRSS")
    for number in range(ROUNDS):
        fill(bouncer, networks["net"], lines, channels)
        hears(networks["other"], other, f"word{number}")
        found = BEGUN_ANEW.findall(bouncer.log.read_text())
        if len(found) != number + 1 or any(int(kept) <= BUDGET * 1024 for kept, _ in found):
            raise Wrong(f"the log has {found} after {number + 1} times")
        if any((marks == "") != bool(more) for _, marks in found):
            raise Wrong(f"the log has {found} with {more!r}")
    grown = memory_of(bouncer, "VmHWM") - before
    if grown > 2 * BUDGET + OTHER:
        raise Wrong(f"memory grew by {grown} KiB")
    return grown


TRIALS = (
    ("long messages", messages, "", {"#c"}),
    ("long messages, with a journal", messages, 'kept = "kept"\n', {"#c", "#d"}),
    ("persons", persons, "", {"#c"}),
    ("persons, with a journal", persons, 'kept = "kept"\n', {"#c", "#d"}),
)


def main():
    if len(sys.argv) != 2:
        sys.exit(__doc__)
    most = 0
    for name, lines, more, channels in TRIALS:
        with tempfile.TemporaryDirectory() as folder:
            bouncer = Bouncer(sys.argv[1], folder)
            try:
                grown = a_network_that_fills_the_memory(bouncer, lines(), more, channels)
            except (Wrong, OSError) as wrong:
                log = bouncer.log.read_text()[-600:] if bouncer.log.exists() else ""
                sys.exit(f"try_budget: {name}: {wrong}\n{log}")
            finally:
                bouncer.kill()
        most = max(most, grown)
    print(f"try_budget: {len(TRIALS)} floods as they have to be; the memory grew by {most} KiB at most")


if __name__ == "__main__":
    main()
