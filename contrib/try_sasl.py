#!/usr/bin/env python3
"""Tries logins by SASL: bnc at a small network that speaks SASL PLAIN and EXTERNAL.

    try_sasl.py BNC

Each row is the keys of a network, the account that it has, and whether the login is right. With a
right one bnc has to log in before it ends the negotiation, and to join its channel; with a wrong
one to close the connection without CAP END and JOIN, to log that, and to dial again. The log must
have no password. The status is 1 if anything else happens.
"""

import sys

from small_network import Client, Network, Wrong, serving, wait_for

LONG = "p\u00e9 " * 75  # 300 bytes: the response has two pieces
WHOLE = "a" * 295  # the response has exactly 400 bytes in base64
ROWS = (
    ("PLAIN", None, "secret", ("ann", "secret"), True),
    ("PLAIN", "acct", "a b:c", ("acct", "a b:c"), True),
    ("PLAIN", None, LONG, ("ann", LONG), True),
    ("PLAIN", None, WHOLE, ("ann", WHOLE), True),
    ("EXTERNAL", None, None, ("ann", "secret"), True),
    ("PLAIN", None, "secret", ("ann", "other"), False),
    ("PLAIN", None, "secret", None, False),
)


def keys(mechanism, user, password):
    rows = [("sasl", mechanism), ("sasl_user", user), ("sasl_password", password)]
    return "".join(f'{key} = "{value}"\n' for key, value in rows if value is not None)


class Asked(Network):
    """A network that keeps what it was sent."""

    def __init__(self, account):
        super().__init__(["#c"], account)
        self.lines = []

    def take(self, line):
        self.lines.append(line)
        super().take(line)


def log_in(network, port):
    """A right login: bnc comes in, and a client finds the channel."""
    network.let_in()
    wait_for("JOIN", lambda: network.joined, network.hear)
    if network.logged_in is None:
        raise Wrong(f"bnc did not log in: {network.lines}")
    network.ask()
    client = Client(port, "pc", [])
    wait_for("channel", lambda: "#c" in client.channels, network.hear)


def fail(network):
    """A wrong login: bnc closes the connection, and dials again."""
    for _ in range(2):
        network.lines, network.held, network.waiting = [], b"", b""
        network.mechanism, network.is_open = None, False
        network.socket, _ = network.listener.accept()
        try:
            wait_for("end", lambda: False, lambda: network.hear(0.05))
        except (Wrong, OSError) as wrong:
            if "closed" not in str(wrong) and not isinstance(wrong, OSError):
                raise
        if any(line.startswith(("CAP END", "JOIN")) for line in network.lines):
            raise Wrong(f"bnc went on without a login: {network.lines}")
        network.socket.close()


def try_row(program, mechanism, user, password, account, is_right):
    network, log = Asked(account), []
    told = () if is_right else ("SASL failed",)
    with serving(program, network, ["#c"], keys(mechanism, user, password), log, told=told) as port:
        log_in(network, port) if is_right else fail(network)
    if password is not None and password in log[0]:
        raise Wrong(f"the log has the password: {log[0]}")


def main():
    if len(sys.argv) != 2:
        sys.exit(__doc__)
    for row in ROWS:
        try:
            try_row(sys.argv[1], *row)
        except (Wrong, OSError) as wrong:
            sys.exit(f"try_sasl: with {row[:3]} at {row[3]}: {wrong}")
    print(f"try_sasl: {len(ROWS)} logins as they have to be")


if __name__ == "__main__":
    main()
