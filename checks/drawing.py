"""Clients that draw at once from one server, for the checks that measure its replies."""

import selectors
import time

from serving import PATIENCE, Failed, done, draw, link_to


class Client:
    """Draws with its own numbers, one after another, and records how many seconds it waited for each reply."""

    def __init__(self, address, numbers):
        self.link = link_to(address)
        self.numbers = iter(numbers)
        self.waits = []
        self.drawn = []

    def begin(self):
        """Sends the next request. Returns False if there is none."""
        number = next(self.numbers, None)
        if number is None:
            return False
        self.datagram = draw(number)
        self.began = time.monotonic()
        self.link.send(self.datagram)
        return True

    def end(self):
        """Receives the reply to the request."""
        # The day, four bytes, precedes the identifier.
        self.drawn.append(done(self.datagram, self.link.recv(2048))[4:])
        self.waits.append(time.monotonic() - self.began)


def run(clients):
    """Runs all clients at once, each up to its last number. Returns the number of replies a second."""
    began = time.monotonic()
    with selectors.DefaultSelector() as ready:
        for client in clients:
            if client.begin():
                ready.register(client.link, selectors.EVENT_READ, client)
        while ready.get_map():
            came = ready.select(PATIENCE)
            if not came:
                raise Failed("no reply")
            for key, _ in came:
                key.data.end()
                if not key.data.begin():
                    ready.unregister(key.fileobj)
    return sum(len(client.drawn) for client in clients) / (time.monotonic() - began)
