"""A loop over sockets and times, a proxy between nodes that loses and repeats datagrams, and clients that don't wait."""
import heapq
import itertools
import selectors
import time

from node_processes import HOST, LONGEST, bound


class Loop:
    """Calls what waits for a socket's next datagram, or for a moment, when it has come."""

    def __init__(self):
        self._selector = selectors.DefaultSelector()
        self._later = []
        self._order = itertools.count()

    def at(self, seconds, deed):
        """Does the deed so many seconds from now."""
        heapq.heappush(self._later, (time.monotonic() + seconds, next(self._order), deed))

    def on_datagram(self, sock, deed):
        """Does the deed with each datagram of the socket and its sender's port."""
        sock.setblocking(False)
        self._selector.register(sock, selectors.EVENT_READ, deed)

    def run(self, done, seconds):
        """Goes on until `done()`, or fails after so many seconds."""
        end = time.monotonic() + seconds
        while not done():
            now = time.monotonic()
            if now > end:
                raise TimeoutError("the run goes on for too long")
            while self._later and self._later[0][0] <= now:
                heapq.heappop(self._later)[2]()
            pause = self._later[0][0] - time.monotonic() if self._later else 0.1
            for key, _ in self._selector.select(min(max(pause, 0), 0.1)):
                data, (_, port) = key.fileobj.recvfrom(LONGEST)
                key.data(data, port)

    def close(self):
        """Closes all sockets."""
        for key in list(self._selector.get_map().values()):
            key.fileobj.close()
        self._selector.close()


class Proxy:
    """Stands between each two nodes, drops some of their datagrams and repeats some a little later.

    For each node it has one socket for each other node: the port of that socket is what the first node's catalogue gives for the
    second. What comes from the first node to it is handed to the second, from the socket that stands there for the first. So each
    node sees each datagram come from its sender's port, and nobody else's.
    """

    def __init__(self, loop, draw, ports):
        self.loop, self.draw, self.ports = loop, draw, ports
        self.dropping = self.repeating = 0.0  # how many of all datagrams
        self.dropped = self.repeated = self.forwarded = 0
        self._faces = {}
        for at, of in itertools.permutations(ports, 2):
            face = self._faces[at, of] = bound()
            loop.on_datagram(face, lambda data, port, at=at, of=of: self._came(data, port, at, of))

    def ports_at(self, site):
        """The ports of the site's own catalogue."""
        return {of: self._faces[site, of].getsockname()[1] if of != site else self.ports[site] for of in self.ports}

    def _came(self, data, port, sender, to):
        if port != self.ports[sender]:
            return
        if self.draw.random() < self.dropping:
            self.dropped += 1
            return
        self._hand_over(data, sender, to)
        if self.draw.random() < self.repeating:
            self.repeated += 1
            self.loop.at(0.1 * self.draw.random(), lambda: self._hand_over(data, sender, to))

    def _hand_over(self, data, sender, to):
        self.forwarded += 1
        self._faces[to, sender].sendto(data, (HOST, self.ports[to]))


class Client:
    """A client on a port of its own, which says a call again where no answer comes, and gives up in the end."""

    PATIENCE, TIMES = 0.6, 3

    def __init__(self, loop, reference, ports):
        self.loop, self.ports = loop, ports
        self.client = reference.client
        self.socket = bound()
        self._waits = None  # the site, the call, and what is done with its answer
        loop.on_datagram(self.socket, self._heard)

    def ask(self, site, call, then):
        """Sends a call; `then` is called with the answer, or with None where none came."""
        self._waits = site, call, then
        self._say(self._waits, self.TIMES)

    def _say(self, waits, times):
        if self._waits is not waits:
            return
        site, call, then = waits
        if times == 0:
            self._waits = None
            then(None)
            return
        self.socket.sendto(self.client.call_frame(site, call), (HOST, self.ports[site]))
        self.loop.at(self.PATIENCE, lambda: self._say(waits, times - 1))

    def _heard(self, data, port):
        if self._waits is None:
            return
        site, call, then = self._waits
        answer = self.client.is_the_answer(site, self.ports[site], call, port, data)
        if answer is not None and type(answer).__name__ != "Busy":
            self._waits = None
            then(answer)

    def asked(self, site, call):
        """The answer, once the loop has brought it, or None."""
        found = []
        self.ask(site, call, found.append)
        self.loop.run(lambda: found, 30)
        return found[0]
