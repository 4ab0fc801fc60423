"""The sites of a cluster as who runs it sees them: what they are told, what they say of their views, and the procedure that mends."""
import contextlib
import itertools
import selectors
import socket
import time

import copies
import frames

ROUND_TRIP = 2  # turns of all sites until a request of one was answered by another
AGAIN_LOST = 0.3  # seconds after which a question that may have been lost is asked again
AGAIN = 0.05  # seconds after which a site is asked again
QUIET = 5.0  # seconds without a fault after which a port that couldn't be reached is taken to be there, if nothing came from it


class Sites:
    """One socket for each site. A port that can't be reached is said once, and once more when it can be reached again."""

    def __init__(self, ports, say=lambda line: None):
        self.ports, self._say = ports, say
        self._selector = selectors.DefaultSelector()
        self._sockets, self._refused = {}, {}  # when the last fault of a port that can't be reached came
        self._heard = {}  # the last answer of each site to a `begin`, and when it came
        self._asked, self._echoed = 0, {}  # the number of the last question of `flush`, and of the last one that each site answered
        self._invited = {}  # the view to which a site said that it invites
        for site, port in ports.items():
            self._sockets[site] = sock = socket.socket(socket.AF_INET, socket.SOCK_DGRAM)
            sock.connect((frames.HOST, port))
            sock.setblocking(False)
            self._selector.register(sock, selectors.EVENT_READ, site)

    def send(self, site, data):
        with self._told(site):
            self._sockets[site].send(data)
            if time.monotonic() > self._refused.get(site, time.monotonic()) + QUIET:
                self._is_reached(site)

    def tick(self, *sites):
        for site in sites:
            self.send(site, frames.frame(frames.TICK, site))

    def probe(self, site):
        self.send(site, frames.frame(frames.PROBE, site))

    def stop(self, site):
        self.send(site, frames.frame(frames.STOP, site))

    @contextlib.contextmanager
    def _told(self, site):
        """A fault of a socket that is already full passes; another one is said where it is new."""
        try:
            yield
        except BlockingIOError:
            pass
        except OSError as fault:
            if site not in self._refused:
                self._say(f"site {site}: port {self.ports[site]} can't be reached: {fault.strerror}")
            self._refused[site] = time.monotonic()

    def _is_reached(self, site):
        if self._refused.pop(site, None):
            self._say(f"site {site}: port {self.ports[site]} is reached again")

    def take(self, seconds, until=lambda: False):
        """Takes what comes for so many seconds, or until it is enough. A transaction that began is aborted at once."""
        end = time.monotonic() + seconds
        while not until():
            pause = end - time.monotonic()
            if pause <= 0:
                return
            for key, _ in self._selector.select(pause):
                self._take_one(key.data)

    def _take_one(self, site):
        with self._told(site):
            reply = frames.read_reply(self._sockets[site].recv(frames.LONGEST))
            self._is_reached(site)
            if reply is None or reply.site != site:
                return
            if reply.kind == frames.BEGUN:
                self.send(site, frames.abort(site, reply.txn))
            if reply.kind == frames.INVITING:
                self._invited[site] = reply.view
            elif reply.kind in frames.TO_BEGIN:
                self._heard[site] = reply, time.monotonic()
            elif reply.kind == frames.UNKNOWN:
                self._echoed[site] = reply.txn

    def begin(self, site):
        self.send(site, frames.begin(site))

    def flush(self, which, seconds):
        """Waits until each of these sites has done all that was sent to it before, as it has once it answers a question that is sent now: it takes its
        datagrams in their order. The question is the abort of a transaction that nobody knows. Gives the sites that answered in time."""
        self._asked, end, left = self._asked % frames.LAST_NUMBER + 1, time.monotonic() + seconds, set(which)
        while left and time.monotonic() < end:
            for site in left:
                self.send(site, frames.abort(site, frames.numbered(site, self._asked)))
            self.take(min(AGAIN_LOST, end - time.monotonic()), lambda: not self._unanswered(left))
            left = self._unanswered(left)
        return set(which) - left

    def _unanswered(self, which):
        return {site for site in which if self._echoed.get(site) != frames.numbered(site, self._asked)}

    def since(self, moment):
        """The last answer to a `begin` of each site from which one came since that moment."""
        return {site: reply for site, (reply, when) in self._heard.items() if when >= moment}

    def look(self, seconds=0.3, which=None):
        """Each of these sites (all) that answers a `begin`, with its answer, once all have answered or so many seconds have passed. What was begun is
        aborted."""
        which, start = set(self.ports if which is None else which), time.monotonic()
        for site in which:
            self.begin(site)
        self.take(seconds, lambda: which <= set(self.since(start)))
        return self.since(start)

    def regroup(self, site, seconds):
        """The view to which the site now invites, or None where it doesn't say so in time."""
        self._invited.pop(site, None)
        self.send(site, frames.regroup(site))
        self.take(seconds, lambda: site in self._invited)
        return self._invited.get(site)

    def under_refresh(self, left, seconds):
        """Of names of records by site, those from the first one on whose copy there is under refresh, for each site that has such a copy."""
        found = {}
        for site, names in left.items():
            with contextlib.closing(copies.Reader(site, self.ports[site])) as reader:
                found[site] = reader.under_refresh(names, seconds)
        return {site: names for site, names in found.items() if names}

    def close(self):
        for sock in self._sockets.values():
            sock.close()
        self._selector.close()


def held_by(reply):
    """The view that the site holds, or None."""
    return reply.view if reply.kind == frames.BEGUN else None


def held(replies):
    """The view that each site that answered holds, or None."""
    return {site: held_by(reply) for site, reply in replies.items()}


def promise(reply):
    """What the site has promised: the view that it holds is the last one that it accepted."""
    return reply.view or frames.View(0, 0)


def until_all(sites, which, seconds, true):
    """Asks those sites of `which` of whose answer it isn't true yet, again and again, for so many seconds at most. Gives those of which it is true."""
    end, left = time.monotonic() + seconds, set(which)
    while left and time.monotonic() < end:
        replies = sites.look(min(0.3, seconds), left)
        left = {site for site in left if site not in replies or not true(replies[site])}
        if left:
            sites.take(AGAIN)
    return set(which) - left


def make_view(sites, inviter, others, wait):
    """Regroups at one site, which fixes the view with those of the others that accept in time. Gives the view, or None where the site doesn't invite.

    Then each of them is ticked twice, so that no transaction is left in doubt whose coordinator is among them, and no record under refresh, unless messages
    were lost.
    """
    view = sites.regroup(inviter, wait)
    if view is None:
        return None
    members = {inviter} | until_all(sites, others, wait, lambda reply: promise(reply) == view)
    sites.tick(inviter)
    joined = until_all(sites, members, wait, lambda reply: held_by(reply) == view)
    for _ in range(2):
        joined = settle(sites, joined, wait)
        sites.tick(*sorted(joined))
    sites.flush(joined, wait)
    return view


def settle(sites, which, wait):
    """Waits until what these sites had asked each other for has come. Gives those that answer."""
    for _ in range(ROUND_TRIP):
        which = sites.flush(which, wait)
    return which


def refresh(sites, names, wait, seconds):
    """Ticks sites as long as copies of these records (by site) are under refresh there, for so many seconds at most. Gives the rounds of ticks that it took,
    and what is left."""
    end, left = time.monotonic() + seconds, sites.under_refresh(names, wait)
    for rounds in itertools.count():
        if not left or time.monotonic() > end:
            return rounds, left
        sites.tick(*left)
        settle(sites, names, wait)
        left = sites.under_refresh(left, wait)


def mend(sites, wait, which=None, inviters=None):
    """Makes a view of all sites that answer, or where they don't reach each other one for each part of them. Gives what they then hold. Those of
    `which` (all) are waited for.

    The site with the greatest promise invites: so nobody has promised more, and it need not invite twice. Whom its invitation didn't reach is of another part.
    Where that has left sites without a view, one of these invites (`inviters`), and all have time to accept.
    """
    replies = sites.look(which=which)
    left = set(replies) if inviters is None else inviters & set(replies)
    while left:
        inviter = max(left, key=lambda site: (promise(replies[site]), site))
        others = left if inviters is None else set(replies)
        view = make_view(sites, inviter, others - {inviter}, wait)
        replies |= sites.look(which=left)
        left -= {inviter} | {site for site in left if view and promise(replies[site]) >= view}
    return held(sites.look(which=replies))
