"""Looks which copies of a site are still under refresh: by reads in transactions that are aborted at once."""
import itertools
import time

import frames

BURST = 32  # reads that are sent at once: their answers have room in a socket
AGAIN = 0.3  # seconds after which what may have been lost is asked again
OVER = (frames.ABORTED, frames.UNKNOWN, frames.LOCK_HELD, frames.VIEW_CHANGED, frames.TIMED_OUT)  # answers that nothing of the transaction is left after


class Reader:
    """A client of one site."""

    def __init__(self, site, port):
        self.site, self._socket = site, frames.bound()
        self._socket.connect((frames.HOST, port))
        self._socket.settimeout(AGAIN)
        self._txn = None  # the one that it reads in

    def under_refresh(self, names, seconds):
        """The names from the first one on whose copy at the site is under refresh, so none where none is. What the site doesn't say in time is left too."""
        end, left = time.monotonic() + seconds, list(names)
        while left and time.monotonic() < end:
            told = self._read(left[:BURST], end)
            fresh = sum(1 for _ in itertools.takewhile(lambda number: told.get(number), itertools.count(1)))
            left = left[fresh:]
            if told.get(fresh + 1) is False:
                break
        return left

    def close(self):
        self._socket.close()

    def _read(self, names, end):
        """By its number, of each read that was answered: could it be done, as far as a refresh is concerned? The abort is sent with the reads, so that they
        hold their locks no longer than they have to."""
        if not self._begin(end):
            return {}
        found, last = {}, len(names) + 1
        calls = [frames.read(self.site, self._txn, number, name) for number, name in enumerate(names, 1)]
        self._send(*calls, frames.abort(self.site, self._txn, last))
        while time.monotonic() < end:
            answer = self._take()
            if answer is None:
                self._send(frames.abort(self.site, self._txn, last))
            elif answer.kind == frames.SKIPPED:
                last = answer.number
                self._send(frames.abort(self.site, self._txn, last))
            elif answer.kind in (frames.VALUE, frames.ABSENT, frames.INACCESSIBLE, frames.LOCK_HELD):
                found[answer.number] = not answer.by_refresh
            if answer and answer.kind in OVER:
                break
        return found

    def _begin(self, end):
        """Begins a transaction, where the site holds a view."""
        self._txn, answer = None, None
        while answer is None and time.monotonic() < end:
            self._send(frames.begin(self.site))
            answer = self._take()
        if answer and answer.kind == frames.BEGUN:
            self._txn = answer.txn
        return self._txn

    def _send(self, *calls):
        for call in calls:
            try:
                self._socket.send(call)
            except OSError:
                pass  # nobody is there, or it has no room: it is said again

    def _take(self):
        """The next answer that is of use, or None where none comes for a while. A `begin` that was said again began another transaction: that is aborted."""
        end = time.monotonic() + AGAIN
        while time.monotonic() < end:
            try:
                answer = frames.read_answer(self._socket.recv(frames.LONGEST))
            except OSError:
                return None
            if answer and (answer.txn == self._txn if self._txn else answer.kind in frames.TO_BEGIN):
                return answer
            if answer and answer.kind == frames.BEGUN:
                self._send(frames.abort(self.site, answer.txn))
        return None
