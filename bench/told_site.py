"""A site whose answers are drawn, for the comparisons of commands that ask calls of a site: the script itself is that site."""
import select
import time

from frame_draws import Draws, damaged_frame
from node_processes import LONGEST


class Elsewhere(Exception):
    """The damaged catalogue has another port for the site: nobody is there who could answer."""


class ToldSite:
    """Draws what each call is answered: frames of all kinds, damaged ones, and mostly, in the end, an answer that fits, from the site's port or another one."""

    def __init__(self, reference, draw, ports, turns):
        self.reference, self.draw, self.turns = reference, draw, turns
        self.draws = Draws(reference.wire, draw)
        self.port, self.other, self.own = ports
        self.site = draw.randint(1, 16)
        self.answers = []  # of each call, the datagrams that are sent, each with whether it comes from the site's port

    def fitting(self, call):
        """An answer to the call, as a frame."""
        raise NotImplementedError

    def has_answer(self):
        """Draws whether an answer is among what comes."""
        raise NotImplementedError

    def _stray(self):
        frame = self.draws.frame()
        if self.draw.randrange(2):
            frame = frame._replace(sender=self.site)
        data = self.reference.wire.encode(frame) if self.draw.randrange(2) else damaged_frame(self.reference.wire, self.draw, frame, self.draws.frame())
        return bool(self.draw.randrange(3)), data

    def found(self, call, from_site, data):
        """What the reference takes the datagram for: the answer to the call, or None."""
        return self.reference.client.is_the_answer(self.site, self.port, call, self.port if from_site else self.other, data)

    def answer(self, call):
        """What is sent for the next call: as many as are waited for, or up to its answer."""
        sent = [self._stray() for _ in range(self.turns)]
        if self.turns and self.has_answer():
            sent[self.draw.randrange(self.turns)] = (True, self.fitting(call))
        for count, (from_site, data) in enumerate(sent, 1):
            if self.found(call, from_site, data) is not None:
                sent = sent[:count]
                break
        self.answers.append(sent)
        return sent


def serve(process, sockets, answers, patience):
    """The status of the process, and the frames that came to the site until it ended; each is answered as was drawn."""
    site, other = sockets
    frames, answers, end = [], list(answers), time.monotonic() + patience
    while True:
        over = process.poll() is not None
        while select.select([site], [], [], 0 if over else 0.002)[0]:
            data, sender = site.recvfrom(LONGEST)
            frames.append(data)
            for from_site, sent in answers.pop(0) if answers else []:
                (site if from_site else other).sendto(sent, sender)
        if over:
            return process.returncode, frames
        if time.monotonic() > end:
            process.kill()
            return f"killed after {patience} seconds", frames
