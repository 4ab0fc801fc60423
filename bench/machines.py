#!/usr/bin/env python3
"""Three nodes on three machines (network namespaces, by `operate/machines`), whose links are cut at either end, and which are killed, among transfers.

usage: machines.py PROGRAM [SEED [COUNT [REFERENCE]]]

COUNT transfers, 120 if nothing is said, are done by a process of `operate/call` on each machine, between six accounts with a copy at each site. Each
machine has its node, with its log in a temporary folder (TMPDIR says where), and `operate/beat --only` for it. All the while, each four to eight seconds,
the link of a machine is taken down for one to four seconds, at its own end or at the switch's, or its node is killed (kill -9) and started again. Then
all is joined, and all machines read the same balances, with the sum of the start. Their recordings are merged, replayed and serial, and
have just the transfers that were told (see `transfers_under_beat.py`). And these are looked at: a datagram from a site's port that comes from another
machine than that site's is not taken, nor is one from a machine that isn't listed, nor one that says that it comes from 127.0.0.1.

It needs root, iproute2 and nftables, and says so where they miss, with status 0. All is done in a network of its own (unshare), which ends with it.
"""
import os
import pathlib
import random
import subprocess
import sys
import tempfile
import time

import own_network
from comparison import arguments
from node_processes import Nodes, catalogue, wait_until
from recordings import Fault, insist
from told_transfers import Caller, Told, reference_in, script, transfers, values_read

SITES, ACCOUNTS, BALANCE, LIMIT = (1, 2, 3), 6, 100, 60
PORTS = {site: 7000 + site for site in SITES}
ADDRESSES = "link eth0\n" + "".join(f"site {site} 10.77.0.{site}\n" for site in SITES)
STRANGER = "10.77.0.9"
# Sends a frame to site 1 as from an address and a port, whosever they are.
SENDER = """import socket, struct, sys
address, port, data = sys.argv[1], int(sys.argv[2]), bytes.fromhex(sys.argv[3])
udp = struct.pack(">HHHH", port, 7001, 8 + len(data), 0) + data
ends = socket.inet_aton(address) + socket.inet_aton("10.77.0.1")
head = struct.pack(">BBHHHBBH", 0x45, 0, 20 + len(udp), 0, 0, 64, 17, 0) + ends
socket.socket(socket.AF_INET, socket.SOCK_RAW, socket.IPPROTO_RAW).sendto(head + udp, ("10.77.0.1", 0))"""
TICK_1, PROBE_OF_2 = "5602220001", "5602110201" + "00" * 9  # frames for site 1


def on(site, *words):
    return ["ip", "netns", "exec", f"vp-{site}", *words]


class Trial:
    def __init__(self, program, reference, seed, count):
        self.program, self.reference, self.count = program, reference, count
        self.draw, self.harms = random.Random(seed), 0
        self.names = [f"account{k}" for k in range(ACCOUNTS)]
        self.catalogue = catalogue(PORTS, [f"record {name} {BALANCE} 1:1 2:1 3:1" for name in self.names])
        self.nodes = Nodes([program], {site: self.catalogue for site in SITES}, tempfile.mkdtemp(prefix="machines."))
        for site, node in self.nodes.items():
            node.program = on(site, program)
        self.path, self.addresses = (os.path.join(self.nodes.folder, name) for name in ("catalogue", "addresses"))
        pathlib.Path(self.path).write_bytes(self.catalogue)
        pathlib.Path(self.addresses).write_text(ADDRESSES)

    def machines(self, *words):
        subprocess.run(script("machines", self.path, self.addresses, *words), check=True)

    def _call(self, site, lines, name):
        words = script("call", self.path, "--site", site, "--limit", LIMIT, "--vpdb", self.program, after=on(site))
        return Caller(words, lines, f"{self.nodes.folder}/{name}{site}")

    def _harm(self):
        site, kind = self.draw.choice(SITES), self.draw.choice(("kill", "cut", "pull"))
        pause = self.draw.uniform(1.0, 4.0)
        self.harms += 1
        if kind == "kill":
            self.nodes[site].kill()
            time.sleep(pause)
            self.nodes[site].start()
        else:
            self.machines(kind, site)
            time.sleep(pause)
            self.machines({"cut": "join", "pull": "plug"}[kind], site)
        time.sleep(self.draw.uniform(4.0, 8.0))

    def _do_transfers(self):
        callers = [self._call(site, transfers(self.draw, self.names, self.count // len(SITES)), "outcomes") for site in SITES]
        while not all(caller.is_over() for caller in callers):
            self._harm()
        return [words for caller in callers for words in caller.outcomes()]

    def _balances(self):
        found = []
        for site in SITES:
            caller = self._call(site, ["; ".join(f"read {name}" for name in self.names)], "read")
            wait_until(caller.is_over, LIMIT + 30, "a reader goes on for too long")
            found.append(values_read(caller.outcomes()[0]))
        insist(all(balances == found[0] for balances in found), "sites that read differently", found)
        return found[0]

    # What the rules let through.

    def try_rules(self):
        """Sends frames to site 1 from where they may not come, and then from where they may: only those are taken."""
        with Nodes(on(1, self.program), {1: self.catalogue}, tempfile.mkdtemp(prefix="rules.")) as nodes:
            self.machines("up")
            try:
                self._send_all(nodes[1].start_wholly())
            finally:
                self.machines("down")  # with what it knows of connections: those of forged datagrams would stand in the way of right ones

    @staticmethod
    def _send_all(recording):
        subprocess.run(["ip", "netns", "add", "vp-9"], check=True)
        for words in ("link add eth0 type veth peer name port9 netns vp-hub", f"addr add {STRANGER}/24 dev eth0", "link set eth0 up"):
            subprocess.run(["ip", "-n", "vp-9", *words.split()], check=True)
        subprocess.run(["ip", "-n", "vp-hub", "link", "set", "port9", "master", "br0", "up"], check=True)
        wrong = [(9, STRANGER, 7002, PROBE_OF_2), (9, STRANGER, 7100, TICK_1), (9, "127.0.0.1", 7002, PROBE_OF_2), (9, "127.0.0.1", 7100, TICK_1),
                 (3, "10.77.0.3", 7002, PROBE_OF_2), (2, "10.77.0.2", 7001, TICK_1)]
        for site, address, port, frame in wrong:
            subprocess.run(on(site, sys.executable, "-c", SENDER, address, str(port), frame), check=True)
        time.sleep(0.5)
        insist(len(recording.lines()) == 1, "a datagram that the rules should have dropped", recording.lines())
        for port, frame in ((7002, PROBE_OF_2), (7100, TICK_1)):
            subprocess.run(on(2, sys.executable, "-c", SENDER, "10.77.0.2", str(port), frame), check=True)
        wanted = [f"in {PROBE_OF_2}", f"in {TICK_1}"]
        wait_until(lambda: [line for line in recording.lines() if line[:2] != "ou"][1:] == wanted, 10, "a datagram that the rules should have let through")

    def run(self):
        with self.nodes:
            self.machines("up")
            try:
                for node in self.nodes.values():
                    node.start_wholly()
                beats = [subprocess.Popen(script("beat", self.path, "--only", site, "--probe", 0.7, after=on(site)), stdout=subprocess.DEVNULL) for site in SITES]
                outcomes = self._do_transfers()
                balances = self._balances()
                for beat in beats:
                    beat.terminate()
                    beat.wait()
                for site, node in self.nodes.items():
                    subprocess.run(on(site, self.program, "stop", str(site)), input=self.catalogue, check=True)
                    insist(node.wait() == 0, "a node that doesn't end as it should", site)
            finally:
                self.machines("down")  # ends what runs there
            told = Told(outcomes)
            told.insist_on_balances(dict.fromkeys(self.names, BALANCE), balances)
            lives = [life for node in self.nodes.values() for life in node.lives]
            is_merged, _ = told.insist_on_history(self.program, self.reference, self.catalogue, lives, balances)
        print(f"{len(outcomes)} transfers, {len(told.committed)} committed, {len(told.unknown)} unknown; {self.harms} kills and cuts;",
              "merged, replayed and serial" if is_merged else "a kill between a sync and its print: not merged")


def main():
    program, seed, count, folder = arguments(120)
    own_network.enter()
    trial = Trial(program, reference_in(folder), seed, count)
    try:
        trial.try_rules()
        trial.run()
    except (Fault, TimeoutError) as fault:
        print(f"seed {seed}, folder {trial.nodes.folder}:", *fault.args)
        return 1
    return 0


if __name__ == "__main__":
    sys.exit(main())
