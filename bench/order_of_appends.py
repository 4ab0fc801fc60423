#!/usr/bin/env python3
"""Watches by `strace` in which order a node writes, syncs, prints and sends.

usage: order_of_appends.py VPDB [COMMITS]

A node of one site commits so many transactions (20). Each append must be the batch with a closed gate, a sync, the gate, a sync; then come the lines,
and then the first datagram. The start is such an append before the port is bound. Ends with status 1 where another order is seen, with status 2
where there is no `strace` or nothing can be traced.
"""
import os
import re
import shutil
import subprocess
import sys
import tempfile

from node_processes import free_ports, wait_until

CALLS = "openat,pwrite64,ftruncate,fsync,fdatasync,write,bind,recvfrom,sendto"
CALL = re.compile(r"^(?:\d+ +)?(\w+)\((?:(\d+)<([^>]*)>)?(.*)\) += (-?\d+)")
TURN = re.compile(r"R(ASGS)?PT*")


def letter(name, file, rest, result):
    """The call as a letter: an append, a gate, a sync, a cut, a bind, a print, a receive or a send; none for another one."""
    if name == "pwrite64":
        return "G" if result == 1 and rest.split(",")[1].strip() == '"\\1"' else "A"
    if name in ("fsync", "fdatasync"):
        return "S" if file.endswith((".0", ".1")) else ""
    if name == "write":
        return "P" if file.endswith("recording") else ""
    return {"ftruncate": "C", "bind": "B", "recvfrom": "R", "sendto": "T"}.get(name, "")


def traced(vpdb, commits):
    """The calls of a node that commits so many transactions, as letters."""
    port, own = free_ports(2)
    with open("one", "w") as it:
        it.write(f"site 1 {port}\nrecord x 10 1:1\n")
    words = ["strace", "-f", "-y", "-e", f"trace={CALLS}", "-o", "trace", vpdb, "node", "1", "log", "1000"]
    with open("one") as given, open("recording", "w") as recording:
        node = subprocess.Popen(words, stdin=given, stdout=recording)
    wait_until(lambda: os.path.getsize("recording") > 0 or node.poll() is not None, 20, "no node")
    ask = lambda *words: subprocess.run([vpdb, *words], stdin=open("one"), capture_output=True, text=True, timeout=20).stdout
    for number in range(1, commits + 1):
        for call in ("begin", f"1.1.{number} 1 write x {number}", f"1.1.{number} 2 commit"):
            said = ask("client", str(own), "16", "1", call)
    ask("stop", "1")
    node.wait(20)
    if said != f"committed 1.1.{commits} 2\n":
        sys.exit(f"the last commit was answered {said!r}")
    with open("trace") as it:
        calls = [CALL.match(line) for line in it]
    return "".join(letter(call[1], call[3] or "", call[4], int(call[5])) for call in calls if call)


def main():
    vpdb, commits = os.path.abspath(sys.argv[1]), int(sys.argv[2]) if len(sys.argv) > 2 else 20
    if not shutil.which("strace") or subprocess.run(["strace", "-o", os.devnull, "true"], capture_output=True).returncode:
        print("no strace here")
        return 2
    with tempfile.TemporaryDirectory() as folder:
        os.chdir(folder)
        calls = traced(vpdb, commits)
        os.chdir("/")
    begun = re.match(r"[^R]*", calls)[0]
    turns = re.findall(r"R[^R]*", calls)
    wrong = [turn for turn in turns[:-1] if not TURN.fullmatch(turn)]
    appends = sum("ASGS" in turn for turn in turns)
    if not begun.endswith("ASGSBP") or wrong or turns[-1] != "RPP" or appends != commits:
        print(f"start {begun}, last turn {turns[-1]}, {appends} appends, other turns: {' '.join(wrong)}")
        return 1
    print(f"{len(turns)} turns with {appends} appends, each write, sync, gate, sync before its lines and its datagrams")
    return 0


if __name__ == "__main__":
    sys.exit(main())
