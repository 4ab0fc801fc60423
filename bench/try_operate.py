#!/usr/bin/env python3
"""Tries what the scripts of `operate` do beside mending a cluster: what `beat` says of ports and of what doesn't settle, its `--wake` and `--regroup`,
the operations, ends and pauses of `call`, what is left of a node that ended, the unit files, and what the pages say of ports that are taken.

usage: try_operate.py PROGRAM

PROGRAM is `vpdb`. Sockets of this script stand for nodes where an answer is needed that no node gives. The first fault ends it with status 1.
"""
import contextlib
import functools
import os
import pathlib
import re
import shlex
import shutil
import signal
import subprocess
import sys
import tempfile
import time

from node_processes import OPERATE, Node, bound, catalogue, free_ports, wait_until
from recordings import Fault, insist
from told_transfers import Caller, script

CALL, BEGIN = 32, 1
NO_VIEW = bytes.fromhex("560221010007" + "00" * 9)  # the reply of site 1 that it holds no view, and promised 0@0
NO_ANSWER, ABORTED, WRONG = 11, 1, 2


@contextlib.contextmanager
def beating(path, said, *words, errors=os.devnull):
    """Runs `beat` meanwhile, and puts what it says into a file, and what it complains of into another one."""
    with open(said, "wb") as out, open(errors, "wb") as complained:
        process = subprocess.Popen(script("beat", path, *words), stdout=out, stderr=complained)
    try:
        yield process
    finally:
        process.terminate()
        insist(process.wait(10) == 0, "beat that doesn't end with status 0")


def catalogue_in(folder, ports):
    path = os.path.join(folder, "catalogue")
    pathlib.Path(path).write_bytes(catalogue(ports, ["record x 10 1:1"]))
    return path


def answered(sock, folder):
    """Answers each `begin` that there is no view, as a site that never comes to one, until `beat` has complained of it."""
    complained = pathlib.Path(folder, "complained")

    def is_told():
        with contextlib.suppress(BlockingIOError):
            data, sender = sock.recvfrom(100)
            if data[2] == CALL and data[5] == BEGIN:
                sock.sendto(NO_VIEW, sender)
        return b"\n" in complained.read_bytes()

    wait_until(is_told, 30, "no word of a site that holds no view for long")
    return complained.read_text().strip()


def try_complaint(folder):
    """What doesn't settle is said on standard error, with what is done about it."""
    sock = bound()
    sock.setblocking(False)
    path = catalogue_in(folder, {1: sock.getsockname()[1]})
    with beating(path, f"{folder}/said", errors=f"{folder}/complained"):
        line = answered(sock, folder)
    sock.close()
    insist("not settled for 10 s: 1 holds no view; it is mended again" in line, "another complaint", line)
    return f"a site without a view: {line}"


@contextlib.contextmanager
def cluster(program, folder, *words, records=("record x 10 1:1 2:1 3:1", "record y 20 1:1 2:1 3:1")):
    """Three nodes that `cluster` has started and mended."""
    path = os.path.join(folder, "catalogue")
    pathlib.Path(path).write_bytes(catalogue(dict(zip((1, 2, 3), free_ports(3))), list(records)))

    def do(*command):
        return subprocess.run(script("cluster", path, "--vpdb", program, *words, *command), capture_output=True, timeout=120)

    try:
        insist(do("up").returncode == 0 and do("mend").returncode == 0, "a cluster that doesn't come to one view")
        yield path, do
    finally:
        do("down")


def try_operations(program, folder):
    """What `call` does with each operation, in one cluster one after the other."""
    lines = (
        ("transfer x x 3", "committed # read x 10, read x 10"),
        ("transfer x y 11", "aborted (belowfloor x -1 below 0 at site #, after 1 tries)"),
        ("transfer x y 10", "committed # read x 10, read y 20, wrote x 0, wrote y 30"),
        ("transfer x y 5 floor -4", "aborted (belowfloor x -5 below -4 at site #, after 1 tries)"),
        ("transfer x y 5 floor -5", "committed # read x 0, read y 30, wrote x -5, wrote y 35"),
        ("transfer y x 31 floor 5", "aborted (belowfloor y 4 below 5 at site #, after 1 tries)"),
        ("fresh y", "committed # read y 35, wrote y 35"),
        ("delete x; transfer x y 1", "aborted (notnumber x absent at site #, after 1 tries)"),
        ("delete x", "committed # deleted x"),
        ("fresh x; read y", "committed # absent x, deleted x, read y 35"),
        ("write x ten; transfer y x 1", "aborted (notnumber x ten at site #, after 1 tries)"),
    )
    with cluster(program, folder) as (path, _):
        for line, wanted in lines:
            done = subprocess.run(script("call", path, "--vpdb", program, line), capture_output=True, text=True, timeout=60)
            said = re.sub(r"\d+\.\d+\.\d+|(?<=site )\d", "#", done.stdout.strip())
            insist(said == wanted, "another outcome", line, said, wanted)
    return f"{len(lines)} transactions in words"


def try_two_clients(program, folder):
    """Two clients that write one record at two sites, each as fast as it can, don't hinder each other for long."""
    count = 100
    with cluster(program, folder) as (path, _):
        start = time.monotonic()
        callers = [Caller(script("call", path, "--vpdb", program, "--site", site), ["transfer x y 0"] * count, f"{folder}/said{site}") for site in (1, 2)]
        wait_until(lambda: all(caller.is_over() for caller in callers), 120, "two clients that don't come to an end")
        seconds = time.monotonic() - start
        outcomes = [words[0] for caller in callers for words in caller.outcomes()]
    insist(outcomes == ["committed"] * 2 * count, "another outcome", outcomes)
    return f"two clients on the same records: {2 * count / seconds:.0f} transactions a second"


def try_null(program, folder):
    """Without a recording the line stays that says why a node ended."""
    with cluster(program, folder, "--null") as (path, do):
        run = pathlib.Path(path + ".run")
        do("kill", "3")
        os.truncate(run / "log3.0", 0)
        (run / "log3.0").write_bytes(b"\1\2\3")
        (run / "log3.1").write_bytes(b"")
        do("start", "3")
        do("down")
        said = [(run / f"said{site}").read_text().splitlines() for site in (1, 2, 3)]
        insist(said[:2] == [["start 1", "end"]] * 2 and len(said[2]) == 2 and said[2][1].startswith("bad log "), "other last lines", said)
        insist(not list(run.glob("recording*")), "a recording")
    return f"without recordings: {said}"


def try_regroup(program, folder):
    """With --regroup there is a new view each so many seconds, and none without."""
    with cluster(program, folder) as (path, do):
        def views():
            return re.findall(r"holds (\S+)", do("status").stdout.decode())

        counts = []
        for words in (), ("--regroup", "2"):
            before = views()
            with beating(path, f"{folder}/said", *words):
                time.sleep(7)
            after = views()
            insist(len(set(after)) == 1 and len(after) == 3, "sites that don't hold one view", after)
            counts.append(int(after[0].split("@")[0]) - int(before[0].split("@")[0]))
    insist(counts[0] == 0 and counts[1] >= 2, "another count of views", counts)
    return f"views in 7 s: {counts[0]}, and {counts[1]} with --regroup 2"


def try_what_is_said(program, folder):
    """A port that can't be reached is said once, and once more when it is reached again."""
    [port] = free_ports(1)
    path, said = catalogue_in(folder, {1: port}), pathlib.Path(folder, "said")
    node = Node([program], 1, pathlib.Path(path).read_bytes(), folder)
    with beating(path, said):
        wait_until(lambda: "can't be reached" in said.read_text(), 10, "nothing is said")
        time.sleep(2.0)
        node.start_wholly()
        wait_until(lambda: "is reached again" in said.read_text(), 20, "nothing is said")
        node.kill()
        wait_until(lambda: said.read_text().count("can't be reached") == 2, 10, "nothing is said")
        time.sleep(1.0)
    lines = [line for line in said.read_text().splitlines() if "port" in line]
    insist(len(lines) == 3, "another count of lines", lines)
    return f"a port: {', '.join(re.sub('.*port [0-9]+ ', '', line) for line in lines)}"


def try_wake(program, folder):
    """A client whose answer never comes ends with `no answer` after its TURNS of datagrams that are none, and a gateway answers so and goes on."""
    nobody, client = free_ports(2)
    path = catalogue_in(folder, {1: nobody})
    with beating(path, f"{folder}/said", "--wake", client, "--wake-every", "0.2"):
        start = time.monotonic()
        with open(path, "rb") as given:
            done = subprocess.run([program, "client", str(client), "5", "1", "begin"], stdin=given, capture_output=True, timeout=60)
        seconds = time.monotonic() - start
        session = pathlib.Path(path).read_bytes() + b"session\nbegin\nhello\n"
        answered = subprocess.run([program, "gateway", str(client), "5", "1"], input=session, capture_output=True, timeout=60)
    insist(done.returncode == NO_ANSWER and done.stdout == b"no answer\n", "another end of a client", done)
    insist(answered.returncode == 0 and answered.stdout == b"no answer\nbad at 1\n", "another session", answered)
    return f"a client of 5 turns ended after {seconds:.1f} s, and a gateway answered after as many"


def try_ends_of_call(program, folder):
    """Where nobody answers nothing is done, within the time limit; other words are no transaction."""
    [nobody] = free_ports(1)
    path = catalogue_in(folder, {1: nobody})
    for line, status in (("read x", ABORTED), ("read", WRONG), ("write x", WRONG), ("transfer x y", WRONG), ("transfer x y 1 floor", WRONG), ("read X", WRONG), ("commit", WRONG)):
        start = time.monotonic()
        done = subprocess.run(script("call", path, "--limit", "2", "--vpdb", program, line), capture_output=True, timeout=60)
        insist(done.returncode == status, "another status", line, done)
        insist(line != "read x" or done.stdout.startswith(b"aborted (no answer at site 1") and time.monotonic() - start > 1.5, "another end", done)
    return "seven ends of call"


def try_taken_ports(folder):
    """The line of each page that looks whether its ports are free says it where one is taken."""
    pages = "README.md", "docs/CLUSTER.md", "docs/OPERATING.md"
    for page in pages:
        [line] = re.findall("^grep .* /proc/net/udp .*$", (OPERATE.parent / page).read_text(), re.MULTILINE)
        for port in 7001, 7002, 7003, 7100:
            with contextlib.ExitStack() as taken:
                with contextlib.suppress(OSError):  # of a port that another cluster has
                    taken.enter_context(bound(port))
                done = subprocess.run(["bash", "-c", line], cwd=folder, capture_output=True, text=True, timeout=60)
            insist("is taken" in done.stdout, "no word of a port that is taken", page, port, done)
    return f"taken ports are said by {', '.join(pages)}"


def try_units(program, folder):
    """systemd takes the unit files, with the paths of what they run changed; and what a node's unit runs keeps the lines that say why it ended."""
    found = try_what_a_unit_runs(program, folder)
    if not shutil.which("systemd-analyze"):
        return f"no systemd-analyze, so the unit files aren't looked at; {found}"
    for unit in OPERATE.glob("*.service"):
        text = re.sub("/usr/local/[a-z/]*", shutil.which("true") + " ", unit.read_text()).replace("User=vpdb\n", "")
        pathlib.Path(folder, unit.name).write_text(text)
        done = subprocess.run(["systemd-analyze", "verify", "--man=no", f"{folder}/{unit.name}"], capture_output=True, timeout=60)
        insist(done.returncode == 0 and not done.stderr, "a unit file that isn't taken", unit.name, done.stderr)
    return f"the unit files are taken; {found}"


def try_what_a_unit_runs(program, folder):
    """The words of the unit of a node as systemd would run them: one that is told to stop, and one that is killed as systemd kills a unit's processes."""
    [line] = re.findall("^ExecStart=(.*)$", (OPERATE / "vpdb@.service").read_text(), re.MULTILINE)
    words = shlex.split(line.replace("%i", "1").replace("/usr/local/bin/vpdb", program).replace("/var/lib/vpdb", folder))
    path = catalogue_in(folder, {1: free_ports(1)[0]})
    said = []
    for end in "stop", "kill":
        out = pathlib.Path(folder, end)
        with open(path, "rb") as given, open(out, "wb") as journal:
            process = subprocess.Popen(words, stdin=given, stdout=journal, start_new_session=True)
        wait_until(lambda: b"start" in out.read_bytes(), 20, "a node that doesn't start")
        if end == "stop":
            subprocess.run([program, "stop", "1"], input=pathlib.Path(path).read_bytes(), check=True)
            wait_until(lambda: process.poll() is not None, 20, "a node that doesn't stop")
        with contextlib.suppress(ProcessLookupError):
            os.killpg(process.pid, signal.SIGTERM)
        process.wait(20)
        wait_until(lambda: end == "kill" or b"end" in out.read_bytes(), 5, "no last line")
        said.append((process.returncode, out.read_text().splitlines()))
    insist(said == [(0, ["start 1", "end"]), (-signal.SIGTERM, ["start 2"])], "other lines", said)
    return "what a unit runs keeps why a node ended"


def main():
    program = os.path.abspath(sys.argv[1])
    tries = (try_what_is_said, try_wake, try_ends_of_call, try_operations, try_two_clients, try_null, try_regroup, try_units)
    for one in (try_complaint, try_taken_ports, *(functools.partial(one, program) for one in tries)):
        with tempfile.TemporaryDirectory() as folder:
            try:
                print(one(folder), flush=True)
            except (Fault, TimeoutError) as fault:
                print(*fault.args)
                return 1
    return 0


if __name__ == "__main__":
    sys.exit(main())
