#!/usr/bin/env python3
"""Times calls through `vpdb gateway` as a coprocess, beside a process for each call and beside a plain UDP client, in one run.

usage: time_gateway.py PROGRAM [COUNT]

PROGRAM is the built vpdb. Three nodes serve one record; all calls, COUNT of them (10,000 if nothing is said), go to site 1: a `begin` and the `abort` of
what it began, again and again, each after the answer to the one before. They go through a gateway that this script writes to line by line, through one
that a script of bash has as a coprocess, and from a socket of this script; and a fiftieth of them through a `vpdb client` for each. Then a gateway is
given a session of nearly 16 MB, of calls and of lines that are none, and its memory is looked at. It ends with status 1 where the gateway makes less than 5
times as many calls a second as the clients, takes more than 1.5 times as long as the plain client, or grows.
"""
import subprocess
import sys
import tempfile
import threading
import time

from node_processes import HOST, LONGEST, OPERATE, Nodes, bound, catalogue, free_ports

sys.path.append(str(OPERATE))
import frames

COUNT, FASTER, SLOWER = 10_000, 5.0, 1.5
SITE, TURNS, MOST = 1, "1000", 16_777_216

BASH = """
coproc gateway { "$1" gateway "$2" 1000 1; }
{ cat "$3"; echo session; } >&${gateway[1]}
ask() { echo "$1" >&${gateway[1]}; read -r answer <&${gateway[0]}; }
ask begin; ask "$(cut -d' ' -f2 <<< "$answer") 1 abort"
start=$EPOCHREALTIME
for ((call = 0; call < $4; call += 2)); do
    ask begin
    words=($answer)
    ask "${words[1]} 1 abort"
    [[ $answer == aborted* ]] || { echo "another answer: $answer" >&2; exit 1; }
done
echo "${start/,/.} ${EPOCHREALTIME/,/.}"
"""


class Piped:
    """A gateway that is written to line by line."""

    def __init__(self, program, port, text):
        self.process = subprocess.Popen([program, "gateway", str(port), TURNS, str(SITE)], stdin=subprocess.PIPE, stdout=subprocess.PIPE)
        self.process.stdin.write(text + b"session\n")

    def ask(self, line):
        self.process.stdin.write(line + b"\n")
        self.process.stdin.flush()
        return self.process.stdout.readline().split()

    def memory(self):
        """The most bytes of memory that it had so far."""
        with open(f"/proc/{self.process.pid}/status", encoding="ascii") as lines:
            return next(int(line.split()[1]) * 1024 for line in lines if line.startswith("VmHWM"))

    def end(self):
        self.process.stdin.close()
        return self.process.wait(60)


def in_pairs(ask, count):
    """Seconds for so many calls, half of them `begin`, each aborted."""
    start = time.monotonic()
    for _ in range(count // 2):
        txn = ask(b"begin")[1]
        said = ask(txn + b" 1 abort")
        assert said[0] == b"aborted", said
    return time.monotonic() - start


def by_gateway(program, port, text, count):
    gateway = Piped(program, port, text)
    in_pairs(gateway.ask, 20)
    seconds = in_pairs(gateway.ask, count)
    assert gateway.end() == 0
    return seconds


def by_clients(program, port, text, count):
    def ask(line):
        words = [program, "client", str(port), TURNS, str(SITE), line.decode()]
        return subprocess.run(words, input=text, capture_output=True, check=True).stdout.split()

    return in_pairs(ask, count)


def by_socket(site_port, count):
    """The same calls as frames from a socket."""
    with bound() as sock:
        sock.settimeout(10)

        def ask(frame):
            sock.sendto(frame, (HOST, site_port))
            return frames.read_reply(sock.recv(LONGEST))

        start = time.monotonic()
        for _ in range(count // 2):
            ask(frames.abort(SITE, ask(frames.begin(SITE)).txn))
        return time.monotonic() - start


def by_bash(program, port, path, count):
    done = subprocess.run(["bash", "-c", BASH, "bash", program, str(port), path, str(count)], capture_output=True, check=True)
    start, end = map(float, done.stdout.split())
    return end - start


def long_session(program, port, text):
    """The memory of a gateway after a short session and at the end of one of nearly 16 MB."""
    gateway = Piped(program, port, text)
    in_pairs(gateway.ask, 200)
    before, left = gateway.memory(), MOST - 100_000
    taken = threading.Thread(target=lambda: [None for _ in gateway.process.stdout], daemon=True)
    taken.start()
    piece = b"begin\n" + b"x" * 4000 + b"\n" + b"y" * 9000 + b"\n" + b"regrou\n" * 100
    while left > len(piece):
        gateway.process.stdin.write(piece)
        left -= len(piece)
    gateway.process.stdin.flush()
    after = gateway.memory()
    status = gateway.end()
    assert status == 0, status
    return before, after


def main():
    program, count = sys.argv[1], int((sys.argv[2:] or [COUNT])[0])
    ports = free_ports(4)
    text = catalogue(dict(enumerate(ports[:3], 1)), ["record x 10 1:1 2:1 3:1"])
    folder = tempfile.mkdtemp(prefix="gateway")
    with open(f"{folder}/catalogue", "wb") as file:
        file.write(text)
    with Nodes([program], dict.fromkeys((1, 2, 3), text), folder) as nodes:
        for node in nodes.values():
            node.start_wholly()
        plain = by_socket(ports[0], count) / count
        piped = by_gateway(program, ports[3], text, count) / count
        shell = by_bash(program, ports[3], f"{folder}/catalogue", count) / count
        clients = by_clients(program, ports[3], text, count // 50) / (count // 50)
        before, after = long_session(program, ports[3], text)
    for what, each in (("a plain UDP client", plain), ("a gateway, of python3", piped), ("a gateway, of bash", shell), ("a process for each", clients)):
        print(f"{what}: {each * 1e6:.0f} microseconds a call, {1 / each:.0f} calls a second")
    print(f"a gateway of python3 makes {clients / piped:.1f} times as many calls a second as a process for each, of bash {clients / shell:.1f} times;")
    print(f"its calls take {piped / plain:.2f} times as long as those of a plain client; its memory was {before} bytes before and {after} after a session of 16 MB")
    return 0 if clients / piped >= FASTER and piped / plain <= SLOWER and after <= before + 65536 else 1


if __name__ == "__main__":
    sys.exit(main())
