#!/usr/bin/env python3
"""Times `vpdb check` on a large history, as a ratio to a plain reading of the same bytes in the same run.

usage: time_check.py PROGRAM [MEBIBYTES]

Three sizes are timed, a quarter, a half and the whole (16 at most), so that growth shows; the peak memory is that of the
program's process.
"""
import os
import random
import resource
import subprocess
import sys
import tempfile
import time


def history(size, path):
    draw = random.Random(1)
    names = [b"r%d" % k for k in range(40)]
    values = {name: b"100" for name in names}
    written = 0
    with open(path, "wb") as out:
        written += out.write(b"history\n")
        for name in names:
            written += out.write(b"start %s 100\n" % name)
        count = 0
        while written < size - 200:
            count += 1
            ops = b""
            for _ in range(4):
                name = draw.choice(names)
                if draw.randrange(2):
                    ops += b" r %s %s" % (name, values[name])
                else:
                    values[name] = b"%d" % draw.randrange(1000)
                    ops += b" w %s %s" % (name, values[name])
            written += out.write(b"commit 1.1.%d %d@1%s\n" % (count, 1 + count // 1000, ops))
        out.write(b"end %d\n" % count)
    return count


def timed(command, path):
    with open(path, "rb") as source:
        begin = time.monotonic()
        done = subprocess.run(command, stdin=source, capture_output=True, check=True)
        return time.monotonic() - begin, done.stdout


def main():
    program = sys.argv[1]
    most = float(sys.argv[2]) if len(sys.argv) > 2 else 16
    with tempfile.TemporaryDirectory() as folder:
        for part in (4, 2, 1):
            path = os.path.join(folder, "history")
            size = int(most * 2**20) // part
            count = history(size, path)
            plain, _ = timed(["cksum"], path)
            taken, said = timed([program, "check"], path)
            peak = resource.getrusage(resource.RUSAGE_CHILDREN).ru_maxrss // 1024
            print(f"{os.path.getsize(path)} bytes, {count} commits: {taken:.2f} s, {taken / plain:.1f} times a plain reading,"
                  f" at most {peak} MiB: {said.split()[0].decode()} {said.split()[1].decode()}")
    return 0


if __name__ == "__main__":
    sys.exit(main())
