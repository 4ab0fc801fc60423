#!/usr/bin/env python3
"""Counts the instructions of `vpdb replay` on large schedules, as a ratio to another program's replay of the same bytes.

usage: time_worlds.py PROGRAM OTHER [KIND ..]

Both programs are called with the word `replay`, and their outputs have to agree. Each kind of schedule, or those that are named, is made
at 25, 50 and 100 per cent of the limits on steps and messages, so that growth shows. Instructions are counted by `perf`, or by valgrind
where the processor's counters are closed; memory is the most of one run.

    flows           a site asks 15 others for 256 copies at each tick; then flows deliver, while seven pairs are cut
    deliveries      the same messages, delivered one by one from the middle, and each once more; most are answered
    views           one view after the other of all sites, each with all refreshes of 16 records delivered
    unacknowledged  commits whose acknowledgements are lost: each leaves a decision, and ends at the other site in one view
    acknowledged    the same, where the acknowledgements come after all commits, from the first to the last
    ended           reads at another site, each of a transaction that is aborted and ends there, all in one view
    parts           transactions of 15 sites read at one, and are aborted; their outcomes come after the last, from the first to the last
    left            the same parts, whose site leaves its view
    shared          a record that 15,000 transactions of 15 sites read, and then transactions that would write it, each of which is refused
    doubts          256 transactions in doubt at one site, as many as its records; their prepares come again and again
    stored          commits of one site with 256 records, each of which has a value of 1,024 bytes at first
    regroups        a site asks 15 others for view after view, and hears nothing
    restarts        a site with 256 records crashes, starts and makes a view, 32,000 times at 100 per cent; each start reads the log, so it takes long under valgrind
    finished        calls on the oldest of 1,024 transactions that have ended
    long_values     commits of two sites, each of 15 values of 1,024 bytes, near the most bytes of an input: for the memory by its bytes
"""
import subprocess
import sys
import tempfile

from instructions import count

# How many ticks there are and how much is delivered, so that all of it comes near 100,000 steps and 2,000,000 messages.
FLOWS = (485, 95000)
DELIVERIES = (479, 49500)


def catalogue(records=256):
    sites = ["site %d %d" % (site, 7000 + site) for site in range(1, 17)]
    holders = " ".join("%d:1" % site for site in range(1, 17))
    return sites + ["record x%d 10 %s" % (k, holders) for k in range(records)] + ["events"]


def asked(share, ticks):
    return catalogue() + ["call 1 regroup", "flow 30", "tick 1"] + ["tick 1"] * int(ticks * share)


def flows(share):
    cuts = ["cut 1 %d" % site for site in range(2, 9)]
    return asked(share, FLOWS[0]) + cuts + ["flow %d" % int(FLOWS[1] * share)] + ["cut 3 4", "heal 3 4"] * int(2000 * share)


def deliveries(share):
    lines = asked(share, DELIVERIES[0]) + ["flow 15"]
    middle = int(750000 * share)
    for i in range(int(DELIVERIES[1] * share)):
        lines += ["deliver %d" % (middle + 7 * i)] * 2
    return lines


def views(share):
    lines = catalogue(16)
    for k in range(int(12 * share)):
        site = k % 16 + 1
        lines += ["call %d regroup" % site, "flow 30", "tick %d" % site, "flow 7700"]
    return lines


def pair(*records):
    """A catalogue of sites 1 and 2, with these record lines."""
    return ["site 1 7001", "site 2 7002", *records, "events"]


def commits(each):
    """So many committed writes at both sites, of which no acknowledgement is delivered: eight steps each, with six messages."""
    lines = pair("record x 10 1:1 2:1")
    for k in range(1, each + 1):
        first = 6 * k - 5
        lines += ["call 1 begin", f"call 1 1.1.{k} 1 write x v{k}", f"deliver {first}", f"deliver {first + 1}", f"call 1 1.1.{k} 2 commit"]
        lines += [f"deliver {first + message}" for message in (2, 3, 4)]
    return lines


def unacknowledged(share):
    return commits(int(12400 * share))


def acknowledged(share):
    each = int(11100 * share)
    return commits(each) + [f"deliver {6 * k}" for k in range(1, each + 1)]


def ended(share):
    lines = pair("record x 10 2:1")
    for k in range(1, int(16600 * share) + 1):
        lines += ["call 1 begin", f"call 1 1.1.{k} 1 read x", f"deliver {3 * k - 2}", f"deliver {3 * k - 1}", f"call 1 1.1.{k} 2 abort", f"deliver {3 * k}"]
    return lines


def readers(each):
    """So many transactions of each of 15 sites, in turn, read at site 16 and are aborted; no outcome is delivered. Five steps, three messages."""
    lines = ["site %d %d" % (site, 7000 + site) for site in range(1, 17)] + ["record x 10 16:1", "events"]
    first = 1
    for k in range(1, each + 1):
        for site in range(1, 16):
            lines += [f"call {site} begin", f"call {site} {site}.1.{k} 1 read x", f"deliver {first}", f"deliver {first + 1}", f"call {site} {site}.1.{k} 2 abort"]
            first += 3
    return lines


def parts(share):
    each = int(1100 * share)
    return readers(each) + [f"deliver {3 * k}" for k in range(1, 15 * each + 1)]


def left(share):
    return readers(int(1330 * share)) + ["call 16 regroup"]


def shared(share):
    lines = ["site %d %d" % (site, 7000 + site) for site in range(1, 17)] + ["record x 10 16:1", "events"]
    first = 1
    for k in range(1, int(1000 * share) + 1):
        for site in range(1, 16):
            lines += [f"call {site} begin", f"call {site} {site}.1.{k} 1 read x", f"deliver {first}"]
            first += 2
    for k in range(1, int(27400 * share) + 1):
        lines += ["call 16 begin", f"call 16 16.1.{k} 1 write x v"]
    return lines


def doubts(share):
    lines = pair(*(f"record x{k} 10 1:1 2:1" for k in range(256)))
    for k in range(1, 257):
        first = 4 * k - 3
        lines += ["call 1 begin", f"call 1 1.1.{k} 1 write x{k - 1} v{k}", f"deliver {first}", f"deliver {first + 1}", f"call 1 1.1.{k} 2 commit", f"deliver {first + 2}"]
    # their outcomes never come; their prepares are delivered again and again, and each is voted on once more
    return lines + [f"deliver {4 * (k % 256) + 3}" for k in range(int(98400 * share))]


def alone(records, size):
    """A catalogue of one site with so many records, and a commit to each of a value of so many bytes."""
    lines = ["site 1 7001", *(f"record x{k} 10 1:1" for k in range(records)), "events"]
    for k in range(1, records + 1):
        lines += ["call 1 begin", f"call 1 1.1.{k} 1 write x{k - 1} " + f"{k}.".ljust(size, "v"), f"call 1 1.1.{k} 2 commit"]
    return lines


def stored(share):
    lines = alone(256, 1024)
    for k in range(257, 257 + int(32900 * share)):
        lines += ["call 1 begin", f"call 1 1.1.{k} 1 write x{k % 256} v", f"call 1 1.1.{k} 2 commit"]
    return lines


def regroups(share):
    return catalogue(16) + ["call 1 regroup"] * int(99000 * share)


def restarts(share):
    return alone(256, 8) + ["crash 1", "restart 1", "call 1 regroup"] * int(32000 * share)


def finished(share):
    lines = ["site 1 7001", "record x 10 1:1", "events"]
    for k in range(1, 1025):
        lines += ["call 1 begin", f"call 1 1.1.{k} 1 commit"]
    return lines + ["call 1 1.1.%d 1 commit" % (k % 256 + 1) for k in range(int(97900 * share))]


def long_values(share):
    lines = pair(*(f"record x{k} 10 1:1 2:1" for k in range(15)))
    for k in range(1, int(1038 * share) + 1):
        lines.append("call 1 begin")
        for n in range(1, 16):
            lines += [f"call 1 1.1.{k} {n} write x{n - 1} " + f"{k}.{n}.".ljust(1024, "v"), "flow 2"]
        lines += [f"call 1 1.1.{k} 16 commit", "flow 4"]
    return lines


KINDS = (flows, deliveries, views, unacknowledged, acknowledged, ended, parts, left, shared, doubts, stored, regroups, restarts, finished, long_values)


def memory_of(command, path):
    """The most memory of the command on the file, in MiB."""
    with open(path, "rb") as given:
        run = ["/usr/bin/time", "-f", "%M", *command]
        told = subprocess.run(run, stdin=given, stdout=subprocess.DEVNULL, stderr=subprocess.PIPE, check=False).stderr
    return int(told.split()[-1]) / 1024


def compare(program, other, path, folder):
    """The instructions and the memory of both on the file, in words, with their ratios. The outputs have to agree."""
    mine, theirs = folder + "/mine", folder + "/theirs"
    counted, counted_other = (count([command, "replay"], path, out) for command, out in ((program, mine), (other, theirs)))
    with open(mine, "rb") as first, open(theirs, "rb") as second:
        assert first.read() == second.read(), "the outputs differ"
    memory, memory_other = (memory_of([command, "replay"], path) for command in (program, other))
    return (f"{counted / 1e6:.0f} million instructions, {memory:.0f} MiB; the other {counted_other / 1e6:.0f} million, {memory_other:.0f} MiB; "
            f"{counted / counted_other:.2f}x, {memory / memory_other:.1f}x")


def main(program, other, *names):
    with tempfile.TemporaryDirectory() as folder:
        for kind in KINDS:
            if names and kind.__name__ not in names:
                continue
            for share in (0.25, 0.5, 1):
                path = folder + "/schedule"
                with open(path, "w", encoding="ascii") as file:
                    file.write("\n".join(kind(share)) + "\n")
                print(f"{kind.__name__} {share:4.0%}: {compare(program, other, path, folder)}", flush=True)


if __name__ == "__main__":
    main(*sys.argv[1:])
