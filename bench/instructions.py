"""Counts the instructions of a program, which other work on the machine doesn't change."""
import subprocess

VALGRIND = ["valgrind", "--tool=cachegrind", "--cache-sim=no", "--cachegrind-out-file=/dev/null"]


def by_valgrind(command, path, out):
    """The instructions of the command on the file, as valgrind counts them."""
    with open(path, "rb") as given, open(out, "wb") as printed:
        told = subprocess.run([*VALGRIND, *command], stdin=given, stdout=printed, stderr=subprocess.PIPE, check=False).stderr
    lines = [line for line in told.decode(errors="replace").splitlines() if "I" in line and "refs:" in line]
    if not lines:
        raise SystemExit("valgrind counted nothing:\n" + told.decode(errors="replace"))
    return int(lines[-1].split()[-1].replace(",", ""))


def by_perf(command, path, out):
    """The same, as the processor counts them; none where it doesn't."""
    with open(path, "rb") as given, open(out, "wb") as printed:
        counting = ["perf", "stat", "-x,", "-e", "instructions:u", *command]
        try:
            told = subprocess.run(counting, stdin=given, stdout=printed, stderr=subprocess.PIPE, check=False).stderr
        except FileNotFoundError:
            return None
    counts = [line.split(",")[0] for line in told.decode(errors="replace").splitlines() if "instructions" in line]
    return int(counts[-1]) if counts and counts[-1].isdigit() else None


def count(command, path, out):
    """The instructions of the command on the file, whose output is left in `out`."""
    counted = by_perf(command, path, out)
    return by_valgrind(command, path, out) if counted is None else counted
