"""Runs the built program and says how long it took and how much memory it had at the most.

What a child is charged with starts at what its parent had, so whoever calls this stays small: events
are drawn by a process of its own.
"""
import os
import subprocess
import time

ROOT = os.path.dirname(os.path.dirname(os.path.abspath(__file__)))
# the program that MX_PROGRAM names, as for `./mx`, or else the one that is built
PROGRAM = os.environ.get("MX_PROGRAM") or os.path.join(ROOT, "crates", "mx_program", "out", "mx_program")
# times stations and journals; `bench/live` proves and builds it
BENCHES = os.path.join(ROOT, "crates", "benches", "out", "benches")
# as `mx` sets it
TUNABLES = {**os.environ, "GLIBC_TUNABLES": "glibc.malloc.hugetlb=1:glibc.malloc.mmap_threshold=131072"}


def build():
    """Builds the program where it has to be, unless MX_PROGRAM names one."""
    if not os.environ.get("MX_PROGRAM"):
        subprocess.run([os.path.join(ROOT, "mx"), "build"], check=True)


def measured(words, printed, wanted=0, program=PROGRAM, environment=TUNABLES):
    """What one run was charged with; it has to end with this status, and its output goes to this file."""
    with open(printed, "w") as out:
        begun = time.monotonic()
        streams = {"stdin": subprocess.DEVNULL, "stdout": out, "stderr": subprocess.DEVNULL}
        child = subprocess.Popen([program, *words], **streams, env=environment)
        _, status, usage = os.wait4(child.pid, 0)
        took = time.monotonic() - begun
    if os.waitstatus_to_exitcode(status) != wanted:
        raise SystemExit("mx %s: status %d" % (" ".join(words), os.waitstatus_to_exitcode(status)))
    return took, usage


def run(words, printed, wanted=0):
    """Seconds and megabytes of one run."""
    took, usage = measured(words, printed, wanted)
    return took, usage.ru_maxrss / 1024


def row(cells):
    """A row of a table in Markdown."""
    print("| " + " | ".join(str(cell) for cell in cells) + " |", flush=True)


def table(*columns):
    """The head of a table: what ran, then these columns of numbers."""
    row(("Algorithm", "Nodes") + columns)
    print("|---|" + "---:|" * (len(columns) + 1), flush=True)


def rates(events, parcels, took, memory):
    """The cells of one run."""
    return ("%.2f s" % took, "{:,}".format(round(events / took)), "{:,}".format(round(parcels / took)),
            "%d MB" % memory)
