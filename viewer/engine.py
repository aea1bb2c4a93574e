"""Runs scripts of one plan with the program `mx`. Nothing is known here but the objects that the program prints."""
import collections
import itertools
import os
import re
import resource
import signal
import subprocess
import tempfile

import lines
from command import Fault

HERE = os.path.dirname(lines.VIEWER)
PLAN, LARGEST, MOST = 1 << 16, 1 << 20, 1 << 24  # bytes of a plan, of a script, and of what the program prints


def program():
    """The program that ./mx would run, if that is built; beside a copy of ./drive without sources, the program `mx`."""
    mx = os.path.join(HERE, "mx")
    if not os.path.isdir(os.path.join(HERE, "crates")):
        return os.environ.get("MX_PROGRAM") or mx
    found = subprocess.run([mx, "program"], capture_output=True, text=True)
    if found.returncode:
        raise Fault(found.stderr.removeprefix("mx: ").strip())
    return found.stdout.strip()


REASONS = {  # why a file can't be read, as `mx` says it
    FileNotFoundError: "there is no file of this name", PermissionError: "who runs mx may not read it",
    IsADirectoryError: "it is a folder", NotADirectoryError: "a part of its path is no folder",
}


def contents(path, what, most):
    """The bytes of a file."""
    try:
        with open(path, "rb") as file:
            text = file.read(most + 1)
    except (OSError, ValueError) as error:
        reason = REASONS.get(type(error), "the system fails to read it")
        raise Fault(f"cannot read {path}\n{path}: this file can't be read: {reason}")
    if len(text) > most:
        raise Fault(f"the {what} has more than {most} bytes")
    return text


def limit_files(most):
    """Bounds what is written to a file, also by the program, by so many bytes or fewer; returns how many."""
    hard = resource.getrlimit(resource.RLIMIT_FSIZE)[1]
    most = most if hard == resource.RLIM_INFINITY else min(most, hard)
    resource.setrlimit(resource.RLIMIT_FSIZE, (most, hard))
    return most


class Engine:
    """The program and a plan."""
    longest = 10  # seconds of the program

    def __init__(self, path):
        self.program, self.plan = program(), contents(path, "plan", PLAN)
        self.most = limit_files(MOST)
        status, printed, told = self.ran("explain", "-", text=self.plan)
        if status:
            raise Fault("the plan is at fault:\n" + re.sub("^-:", f"{path}:", printed or told, flags=re.MULTILINE).strip())
        self.line = b" ".join(self.plan.split()) + b"\n"  # as the first line of standard input

    def ran(self, *words, text):
        """The status, the output and the errors of the program, which ends in time and prints no more than it may."""
        with tempfile.TemporaryFile() as printed:
            streams = {"input": text, "stdout": printed, "stderr": subprocess.PIPE}
            try:
                ended = subprocess.run([self.program, *words], timeout=self.longest, **streams)
            except subprocess.TimeoutExpired:
                raise Fault(f"the program took more than {self.longest} seconds, and was ended")
            except OSError as error:
                raise Fault(f"the program cannot be run: {error}")
            if ended.returncode == -signal.SIGXFSZ:
                raise Fault(f"the program printed more than {self.most} bytes")
            if ended.returncode < 0:
                raise Fault(f"the program failed: {signal.strsignal(-ended.returncode)} (signal {-ended.returncode})")
            printed.seek(0)
            return ended.returncode, printed.read().decode(errors="replace"), ended.stderr.decode(errors="replace")

    def answer(self, script):
        """The lines of the run of a script up to its first fault, the steps after each line of it, and the fault."""
        words = ["replay", "-", "-", "--script", "--json", "--state"]
        status, printed, told = self.ran(*words, text=self.line + script.encode())
        failed = Fault(told.strip() or f"the program ended with status {status}") if status else None
        try:
            run = list(lines.lines_of(printed.split("\n")[:-1]))
        except Fault as fault:
            raise failed or fault
        refused = next((line for line in run if "fault" in line), None)
        if failed and not refused:
            raise failed
        fault = refused and {"line": int(refused["line"]) - 1, "text": refused["fault"] + refused["message"]}
        return {"run": run, "script": script, "ends": ends(run, fault["line"] if fault else len(script.split("\n"))), "fault": fault}


def ends(run, count):
    """The number of steps after each of so many lines of a script: one for each event, or one for all else that a line did."""
    steps, number = collections.Counter(), 0
    for line in run:
        if "act" in line:
            steps[number] += 1
        elif {"lost", "cut", "heal"} & set(line):
            steps[number] = 1
        number = int(line.get("line", number))
    return list(itertools.accumulate(steps[number] for number in range(1, count + 1)))
