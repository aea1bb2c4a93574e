"""Runs the commands that a page of docs/ shows, and compares what they print with what the page has below them.

Each block of commands is run by itself, in a folder that has what is at the top of the repository. A block's /tmp is a
room of the check. Below a block stands the text that it prints; where none stands, nothing may be printed. A block of
`console` is not run: its commands build something.
"""
import difflib
import os
import re
import subprocess

ROOT = os.path.dirname(os.path.dirname(os.path.abspath(__file__)))
BLOCK = re.compile(r"^```sh\n(.*?)^```\n(?:\n```text\n.*?^```\n)?", re.MULTILINE | re.DOTALL)


def content(path):
    """The text of a file, or none where it is not there."""
    return open(path, encoding="utf-8").read() if os.path.exists(path) else ""


def run(commands, folder, room, errors):
    """The block as it has to stand in the page, run in the folder; none where its commands end badly. `errors` is where
    standard error goes: to the text too, or elsewhere."""
    words = ["bash", "-euo", "pipefail", "-c", commands.replace("/tmp/", room + "/")]
    ended = subprocess.run(words, stdin=subprocess.DEVNULL, stdout=subprocess.PIPE, stderr=errors, cwd=folder)
    printed = ended.stdout.decode().replace(room + "/", "/tmp/")
    if ended.returncode:
        print(f"{printed}status {ended.returncode}")
        return ""
    return f"```sh\n{commands}```\n" + (f"\n```text\n{printed}```\n" if printed else "")


def checks_of(path, room, errors, folder=ROOT, is_run=lambda commands: True):
    """For each block of a page its first line, the page, and the block as it stands there and as it has to, if it is run;
    and one more check, that each block of the page is read."""
    page = content(path)
    checks = [(it[1].split("\n")[0], path, it[0], run(it[1], folder, room, errors) if is_run(it[1]) else it[0])
              for it in BLOCK.finditer(page)]
    fences = sum(shown.count("```") for _, _, shown, _ in checks)
    wanted = page.count("```") - 2 * (page.count("```rust\n") + page.count("```console\n"))
    return [*checks, ("a block that can't be read", "", str(wanted), str(fences or ""))]


def tell(checks, name):
    """Says what differs, and counts; returns the checks that failed."""
    failed = [check for check in checks if check[2] != check[3] or not check[3]]
    for what, _, shown, made in failed:
        lines = list(difflib.unified_diff(shown.split("\n"), made.split("\n"), "shown", "made", lineterm="", n=1))
        print(*lines[:20], f"{name}: {what} differs", sep="\n")
    print(f"{len(checks) - len(failed)} passed, {len(failed)} failed")
    return failed


def write(failed):
    """Puts what was made into its file, to be read over."""
    for _, path, shown, made in failed:
        if path and made:
            text = content(path).replace(shown, made) if path.endswith(".md") else made
            open(path, "w", encoding="utf-8").write(text)
