"""The public calls of the libraries whose answers can say that memory ran out, found by their types,
and `memory_calls.txt`, the list of them with where each is refused memory.

A type can say so where it is one of `FIRST`, or has a variant `Memory`, or a part of such a type. A call
is public where its crate's `lib.rt` names it, or the type or the trait that has it.
"""
import glob
import os
import re

HERE = os.path.dirname(os.path.abspath(__file__))
TYPE = re.compile(r"^pub(?:\(crate\))? (?:enum|struct) (\w+)(.*?)(?:;$|^\})", re.M | re.S)
USE = re.compile(r"^(pub )?use (\w+)(?:::\w+)*::(\{[^}]*\}|\w+);", re.M)
OWNER = re.compile(r"^(?:(pub trait)|impl(?:<.*?>)?) (\w+)", re.M)
CALL = re.compile(r"^(    )?(pub )?(?:final )?fn (\w+)(.*?)(?:;$|\{|\n +requires|\n +ensures)", re.M | re.S)
FIRST = {("std", "AllocError"), ("std", "AllocFailed"), ("std", "Error"), ("clap", "Error")}


class File:
    """A file of a library; whose each name is that it brings in, and which of these it passes on."""

    def __init__(self, path):
        self.crate = path.split(os.sep)[-3]
        with open(path) as file:
            self.text = re.sub(r"//.*", "", file.read()).replace("io::Result<", "Result<std::Error ")
        self.whose, self.passed_on = {}, set()
        for public, root, names in USE.findall(self.text):
            within = root == "crate" or os.path.exists(os.path.join(os.path.dirname(path), f"{root}.rt"))
            for name in re.findall(r"\w+", names):
                self.whose[name] = self.crate if within else root
                if public:
                    self.passed_on.add(name)


class Sources:
    """The files of all libraries; what each of these makes public, of its own and of others."""

    def __init__(self):
        roots = sorted(glob.glob(os.path.join(HERE, "..", "crates", "*", "src", "lib.rt")))
        paths = (path for root in roots for path in glob.glob(root.replace("lib.rt", "*.rt")))
        self.files = [File(path) for path in paths]
        self.public, self.elsewhere = set(), {}
        for file in self.files:
            for name in file.passed_on:
                if file.whose[name] == file.crate:
                    self.public.add((file.crate, name))
                else:
                    self.elsewhere[file.crate, name] = file.whose[name], name
        self.types = self.types_of_memory()

    def named(self, file, text):
        """The types that a text names, each with the crate that has it."""
        for root, name in re.findall(r"\b(?:(\w+)::(?:\w+::)*)?([A-Z]\w+)", text):
            is_crate = root in ("std", "clap") or root.startswith("mx_")
            here = (root if is_crate else file.whose.get(name, file.crate)), name
            yield self.elsewhere.get(here, here)

    def types_of_memory(self):
        """The types whose values can say that memory ran out."""
        found, count = set(FIRST), 0
        while count < len(found):
            count = len(found)
            for file in self.files:
                for name, body in TYPE.findall(file.text):
                    if re.search(r"^ +Memory,", body, re.M) or found & set(self.named(file, body)):
                        found.add((file.crate, name))
        return found

    def calls_in(self, file):
        owners = list(OWNER.finditer(file.text))
        for call in CALL.finditer(file.text):
            within, marked, name, rest = call.groups()
            answer = rest.rpartition("->")[2] if "->" in rest else ""
            if not re.search("Result<|Option<", answer) or not self.types & set(self.named(file, answer)):
                continue
            in_trait, owner = None, name
            if within:
                before = [at for at in owners if at.start() < call.start()]
                in_trait, owner = before[-1].groups() if before else (None, name)
            if (marked or in_trait) and (file.crate, owner) in self.public:
                yield file.crate, f"{owner}::{name}" if within else name


def found():
    """Each such call: its crate and its name."""
    sources = Sources()
    return {call for file in sources.files for call in sources.calls_in(file)}


def listed():
    """The list: where each call, by its crate and its name, is refused memory."""
    with open(os.path.join(HERE, "memory_calls.txt")) as file:
        rows = [line.split(maxsplit=2) for line in file if not line.startswith("#")]
    return {(crate, call): where.strip() for crate, call, where in rows}


def fault(runs):
    """What is wrong with the list, where these are the runs of commands that are refused memory."""
    by_type, by_list = found(), listed()
    if by_type != set(by_list):
        return f"not listed: {sorted(by_type - set(by_list))}, not found: {sorted(set(by_list) - by_type)}"
    known = {*runs, *(call for (_, call), where in by_list.items() if where.isdigit())}
    unknown = [where for where in by_list.values() if not where.isdigit() and where not in known]
    return f"no such runs: {unknown}" if unknown else None


if __name__ == "__main__":
    for row in sorted(found()):
        print(*row)
