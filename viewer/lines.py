"""Reads what `mx replay --json` or `mx judge --json` prints, and makes the page of it: for ./page, ./drive and ./shiviz.

Of a script, `mx replay --script --json` prints `{"line":N}` before whatever line N did: an event, `{"lost":K}`, `{"cut":[N]}`,
`{"cut":[N,M]}`, or the same with `heal`, or `{"heal":[]}` of all links. A line that is refused is an object of `line`, `fault`
and `message`; no event follows it. A first line `{"nodes":[N, ..]}` names the nodes of the plan, in its order."""
import json
import os
import re

from command import Fault

VIEWER = os.path.dirname(os.path.realpath(__file__))
KINDS = {  # the member that tells the kind of a line, and what else such a line needs
    "act": ["outcome"], "kind": ["parcel", "from", "to"], "phase": ["node", "mine", "knows"],
    "stuck": [], "lost": [], "cut": [], "heal": [], "clause": ["verdict", "index"], "verdict": [], "fault": ["line", "message"],
    "line": [], "nodes": [],
}
TEXTS = """act node register from to outcome cause kind of phase fact verdict clause reason event parcel index number
    value writes count upto stamp top grant last hop mine records gapless lost line fault message""".split()
LISTS = {"knows": ["fact", "values"], "values": [], "stuck": ["node", "for"]}  # of objects, and what each needs
TYPES = {**dict.fromkeys(TEXTS, str), **dict.fromkeys(["ranges", "numbers", "cut", "heal", "for", "nodes", *LISTS], list),
         "registers": dict}

encoded = json.JSONEncoder(separators=(",", ":")).encode


def members(line, needed=()):
    """The members of an object that the page shows."""
    if type(line) is not dict:
        raise Fault("no object of a run")
    for key in [*needed, *(["of"] if "stamp" in line else [])]:
        if key not in line:
            raise Fault(f"{key} is missing")
    return {key: member(key, line[key]) for key in line if key in TYPES}


def member(key, value):
    if type(value) is not TYPES[key] or not has_form(key, value):
        raise Fault(f"{key} is wrong")
    if value == "":
        raise Fault(f"{key} is empty")
    if key in LISTS:
        return [members(item, LISTS[key]) for item in value]
    return list(value.items()) if key == "registers" else value  # a browser would put a name like 7 first


def has_form(key, value):
    """Whether the items of a list of numbers, of names, of one or two names, or of pairs of numbers, are such."""
    if key == "ranges":
        return all(type(item) is list and len(item) == 2 and has_form("numbers", item) for item in value)
    isnt = key not in ("numbers", "for", "nodes", "cut", "heal")
    return isnt or all(type(item) is str for item in value) and (key not in ("cut", "heal") or (key == "cut") <= len(value) < 3)


def refused(number):
    raise Fault(f"{number} is no number of a run")


def read(line, counts):
    """What the page shows of a line, after so many of each kind."""
    is_run = type(line) is dict and "algorithm" not in line  # which a plan has
    kind = next((key for key in KINDS if is_run and key in line), "verdict")
    if counts["clause"] or counts["verdict"]:
        raise Fault("it follows the verdict")
    if counts["fault"] and kind not in ("phase", "stuck", "verdict"):
        raise Fault("it follows a line that is refused")
    line, counter = members(line, [kind, *KINDS[kind]]), {"act": "event", "kind": "parcel"}.get(kind)
    if line.get(counter, str(counts[kind])) != str(counts[kind]):
        raise Fault(f"{counter} {counts[kind]} is missing: a page shows a whole run")
    check(kind, line, counts)
    counts[kind] = int(line["line"]) if kind == "line" else counts[kind] + 1  # of lines, the number of the last one
    return line


def is_below(text, count):
    """Whether a text is one of the first so many numbers, as JSON writes them."""
    return text.isdecimal() and str(int(text)) == text and int(text) < count


def check(kind, line, counts):
    """Refuses a line that names what is not there."""
    if kind == "nodes" and any(counts.values()):
        raise Fault("it follows another line")
    if kind == "verdict" and line["verdict"] != "sound":
        raise Fault("clause is missing")
    if kind == "act" and not {"node", "parcel"} & set(line):
        raise Fault("node is missing")
    if kind == "lost" and not is_below(line["lost"], counts["kind"]):
        raise Fault("its parcel is missing")
    if kind in ("fault", "line") and (not is_below(line["line"], 1 << 64) or int(line["line"]) < max(counts["line"], 1)):
        raise Fault("line is wrong")
    if kind == "kind" and not counts["act"] or kind == "clause" and not is_below(line["index"], counts["act"]):
        raise Fault("its event is missing")


def lines_of(source):
    """The lines of a run as the page reads them. Their numbers become texts: those of a browser hold 53 bits."""
    counts, at = dict.fromkeys(KINDS, 0), 0
    reader = json.JSONDecoder(parse_int=str, parse_float=refused, parse_constant=refused)
    try:
        for at, text in enumerate(source, 1):
            yield read(reader.decode(text if type(text) is str else text.decode()), counts)
    except Fault as fault:
        raise Fault(f"line {at}: {fault}")
    except (ValueError, RecursionError):
        raise Fault(f"line {at}: not JSON, as `mx replay --json` and `mx judge --json` print it")
    if not counts["verdict"] and not counts["clause"]:
        raise Fault(f"line {at + 1}: the verdict is missing; if mx has printed a message, look at that first")


def content(name):
    with open(os.path.join(VIEWER, name), encoding="utf-8") as file:
        return file.read()


def page_of(lines, **parts):
    """The page of these lines, as bytes. With an answer of ./drive among these parts, it has the files of ./drive, too."""
    parts["run"] = shielded("[\n" + ",\n".join(map(encoded, lines)) + "\n]")
    skipped = () if "answer" in parts else ("drive",)
    text = re.sub(r"@(\w+\.\w+)@", lambda it: "" if it[1].startswith(skipped) else content(it[1]), content("page.html"))
    return re.sub(r"@(\w+)@", lambda it: parts.get(it[1], ""), text).encode()


def shielded(text):
    """JSON that cannot end the script that it is in."""
    return text.replace("<", "\\u003c")
