"""The mutants that a crate's page lists, and the copy of the crate in which they are tried."""
import os
import re
import shutil
from dataclasses import dataclass, field

PAGE = "must-fail/mutants.md"
PARTS = ("src", "specs", "proofs")
# What is tried at a goal in place of its answer: most of what the check tries where there is none, and it ends sooner.
TRIED = "grind (arith, common_steps) steps 1000000"
# The words of std that a page may say without their modules.
WORDS = {
    **dict.fromkeys(("arith", "rules", "tests"), "Rattle.std.proofs.Common"),
    **dict.fromkeys(("common_steps", "elements", "pieces"), "Rattle.std.proofs.lemmas.Grind"),
    "get_or_read": "Rattle.std.proofs.lemmas.List",
    "nat_tests": "Rattle.std.proofs.lemmas.Bool.Decides",
}
# An answer that is one tactic stays, since that fails at a goal that the mutant breaks. A page may say more of an answer:
# `its answer, search rules for c.f.ensures, _ for c.f.result`, with terms for facts or for fields in it, or `cc (its answer)`.
# The term for a field may speak of what stands there: `its answer, search (its own) for prints`.
ONE_TACTIC, ITS, OWN, FOR = r"(search|grind|omega|cc)\b[^\n]*\n", "its answer", "its own", r", (.+?) for (\S+?)(?=, |$)"


@dataclass
class Mutant:
    name: str
    function: str = ""
    pairs: list = field(default_factory=list)
    # The goals that have to refuse it, each of a clause, with what is tried at it where the page says that.
    at: dict = field(default_factory=dict)
    # The goals whose answers don't fit the mutant, with None where it has no such goal.
    given_up: dict = field(default_factory=dict)


def text_of(room, file):
    with open(f"{room}/{file}", encoding="utf-8") as it:
        return it.read()


def mutants_of(crate):
    """The mutants that the crate's page lists, none where it has no page."""
    page = text_of(crate.folder, PAGE) if os.path.isfile(f"{crate.folder}/{PAGE}") else ""
    found = []
    for section in page.split("\n## ")[1:]:
        found.append(Mutant(section.partition("\n")[0].strip()))
        said = {}
        for word, text in re.findall(r"^    (\w+): (.*)", section, re.MULTILINE):
            said[word] = text
            if word == "new":
                found[-1].pairs.append((said["file"], said["old"], text))
            if word in ("at", "by"):
                found[-1].at.update(dict.fromkeys(re.findall(r"[^, ]+", said["at"]), said[word] if word == "by" else ""))
        found[-1].function = said.get("function", "")
    return found


def place_of(text, function, old):
    """Where the old text stands, if it stands once in the functions of that name, or else once in all; None otherwise."""
    name = re.escape(function.split("::")[-1])
    spans = re.finditer(rf"^( *)[\w() ]*\bfn {name}\b.*?^\1}}$", text, re.MULTILINE | re.DOTALL)
    found = [text.index(old, *it.span()) for it in spans if it[0].count(old) == 1]
    if len(found) == 1:
        return found[0]
    return text.index(old) if text.count(old) == 1 else None


def without_tactic(text, function, place):
    """The file's text, in which no tactic is tried at goals without an answer of the function that has this place, if one has it."""
    starts = re.finditer(rf"^( *)[\w() ]*\bfn {re.escape(function.split('::')[-1])}\b", text, re.MULTILINE)
    for start in [it for it in starts if it.start() <= place][-1:]:
        above = re.sub(r" *#\[tactic\(.*\)\]\n\Z", "", text[: start.start()])
        text = f"{above}{start[1]}#[tactic(none)]\n{text[start.start() :]}"
    return text


def is_generic(text, function):
    """Whether a formatted file's function, or the block that it stands in, has parameters that are types."""
    start = re.search(rf"^( *)[\w() ]*\bfn {re.escape(function.split('::')[-1])}\b(<[^(]*>)?", text, re.MULTILINE)
    block = re.findall(r"^impl(<.*?>)? \S", text[: start.start()], re.MULTILINE) if start and start[1] else []
    return bool(re.search(r"[<,] *[A-Z]", (start and start[2] or "") + (block[-1] if block else "")))


def in_words(term):
    """The term with full names cut to their last parts, and the lines that bring in these and std's words."""
    names = re.findall(r"\b(Rattle(?:\.[\w-]+)+)\.([^\s.,()]+)", term)
    names += [(WORDS[it], it) for it in re.findall(r"\w+", term) if it in WORDS]
    return re.sub(r"\bRattle(?:\.[\w-]+)+\.", "", term), {word: f"use {module}.{{{word}}}\n" for module, word in names}


def in_place_of(answer, by):
    """What the page says for an answer, which may speak of that answer."""
    if ITS not in by:
        return f" {by}\n"
    for term, fact in re.findall(FOR, by):
        its = re.escape(fact)
        its_field = rf"((?:^ *|{{ ){its} =) ([^;]*?)(;$| \}}$)"
        answer, fields = re.subn(its_field, lambda it: f"{it[1]} {term.replace(OWN, it[2])}{it[3]}", answer, flags=re.MULTILINE)
        answer = answer if fields else re.sub(rf"(?<![\w.-]){its}(?![\w.-])", lambda _: f"({term})", answer)
    around = re.sub(FOR, "", by)
    return answer if around == ITS else f" {around.replace(ITS, answer.strip())}\n"


def without_others(text, goals):
    """The answers without those of other goals than these, but with what the rest speaks of."""
    for name in re.findall(r"^pub (\S+) : goal\.\1$", text, re.MULTILINE):
        if name not in goals:
            its = re.escape(name)
            rest = re.sub(rf"^pub {its} :.*\n(?:(?:  |unfolding ).*\n)*{its} [^=\n]*=\s*(?:.+\n)*\n?", "", text, flags=re.MULTILINE)
            text = text if re.search(rf"(?<![\w.-]){its}(?![\w-])", rest) else rest
    said = re.sub(r"^use .*\n", "", text, flags=re.MULTILINE)

    def spoken_of(use):
        """The import of those names of branches of which an answer speaks: only then are they there."""
        names = [it for it in use[2].split(", ") if re.search(rf"(?<![\w.-]){re.escape(it)}(?![\w-])", said)]
        return f"use {use[1]}.{{{', '.join(names)}}}\n" if names else ""

    return re.sub(r"^use (\S+\.Goals)\.\{(.*)\}\n", spoken_of, text, flags=re.MULTILINE)


def tried_at(goals, text, arguments):
    """The answers, with what is tried at each of these goals in place of its own."""
    uses = {}
    for goal, by in goals.items():
        name = re.escape(goal)
        own = re.search(rf"^(pub {name} :.*\n(?:(?:  |unfolding ).*\n)*)({name} [^=\n]*=)(\s*(?:.+\n)*)", text, re.MULTILINE)
        tried, names = in_words(TRIED if by == "" else by or "")
        if by is None:
            text = f"{text[: own.start()]}{text[own.end() :]}"
        elif own and by == "" and re.fullmatch(rf"\s*{ONE_TACTIC}", own[3]):
            continue
        elif own:
            text = f"{text[: own.start(3)]}{in_place_of(own[3], tried)}{text[own.end(3) :]}"
        else:
            text = f"{text.rstrip()}\n\npub {goal} : goal.{goal}\n{goal} {arguments} = {tried}\n"
        uses.update(names)
    known = " ".join(re.findall(r"^use .*", text, re.MULTILINE))
    return "".join(line for word, line in uses.items() if not re.search(rf"[{{ ]{re.escape(word)}[,}}]", known)) + text


def answers_of(crate, room, mutant):
    """Where the answers of the mutant's function stand, and their text with what is tried in place of some."""
    path = f"proofs/{mutant.function.replace('::', '/')}/Answers.antt"
    head = f"use Rattle.{crate.name}.proofs.{mutant.function.replace('::', '.')}.Goals as goal\n"
    text = text_of(room, path) if os.path.isfile(f"{room}/{path}") else head
    is_known = re.search(r"^\S+ g c\b", text, re.MULTILINE)
    arguments = "g c" if is_known or is_generic(text_of(room, mutant.pairs[0][0]), mutant.function) else "c"
    given_up = {goal: by for goal, by in mutant.given_up.items() if f"\npub {goal} :" in text}
    text = without_others(text, mutant.at) if mutant.at else text
    return path, tried_at({**given_up, **mutant.at}, text, arguments)


def put_in(crate, room, mutant, is_right=False):
    """Writes what is tried at the mutant's goals into the crate's copy, and its body, unless the right one is to stay.

    It changes nothing and says why, where it can't.
    """
    texts = {}
    if not mutant.pairs:
        return "it has no pair of old and new"
    for file, old, new in mutant.pairs:
        text = texts.get(file) or text_of(room, file)
        place = place_of(text, mutant.function, old)
        if place is None:
            return f"an old text stands in {file} {text.count(old)} times, and not once"
        if mutant.at and file not in texts:
            text = without_tactic(text, mutant.function, place)
            place = place_of(text, mutant.function, old)
        texts[file] = text if is_right else text[:place] + new + text[place + len(old) :]
    if mutant.at or mutant.given_up:
        path, text = answers_of(crate, room, mutant)
        os.makedirs(os.path.dirname(f"{room}/{path}"), exist_ok=True)
        texts[path] = text
    for file, text in texts.items():
        with open(f"{room}/{file}", "w", encoding="utf-8") as it:
            it.write(text)
    return None


def copy_sources(crate, room):
    for part in PARTS:
        shutil.rmtree(f"{room}/{part}", ignore_errors=True)
        if os.path.isdir(f"{crate.folder}/{part}"):
            shutil.copytree(f"{crate.folder}/{part}", f"{room}/{part}")


def sources_in(room):
    """The files of the crate's copy, each with its module."""
    for at, _, names in os.walk(f"{room}/src"):
        for name in names:
            path = os.path.relpath(f"{at}/{name}", room)
            yield path, tuple(it for it in path.removesuffix(".rt").split("/")[1:] if it not in ("lib", "main"))


def types_in(room):
    """The types that the crate declares, each with its path."""
    found = {}
    for file, module in sources_in(room):
        for name in re.findall(r"^(?:pub(?:\(crate\))? )?(?:struct|enum) (\w+)", text_of(room, file), re.MULTILINE):
            found[name] = (*module, name)
    return found


def bodies_in(lines, module, types):
    """Each function of a formatted file that is no trait's: its path, and the lines at which its body opens and closes."""
    owner = module
    for at, line in enumerate(lines):
        found = re.match(r"( {4})?(?:pub(?:\(crate\))? )?fn (\w+)", line)
        if line == "}":
            owner = module
        elif found and owner is not None and bool(found[1]) == (owner != module):
            edge = found[1] or ""
            opens = next(it for it in range(at, len(lines)) if re.fullmatch(rf"{edge}(\S.* )?\{{\}}?", lines[it]))
            if lines[opens].endswith("{"):
                yield "::".join((*owner, found[2])), opens, lines.index(f"{edge}}}", opens)
        elif line.startswith("impl"):
            # (the type that the block is about, or none where it is one of a trait)
            opens = next(it for it in range(at, len(lines)) if lines[it].endswith(("{", "}")))
            header = " ".join(lines[at : opens + 1])
            owner = None if " for " in header else types.get(re.match(r"impl(?:<.*?>)? (\w+)|", header)[1])
        elif line.endswith("{") and not line.startswith(" "):
            owner = None


def leave_out_bodies(room, functions):
    """Takes away the bodies of the functions that are not among these, and gives the paths of those."""
    types = types_in(room)
    for file, module in sources_in(room):
        lines = text_of(room, file).split("\n")
        for path, opens, closes in reversed([*bodies_in(lines, module, types)]):
            if path not in functions:
                lines[opens + 1 : closes] = ["unreachable!()"]
                yield path
        with open(f"{room}/{file}", "w", encoding="utf-8") as it:
            it.write("\n".join(lines))


def with_files(room):
    """The functions that have a proof file."""
    for at, _, names in os.walk(f"{room}/proofs"):
        path = os.path.relpath(at, f"{room}/proofs").replace("/", "::")
        if {"Answers.antt", "Invariants.antt"} & {*names} and re.fullmatch(r"[\w:]+", path):
            yield path


def take_as_given(crate, room, functions):
    """Takes the theorems of all but these functions as given: an axiom stands in place of each proof, and no body but a trait's is left."""
    for path in {*leave_out_bodies(room, functions), *with_files(room)} - {*functions}:
        at, module = f"{room}/proofs/{path.replace('::', '/')}", path.replace("::", ".")
        shutil.rmtree(at, ignore_errors=True)
        os.makedirs(at)
        statement = f"Rattle.{crate.name}.proofs.{module}.Statement"
        theorem = f"axiom pub {path.split('::')[-1]}_spec : {{M : Type 1}} → statement M"
        with open(f"{at}/Proof.antt", "w", encoding="utf-8") as it:
            it.write(f"use {statement}.{{statement}}\n\n{theorem}\n")
