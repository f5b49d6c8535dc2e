#!/usr/bin/env python3
"""What the crates' sources say: who stands on whom, a crate's code, and its interface, which is all that the crates above can see.

The interface of a library is its specs/ and, of its src/, types, traits, constants, and the signatures and clauses of functions that
another crate can call. A body, a comment, a private function and the tactic of a proof are no part of it. The heads of a crate are what
its own functions see of one another: all of src/ but bodies and comments.

    python3 tools/sources.py

tries that on each file of the crates: it marks every body, clause and signature there, and looks which marks the interface and the
heads have. It also lists each struct, and each variant with fields, that test_surface takes apart or makes. None of them may leave out
fields by `..`, and those of SHAPES have to be among them, so that one with another field does not compile there. `.ci/run` calls it.
"""
import hashlib
import re
import sys
from dataclasses import dataclass
from functools import lru_cache
from pathlib import Path

ROOT = Path(__file__).resolve().parent.parent
FUNCTION = re.compile(r'(?m)^( *)((?:pub(?:\([^)]*\))? )?)((?:const |final |unsafe |extern "." )*)fn \w+')
CLAUSE = re.compile(r"\b(?:ensures|requires)(?:\s+\w+)?\s*$")
USE = re.compile(r"(?m)^ *(?:ghost )?use [^;]*;\n?")
TACTIC = re.compile(r"(?m)^ *#!?\[tactic\b")
CHARACTER = r"'(?:\\(?:u\{[^}]*\}|x..|.)|[^\\'])'"
# (a name of a proof may end in an apostrophe, which begins no character)
MARKED = re.compile(rf'//[^\n]*|\br(#+)".*?"\1|"(?:\\.|[^"\\])*"|\bb{CHARACTER}|(?<![\w\']){CHARACTER}', re.S)
WORD = re.compile(rf"{MARKED.pattern}|\w+|\S", re.S)
SHAPED = re.compile(r"((?:\w+::)*[A-Z]\w*)(?:::<[^(){};]*>)?\s*\{")
REST = re.compile(r"[{(,]\s*\.\.(?!=)(?:\s*\w+)?\s*[,)}]")
ITEM = re.compile(r"\b(?:struct|enum|union|impl|trait|fn)\b")
# The structs and the variants whose named fields were asked for.
SHAPES = {
    *("Request", "Response", "ResponseError", "Notification", "ExtractError::JsonError", "ReqQueue", "Threaded", "Connection"),
    *(f"Step::{it}" for it in ("Register", "Pass", "Take", "Answer", "Cancel", "GiveUp")),
    *("Call::Finish", "Answer::Work", "Answer::Cancelled", "Answer::Finished"),
}
PAIRS = {"(": ")", "[": "]", "{": "}"}
BRACKET = re.compile(r"[()\[\]{}]")


class Unreadable(Exception):
    """A text that is not laid out as `rt fmt` does it."""


def read_list(root):
    """For each crate of crates.txt the names that it lists."""
    found = {}
    for line in (root / "crates.txt").read_text().splitlines():
        line = line.partition("#")[0]
        if ":" in line:
            head, _, names = line.partition(":")
            found[head.split()[0]] = names.split()
    return found


def below(crates, name):
    """The crates of this repository that a crate stands on, each after those that it stands on itself."""
    found = []
    for it in crates[name]:
        if it in crates:
            found += [each for each in [*below(crates, it), it] if each not in found]
    return found


def above(crates, name):
    """The crates that stand on this one, lowest first."""
    found = [it for it in crates if name in below(crates, it)]
    return sorted(found, key=lambda it: (len(below(crates, it)), it))


@lru_cache(maxsize=None)
def masked(text):
    """The text without comments, and the same with what stands in its strings and characters blanked."""
    kept = MARKED.sub(lambda it: "" if it[0].startswith("//") else it[0], text)
    return kept, MARKED.sub(lambda it: it[0][0] + " " * (len(it[0]) - 2) + it[0][-1], kept)


def end_of(blank, at):
    """The place behind the bracket that closes the one at this place."""
    open_ones = []
    for it in BRACKET.finditer(blank, at):
        if it[0] in PAIRS:
            open_ones.append(PAIRS[it[0]])
        elif not open_ones or open_ones.pop() != it[0]:
            raise Unreadable("brackets that do not pair")
        if not open_ones:
            return it.end()
    raise Unreadable("a bracket that nothing closes")


def parts_of(blank, start, indent):
    """Where a function's clauses stand, and where its body does: (places of clauses, start of the body, end). A function without a
    body has its end as the start."""
    clauses, at = [], start
    while at < len(blank):
        mark = blank[at]
        if mark == ";":
            return clauses, at + 1, at + 1
        if mark == "{" and CLAUSE.search(blank[start:at]):
            end = end_of(blank, at)
            clauses.append((at, end))
            at = end
        elif mark == "{":
            end = end_of(blank, at)
            last = blank[blank.rfind("\n", 0, end) + 1 : end]
            if last != indent + "}" and "\n" in blank[at:end]:
                raise Unreadable(f"a body that ends in {last!r}")
            return clauses, at, end
        elif mark in PAIRS:
            at = end_of(blank, at)
        else:
            at += 1
    raise Unreadable("a function without an end")


def block_of(blank, start, indent):
    """The head of the `impl` or `trait` that a function stands in, or nothing."""
    if not indent:
        return ""
    outer = indent[4:]
    heads = list(re.finditer(rf"(?m)^{outer}(?:pub(?:\([^)]*\))? )?(?:impl|trait|mod)\b", blank[:start]))
    if not heads:
        raise Unreadable("a function in no block")
    return blank[heads[-1].start() : blank.index("{", heads[-1].start())]


@lru_cache(maxsize=None)
def functions(text):
    """Each function that stands in no other: (start, is it seen outside, places of clauses, start of the body, end), in a text
    without comments."""
    kept, blank = masked(text)
    found, at = [], 0
    while True:
        it = FUNCTION.search(blank, at)
        if not it:
            return kept, found
        clauses, body, at = parts_of(blank, it.end(), it[1])
        head = block_of(blank, it.start(), it[1])
        of_trait = re.search(r"\btrait\b| for ", " ".join(head.split()) + " ")
        found.append((it.start(), bool(of_trait) or it[2] == "pub ", clauses, body, at))


def without_tactics(text):
    while True:
        it = TACTIC.search(text)
        if not it:
            return text
        end = end_of(masked(text[it.start() :])[1], text[it.start() :].index("["))
        text = text[: it.start()] + text[it.start() + end :].lstrip("\n")


def with_used_names(text):
    """Leaves, of each private `use`, the names that stand in the rest."""
    rest = USE.sub("", text)
    words = set(re.findall(r"\w+", rest))

    def is_used(name):
        name = name.rpartition(" as ")[2].strip()
        if name in ("*", "self", "_"):
            return True
        pieces = [it for it in re.split("◌", name) if it]
        return all(it in words if re.fullmatch(r"\w+", it) else it in rest for it in pieces)

    def shortened(found):
        item = " ".join(found[0].split())
        head, brace, names = item.rstrip(";").partition("{")
        if not brace:
            name = re.split(r"::|\.", item.rstrip(";"))[-1]
            return f"{item.rstrip(';')};\n" if is_used(name) else ""
        if "{" in names:
            return item + "\n"
        left = [it.strip() for it in names.rstrip("} ").split(",") if it.strip() and is_used(it)]
        return "".join(f"{head}{it};\n" for it in sorted(left))

    return USE.sub(shortened, text)


def interface_of(text):
    """What another crate sees of a file of src/."""
    kept, found = functions(text)
    for start, is_seen, _, body, end in reversed(found):
        kept = kept[:body] + ";" * (body < end) + kept[end:] if is_seen else kept[:start] + kept[end:]
    kept = with_used_names(without_tactics(kept))
    words = " ".join(kept.split())
    return re.sub(r"\bimpl\b(?:(?! for )[^{};])*\{ \}", "", words)


def heads_of(text):
    """What the functions of the same crate see of a file of src/: all but bodies and comments."""
    kept, found = functions(text)
    for _, _, _, body, end in reversed(found):
        kept = kept[:body] + ";" * (body < end) + kept[end:]
    return " ".join(kept.split())


@lru_cache(maxsize=None)
def uncommented(text):
    """The text with spaces for its comments, so that each place stays where it is."""
    return MARKED.sub(lambda it: " " * len(it[0]) if it[0].startswith("//") else it[0], text)


def words_of(text):
    """The words, strings and signs of a text, without its comments and its layout."""
    found = [it[0] for it in WORD.finditer(text) if not it[0].startswith("//")]
    return " ".join(it for it, after in zip(found, [*found[1:], ""]) if it != "," or after not in PAIRS.values())


def function_at_place(text, place):
    """Where the function that stands at a place of a file starts and ends, and its block without functions, which is the head and the
    ghost members. Where no function stands it starts and ends at the place."""
    kept, found = functions(uncommented(text))
    for start, _, _, _, end in found:
        if start <= place < end:
            return start, end, block_text(kept, found, start)
    return place, place, ""


def block_text(kept, found, start):
    """The `impl` or `trait` in which the function at this start stands, without its functions."""
    indent = re.match(" *", kept[start:])[0]
    head = block_of(kept, start, indent)
    if not head:
        return ""
    opens = kept.rindex(head, 0, start)
    end = end_of(masked(kept)[1], opens + len(head))
    left, at = "", opens
    for begin, *_, after in found:
        if opens < begin < end:
            left, at = left + kept[at:begin], after
    return " ".join(without_tactics(left + kept[at:end]).split())


@dataclass(frozen=True)
class Place:
    """A function: what `rt check --only` takes for it, and what the name that a check prints has to match."""

    only: str
    pattern: str


def heads_before(text, at):
    """The heads of the functions up to the line of a place."""
    return list(re.finditer(r'(?m)^( *)(?:pub(?:\([^)]*\))? )?(?:const |final |unsafe |extern "." )*fn (\w+)', text[: text.find("\n", at)]))


def name_at(text, at):
    """The name of the function at a place."""
    found = heads_before(text, at)
    return found[-1][2] if found else None


def function_at(file, text, at):
    """The function at a place of a file, or nothing for an import."""
    if re.match(r"(?:pub |ghost )?use ", text[at:].lstrip()):
        return None
    found = heads_before(text, at)
    words = file.removeprefix("src/").removesuffix(".rt").split("/")
    module = "::".join(words[:-1] if words[-1] in ("mod", "lib", "main") else words)
    if not found:
        return Place(module, re.escape(module) + r"::\S+")
    name, below = found[-1][2], f"{module}::" * bool(module)
    if not found[-1][1]:
        return Place(below + name, re.escape(below + name))
    heads = re.finditer(r"(?m)^(?:pub )?(impl|trait)\b([^{]*)\{", text[: found[-1].start()])
    word, head = [(it[1], " ".join(it[2].split())) for it in heads][-1]
    if word == "trait":
        owner = re.match(r"\w+", head)[0]
        return Place(f"{below}{owner}::{name}", re.escape(f"{below}{owner}::{name}"))
    given = head[: len(head) - len(without_generics(head))] if head.startswith("<") else ""
    of_trait, _, of_type = re.sub(r" where .*", "", head[len(given) :].strip()).rpartition(" for ")
    owner, rest = named_type(of_type.strip())
    # Arguments of the trait that are parameters of the `impl`, or the type itself, are no part of the printed name.
    taken = re.fullmatch(r"([\w:]+)<([\w, <>]*)>", of_trait)
    if taken:
        left_out = {of_type.strip(), *re.findall(r"\w+", given)}
        of_trait = taken[1] + "".join(it[0].upper() + it[1:] for it in re.findall(r"\w+", taken[2]) if it not in left_out)
    of_trait = "".join(re.findall(r"\w+", re.sub(r"'\w+|\w+::", "", of_trait)))
    # Where the type is taken at types of its own, their names are a part of the printed name, so the whole module is asked for.
    is_plain = set(re.findall(r"[\w:]+", rest)) <= set(re.findall(r"\w+", given))
    pattern = rf"(?:\S+::)?{owner}{'' if is_plain else '[^:]*'}{of_trait}::{name}"
    only = f"{below}{owner}{of_trait}::{name}" if of_trait else f"{owner}::{name}"
    return Place(only if is_plain else module, pattern)


def named_type(written):
    """The name that the prover prints for a type, and the rest of what was written, such as its arguments."""
    if written == "()":
        return "Unit", ""
    if written.startswith("("):
        return f"Tuple{written.count(',') + 1}", written
    name, rest = re.match(r"&?(\w+)(.*)", written).groups()
    return name[0].upper() + name[1:], rest


def without_generics(head):
    depth = 0
    for at, mark in enumerate(head):
        depth += (mark == "<") - (mark == ">" and head[at - 1] != "-")
        if not depth:
            return head[at + 1 :].strip()
    return head


def plain(path):
    """A file's text without comments and empty lines."""
    text = path.read_text()
    if path.suffix == ".rt":
        text = masked(text)[0]
    elif path.suffix == ".antt":
        text = re.sub(r"(?m)(^|(?<=\s))--(?=[ \n]).*$", "", text)
    return "\n".join(it.rstrip() for it in text.splitlines() if it.strip())


def files(folder):
    return sorted(it for it in folder.rglob("*") if it.is_file())


class Sums:
    """Sums of what the crates of a tree are made of."""

    def __init__(self, root):
        self.root, self.crates, self.known = root, read_list(root), {}

    def kept(self, key, make):
        if key not in self.known:
            self.known[key] = make()
        return self.known[key]

    def texts(self, name, part, read):
        folder = self.root / "crates" / name / part
        return [(str(it.relative_to(folder)), read(it)) for it in files(folder)]

    def interface(self, name):
        def make():
            seen = self.texts(name, "src", lambda it: interface_of(it.read_text()))
            specs = self.texts(name, "specs", plain)
            return sum_of([sorted(self.crates[name]), [it for it in seen if it[1]], specs])

        return self.kept((name, "interface"), make)

    def trait_heads(self, name):
        """The heads, with their clauses, of the methods of a crate's traits: for (trait, method) the text."""

        def make():
            heads = {}
            for text in (it.read_text() for it in files(self.root / "crates" / name / "src")):
                kept, found = functions(text)
                for start, _, _, body, _ in found:
                    block = block_of(kept, start, re.match(" *", kept[start:])[0])
                    if trait := re.search(r"\btrait (\w+)", block):
                        method = re.search(r"\bfn (\w+)", kept[start:])[1]
                        heads[trait[1], method] = " ".join(kept[start:body].split())
            return heads

        return self.kept((name, "traits"), make)

    def beside(self, name, function, block):
        """What the contract of a function has beside the function's own text: the head and the ghost members of its block, and for a method
        of a trait of these crates its head there."""
        of_trait = re.match(r"impl\b.*?(\w+)(?:<.*?>)? for ", block.partition("{")[0])
        key = (of_trait[1], re.search(r"\bfn (\w+)", function)[1]) if of_trait else None
        heads = [self.trait_heads(it).get(key) for it in [*below(self.crates, name), name]]
        return [block, *filter(None, heads)]

    def around(self, name):
        """The sum of all that the proof of one function of a crate sees besides its own text: the crate's types, the heads of its
        functions with their clauses, its specs, and the interfaces that it stands on."""

        def make():
            heads = self.texts(name, "src", lambda it: heads_of(it.read_text()))
            specs = self.texts(name, "specs", plain)
            return sum_of([sorted(self.crates[name]), heads, specs, [self.interface(it) for it in sorted(below(self.crates, name))]])

        return self.kept((name, "around"), make)


def sum_of(parts):
    return hashlib.sha256(repr(parts).encode()).hexdigest()


def marked(text):
    """A file's text with a mark in each body, clause and signature, and the marks that its interface and its heads have to have."""
    kept, found = functions(text)
    in_interface, in_heads = set(), set()
    for number, (start, is_seen, clauses, body, end) in reversed([*enumerate(found)]):
        marks = [(body + 1, f" let body{number}_ = 0; ")] * (body < end)
        marks += [(at + 1, f" clause{number}_{count}_ ") for count, (at, _) in reversed([*enumerate(clauses)])]
        marks += [(kept.index("fn ", start) + 3, f"head{number}_")]
        for at, mark in marks:
            kept = kept[:at] + mark + kept[at:]
        seen = {mark for _, mark in marks if "body" not in mark}
        in_heads |= {it.strip() for it in seen}
        in_interface |= {it.strip() for it in seen if is_seen}
    return kept, in_interface, in_heads


def commented(text):
    """A file's text with a comment at each empty line that no string has."""
    strings = [it.span() for it in MARKED.finditer(text) if not it[0].startswith("//")]
    is_in_one = lambda at: any(start < at < end for start, end in strings)
    return "// tried\n" + re.sub(r"\n\n", lambda it: it[0] + "// tried\n" * (not is_in_one(it.start())), text)


def faults_of(text):
    """(how many things were looked at, what is wrong) of a file."""
    changed, in_interface, in_heads = marked(text)
    faults = []
    for part, read, wanted in (("interface", interface_of, in_interface), ("heads", heads_of, in_heads)):
        came = set(re.findall(r"(?:body|head)\d+_|clause\d+_\d+_", read(changed)))
        faults += [f"{it} {'is missing in' if it in wanted else 'stands in'} the {part}" for it in sorted(came ^ wanted)]
        faults += [f"a comment changes the {part}"] * (read(commented(text)) != read(text))
    return 2 * len(in_heads) + 2, faults


def shapes_of(text):
    """The structs and variants that a file takes apart or makes by the names of their fields, and the lines that leave out some by `..`."""
    blank = masked(uncommented(text))[1]
    names = []
    for it in SHAPED.finditer(blank):
        before = re.split(r"[;{}]", blank[: it.start()])[-1]
        if not ITEM.search(before) or before.count("(") != before.count(")"):
            names.append(it[1])
    return names, [blank.count("\n", 0, it.start()) + 1 for it in REST.finditer(blank)]


def surface_faults():
    """(how many shapes of test_surface were looked at, what is wrong with them)."""
    count, found, faults = len(SHAPES), set(), []
    for path in sorted((ROOT / "crates/test_surface/src").rglob("*.rt")):
        names, lines = shapes_of(path.read_text())
        count, found = count + max(len(names), len(lines)), found.union(names)
        faults += [f"{path.relative_to(ROOT)}:{it}: `..` leaves out fields" for it in lines]
    return count, faults + [f"crates/test_surface names the fields of no {it}" for it in sorted(SHAPES - found)]


def main():
    passed, wrong = 0, []
    for path in sorted(ROOT.glob("crates/*/src/**/*.rt")):
        try:
            count, faults = faults_of(path.read_text())
        except Unreadable as fault:
            count, faults = 1, [str(fault)]
        passed += count - min(count, len(faults))
        wrong += [f"{path.relative_to(ROOT)}: {it}" for it in faults]
    count, faults = surface_faults()
    passed += count - min(count, len(faults))
    wrong += faults
    print(*wrong, f"sources: {passed} passed, {len(wrong)} failed", sep="\n")
    return len(wrong) > 0


if __name__ == "__main__":
    sys.exit(main())
