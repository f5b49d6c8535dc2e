#!/usr/bin/env python3
"""Compares the gate with what it has to run: the lists in `.ci/run`, the files of tests/ and tools/, the page tests/README.md, the table of
tests/wrong_byte.py, and the sums of the recordings.

    python3 tools/gate.py

Each of these is a fault, in one line:

- `.ci/run` names a file that is not there, or no longer runs one of its lists.
- It runs a check that tests/wrong_byte.py has no row for. Or that table has a row for a check that `.ci/run` does not run.
- A program of tests/ is not run, or tests/README.md does not name it. Or the page's table names a file that is not there.
- The head of a program in tests/ or tools/ does not say who calls it, or the caller does not name it. Nobody imports a module there.
- A stored recording has another sum than tests/recordings/sums, which `sha256sum` wrote. If you meant the change, write it again by
  `sha256sum tests/recordings/*.lsp crates/lsp_check/data/*.log > tests/recordings/sums`.

The last line is `gate: N passed, M failed`. `.ci/run` calls it, and tests/wrong_byte.py imports it.
"""
import hashlib
import os
import re
import sys
from pathlib import Path

sys.dont_write_bytecode = True

ROOT = Path(__file__).resolve().parent.parent
GATE, PAGE, SUMS = ".ci/run", "tests/README.md", "tests/recordings/sums"
RECORDINGS = ["tests/recordings/*.lsp", "crates/lsp_check/data/*.log"]
FOLDERS = ["tests", "tools", "tools/rows", "tools/fail_once"]
# The lines by which the gate runs its lists, and ends.
LINES = ['run_each "${reads[@]}"', 'start "${runs[@]}"', "collect", "end"]
CALLERS = re.compile(r"((?:`[^`]+`(?:, | and )?)+) calls? it\b")
BY_HAND = "It is called by hand."
MODULE = re.compile(r"(?m)^ *(?:import|from) ([\w, ]+)")


def read(name):
    return (ROOT / name).read_text(encoding="utf-8")


def calls():
    """The checks that the gate runs, in its order, as it calls them."""
    text, found = read(GATE), []
    for listed in ("reads", "runs"):
        part = re.search(rf"(?ms)^{listed}=\(\n(.*?)^\)", text)
        found += re.findall(r'(?m)^  "([^"]+)"$', part[1]) if part else []
    return found + re.findall(r'(?m)^(?:RT_JOBS=\S+ )?run_counted \S+ (?:tools/times \S+ )?(.+)$', text)


def program_of(call):
    """The file that a check starts."""
    words = call.split()
    return words[1] if words[0] == "python3" else words[0]


def list_faults():
    """(program or file, what is wrong with it in the lists of the gate or nothing) for each thing that was looked at."""
    lines = read(GATE).splitlines()
    for it in LINES:
        yield it, f"{GATE}: no line is `{it}`, by which it runs its lists and ends" if it not in lines else ""
    for call in calls():
        words = [] if call == "rt ci" else [re.sub(r"/out/.*", "", it) for it in call.split() if "/" in it]
        lost = [it for it in words if not (ROOT / it).exists()]
        yield program_of(call), f"{GATE}: `{call}`: there is no {lost[0]}" if lost else ""
        starts = call.startswith(("python3 ", "rt ")) or os.access(ROOT / program_of(call), os.X_OK)
        yield program_of(call), "" if starts else f"{GATE}: `{call}`: {program_of(call)} can't be executed"


def row_faults(tried):
    """The same of the checks that the table of tests/wrong_byte.py has."""
    run = calls()
    for call in dict.fromkeys([*run, *tried]):
        why = "" if call in tried else f"tests/wrong_byte.py: no row has `{call}`, which {GATE} runs"
        is_left = program_of(call) in [program_of(it) for it in run if it != call]
        yield call if is_left else program_of(call), why or ("" if call in run else f"{GATE}: `{call}` is not run, and tests/wrong_byte.py has a row for it")


def programs():
    """The files of tests/ and tools/ that can be started."""
    for folder in FOLDERS:
        for path in sorted((ROOT / folder).iterdir()):
            if path.is_file() and path.read_bytes()[:2] == b"#!":
                yield str(path.relative_to(ROOT))


def head_of(name):
    """The first comment or docstring of a program, as one line."""
    found = re.match(r'#![^\n]*\n(?:"""(.*?)"""|((?:#[^\n]*\n)*))', read(name), re.S)
    return " ".join(re.sub(r"(?m)^#", "", found[1] or found[2]).split())


def caller_faults():
    """Whether the gate or another program calls each program, as its head says."""
    run = {program_of(it) for it in calls()} | set(re.findall(r"\btools/(?:needs|times)\b", read(GATE)))
    for name in programs():
        head = head_of(name)
        callers = [it.split()[0] for names in CALLERS.findall(head) for it in re.findall(r"`([^`]+)`", names)]
        others = [it for it in callers if it != GATE and not ((ROOT / it).is_file() and Path(name).name in read(it))]
        why = ""
        if not callers and BY_HAND not in head:
            why = "its head does not say who calls it"
        elif name in run and GATE not in callers:
            why = f"{GATE} calls it, and its head does not say so"
        elif name not in run and (GATE in callers or name.startswith("tests/")):
            why = f"{GATE} does not run it"
        elif others:
            why = f"its head says that {others[0]} calls it, which it does not"
        yield name, why and f"{name}: {why}"


def module_faults():
    """Whether each module is imported."""
    files = [it for folder in FOLDERS for it in sorted((ROOT / folder).iterdir()) if it.is_file() and (it.suffix == ".py" or os.access(it, os.X_OK))]
    imported = {word for it in files for names in MODULE.findall(it.read_text(encoding="utf-8")) for word in re.findall(r"\w+", names)}
    for path in files:
        name = str(path.relative_to(ROOT))
        if path.suffix == ".py" and name not in programs():
            yield name, "" if path.stem in imported else f"{name}: nobody imports it, and it is no program"


def page_faults():
    """Whether the page names each program of tests/, and its table only files that are there."""
    text = read(PAGE)
    said = set(re.findall(r"`([\w./]+)`", text))
    for name in programs():
        if name.startswith("tests/"):
            yield name, "" if name.removeprefix("tests/") in said else f"{PAGE}: it does not name {name}"
    for number, line in enumerate(text.splitlines(), 1):
        for it in re.findall(r"`([\w.]+\.py)`", line.split("|")[1]) if line.startswith("|`") else []:
            yield f"tests/{it}", "" if (ROOT / "tests" / it).is_file() else f"{PAGE}:{number}: there is no tests/{it}"


def sum_faults():
    """Whether each recording is as it was stored."""
    lines = [line.split("  ", 1) for line in read(SUMS).splitlines()]
    known, there = {name: it for it, name in lines}, sorted(str(it.relative_to(ROOT)) for form in RECORDINGS for it in ROOT.glob(form))
    for name in sorted({*known, *there}):
        if name not in known:
            yield name, f"{name}: {SUMS} has no sum of it"
        elif name not in there:
            yield name, f"{SUMS}: there is no {name}"
        else:
            is_same = hashlib.sha256((ROOT / name).read_bytes()).hexdigest() == known[name]
            yield name, "" if is_same else f"{name}: it is not as it was stored, by its sum in {SUMS}"


def main():
    sys.path.append(str(ROOT / "tests"))
    import wrong_byte

    looked = [*list_faults(), *row_faults(wrong_byte.calls_tried()), *caller_faults(), *module_faults(), *page_faults(), *sum_faults()]
    told = {}
    for subject, why in looked:
        if why:
            told.setdefault(subject, why)  # one line for each program or file
    wrong = list(told.values())
    print(*wrong, f"gate: {len(looked) - len(wrong)} passed, {len(wrong)} failed", sep="\n")
    return len(wrong) > 0


if __name__ == "__main__":
    sys.exit(main())
