#!/usr/bin/env python3
"""Follows a page to the letter, in an empty folder that has a copy of this repository: the tutorial, or the guide.

    tests/guide.py PAGE ..      runs the commands that prove no library, in a few minutes, and prints the seconds that each took
    tests/guide.py --all        runs all commands of both pages, in an hour or more

In an indented block of a page, a line that begins with `$ ` is a command, which has to end in status 0. The lines up to the next command
are what it prints: all of it, or its first part if they end in `...`. If there are no such lines, it may print anything. The blocks are
one session of a shell, so `cd` holds for the blocks that follow.

Before a fenced block may stand `<!-- file PATH -->`: the block becomes this file. Before a block of `diff` may stand `<!-- edit PATH -->`:
its lines with `-`, and those without a mark, have to follow one another in this file once, and the lines with `+` come in. A path is one of
the folder in which the shell is.

Without --all, a command that proves, such as `rt check`, is run only in a crate that uses no library. Another one would prove the libraries
again: it takes none from `rt ci`, which proves them in the gate. The toolchain is then only asked whether it has this command and these
options. At the first difference the script ends in status 1. `.ci/run` calls it.
"""
import os
import re
import shutil
import signal
import subprocess
import sys
import tempfile
import time
from contextlib import contextmanager
from pathlib import Path

sys.dont_write_bytecode = True

from lsp import Difference, expect, run

ROOT = Path(__file__).resolve().parent.parent
PAGES = ["docs/TUTORIAL.md", "docs/WRITING_A_SERVER.md"]
BLOCK = re.compile(r"(?m)^\n((?:    .*\n|\n(?=    ))+)")
MADE = re.compile(r"(?m)^<!-- (file|edit) (\S+) -->\n```\w+\n((?:.*\n)*?)```$")
PROVES = re.compile(r"rt (check|run|lib|test|verdict|ci|all)\b([^<]*)(?:< \w+)?")
# Whether the crate of the shell's folder uses no library.
ALONE = 'grep -qx "$(basename "$PWD"):" ../../crates.txt && echo yes || echo no'
# The line after a command's output: its status stands after this character, which no command prints.
END = "\x1e"
AUTHOR = {f"GIT_{who}_{what}": value for who in ("AUTHOR", "COMMITTER") for what, value in (("NAME", "guide"), ("EMAIL", "guide@localhost"))}


def commands(block):
    """The commands of an indented block, each with the output that the page shows."""
    lines = [line[4:] for line in block.splitlines()]
    starts = [at for at, line in enumerate(lines) if line.startswith("$ ")]
    for start, end in zip(starts, [*starts[1:], len(lines)]):
        yield lines[start][2:], "\n".join(lines[start + 1 : end]).strip()


def steps(page):
    """The steps of a page, in their order: commands with what they print, and files to make or to edit."""
    made = list(MADE.finditer(page))
    plain = MADE.sub(lambda it: re.sub(r"[^\n]", "#", it[0]), page)
    found = [(it.start(), "command", *step) for it in BLOCK.finditer(plain) for step in commands(it[1])]
    return sorted([*found, *((it.start(), *it.groups()) for it in made)], key=lambda it: it[0])


def edit(path, change):
    """Makes the change of a block of `diff` in a file."""
    lines = change.splitlines(keepends=True)
    old, new = ("".join(it[1:] for it in lines if it[0] in marks) for marks in (" -", " +"))
    text = path.read_text(encoding="utf-8")
    expect(f"how often {path} has the lines {old!r}", text.count(old), 1)
    path.write_text(text.replace(old, new), encoding="utf-8")


def copy_to(folder):
    """Copies the tracked files, as they are now."""
    for name in subprocess.run(["git", "ls-files"], cwd=ROOT, capture_output=True, text=True, check=True).stdout.splitlines():
        if (ROOT / name).is_file():
            (folder / name).parent.mkdir(parents=True, exist_ok=True)
            shutil.copy2(ROOT / name, folder / name)


@contextmanager
def shell(folder):
    """A shell in a folder. What it started ends with it."""
    log = tempfile.TemporaryFile()
    process = subprocess.Popen(
        ["bash"], cwd=folder, env=os.environ | AUTHOR, stdin=subprocess.PIPE, stdout=subprocess.PIPE, stderr=log, start_new_session=True
    )
    try:
        yield process, log
    finally:
        os.killpg(process.pid, signal.SIGKILL)
        process.wait()


def output_of(command, session):
    """Runs a command in the shell, and returns its output."""
    process, log = session
    process.stdin.write(f"{{ {command}\n}} < /dev/null; echo '{END}'$?\n".encode())
    process.stdin.flush()
    lines = []
    for line in process.stdout:
        text, is_last, status = line.decode().replace("\r\n", "\n").partition(END)
        lines.append(text)
        if is_last:
            log.seek(0)
            expect(f"the status of `{command}`, after {log.read()[-500:]!r}", status.strip(), "0")
            return "".join(lines)
    raise Difference(f"the shell ended at `{command}`")


def check_options(command, options):
    """Asks the toolchain for help on a command that proves. A crate that uses no library of this repository needs no proof for that."""
    usage = subprocess.run(["rt", "--help"], stdout=subprocess.PIPE, stderr=subprocess.STDOUT, text=True).stdout
    expect(f"whether `rt` has the command `{command}`", bool(re.search(rf"\brt (?:[a-z]+\|)*{command}\b", usage)), True)
    if options.strip():
        words = ["rt", "check", *options.split(), "--help"]
        asked = subprocess.run(words, cwd=ROOT / "crates/lsp_text", capture_output=True, text=True)
        expect(f"the status of {words}, after {asked.stderr[-500:]!r}", asked.returncode, 0)


def follow_command(command, wanted, session, has_all):
    """Runs a command of a page, unless it proves libraries."""
    proof = PROVES.fullmatch(command)
    if proof and not has_all and output_of(ALONE, session).strip() != "yes":
        check_options(*proof.groups())
        return
    printed = output_of(command, session).strip()
    is_part = wanted.endswith("...")
    if wanted:
        wanted = wanted.removesuffix("...").strip()
        expect(f"what `{command}` prints", printed[: len(wanted)] if is_part else printed, wanted)


def follow(page, has_all):
    found = steps(Path(ROOT, page).read_text(encoding="utf-8"))
    expect(f"whether {page} has commands", "command" in [it[1] for it in found], True)
    with tempfile.TemporaryDirectory() as folder:
        copy_to(Path(folder, "lsp_server"))
        with shell(Path(folder, "lsp_server")) as session:
            for _, kind, what, text in found:
                begin = time.monotonic()
                if kind == "command":
                    follow_command(what, text, session, has_all)
                elif kind == "file":
                    Path(output_of("pwd", session).strip(), what).write_text(text, encoding="utf-8")
                else:
                    edit(Path(output_of("pwd", session).strip(), what), text)
                print(f"{page}: {time.monotonic() - begin:.0f} s: {what}", flush=True)


def main(words):
    has_all = words == ["--all"]
    pages = PAGES if has_all else words
    if not pages or not set(pages) <= set(PAGES):
        return __doc__
    return run(lambda: [follow(it, has_all) for it in pages])


if __name__ == "__main__":
    sys.exit(main(sys.argv[1:]))
