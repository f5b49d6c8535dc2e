#!/usr/bin/env python3
"""Tests the tests: runs each check of the gate once where one byte is wrong, and the check has to fail and to show it.

    tests/wrong_byte.py [WORD ..]    runs the rows of the checks whose call has one of the words

A row of ROWS names a check as `.ci/run` calls it, a file, one byte of it, and what the check has to print. If the file is a program that
`rt ci` built, each text OLD that the program writes becomes NEW (`wrong_byte.c`), or its status is wrong. Any other file is changed itself,
at the first OLD. A row without a file gives the check a bound that no program keeps. All this is in a copy of the tracked files, and nothing
is proved. `tools/gate.py` compares the rows with the gate, and so does this. It ends in status 1 if a check did not notice. `.ci/run` calls
it.
"""
import os
import shlex
import shutil
import signal
import subprocess
import sys
import tempfile
from contextlib import suppress
from pathlib import Path
from typing import NamedTuple

sys.dont_write_bytecode = True
ROOT = Path(__file__).resolve().parent.parent
sys.path.append(str(ROOT / "tools"))

import gate

LIBRARY = Path(__file__).with_suffix(".c")
# How many seconds a check may take: it stops at the first difference.
LONGEST = 1800
# What has no row, and why.
UNTRIED = {
    "rt ci": "it is the toolchain's, and it proves",
    "tools/edits --sample 10": "it proves. A wrong body that the prover does not refuse is a failure there",
    "tests/wrong_byte.py": "it is this",
}


class Row(NamedTuple):
    """A check, the file that is wrong, its bytes before and after, what the check prints then, and how it is called if in another way."""

    call: str
    file: str
    old: str
    new: str
    says: str
    run: str = ""


# In place of OLD and NEW: the status of the program is wrong. In place of a file too: the bound is wrong with which the check is called.
STATUS = ("", "")
BOUND = ("", "", "")


def out(crate):
    """The program of a crate."""
    return f"crates/{crate}/out/{crate}"


TYPED = "tests/typed.py crates/example_toml crates/example_diagnostics crates/example_session crates/example_connection"
UNREAD = "tests/unread_client.py --ways run_threads --params string --length 1000000 --most"
SEARCHES = "tests/unread_client.py --searches"
SESSION, DIAGNOSTICS, TOML = out("example_session"), out("example_diagnostics"), out("example_toml")
WRONG_BODY, HARMLESS = "crates/lsp_text/edits/line-past-the-last-empty.edit", "crates/lsp_text/edits/return-before-edit.edit"
RECORD = "crates/lsp_text/edits/record"
OF_TREE = [
    Row("python3 tools/gate.py", "tests/recordings/helix25_search.lsp", "textDocument/didChange", "textDocument/didchange", "helix25_search.lsp: it is not"),
    Row("tools/edits", WRONG_BODY, 'return Some("");', 'return some("");', "line-past-the-last-empty"),
    Row("tools/edits", HARMLESS, "saturating_sub(0)", "saturating_sub(1)", "return-before-edit: it changes nothing but comments"),
    Row("tools/edits", RECORD, "returns-else-byte-lt13", "returns-else-byte-lt12", "a-return-begins-no-line: the edit, its function"),
    Row("tools/by_hand", "tools/by_hand", "ByteTrace/new: ", "ByteTrace/neW: ", "ByteTrace/new/Proof.antt is a proof by hand"),
    Row("python3 tools/sources.py", "crates/test_surface/src/shapes.rt", "let Threaded {", "let ThreadeD {", "no Threaded"),
    Row("tools/pages", "docs/LONG_REQUESTS.md", "let options = self.options();", "let options = self.option_();", "docs/LONG_REQUESTS.md"),
    Row("tools/catalogue --check", "crates/test_laws/src/dispatch.rt", "replies_once(", "replies_oncE(", "calls the law replies_once"),
    Row("tools/api --check", "crates/lsp_queue/src/lib.rt", "RegisterFault;", "RegisterFaulT;", "RegisterFaulT was not found"),
    Row("tools/columns", "crates/lsp_demo/specs/Program.antt", "\nuse Rattle.std", " use Rattle.std", "Program.antt"),
    Row("tools/types --check", "crates/lsp_types/types.txt", '"Location"', '"LocatioN"', 'LocatioN'),
    Row("tools/model --check", "crates/lsp_model/src/lsp.rt", "foldingRange", "foldingRangE", "lsp.rt"),
    Row("tools/rows/make --check", "crates/test_rows/stdout", "  refused\n", "  refuseD\n", "the file has `  refuseD`"),
    Row("tools/rows/peers --check", "crates/example_two_peers/stdout", "Passed(", "PasseD(", "example_two_peers/stdout"),
    Row("tools/rows/watch --check", "crates/lsp_check/stdout", "has no reply", "has nO reply", "has nO reply"),
    Row("tests/clib.py --tree", "bindings/c/lsp_front.h", "uint8_t kind;", "uint8_t kinD;", "kinD"),
    Row("tests/clib.py", "bindings/c/lsp_judge.h", "uint64_t needed;", "uint64_t needeD;", "needeD"),
]
OF_CLIENTS = [
    Row("tests/client.py", out("lsp_demo"), "method not found", "method not founD", "method not founD"),
    Row("tests/client.py", out("lsp_demo"), *STATUS, "the status"),
    Row("tests/tcp_client.py", out("lsp_demo"), "method not found", "method not founD", "method not founD"),
    Row("tests/tcp_client.py", out("lsp_demo"), *STATUS, "the status"),
    Row("tests/recorder_client.py", out("example_recorder"), "document is not open", "document is not opeN", "opeN"),
    Row("tests/recorder_client.py", out("example_recorder"), *STATUS, "the end of the recorder"),
    Row("tests/between_client.py", out("lsp_check"), "breaches", "breacheS", "breacheS"),
    Row("tests/check_client.py", out("lsp_check"), "the document is open", "the document is opeN", "opeN"),
    Row("tests/check_client.py", out("lsp_check"), *STATUS, "0 in place of 1"),
    Row("tests/guide.py docs/TUTORIAL.md", "docs/TUTORIAL.md", "/crates/my_server\n", "/crates/my_serveR\n", "my_serveR"),
    Row("tests/guide.py docs/WRITING_A_SERVER.md", "docs/WRITING_A_SERVER.md", "/crates/my_server\n", "/crates/my_serveR\n", "my_serveR"),
    Row("tests/draft.py", "tools/draft", "a draft, and not proved", "a draft, and not proveD", "proveD"),
    Row("tests/toml_client.py", TOML, "title: string", "title: strinG", "title: strinG"),
    Row("tests/dispatch_client.py", out("lsp_demo"), "canceled by client", "canceled by clienT", "canceled by clienT"),
    Row("tests/dispatch_client.py", out("lsp_demo"), *STATUS, "the status"),
    Row("tests/clients_client.py", DIAGNOSTICS, "left without a shutdown", "left without a shutdowN", "shutdowN"),
    Row("tests/silent_client.py", TOML, "read fault", "read faulT", "read faulT"),
    Row("tests/late_client.py", DIAGNOSTICS, "during shutdown", "during shutdowN", "during shutdowN"),
    Row("tests/late_client.py", DIAGNOSTICS, *STATUS, "the status after 1 late answers"),
    Row("tests/recordings_client.py", SESSION, '"capabilities"', '"capabilitieS"', "capabilit"),
    Row("tests/recordings_client.py", SESSION, *STATUS, "the status"),
    Row("tests/recordings_client.py", out("lsp_demo"), '"method"', '"methoD"', "methoD"),
    Row(TYPED, "crates/example_toml/stdout", '"capabilities"', '"capabilitieS"', "capabilitieS"),
    Row(f"{UNREAD} 30", out("bench"), '"id"', '"iD"', "'id'"),
    Row(f"{UNREAD} 30", *BOUND, "took more than 1.0 MB", f"{UNREAD} 1"),
    Row(f"{SEARCHES} 16 --times 3", *BOUND, "took more than 0.0 times", f"{SEARCHES} 2 --times 0"),
    Row(f"tests/editor.py {SESSION}", SESSION, '"capabilities"', '"capabilitieS"', "capabilit"),
    Row(f"tests/editor.py {SESSION}", SESSION, *STATUS, "the exit status"),
    Row(f"tests/editor.py {DIAGNOSTICS} --stdio", DIAGNOSTICS, '"capabilities"', '"capabilitieS"', "capabilit"),
    Row(f"tests/editor.py --socket {DIAGNOSTICS}", DIAGNOSTICS, "-32601", "-32602", "-32602"),
    Row(f"tests/editor.py --socket {TOML}", TOML, "-32601", "-32602", "-32602"),
]
OF_TOOLS = [
    Row("tools/statuses", SESSION, "left without a shutdown", "left without a shutdowN", "shutdowN"),
    Row("tools/statuses", SESSION, *STATUS, "status and output"),
    Row("tools/rows/watch --try 7 2000", out("lsp_check"), "has no reply", "has nO reply", "came to another judgement", "tools/rows/watch --try 7 4"),
    Row("tools/fail_once/run", out("lsp_demo"), '"method"', '"methoD"', "WRONG", "tools/fail_once/run --only pump"),
]
ROWS = [*OF_TREE, *OF_CLIENTS, *OF_TOOLS]


def calls_tried():
    """The checks that a row tries, or UNTRIED says why none does."""
    return [*dict.fromkeys(it.call for it in ROWS), *UNTRIED]


def copied(folder):
    """A copy of the tracked files, as they are now, with the programs that are built. Git takes it for a worktree."""
    listed = subprocess.run(["git", "ls-files", "-z"], cwd=ROOT, capture_output=True, text=True, check=True).stdout
    for name in filter(None, listed.split("\0")):
        if (ROOT / name).is_file():
            (folder / name).parent.mkdir(parents=True, exist_ok=True)
            shutil.copy2(ROOT / name, folder / name)
    kept = subprocess.run(["git", "rev-parse", "--absolute-git-dir"], cwd=ROOT, capture_output=True, text=True, check=True).stdout
    (folder / ".git").write_text(f"gitdir: {kept}")
    for crate in (it.parent.parent.name for it in ROOT.glob("crates/*/out/*") if it.name == it.parent.parent.name):
        (folder / out(crate)).parent.mkdir()
        (folder / out(crate)).symlink_to(ROOT / out(crate))


def make_wrong(row, folder, library):
    """Makes the file of a row wrong: nothing, or why it could not."""
    path, right = folder / row.file, ROOT / row.file
    if not row.file:
        return ""
    if not path.is_file():
        return f"there is no {row.file}: `rt ci` builds the programs"
    if "/out/" not in row.file:
        data, old = right.read_bytes(), row.old.encode()
        path.write_bytes(data.replace(old, row.new.encode(), 1))
        return "" if old in data else f"{row.file} does not have {row.old!r}: choose another byte"
    wrong = f"WRONG_OLD={shlex.quote(row.old)} WRONG_NEW={shlex.quote(row.new)}" if row.old else "WRONG_STATUS=1"
    path.unlink()
    path.write_text(f'#!/bin/sh\nexport LD_PRELOAD="{library} $LD_PRELOAD" {wrong}\nexec {shlex.quote(str(right))} "$@"\n')
    path.chmod(0o755)
    return ""


def mend(row, folder):
    """Makes the file of a row as it was."""
    path = folder / row.file
    if not row.file:
        return
    if "/out/" in row.file:
        path.unlink()
        path.symlink_to(ROOT / row.file)
    else:
        shutil.copy2(ROOT / row.file, path)


def ended(row, folder):
    """The status of a check, and what it printed. Programs that it left running end with it."""
    with tempfile.TemporaryFile() as log:
        words = shlex.split(row.run or row.call)
        process = subprocess.Popen(words, cwd=folder, stdin=subprocess.DEVNULL, stdout=log, stderr=log, start_new_session=True)
        try:
            status = process.wait(LONGEST)
        except subprocess.TimeoutExpired:
            status = None
        with suppress(ProcessLookupError):
            os.killpg(process.pid, signal.SIGKILL)
        process.wait()
        log.seek(0)
        return status, log.read().decode(errors="backslashreplace")


def what_is_wrong(row):
    if row.old:
        return f"{row.new!r} in place of {row.old!r} in {row.file}"
    return f"another status of {row.file}" if row.file else f"the bound of `{row.run}`"


def unnoticed(row, folder, library):
    """Nothing if the check of a row notices what is wrong, and otherwise a line."""
    wrong = what_is_wrong(row)
    if sum(one != other for one, other in zip(row.old, row.new)) != bool(row.old) or len(row.old) != len(row.new):
        return f"{row.call}: {wrong} is not one wrong byte"
    if why := make_wrong(row, folder, library):
        return f"{row.call}: {why}"
    status, said = ended(row, folder)
    mend(row, folder)
    if status is None:
        return f"{row.call} did not end within {LONGEST} seconds with {wrong}"
    if status == 0:
        return f"{row.call} does not notice {wrong}"
    return "" if row.says in said else f"{row.call} does not show {row.says!r} with {wrong}, but: {said[-600:].strip()}"


def main(words):
    calls = gate.calls()
    wrong = [why for _, why in gate.row_faults(calls_tried()) if why]
    rows = [it for it in ROWS if not words or any(word in it.call for word in words)]
    with tempfile.TemporaryDirectory(prefix="wrong-byte-") as room:
        library, folder = Path(room, "wrong_byte.so"), Path(room, "tree")
        subprocess.run(["cc", "-std=c11", "-O1", "-Wall", "-Wextra", "-Werror", "-shared", "-fPIC", "-o", library, LIBRARY], check=True)
        copied(folder)
        for row in rows:
            fault = unnoticed(row, folder, library) if row.call in calls else ""
            print(fault or f"{row.call}: notices {what_is_wrong(row)}", flush=True)
            wrong += [fault] * bool(fault)
    print(*wrong, f"{len(rows)} rows, {len(wrong)} faults", sep="\n")
    return len(wrong) > 0


if __name__ == "__main__":
    sys.exit(main(sys.argv[1:]))
