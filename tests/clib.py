#!/usr/bin/env python3
"""The C libraries, from C, Python, Rust and Go: it builds them by `tools/clib`, and tries what users load. Each step is a line.

    tests/clib.py           all of it
    tests/clib.py --tree    what it compares in the tree alone: structs and versions

It needs a C compiler, `nm`, `ar` and pip (`tools/needs`). Cargo, Go, Valgrind, pkg-config and pytest may be missing: a line that ends in
`: skipped` names each, and the gate counts these lines. `.ci/run` calls it, first with `--tree`.
"""
import os
import re
import shutil
import subprocess
import sys
import tempfile
import time
import zipfile
from pathlib import Path

sys.dont_write_bytecode = True

from lsp import CRATES, Difference, expect, run

ROOT = CRATES.parent
HERE, BINDINGS, DATA = ROOT / "tests/clib", ROOT / "bindings", CRATES / "lsp_check/data"
RUNS, RUNS_IN_VALGRIND = 20_000, 150
OF_JUDGE = ("log", "rules", "version", "new", "message", "end", "free")
EXPORTS = {"lsp_judge": {f"lsp_judge_{it}" for it in OF_JUDGE}, "lsp_front": {"lsp_front", "lsp_message_kind"}}
# What the shared objects take of the C library. (The last one is named by an error's text.)
IMPORTS = {"malloc", "realloc", "free", "memcpy", "memmove", "memset", "memcmp", "bcmp", "strlen", "__xpg_strerror_r"}
WIDTHS = {"u8": "uint8_t ", "u32": "uint32_t ", "u64": "uint64_t ", "usize": "size_t ", "bool": "uint8_t ", "*mut u8": "void *"}
STRUCTS = {"LspJudgeOptions": "lsp_judge_options", "LspJudgeVerdict": "lsp_judge_verdict", "LspFrontFound": "lsp_front_found"}
STRUCTS |= {"LspJudgeSession": "lsp_judge_session"}
# The bytes that a shared object may have. Some 100,000 of lsp_judge are LSP's types: the readers of logs are linked with them, though no
# rule of types is judged here.
MOST = {"lsp_judge": 750_000, "lsp_front": 300_000}


def ended(*words, status=0, **how):
    """What a command printed, which has to end in this status."""
    ran = subprocess.run([str(it) for it in words], stdout=subprocess.PIPE, stderr=subprocess.STDOUT, text=True, errors="replace", check=False, **how)
    if ran.returncode != status:
        raise Difference(f"{Path(words[0]).name} ended with status {ran.returncode}:\n{ran.stdout[-3000:]}")
    return ran.stdout


def found(name):
    if not shutil.which(name):
        print(f"{name} is not installed: skipped")
    return shutil.which(name)


def check_headers():
    """The structs of the crates have the members of the headers, in this order and of this width."""
    code = "".join((CRATES / it).read_text() for it in ("lsp_judge_c/src/lib.rt", "lsp_judge_c/src/handle.rt", "lsp_front_c/src/lib.rt"))
    headers = "".join(it.read_text() for it in sorted((BINDINGS / "c").glob("*.h")))
    for ours, theirs in STRUCTS.items():
        body = re.search(rf"pub struct {ours} \{{(.*?)\n\}}", code, re.S)[1]
        header = re.search(rf"struct {theirs} \{{(.*?)\n\}};", headers, re.S)[1]
        members = [(WIDTHS[width], name) for name, width in re.findall(r"(?m)^    (?:pub )?(\w+): ([*\w ]+),$", body)]
        expect(theirs, re.findall(r"(?m)^    (\w+ \*?)(\w+);", header), members)


def check_versions():
    """The version in the changelog is that of the library, of its header and of the package for Rust."""
    version = re.search(r"(?m)^## (\d+)\.(\d+)\.(\d+)", (ROOT / "CHANGELOG.md").read_text())
    number = int(version[1]) * 1_000_000 + int(version[2]) * 1_000 + int(version[3])
    places = {CRATES / "lsp_judge_c/src/lib.rt": r"VERSION: u32 = ([\d_]+);", BINDINGS / "c/lsp_judge.h": r"LSP_JUDGE_VERSION (\d+)"}
    for path, where in places.items():
        expect(f"the version in {path.name}", int(re.search(where, path.read_text())[1]), number)
    expect("that of the package for Rust", re.search(r'version = "(.*)"', (BINDINGS / "rust/Cargo.toml").read_text())[1], version[0][3:])


def check_licences(folder):
    """The licences and NOTICE are in the folder and in each package."""
    wheels = [zipfile.ZipFile(it) for it in folder.glob("*.whl")]
    expect("how many wheels there are", len(wheels), 1)
    for name in ("LICENSE-APACHE", "LICENSE-MIT", "NOTICE"):
        text = (ROOT / name).read_bytes()
        for place in (folder, folder / "rust", folder / "go"):
            expect(f"{name} in {place.name}", (place / name).read_bytes() if (place / name).is_file() else None, text)
        inside = [it for it in wheels[0].namelist() if it.endswith(f".dist-info/licenses/{name}")]
        expect(f"{name} in the wheel", [wheels[0].read(it) for it in inside], [text])


def check_symbols(folder):
    for name, exports in EXPORTS.items():
        lines = ended("nm", "-D", folder / f"lib{name}.so.0").splitlines()
        words = [it.split()[-1] for it in lines]
        defined = {it.split("@")[0] for it, line in zip(words, lines) if " T " in line}
        taken = {it.split("@")[0] for it, line in zip(words, lines) if " U " in line}
        newest = max((tuple(map(int, it.split("@GLIBC_")[1].split("."))) for it in words if "@GLIBC_" in it), default=(0,))
        expect(f"what {name} exports", defined, exports)
        expect(f"what {name} takes of others", taken - IMPORTS, set())
        print(f"{name}: exports {len(defined)}, takes {len(taken)}, of glibc {'.'.join(map(str, newest))}")
        if newest > (2, 17):
            raise Difference(f"{name} needs a glibc that manylinux2014 does not have")
        if (folder / f"lib{name}.so.0").stat().st_size > MOST[name]:
            raise Difference(f"{name} has more than {MOST[name]} bytes")


def compiled(folder, name, *words):
    program = folder / f"{name}.out"
    cc = ["cc", "-std=c11", "-Wall", "-Wextra", "-Werror", "-O1", "-g", "-I", folder, "-o", program, HERE / f"{name}.c"]
    ended(*cc, folder / "liblsp_judge.a", folder / "liblsp_front.a", "-Wl,--allow-multiple-definition", *words)
    return program


def check_c(folder):
    logs, small = sorted(DATA.iterdir()), [DATA / "NoReply_kept.lsp", DATA / "AlreadyOpen_broken.lsp"]
    print(ended(compiled(folder, "layout")), end="")
    fuzz = compiled(folder, "fuzz")
    print(ended(fuzz, RUNS, *logs), end="")
    nomem = compiled(folder, "nomem", "-Wl,--wrap=rattle_alloc,--wrap=rattle_realloc")
    print(ended(nomem, 0, *small, *DATA.glob("TokenEnded_*.lsp")), end="")
    print(ended(nomem, 1, *DATA.glob("*.log")), end="")
    if found("valgrind"):
        words = ["valgrind", "-q", "--leak-check=full", "--error-exitcode=9"]
        print("valgrind:", ended(*words, fuzz, RUNS_IN_VALGRIND, *small), end="")
        print("valgrind:", ended(*words, nomem, 0, small[1]), end="")
    if found("pkg-config"):
        how = {"env": {**os.environ, "PKG_CONFIG_PATH": str(folder)}}
        flags = ended("pkg-config", "--cflags", "--libs", "lsp_judge", **how).split()
        (folder / "one.c").write_text('#include "lsp_judge.h"\nint main(void) { return lsp_judge_version() != LSP_JUDGE_VERSION; }\n')
        ended("cc", "-std=c99", "-o", folder / "one.out", folder / "one.c", *flags)
        ended(folder / "one.out")


def check_python(folder):
    """The wheel, as it is installed, in the tests of the module; and in a fixture of pytest."""
    wheels, room, tests = list(folder.glob("*.whl")), folder / "installed", folder / "tests"
    tests.mkdir()
    for it in ("test_lsp_judge.py", "test_fixture.py"):
        shutil.copy(BINDINGS / "python" / it, tests)
    ended(sys.executable, "-m", "pip", "install", "-q", "--no-index", "--no-deps", "--target", room, *wheels, env={**os.environ, "PIP_NO_COLOR": "1"})
    how = {"LSP_JUDGE_DATA": str(DATA), "PYTHONPATH": str(room), "PYTHONDONTWRITEBYTECODE": "1"}
    for name, program in {"LSP_EXAMPLE": "example_diagnostics", "LSP_CHECK": "lsp_check"}.items():
        built = CRATES / program / "out" / program
        how |= {name: str(built)} if built.is_file() else {}
        print(*[f"{program} is not built: skipped"] * (not built.is_file()))
    how = {"cwd": tests, "env": {**os.environ, **how}}
    lines = ended(sys.executable, "-m", "unittest", "-v", "test_lsp_judge", **how)
    print(re.sub(r"(?m)^(.*) \.\.\. skipped (['\"])(.*)\2$", r"\1: \3: skipped", lines).rstrip())
    for python in (sys.executable, "/usr/bin/python3"):
        if not subprocess.run([python, "-c", "import pytest"], capture_output=True, check=False).returncode:
            print("pytest:", ended(python, "-m", "pytest", "-q", "-p", "no:cacheprovider", "test_fixture.py", **how).splitlines()[-1])
            return
    print("pytest is not installed: skipped")


def check_others(folder):
    if found("cargo"):
        said = ended("cargo", "test", "--offline", "-q", cwd=folder / "rust", env={**os.environ, "CARGO_TARGET_DIR": str(folder / "target")})
        print("rust:", *re.findall(r"test result: ok\. \d+ passed", said))
    if found("go"):
        how = {"GOFLAGS": "-mod=mod", "GOPROXY": "off", "GOCACHE": str(folder / "go-cache")}
        print("go:", ended("go", "test", "./...", cwd=folder / "go", env={**os.environ, **how}).strip())


def check_tree():
    check_headers()
    check_versions()


def check():
    with tempfile.TemporaryDirectory(prefix="clib-") as room:
        folder, begin = Path(room), time.monotonic()
        check_tree()
        print(ended(ROOT / "tools/clib", folder), end="")
        for step in (check_licences, check_symbols, check_c, check_python, check_others):
            print(f"{step.__name__[6:]}, after {time.monotonic() - begin:.0f} s")
            sys.stdout.flush()
            step(folder)


def main(words):
    if words not in ([], ["--tree"]):
        return __doc__
    return run(check_tree if words else check)


if __name__ == "__main__":
    sys.exit(main(sys.argv[1:]))
