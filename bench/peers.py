"""Builds the programs that ours are measured beside: the Rust crate, RapidJSON, a copy of frames, and servers over the libraries
of Python and Node. Each is left out, with a line that says why, where what it needs is missing.

All that is made lies in `bench/out`. Debian's packages are unpacked there, not installed. The crate's dependencies and Node's library
are those of `SUITE`, whose serde_json is newer than that of Debian 12.
"""
import re
import shutil
import subprocess
import sys
from dataclasses import dataclass
from pathlib import Path

HERE = Path(__file__).resolve().parent
SOURCES = HERE / "peers"
MADE = HERE / "out"
SUITE = "trixie"
KEYS = "/usr/share/keyrings/debian-archive-keyring.gpg"
CRATES = ("cfg-if crossbeam-channel crossbeam-utils itoa log memchr proc-macro2 quote ryu serde serde-derive serde-json syn "
          "unicode-ident").split()
NODE = ["vscode-jsonrpc", *("vscode-languageserver" + part for part in ("", "-protocol", "-types", "-textdocument"))]
CRATE_MANIFEST = """[package]
name = "lsp-server"
version = "0.10.0"
edition = "2024"

[dependencies]
crossbeam-channel = "0.5"
log = "0.4"
serde = "1"
serde_derive = "1"
serde_json = "1"
"""
CARGO_SETTINGS = """[source]
crates-io.replace-with = "debian"
debian.directory = "{registry}"

[net]
offline = true
"""


class Missing(Exception):
    """What a peer needs isn't there."""


@dataclass
class Program:
    """A program: the words that it is started with for each kind of row that it knows, and what it needs of its environment."""

    name: str
    commands: dict
    version: str = ""
    environment: tuple = ()
    copies: bool = False


def run(words, folder=None):
    """What a command prints, or `Missing` with the last line that it says."""
    if not shutil.which(words[0]):
        raise Missing(f"no command {words[0]}")
    ran = subprocess.run(words, cwd=folder, capture_output=True, text=True, check=False)
    if ran.returncode:
        said = [line for line in (ran.stderr + ran.stdout).splitlines() if "rror" in line or line.startswith("E:")]
        raise Missing(f"{' '.join(map(str, words[:3]))}: {said[0] if said else 'failed'}")
    return ran.stdout


def write_if_other(path, text):
    path.parent.mkdir(parents=True, exist_ok=True)
    if not path.exists() or path.read_text() != text:
        path.write_text(text)


def lists_of(suite):
    """The options with which `apt-get` sees that suite of Debian alone. The machine's own lists stay as they are."""
    folder = MADE / "apt" / suite
    options = [f"-oDir::Etc::SourceList={folder}/list", "-oDir::Etc::SourceParts=/dev/null", f"-oDir::State::Lists={folder}/lists",
               f"-oDir::Cache={folder}/cache"]
    if not (folder / "lists").exists():
        write_if_other(folder / "list", f"deb [signed-by={KEYS}] http://deb.debian.org/debian {suite} main\n")
        for name in ("lists/partial", "cache/archives/partial"):
            (folder / name).mkdir(parents=True)
        run(["apt-get", "-qq", *options, "update"])
    return options


def unpacked(names, suite=""):
    """The folder where these packages of Debian are unpacked."""
    found, packages = MADE / "debian" / suite, MADE / "packages" / suite
    for folder in (found, packages):
        folder.mkdir(parents=True, exist_ok=True)
    for name in names:
        if not (found / "usr/share/doc" / name).exists():
            run(["apt-get", "-qq", *(lists_of(suite) if suite else []), "download", name], packages)
            run(["dpkg-deb", "-x", *packages.glob(name + "_*.deb"), found])
    return found


def version_of(package, suite=""):
    """The version of a package that was unpacked, without Debian's own part."""
    name = next((MADE / "packages" / suite).glob(package + "_*.deb")).name.split("_")[1]
    return re.split("[+~-]", name.replace("%3a", ":").split(":")[-1])[0]


def crate_files(folder):
    """The crate's files below `src`. A flat folder has `--` for each `/` of their paths, and may have `.txt` at the end."""
    files = {}
    for path in sorted(Path(folder).rglob("*")):
        name = str(path.relative_to(folder)).replace("--", "/").removesuffix(".txt")
        if name.endswith(".rs") and path.is_file():
            files[name] = path.read_text()
    roots = [name.removesuffix("lib.rs") for name in files if name.endswith("src/lib.rs")]
    if not roots:
        raise Missing(f"no src/lib.rs in {folder}")
    root = min(roots, key=len)
    return {name.removeprefix(root): text for name, text in files.items() if name.startswith(root)}


def build_crate(folder):
    if folder is None:
        raise Missing("no folder of its sources was named by --crate")
    for name, text in crate_files(folder).items():
        write_if_other(MADE / "lsp-server/src" / name, text)
    packages = [f"librust-{name}-dev" for name in CRATES]
    registry = unpacked(packages, SUITE) / "usr/share/cargo/registry"
    write_if_other(MADE / "lsp-server/Cargo.toml", CRATE_MANIFEST)
    write_if_other(MADE / "crate/.cargo/config.toml", CARGO_SETTINGS.format(registry=registry))
    for name in ["Cargo.toml", "src/main.rs"]:
        write_if_other(MADE / "crate" / name, (SOURCES / "crate" / name).read_text())
    run(["cargo", "build", "--quiet", "--offline", "--release"], MADE / "crate")
    path = MADE / "crate/target/release/crate_peer"
    used = [f"{name} {version_of(f'librust-{name}-dev', SUITE)}" for name in ("serde-json", "crossbeam-channel")]
    version = ", ".join(["lsp-server 0.10.0", *used, run(["rustc", "--version"]).split(" (")[0]])
    return Program("crate", serving([path]) | {"pump": [path, "pump"]}, version)


def serving(command, *kinds):
    """The words of the kinds that a server knows: of all, if none is named."""
    words = {"echo": [*command, "serve"], "result": [*command, "drops", "PLACES"], "text": [*command, "texts"]}
    words["typed"] = words["echo"]
    return {kind: words[kind] for kind in kinds or words}


def built_by_cpp(source, *options):
    path = MADE / source.removesuffix(".cpp")
    run(["g++", "-std=c++17", "-O3", "-DNDEBUG", *options, "-o", path, SOURCES / source])
    return path


def build_rapid():
    path = built_by_cpp("rapid.cpp", "-I", unpacked(["rapidjson-dev"]) / "usr/include")
    version = f"RapidJSON {version_of('rapidjson-dev')}, {run(['g++', '--version']).splitlines()[0]}"
    return Program("RapidJSON", {**serving([path], "echo", "result", "typed"), "pump": [path, "pump"]}, version)


def build_copy():
    path = built_by_cpp("copy.cpp")
    return Program("copy", {"pump": [path, "pump"], **serving([path], "echo", "typed")}, copies=True)


def build_python():
    root = unpacked(["python3-pylsp-jsonrpc", "python3-ujson", "libdouble-conversion3"])
    libraries = next(root.glob("usr/lib/*-linux-gnu"))
    environment = (("PYTHONPATH", f"{root}/usr/lib/python3/dist-packages"), ("LD_LIBRARY_PATH", str(libraries)))
    versions = [f"{name} {version_of('python3-' + name)}" for name in ("pylsp-jsonrpc", "ujson")]
    version = ", ".join([*versions, run([sys.executable, "--version"]).strip()])
    return Program("Python", serving([sys.executable, SOURCES / "server.py"]), version, environment)


def build_node():
    root = unpacked(["node-" + name for name in NODE], SUITE)
    version = f"vscode-languageserver {version_of('node-vscode-languageserver', SUITE)}, Node {run(['node', '--version']).strip()}"
    return Program("Node", serving(["node", SOURCES / "server.js"]), version, (("NODE_PATH", f"{root}/usr/share/nodejs"),))


def tcmalloc():
    """The library that is loaded before a program to give it another allocator, and its version."""
    root = unpacked(["libtcmalloc-minimal4"])
    return str(next(root.glob("usr/lib/*/libtcmalloc_minimal.so.4"))), version_of("libtcmalloc-minimal4")


def build_all(crate_folder):
    """The peers that can be built here."""
    for name, build in [("crate", lambda: build_crate(crate_folder)), ("RapidJSON", build_rapid), ("copy", build_copy),
                        ("Python", build_python), ("Node", build_node)]:
        try:
            yield build()
        except Missing as missing:
            print(f"left out: {name}: {missing}", file=sys.stderr)
