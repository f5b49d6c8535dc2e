"""Writes the entries that a table of features may have, for `tools/types`: src/plain.rt and src/configured.rt of lsp_features.

A line `METHOD MEMBER` of its features.txt names a type of a method, and the member of `ServerCapabilities` that announces the method. If
the tables of the types have a `bool` there, the method is announced by `true`. Otherwise it is announced by options of the type there.
"""

from members import CRATES, ROOT, read

CRATE = ROOT / "crates" / "lsp_features"
TABLE = CRATE / "features.txt"
HEAD = "// The methods that are announced {} (LSP 3.17, \"ServerCapabilities\").\n// `tools/types` wrote this file from `features.txt`: change that.\n"
PLAIN = """
impl<S> Feature<S> for {name} {{
    ghost member = {{ codes "{member}" }};

    ghost offers = {{ λ _ json. json ≡ boolean true }};

    fn method() -> &'static str {{
        {name}::METHOD
    }}

    fn member() -> &'static str {{
        "{member}"
    }}

    fn offer(_server: &S, _alloc: Global) -> Result<Value, AllocError> {{
        Ok(Value::Bool(true))
    }}
}}
"""
CONFIGURED = """
impl HasOptions for {name} {{
    type Options = {options};
}}

impl<S: Offers<{name}>> Feature<S> for {name} {{
    ghost member = {{ codes "{member}" }};

    ghost offers = {{ λ server json.
        IsOption (S.options server) ⟦<{options} as ToJson>⟧.stands json }};

    fn method() -> &'static str {{
        {name}::METHOD
    }}

    fn member() -> &'static str {{
        "{member}"
    }}

    fn offer(server: &S, alloc: Global) -> Result<Value, AllocError> {{
        options_of::<{name}, S>(server, alloc)
    }}
}}
"""


def entries():
    """Each entry: the name of its method's type and the crate of that, the member, its type, and what is wrong with the line."""
    methods, capabilities = {}, {}
    for crate in CRATES:
        for _, items in read(crate / "types.txt").values():
            methods |= {words[0]: (crate.name, words) for it in items if it.kind == "methods" for words, *_ in it.members}
            capabilities |= {m.key: m for it in items if it.name == "ServerCapabilities" for m in it.members}
    for number, line in enumerate(TABLE.read_text().splitlines(), 1):
        if line and not line.startswith("#"):
            name, member = line.split(" ")
            home, words = methods.get(name, (None, (None, None, None)))
            there = capabilities.get(member)
            fault = f"no table has a method {name}" if home is None else f"{name} is not a request to the server" if words[2] != "server" or len(words) < 5 else None
            if fault is None and (there is None or f"`{words[1]}`" not in there.doc):
                fault = f"{member} of `ServerCapabilities` does not announce `{words[1]}`"
            yield name, home, member, there and there.type, fault and f"{TABLE.relative_to(ROOT)}:{number}: {fault}"


def imports(names):
    """What brings in the types of methods, by their crates."""
    homes = {}
    for name, home in names:
        homes.setdefault(home, []).append(name)
    return "".join(f"use {home}::methods::{{{', '.join(sorted(found))}}};\n" for home, found in homes.items())


def files():
    """What each file has to hold."""
    found = [it[:4] for it in entries() if it[4] is None]
    plain = [it for it in found if it[3] == "bool"]
    configured = [it for it in found if it[3] != "bool"]
    yield CRATE / "src" / "plain.rt", (
        HEAD.format("by `true`")
        + "ghost use Rattle.std.specs.Prelude.{◌≡◌, true, codes};\nghost use Rattle.serde_json.specs.Data.{boolean};\n\n"
        + "use crate::feature::Feature;\n"
        + imports(it[:2] for it in plain)
        + "use serde_json::Value;\nuse std::alloc::{AllocError, Global};\n"
        + "".join(PLAIN.format(name=name, member=member) for name, _, member, _ in plain)
    )
    options = ", ".join(sorted(kind for *_, kind in configured))
    yield CRATE / "src" / "configured.rt", (
        HEAD.format("with options")
        + "ghost use Rattle.std.specs.Prelude.{codes};\nghost use Rattle.lsp_features.specs.Features.{IsOption};\n\n"
        + "use crate::feature::{Feature, HasOptions, Offers, options_of};\n"
        + imports(it[:2] for it in configured)
        + f"use lsp_types::{{{options}, ToJson}};\nuse serde_json::Value;\nuse std::alloc::{{AllocError, Global}};\n"
        + "".join(CONFIGURED.format(name=name, member=member, options=kind) for name, _, member, kind in configured)
    )


def misnamed():
    """The lines of the table that name no such method, or no member that announces it."""
    return [fault for *_, fault in entries() if fault]
