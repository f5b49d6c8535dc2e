"""What the programs are sent: the same bytes at each run. The messages of a load differ in one number of six digits alone, so that all
of them have one length, and so have their replies."""
import itertools
import json
import random
from dataclasses import dataclass

FIRST = 100_000
# A place of a list takes 29 bytes or somewhat more.
PLACE = 31
URI = "file:///project/src/reader_17.rs"
SOURCE_LINES = [
    "fn main() -> Result<(), Error> {\n",
    '    let greeting = format!("hello, {name}\\n");\n',
    "\tif count <= limit && !names.is_empty() {\n",
    "        return Err(Error::new(\"no path C:\\\\temp\\\\data\"));\n",
    "    // Grüße – 日々の相場: counts in cents, and never in floats.\n",
    "    let total: u64 = prices.iter().map(|price| price.cents).sum();\n",
    "}\n",
    "\n",
    "    assert_eq!(naïve(\"\U0001f600\"), 4, \"one emoji is four bytes\");\n",
    "impl<'a> Iterator for Words<'a> {\n",
]
PROBLEMS = [
    "unused variable: `total`\nprefix it with an underscore",
    "expected `&str`, found `String`",
    'cannot find value "größe" in this scope',
    "this loop never ends \u2013 add a `break`",
]


@dataclass
class Load:
    """Messages of a kind of row. `wanted` is the reply to the first, or None where it is only a notification of its method."""

    kind: str
    name: str
    count: int
    body: bytes
    wanted: dict | None = None
    places: int = 0
    opening: bytes = b""
    most_open: int = 64

    def message(self, number):
        return numbered(self.body, number)


def numbered(body, number):
    """The message, or the reply, that has this number in the place of FIRST."""
    return body.replace(b"%d" % FIRST, b"%d" % number, 1)


def compact(value):
    return json.dumps(value, separators=(",", ":"), ensure_ascii=False, sort_keys=True).encode()


def place(line, character):
    return {"line": line, "character": character}


def diagnostic(source):
    """What a server says of a place: small objects, with a text."""
    line, column = source.randrange(2000), source.randrange(100)
    problem = {"severity": source.randrange(1, 5), "code": f"E{source.randrange(1000):04}", "source": "checker"}
    span = {"start": place(line, column), "end": place(line, column + source.randrange(1, 30))}
    return problem | {"range": span, "message": source.choice(PROBLEMS)}


def taken(items, length):
    """So many of the items that as JSON they have about this length."""
    chosen = []
    while length > 0:
        chosen.append(next(items))
        length -= len(compact(chosen[-1])) + 1
    return chosen


def params_of(length):
    """A place and a word; diagnostics; or for a megabyte a document's text and diagnostics, half each."""
    if length < 1000:
        return {**place(17, 4), "of": "x" * (length - len(request({**place(17, 4), "of": ""})))}
    source, lines = random.Random(length), itertools.cycle(SOURCE_LINES)
    text = "".join(taken(lines, length // 2)) if length > 100_000 else ""
    found = taken((diagnostic(source) for _ in itertools.count()), length - len(compact(text)) - 100)
    return {"diagnostics": found, "text": text, "uri": URI}


def request(params, method="demo/echo"):
    return b'{"jsonrpc":"2.0","id":%d,"method":"%s","params":%s}' % (FIRST, method.encode(), compact(params))


def reply(result):
    return {"jsonrpc": "2.0", "id": FIRST, "result": result}


def notification(method, params):
    return b'{"jsonrpc":"2.0","method":"%s","params":%s}' % (method.encode(), compact(params))


def pump(name, length, count):
    """Notifications that are to come out as they went in."""
    return Load("pump", f"pump, {name}", count, notification("demo/note", params_of(length - 4) | {"number": FIRST}))


def echo(name, length, count, most_open=64):
    """Requests that get their params back."""
    params = params_of(length)
    return Load("echo", name, count, request(params), reply(params), most_open=most_open)


def typed(name, length, count, most_open=64):
    """Requests that get their report back. A server can read and write it by its type."""
    source = random.Random(length)
    found = taken((diagnostic(source) for _ in itertools.count()), length - len(request({"items": [], "kind": "full"})))
    params = {"items": found, "kind": "full"}
    return Load("typed", f"{name}, by types", count, request(params), reply(params), most_open=most_open)


def result(name, length, count, most_open=64):
    """Small requests that get a list back."""
    count_of_places = length // PLACE
    places = [{"character": 7, "line": line} for line in range(count_of_places)]
    return Load("result", f"98 B, result {name}", count, request(params_of(98)), reply(places), count_of_places, most_open=most_open)


def keystrokes(name, length, count):
    """A letter typed over another, in the middle of an open text. Each gets the diagnostics of the text."""
    lines = length // 32
    text = "".join(f"# heading {line:06} of a longtext\n" for line in range(lines))
    document = {"uri": URI, "languageId": "text", "version": 1, "text": text}
    where = {"start": place(lines // 2, 2), "end": place(lines // 2, 3)}
    change = {"textDocument": {"uri": URI, "version": FIRST}, "contentChanges": [{"range": where, "text": "x"}]}
    return Load("text", f"keystroke in {name}", count, notification("textDocument/didChange", change),
                opening=notification("textDocument/didOpen", {"textDocument": document}), most_open=1)


def computations(turns):
    """Requests that take a while to answer, and get their params back."""
    params = {"turns": turns}
    return Load("compute", "8 that compute", 8, request(params, "demo/compute"), reply(params), most_open=8)


def loads(divisor):
    """All loads. `divisor` is for a run that only shows that everything runs."""
    def part(count, least=4):
        return max(least, count // divisor)

    return [
        pump("98 B", 98, part(40_000)), pump("2 KB", 2_000, part(8_000)), pump("1 MB", 1_000_000, part(24)),
        echo("98 B", 98, part(3_000)), echo("2 KB", 2_000, part(2_000)), echo("1 MB", 1_000_000, part(12), 4),
        typed("2 KB", 2_000, part(2_000)),
        result("2 KB", 2_000, part(2_000)), result("64 KB", 64_000, part(150)), result("1 MB", 1_000_000, part(8), 4),
        keystrokes("1 KB", 1_000, part(400)), keystrokes("100 KB", 100_000, part(100)), keystrokes("1 MB", 1_000_000, part(25)),
        computations(50_000_000 // divisor),
    ]
