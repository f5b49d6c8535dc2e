"""The messages of editors' logs: a second reader of them, which looks at the whole log. `lsp_check` reads line by line."""
import json
import re

HEAD = re.compile(r"\[Trace - ([^\]]*)\] (Sending|Received) (request|notification|response) '(.*?)(?: - \((.*)\))?'")
TOOK = re.compile(r"' in (\d+)ms|Processing request took (\d+)ms")
HELIX = re.compile(r"(\S+) helix_lsp::transport \[INFO\] (\S+) (->|<-) (.*)$")
NEOVIM = re.compile(r'"rpc\.(send|receive)"\t(.*)$')
EMACS = re.compile(r"\[jsonrpc\] e\[([^\]]*)\] *(-->|<--) (\S+) ?(.*)$")
CLOCK = re.compile(r"(\d\d):(\d\d):(\d\d)\.(\d\d\d)")
LUA_KEY = re.compile(r'([A-Za-z_]\w*) = |\[("(?:[^"\\]|\\.)*"|-?\d+)\] = ')
LUA_WORD = re.compile(r"<[^>]*>|[^\s,{}]+")
LISP_WORD = re.compile(r'"(?:[^"\\]|\\.)*"|#s\(hash-table\)|[()\[\]]|[^\s()\[\]]+', re.S)
ESCAPES = {"n": "\n", "t": "\t", "r": "\r"}


def time_of(text):
    got = CLOCK.search(text)
    if not got:
        return None
    hours, minutes, seconds, thousandths = map(int, got.groups())
    return ((hours * 60 + minutes) * 60 + seconds) * 1000 + thousandths


def an_id(text):
    return int(text) if re.fullmatch(r"-?\d+", text) else text


def traces(lines):
    """Traces as text: a head, and up to an empty line the params or the result."""
    for at, line in enumerate(lines):
        head = HEAD.match(line)
        if not head:
            continue
        time, verb, kind, method, key = head.groups()
        body = []
        for below in lines[at + 1:]:
            if below.startswith("[") or not below.strip():
                break
            body.append(below)
        word, _, text = "\n".join(body).partition(":")
        message = {"jsonrpc": "2.0", **({"id": an_id(key)} if key else {})}
        if kind == "response":
            message["result"] = json.loads(text) if word == "Result" else None
        else:
            message["method"] = method
            if text.strip():
                message["params"] = json.loads(text)
        took = TOOK.search(line) if kind == "response" else None
        yield at + 1, "", "->" if verb == "Sending" else "<-", message, time_of(time), int(took[1]) if took else None


def json_traces(lines):
    for at, line in enumerate(lines, 1):
        if "isLSPMessage" in line:
            traced = json.loads(line[line.index("{"):])
            yield at, "", "->" if traced["type"].startswith("send") else "<-", traced["message"], traced["timestamp"]


def helix(lines):
    """Each result stands there twice: the second time alone."""
    for at, line in enumerate(lines, 1):
        got = HELIX.match(line)
        message = json.loads(got[4]) if got else None
        if isinstance(message, dict) and "jsonrpc" in message:
            yield at, got[2], got[3], message, time_of(got[1])


def lua(text):
    """A table as `vim.inspect` prints it."""
    def value(at):
        if text[at] == "{":
            return table(at + 1)
        if text[at] in "\"'":
            return string(at)
        word = LUA_WORD.match(text, at)
        known = {"true": True, "false": False, "vim.empty_dict()": {}}
        is_number = re.fullmatch(r"-?\d+", word[0])
        return known[word[0]] if word[0] in known else int(word[0]) if is_number else None, word.end()

    def string(at):
        quote, out, at = text[at], "", at + 1
        while text[at] != quote:
            if text[at] == "\\":
                at += 1
                out += ESCAPES.get(text[at], text[at])
            else:
                out += text[at]
            at += 1
        return out, at + 1

    def table(at):
        items, named = [], {}
        while True:
            while text[at] in " ,":
                at += 1
            if text[at] == "}":
                return named or items, at + 1
            key = LUA_KEY.match(text, at)
            got, at = value(key.end() if key else at)
            if isinstance(got, tuple):
                got, at = got
            if key:
                named[key[1] or json.loads(key[2])] = got
            else:
                items.append(got)

    def settled(at):
        got = value(at)
        return got[0] if isinstance(got, tuple) else got
    return settled(0)


def neovim(lines):
    for at, line in enumerate(lines, 1):
        got = NEOVIM.search(line)
        if got:
            message = lua(got[2])
            if not {"method", "error"} & set(message):
                message.setdefault("result", None)
            yield at, "", "->" if got[1] == "send" else "<-", message, None


def lisp(words):
    """The next value of these words, each taken off the end."""
    word = words.pop()
    if word not in ("(", "["):
        known = {"t": True, "nil": None, ":json-false": False, "#s(hash-table)": {}}
        if word in known:
            return known[word]
        return json.loads(word.replace("\n", "\\n")) if word[0] == '"' else an_id(word)
    items = []
    while words[-1] not in (")", "]"):
        items.append(lisp(words))
    words.pop()
    if word == "(" and items and isinstance(items[0], str) and items[0].startswith(":"):
        return {key[1:]: value for key, value in zip(items[::2], items[1::2])}
    return items


def emacs(lines):
    """The message in JSON, or below as Lisp, or its method and id alone: then it is a reply if the other side asked so."""
    asked = set()
    for at, line in enumerate(lines):
        got = EMACS.match(line)
        if not got:
            continue
        time, mark, name, text = got.groups()
        way = "->" if mark == "-->" else "<-"
        below = list(lines[at + 1:at + 2])
        if text:
            message = json.loads(text)
        elif below and below[0].startswith("("):
            message = lisp(LISP_WORD.findall("\n".join(lines[at + 1:]))[::-1])
        else:
            method, _, key = name.rstrip("]").partition("[")
            message = {"jsonrpc": "2.0", **({"id": an_id(key)} if key else {})}
            if key and (way, name) in asked:
                message["result"] = None
            else:
                message["method"] = method
                asked.add(("<-" if way == "->" else "->", name))
        yield at + 1, "", way, message, time_of(time)


MARKS = [("isLSPMessage", json_traces), ("helix_lsp", helix), ("[Trace - ", traces), ('"rpc.send"', neovim), ("[jsonrpc] e[", emacs)]


def passed_in(text):
    """What passed by a log: of each server by its name, as (line, way, message, time), and how long a reply took if its line says so."""
    lines = [it.rstrip("\r") for it in text.split("\n")]
    read = next(read for mark, read in MARKS if mark in text)
    servers = {}
    for line, name, *passed in read(lines):
        servers.setdefault(name, []).append((line, *passed))
    return servers
