"""What has to come of the calls that the rows make, by the base protocol and the lifecycle of LSP 3.17, JSON-RPC 2.0, RFC 8259 and the
documents of the calls. Nothing here calls a library of this repository."""
import json
from functools import cache

from tables import misspelt

GREATEST = 2**64 - 1
# A body may nest so far.
LEVELS = 127
# More bytes than any memory holds.
HUGE = 2**47
# A pump sends what it gathered once it has so many bytes.
FULL = 65536
# At most so many bytes are shown.
SHOWN = 1000


# How bytes stand in a line.


ESCAPED = {it: f"\\x{it:02x}" for it in range(256) if not 32 <= it < 127 or it == 92} | {13: "\\r", 10: "\\n"}


def escape(data):
    return data.decode("latin-1").translate(ESCAPED)


def shown(data):
    """Bytes in an answer: as they are, or of many their count and their value as digits of base 31, modulo 2^32."""
    if len(data) <= SHOWN:
        return escape(data)
    return f"{len(data)} bytes of sum {digits(data)}"


@cache
def digits(data):
    value = 0
    for byte in data:
        value = (31 * value + byte) % 2**32
    return value


# JSON (RFC 8259).


class NoJson(ValueError):
    pass


def whole_or_real(text):
    """A number without a fraction: as serde_json has it, a 64-bit integer where it fits, and else a double."""
    value = int(text)
    return value if -(2**63) <= value < 2**64 and text != "-0" else real(text)


def real(text):
    value = float(text)
    if value in (float("inf"), float("-inf")):
        raise NoJson
    return value


def constant(_):
    raise NoJson


def is_text(tree):
    """Whether all texts of a tree are Unicode: no half of a surrogate pair stands alone."""
    if isinstance(tree, dict):
        return all(is_text(name) and is_text(it) for name, it in tree.items())
    if isinstance(tree, list):
        return all(map(is_text, tree))
    return not isinstance(tree, str) or not any(0xD800 <= ord(it) < 0xE000 for it in tree)


def nesting(tree):
    if isinstance(tree, dict):
        return 1 + max(map(nesting, tree.values()), default=0)
    if isinstance(tree, list):
        return 1 + max(map(nesting, tree), default=0)
    return 0


def tree_of(text):
    """The tree of a text of JSON. Else it raises."""
    try:
        tree = json.loads(text, parse_int=whole_or_real, parse_float=real, parse_constant=constant)
    except (ValueError, RecursionError):
        raise NoJson from None
    if nesting(tree) > LEVELS or not is_text(tree):
        raise NoJson
    return tree


compact = json.JSONEncoder(separators=(",", ":"), ensure_ascii=False).encode
# As a tree prints, which keeps its members in the order of their names.
ordered = json.JSONEncoder(separators=(",", ":"), ensure_ascii=False, sort_keys=True).encode


# Messages (JSON-RPC 2.0) and frames (LSP 3.17, "Base Protocol").


def framed(body):
    return b"Content-Length: %d\r\n\r\n%s" % (len(body), body)


def frame(members):
    return framed(text_of({"jsonrpc": "2.0", **members}).encode())


def is_whole(value):
    return isinstance(value, int) and not isinstance(value, bool) and -(2**31) <= value < 2**31


def is_id(value):
    return isinstance(value, str) or is_whole(value)


def error_of(value):
    """The members of an error, which may come as a list of them."""
    if isinstance(value, list) and 2 <= len(value) <= 3:
        value = dict(zip(["code", "message", "data"], value))
    if not isinstance(value, dict) or not is_whole(value.get("code")) or not isinstance(value.get("message"), str):
        return None
    data = {} if value.get("data") is None else {"data": value["data"]}
    return {"code": value["code"], "message": value["message"], **data}


def members_of(tree):
    """The members of the message that a tree means, in the order in which they are written, or None."""
    if not isinstance(tree, dict):
        return None
    params = {} if tree.get("params") is None else {"params": tree["params"]}
    has_id = "id" in tree and is_id(tree["id"])
    if isinstance(tree.get("method"), str):
        return {**({"id": tree["id"]} if has_id else {}), "method": tree["method"], **params}
    if not has_id:
        return None
    if "result" in tree and tree.get("error") is None:
        return {"id": tree["id"], "result": tree["result"]}
    error = error_of(tree.get("error"))
    if tree.get("result") is None and error:
        return {"id": tree["id"], "error": error}
    return None


# Members whose values are trees: these keep their own members in the order of their names.
TREES = ["params", "result", "data"]


def text_of(members):
    """The text of a message: its own members in their order."""

    def value_text(name, value):
        return text_of(value) if name == "error" else ordered(value) if name in TREES else compact(value)

    return "{" + ",".join(f"{compact(name)}:{value_text(name, it)}" for name, it in members.items()) + "}"


def length_in(value):
    digits = value[1:] if value.startswith("+") else value
    if not digits or not digits.isascii() or not digits.isdigit() or int(digits) > GREATEST:
        return None
    return int(digits)


def header_end(data):
    """How long the content part is and where it begins; or a fault, or None at the end of the input, and where the rest begins."""
    at, length = 0, None
    while at < len(data):
        end = data.find(b"\n", at) + 1 or len(data)
        line, at = data[at:end], end
        try:
            text = line.decode()
        except UnicodeDecodeError:
            return 2, None, at
        if not text.endswith("\r\n"):
            return 3, None, at
        if text == "\r\n":
            return (None, length, at) if length is not None else (6, None, at)
        name, separator, value = text[:-2].partition(": ")
        if not separator:
            return 4, None, at
        if name.lower() == "content-length":
            length = length_in(value)
            if length is None:
                return 5, None, at
    return "end", None, at


@cache
def meaning(body):
    """The members of the message that a content part means, or a fault's number."""
    try:
        tree = tree_of(body.decode())
    except UnicodeDecodeError:
        return 8
    except NoJson:
        return 9
    if isinstance(tree, list):
        return 13
    return members_of(tree) or 10


def read(data, limit=GREATEST):
    """What the next read gives: "end", a fault's number or the members of a message; and what is left. A content part has at most
    `limit` bytes; of a pair the first is for the header part, of which one byte more is taken if it is longer."""
    bound, limit = limit if isinstance(limit, tuple) else (GREATEST, limit)
    fault, length, at = header_end(data)
    if at > bound:
        return 14, data[bound + 1 :]
    if fault:
        return fault, data[at:]
    if length > limit:
        return 12, data[at:]
    if length > HUGE:
        return 11, data[at:]
    body, left = data[at : at + length], data[at + length :]
    if len(body) < length:
        return 7, b""
    return meaning(body), left


def limit_in(device, count):
    """What a call may read at most, by its device."""
    if device == "headers":
        return count, GREATEST
    return count if device == "limits" or device == "huge" and count else GREATEST


def front(data):
    """Whether a frame stands at the front of these bytes, of which more may come."""
    lines = data.split(b"\n")[:-1]
    terminated = b"".join(it + b"\n" for it in lines)
    fault, length, at = header_end(terminated)
    if fault == "end":
        return "more"
    if fault:
        return f"read fault {fault}"
    return f"whole, {at + length} bytes" if len(data) >= at + length else "more"


def read_text(came):
    if came == "end":
        return "the end"
    return f"read fault {came}" if isinstance(came, int) else text_of(came)


def read_answer(data, breaks, unread, limit, kind="BrokenPipe"):
    """What one read gives of these bytes, behind which the reader may fail by an error of this kind, and what it leaves of them and of
    the unread ones."""
    came, left = next(reads(data, limit, breaks))
    if came == 1:
        return f"read fault 1 by {kind}; left {escape(unread)}"
    return f"{read_text(came)}; left {escape(left + unread)}"


def body_answer(body):
    came = meaning(body)
    return f"read fault {came}, no message" if isinstance(came, int) else text_of(came)


# How values print for a programmer, as Rust's `{:?}` prints them.


def debug_text(text):
    marks = {"\n": "\\n", "\r": "\\r", "\t": "\\t", "\0": "\\0", '"': '\\"', "\\": "\\\\"}
    return '"' + "".join(marks.get(it) or (it if it.isprintable() else f"\\u{{{ord(it):x}}}") for it in text) + '"'


def id_answer(value):
    if not is_id(value):
        return "no id"
    return debug_text(value) if isinstance(value, str) else str(value)


def debug_value(value):
    if value is None:
        return "Null"
    if isinstance(value, list):
        return "Array [" + ", ".join(map(debug_value, value)) + "]"
    if isinstance(value, dict):
        return "Object {" + ", ".join(f"{debug_text(name)}: {debug_value(value[name])}" for name in sorted(value)) + "}"
    if isinstance(value, str):
        return f"String({debug_text(value)})"
    return f"Bool({str(value).lower()})" if isinstance(value, bool) else f"Number({value})"


def debug_id(name):
    return f"RequestId(String({debug_text(name)}))" if isinstance(name, str) else f"RequestId(I32({name}))"


def debug_error(error):
    data = f"Some({debug_value(error['data'])})" if "data" in error else "None"
    return f"ResponseError {{ code: {error['code']}, message: {debug_text(error['message'])}, data: {data} }}"


def debug_message(members):
    if "method" not in members:
        result = f"Ok({debug_value(members['result'])})" if "result" in members else f"Err({debug_error(members['error'])})"
        return f"Response(Response {{ id: {debug_id(members['id'])}, response_result: {result} }})"
    params = f"method: {debug_text(members['method'])}, params: {debug_value(members.get('params'))}"
    if "id" in members:
        return f"Request(Request {{ id: {debug_id(members['id'])}, {params} }})"
    return f"Notification(Notification {{ {params} }})"


# The variants of `ReadFault`, by their numbers, from 1.
READ_FAULTS = ["Input(BrokenPipe)", "LineNotText", "LineEnd", "NoSeparator", "BadLength", "NoLength", "ShortBody", "BodyNotText", "NoJson"]
READ_FAULTS += ["NoMessage", "Memory", "TooLong", "Batch"]


def beginning(text):
    """As much of a message as an error shows: as many whole characters as 400 bytes have room for."""
    return text.encode()[:400].decode(errors="ignore")


def debug_end(end):
    """A `ReadEnd`: that of a fault's number, or the name of another."""
    return f"Fault({READ_FAULTS[end - 1]})" if isinstance(end, int) else {"exit": "Exit", "end": "End", "closed": "Closed"}[end]


# Sessions (LSP 3.17, "Server lifecycle").


def is_note(members, method):
    return "id" not in members and members.get("method") == method


def is_request(members, method):
    return "id" in members and members.get("method") == method


NOT_FOUND = {"code": -32601, "message": "method not found"}
CANCELED = {"code": -32800, "message": "canceled by client"}
# What the end of the input gives, and before the message that came, a message at the wrong time.
AT_END = {
    "new": "disconnected channel",
    "asked": "disconnected channel",
    "open": "closed",
    "ending": "channel disconnected waiting for exit notification",
}
AT_WRONG_TIME = {
    "new": "expected initialize request, got ",
    "asked": "expected initialized notification, got: ",
    "ending": "unexpected message during shutdown: ",
}


class Echo:
    """Answers `demo/echo` with its params, and knows no other method. It gives the messages that it sends."""

    asks = False

    def opened(self):
        return []

    def heard(self, came):
        if is_request(came, "demo/echo"):
            return [{"id": came["id"], "result": came.get("params")}]
        if "method" in came and "id" in came:
            return [{"id": came["id"], "error": NOT_FOUND}]
        return []

    def woken(self):
        return []

    def parts(self, name):
        """What it sends before the reply to a `shutdown` with this id."""
        return []


# The error for a request that a server still holds when `shutdown` comes: RequestCancelled (LSP 3.17, "Implementation Considerations").
# Which of several requests gets its error first no standard says. Here they have the order of `in_order`.
ENDED = {"code": -32800, "message": "canceled by shutdown"}


# What has to be in the place of another value.
WANTED = {
    **dict.fromkeys(("textDocument", "position"), "an object"),
    "uri": "a string",
    "line": "a whole number",
    "character": "a whole number from 0 to 2^32 - 1",
}


# What `serde` says of the values that do not fit in the rows: the words of the toolchain's `serde_json`, which are fewer than those of the
# Rust crate, and those of the positions of `lsp_text`.
BY_SERDE = {
    "textDocument": "invalid type",
    "uri": "invalid type",
    "line": "invalid `line`",
    "character": "invalid `character`",
}


def misfits_of(params, keys, invalid=lambda key: f"invalid `{key}`, expected {WANTED[key]}"):
    """Why params are refused that lack one of these members, or have another value there."""
    members = {"textDocument": [("uri", str)], "position": [("line", int), ("character", int)]}
    wanted = []
    for key in keys:
        inner = params.get(key) if isinstance(params.get(key), dict) else {}
        wanted += [(params, key, dict), *((inner, name, kind) for name, kind in members[key])]
    return [
        invalid(key) if key in where else f"missing field `{key}`"
        for where, key, kind in wanted
        if not isinstance(where.get(key), kind)
    ]


def typed(came):
    """What comes of a message whose params are a place in a document (LSP 3.17, "TextDocumentPositionParams"). Params that lack a key
    are refused (JSON-RPC 2.0, section 5.1), in the words of `BY_SERDE`. Types of messages: LSP 3.17, "MessageType"."""
    params, id = came["params"], came.get("id")
    document, at = (params.get(it) if isinstance(params.get(it), dict) else {} for it in ["textDocument", "position"])
    misfits = misfits_of(params, ["textDocument", "position"], BY_SERDE.get)
    if id is None:
        if misfits:
            return [{"method": "window/logMessage", "params": {"message": f"{came['method']}: {misfits[0]}", "type": 1}}]
        return [{"method": "typed/told", "params": at}, {"method": "window/logMessage", "params": {"message": "told", "type": 2}}]
    if came["method"] == "typed/none":
        return [{"id": id, "error": NOT_FOUND}]
    if misfits:
        return [{"id": id, "error": {"code": -32602, "message": misfits[0]}}]
    if came["method"] == "typed/uri":
        return [{"id": id, "result": document["uri"]}]
    if came["method"] == "typed/show":
        return [{"method": "window/showMessage", "params": {"message": "here", "type": 3}}, {"id": id, "result": None}]
    if came["method"] == "typed/marks":
        marks = {"diagnostics": [at], "uri": document["uri"], "version": 7} if at["line"] else {"diagnostics": [], "uri": document["uri"]}
        return [{"method": "textDocument/publishDiagnostics", "params": marks}, {"id": id, "result": None}]
    if at["line"] == 0:
        return [{"id": id, "error": {"code": -32803, "message": "no line above"}}]
    return [{"id": id, "result": {**at, "line": at["line"] - 1}}]


class Talker:
    """The server that pushes, asks and answers late."""

    asks = True

    def __init__(self):
        self.asked, self.questions, self.held = [], 0, []

    def ask(self, method, params, why):
        self.asked.append(why)
        return {"id": len(self.asked) - 1, "method": method, **({} if params is None else {"params": params})}

    def configuration(self):
        self.questions += 1
        return self.ask("workspace/configuration", None, self.questions)

    def opened(self):
        return [{"method": "demo/hello", "params": {}}, self.configuration()]

    def heard(self, came):
        if "method" not in came:
            return self.replied(came)
        if came["method"].startswith("typed/"):
            return typed(came)
        if is_note(came, "$/cancelRequest"):
            return self.called_off(came["params"]["id"])
        if "id" not in came:
            pushed = {"method": "demo/pushed", **({} if came.get("params") is None else {"params": came["params"]})}
            return [pushed, self.configuration(), *self.released()]
        if came["method"] == "demo/ask":
            return [self.ask("demo/asked", came.get("params"), came)]
        if came["method"] == "demo/hold":
            self.held.append(came["id"])
            return []
        return Echo().heard(came)

    def released(self):
        """The answers to what it keeps."""
        held, self.held = self.held, []
        return [{"id": it, "result": None} for it in held]

    def called_off(self, name):
        """A request that has no reply yet gets the error, and no answer later."""
        asked = [at for at, why in enumerate(self.asked) if isinstance(why, dict) and why["id"] == name]
        if name not in self.held and not asked:
            return []
        self.held = [it for it in self.held if it != name]
        for at in asked:
            self.asked[at] = None
        return [{"id": name, "error": CANCELED}]

    def woken(self):
        return [{"method": "demo/woken"}, *self.released()]

    def bye(self):
        """Its last acts."""
        return [{"method": "demo/bye"}] if self.held else []

    def parts(self, name):
        """Its last acts, and the error for each request that has no reply yet."""
        waiting = {*self.held, *(it["id"] for it in self.asked if isinstance(it, dict))} - {name}
        return [*self.bye(), *({"id": it, "error": ENDED} for it in in_order(waiting))]

    def replied(self, came):
        """A reply counts once, and only to a request that was sent."""
        if came["id"] not in range(len(self.asked)) or self.asked[came["id"]] is None:
            return []
        why, self.asked[came["id"]] = self.asked[came["id"]], None
        if isinstance(why, int):
            return [{"method": "demo/pushed", "params": why}]
        return [{**came, "id": why["id"]}]


class Unwoken(Talker):
    """The same, told of no wake."""

    def woken(self):
        return []


class Session:
    """A session of a server with no capabilities, message by message. There is room for so many messages."""

    def __init__(self, server, room=GREATEST):
        self.server, self.room, self.sent, self.state = server, room, [], "new"

    def sends(self, messages):
        """How the session ends where these are not all taken."""
        for it in messages:
            if len(self.sent) == self.room:
                return AT_END["new"]
            self.sent.append(it)
        return None

    def hears(self, came):
        """How the session ends at this message, or None."""
        if self.state == "new":
            return self.begins(came)
        if self.state == "asked" and is_note(came, "initialized"):
            self.state = "open"
            return self.sends(self.server.opened())
        if self.state == "open":
            return self.serves(came)
        if self.state == "ending" and is_note(came, "exit"):
            return "shut down"
        if self.state == "ending" and self.server.asks and "method" not in came:
            # LSP 3.17, "Shutdown Request", forbids requests and notifications alone: an answer to a server that asks may come so late.
            return None
        return AT_WRONG_TIME[self.state] + beginning(debug_message(came))

    def begins(self, came):
        if is_request(came, "initialize"):
            self.state = "asked"
            return self.sends([{"id": came["id"], "result": {"capabilities": {}}}])
        if "id" in came and "method" in came:
            return self.sends([too_early(came)])
        if "method" in came and not is_note(came, "exit"):
            return None
        return AT_WRONG_TIME["new"] + beginning(debug_message(came))

    def serves(self, came):
        if is_note(came, "exit"):
            return "closed"
        if is_request(came, "shutdown"):
            self.state = "ending"
            end = self.parts(came["id"])
            if end:
                return end
            # That the reply could not be sent is passed over.
            self.sends([{"id": came["id"], "result": None}])
            return None
        return self.works(came)

    def parts(self, name):
        """What is sent before the reply to the `shutdown` with this id."""
        return self.sends(self.server.parts(name))

    def works(self, came):
        return self.sends(self.server.heard(came))


def too_early(came):
    """The reply to a request that comes before `initialize`."""
    shown = debug_message(came).removeprefix("Request(").removesuffix(")")
    return {"id": came["id"], "error": {"code": -32002, "message": AT_WRONG_TIME["new"] + beginning(shown)}}


# Faults of a content part that is no message: not UTF-8, no JSON, no message, a list.
OF_BODY = [8, 9, 10, 13]


def reads(data, limit=GREATEST, breaks=False):
    """What each read gives, and what is left after it. `breaks` says whether the reader fails after these bytes, also where they
    are no whole frame. Otherwise they end. Room for a content part is reserved before its first byte is read, so a refusal (11) comes
    before the reader is asked again."""
    while True:
        came, data = read(data, limit)
        is_cut = breaks and not data and not isinstance(came, dict) and came not in OF_BODY and came != 11
        yield (1 if is_cut else came), data


def messages_of(data, limit=GREATEST, breaks=False, room=GREATEST):
    """The messages up to and with an `exit`, as far as there is room for them, what comes then, and what is left."""
    messages = []
    for came, left in reads(data, limit, breaks):
        if not isinstance(came, dict):
            return messages, came, left
        if len(messages) == room:
            return messages, "closed", left
        messages.append(came)
        if is_note(came, "exit"):
            return messages, "exit", left


def served(server, data, breaks, limit, passes=False, room=GREATEST):
    """What a session of a server with no capabilities says at its end, the messages that it sends for these bytes, and how many
    content parts that are no messages it ignored, of each kind. Each reply is there before the next read."""
    session, counts = Session(server, room), dict.fromkeys(OF_BODY, 0)
    for came, _ in reads(data, limit, breaks):
        if isinstance(came, dict):
            end = session.hears(came)
        elif passes and came in OF_BODY and session.state == "open":
            counts[came] += 1
            # (what is passed over wakes the server)
            end = session.sends(server.woken())
        else:
            end = AT_END[session.state] if came == "end" else "out of memory" if came == 11 else f"read fault {came}"
        if end:
            return end, session.sent, list(counts.values())


def pumped(data, breaks, limit):
    """What passing these messages on says, and the messages that it sends."""
    sent, end, _ = messages_of(data, limit, breaks)
    return f"read fault {end}" if isinstance(end, int) else "passed on", sent


STREAMS = {
    "session": lambda *words: served(Echo(), *words)[:2],
    "speaks": lambda *words: served(Talker(), *words)[:2],
    "line": lambda *words: served(Talker(), *words)[:2],
    "tolerant": lambda data, breaks, limit: served(Talker() if limit == GREATEST else Unwoken(), data, breaks, limit, True)[:2],
    "pump": pumped,
    "burst": pumped,
}


def inbox_answer(data):
    messages, end, _ = messages_of(data)
    return f"{''.join(map(text_of, messages))} Some({debug_end(end)}), closed true"


def loop_answer(data, breaks, unread, limit, room):
    """What a loop hands on to an outbox with so much room, how it ends, and how many bytes it leaves."""
    messages, end, left = messages_of(data, limit, breaks, room)
    return f"{debug_end(end)}; sent {''.join(map(text_of, messages))}; left {len(left + unread)}"


def frames_answer(data, room, bad_flush, kind):
    """What comes of one write and one flush of these frames."""
    if room < len(data):
        return f"Err(Output({kind})); wrote {escape(data[:room])}, 0 flushes"
    said = f"Err(Output({kind}))" if bad_flush == 1 else "Ok(())"
    return f"{said}; wrote {escape(data)}, 1 flushes"


def write_answer(data, *words):
    return frames_answer(frame(read(data)[0]), *words)


def outbox_answer(data, room, bad_flush, kind):
    """Each message is written and flushed, up to the first that fails, which comes back, as all behind it do."""
    texts, written, flushes, fault = [], b"", 0, "None"
    for came, _ in reads(data):
        if not isinstance(came, dict):
            break
        if fault == "None":
            written += frame(came)
            flushes += len(written) <= room
            if len(written) > room or flushes == bad_flush:
                fault, written = f"Some(Output({kind}))", written[:room]
        texts.append("taken, " if fault == "None" else f"{text_of(came)} back, ")
    return f"{''.join(texts)}{fault}; wrote {shown(written)}, {flushes} flushes"


WRITERS = {"write": write_answer, "frames": frames_answer, "outbox": outbox_answer}


def written_by(call, data):
    """How many bytes a call writes for these."""
    return sum(len(frame(it)) for it in STREAMS[call](data, False, GREATEST)[1])


def gathered(frames):
    """How frames that came at once are written: together, until there are enough."""
    parts = []
    for it in frames:
        if parts and len(parts[-1]) < FULL:
            parts[-1] += it
        else:
            parts.append(it)
    return parts


def seen(device, count, data, kind="BrokenPipe"):
    """The bytes that a reader gives before it fails or they end, those that it keeps, and whether it fails."""
    # (a read that was interrupted goes on)
    breaks = device in ("breaks", "looks") and count <= len(data) and kind != "Interrupted"
    if device == "huge":
        return data, b"", True
    count = count if breaks or device == "ends" else len(data)
    return data[:count], data[count:] if breaks else b"", breaks


def answer(call, device, count, data, is_at_once, kind="BrokenPipe"):
    """What has to come of a case at one of its places. `is_at_once` says whether all bytes are shown at once, `kind` is that of the error
    with which a device fails."""
    if device in ("no_reader", "no_writer"):
        return "thread not started, 0 calls"
    data, unread, breaks = seen(device, count, data, kind)
    limit = limit_in(device, count)
    if call == "read":
        return read_answer(data, breaks, unread, limit, kind)
    if call == "front":
        return front(data)
    if call == "inbox":
        return inbox_answer(data)
    if call == "loop":
        return loop_answer(data, breaks, unread, limit, count if device == "fills" else GREATEST)
    if call in ("write", "frames", "outbox"):
        return WRITERS[call](data, count if device == "fills" else GREATEST, count if device == "flushes" else 0, kind)
    return stream_answer(call, device, count, data, breaks, is_at_once)


def stream_answer(call, device, count, data, breaks, is_at_once):
    """What has to come of a call that reads up to an end and writes meanwhile, where a write or a flush may fail."""
    limit = limit_in(device, count)
    end, sent = STREAMS[call](data, breaks, limit)
    frames = [frame(it) for it in sent]
    if call in ("pump", "burst") and is_at_once:
        frames = gathered(frames)
    written = b"".join(frames)
    if device == "fills" and count < len(written):
        end, written = "write fault 1", written[:count]
    if device == "flushes" and count <= len(frames):
        end, written = "write fault 1", b"".join(frames[:count])
    writes = f", in {len(frames)} writes" if call == "burst" else ""
    if call == "tolerant" and device not in ("limits", "headers"):
        whole = sum(len(b"".join(frames[: it + 1])) <= len(written) for it in range(len(frames)))
        counts = served(Talker(), data, breaks, limit, True, whole if whole < len(frames) else GREATEST)[2]
        return f"{end}; wrote {shown(written)}; passed {' '.join(map(str, counts))}"
    return f"{end}; wrote {shown(written)}{writes}"


# Calls over values, as steps of a row. What each answers follows from the documents of the calls.


def of_char(data):
    return f"Some('{data}')" if data else "None"


# How many ids and how many tickets there are.
ALL_IDS = 2**31
ALL_TICKETS = 2**64 - 1


class Queues:
    """Two tables of what is pending, and a count of the ids that were given out."""

    def __init__(self):
        self.incoming, self.outgoing, self.count = {}, {}, 0
        one, both = (lambda name: [name]), (lambda name: [name, str(name)])
        self.many = {
            "receive": lambda numbers: self.incoming.update((it, "a") for number in numbers for it in both(number)),
            "answer_even": lambda numbers: without_even(self.incoming, numbers, both),
            "register": lambda numbers: [self.register("", None, "a") for _ in numbers],
            "complete_even": lambda numbers: without_even(self.outgoing, numbers, one),
        }

    def answer(self, step):
        verb, _, words = step.partition(" ")
        if verb == "many":
            name, count = words.split(" ")
            self.many[name](range(int(count)))
            return step
        if verb in ("register", "register_value", "deep"):
            return self.answer_registering(verb, words)
        if verb == "after":
            self.outgoing, self.count = {}, count_in(words, ALL_IDS)
            return step
        if verb == "ids":
            return listed(self.incoming)
        if verb == "ids_of":
            return listed(name for name, data in self.outgoing.items() if data == words)
        if verb == "shown":
            return self.shown()
        if verb == "pending":
            return f"pending {'true' if self.outgoing or self.incoming else 'false'}"
        if verb not in ("receive", "complete", "answer", "cancel"):
            misspelt(f"the queues have no step `{verb}`")
        return self.answer_at(verb, *words.split(" "))

    def answer_registering(self, verb, words):
        method, _, rest = words.partition(" ")
        params, _, data = rest.rpartition(" ")
        is_deep = verb == "deep"
        return self.register(method, json.loads("[" * int(params) + "]" * int(params) if is_deep else params), data)

    def register(self, method, params, data):
        if self.count == ALL_IDS:
            return f"Spent('{data}')"
        if nesting(params) > LEVELS:
            return f"Unwritable('{data}')"
        name, self.count = self.count, self.count + 1
        self.outgoing[name] = data
        return "sent " + text_of({"id": name, "method": method, **({} if params is None else {"params": params})})

    def answer_at(self, verb, word, data=None):
        """What comes of a step with an id."""
        name = json.loads(word)
        if verb == "receive":
            self.incoming[name] = data
            return f"received {word}"
        if verb == "complete":
            return f"complete {of_char(self.outgoing.pop(name, None))}"
        taken = self.incoming.pop(name, None)
        if verb == "answer":
            return f"answer {of_char(taken)}"
        return "cancelled " + (text_of({"id": name, "error": CANCELED}) if taken else "none")

    def shown(self):
        """The queues as Rust's `{:?}` prints them."""
        given, own = ("{" + ", ".join(f"{debug_id(it)}: '{table[it]}'" for it in in_order(table)) + "}" for table in (self.incoming, self.outgoing))
        incoming = f"Incoming {{ alloc: Global, pending: {given} }}"
        return f"ReqQueue {{ incoming: {incoming}, outgoing: Outgoing {{ alloc: Global, next: {self.count}, pending: {own} }} }}"


def count_in(word, most):
    """How many ids or tickets were given out, by a row."""
    return int(word) if int(word) <= most else misspelt(f"{word} are more than there are, {most}")


def without_even(table, numbers, names_of):
    for name in (name for number in numbers if number % 2 == 0 for name in names_of(number)):
        table.pop(name, None)


def in_order(names):
    """Ids in their order: numbers before texts, and texts by their bytes."""
    return sorted(names, key=lambda name: (1, name.encode()) if isinstance(name, str) else (0, name))


def listed(names):
    return " ".join(["ids", *map(id_answer, in_order(names))])


def queue_answers(steps):
    queues = Queues()
    return [queues.answer(step) for step in steps.split("; ")]


def debug_inner(members):
    """A request, a notification or a response without the name of its variant."""
    return debug_message(members).partition("(")[2].removesuffix(")")


def with_ticket(name, reply, ticket):
    return f"{name} {{ reply: {debug_inner(reply)}, ticket: {ticket} }}"


def finished(pending, step):
    _, number, ticket, result = step.split(" ", 3)
    if pending.get(int(number)) != int(ticket):
        return "Nothing"
    del pending[int(number)]
    return with_ticket("Finished", {"id": int(number), "result": json.loads(result)}, ticket)


def cancelled(pending, params):
    """A cancellation counts where its params name the id of a request that is pending."""
    name = params.get("id") if isinstance(params, dict) else None
    if not is_id(name) or name not in pending:
        return "Nothing"
    return with_ticket("Cancelled", {"id": name, "error": CANCELED}, pending.pop(name))


def dispatch_answers(steps):
    """What comes of the steps: a table of the tickets that are pending, and a count of those that were given out."""
    pending, answers, count = {}, [], 0
    for step in steps.split("; "):
        if step.startswith("after "):
            pending, count = {}, count_in(step.removeprefix("after "), ALL_TICKETS)
            answers.append(step)
            continue
        if step.startswith("finish "):
            answers.append(finished(pending, step))
            continue
        message = json.loads(step)
        method, name = message.get("method"), message.get("id")
        if method is None:
            answers.append("Nothing")
        elif name is None and method == "$/cancelRequest":
            answers.append(cancelled(pending, message.get("params")))
        elif name is None:
            answers.append("Nothing" if method.startswith("$/") else f"Note({debug_inner(message)})")
        elif method.startswith("$/"):
            answers.append(f"Unknown({debug_inner({'id': name, 'error': NOT_FOUND})})")
        elif count == ALL_TICKETS:
            answers.append(f"Spent({debug_message(message)})")
        else:
            pending[name] = count
            answers.append(f"Work {{ request: {debug_inner(message)}, ticket: {count} }}")
            count += 1
    return answers


def replay_answers(steps):
    if any(it.startswith("after ") for it in steps.split("; ")):
        misspelt("`replay` makes its calls on a new dispatcher, so `after` is no step of it")
    return dispatch_answers(steps)


def value_answers(members):
    body = text_of({"jsonrpc": "2.0", **members})
    # A message is a tree whose members stand in the order of their names.
    return [text_of(members), ordered(members), body, escape(framed(body.encode()))]


def error_answers(row):
    """The response to the request 1 with this error, and the message that its tree means, in which data that are null are none."""
    code, message, data = row.split(" ", 2)
    members = {"id": 1, "error": {"code": int(code), "message": message, "data": json.loads(data)}}
    return [text_of(members), f"Some({debug_message(members_of(members))})"]


def result_answers(row):
    """The text of a result, and the same text of the tree that nobody needs any longer."""
    text = ordered(json.loads(row))
    return [text, text]


def relay_answers(method):
    """What was sent comes first, then the end, then nothing."""
    note = text_of({"method": method})
    return [f"sent true, ended true, taken {note}, settled the end, settled again nothing"]


def waker_answers(method):
    """A wake is passed over, and one behind the note is found, since nothing else stands before the end."""
    note = text_of({"method": method})
    sent = "woken true, sent true, woken true, ended true"
    return [f"{sent}, taken {note}, found a wake, settled the end, woken false"]
