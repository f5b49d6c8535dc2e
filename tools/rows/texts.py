"""What has to come of texts of JSON that are read where they stand, and of content parts that may hold calls, by RFC 8259, JSON-RPC 2.0 and
the documents of the calls. Nothing here calls a library of this repository."""
import json

from rules import NoJson, debug_text, id_answer, meaning, ordered, tree_of


def looks(value):
    """A value, and what each of its readers gives that gives something."""
    return f"{ordered(value)}: {' '.join(kinds(value))}"


def kinds(value):
    if value is None:
        return ["null"]
    if isinstance(value, bool):
        return [f"bool {ordered(value)}"]
    if isinstance(value, str):
        return [f"text {debug_text(value)}"]
    if isinstance(value, dict):
        return ["object", "others"] if value.keys() - {"a", "b"} else ["object"]
    if isinstance(value, list):
        return ["list", *map(ordered, value), "end"]
    u64 = [f"u64 {value}"] if isinstance(value, int) and 0 <= value < 2**64 else []
    i64 = [f"i64 {value}"] if isinstance(value, int) and -(2**63) <= value < 2**63 else []
    return [f"number {ordered(value)}", *u64, *i64, f"f64 {ordered(float(value))}"]


def json_answers(text):
    try:
        return [looks(tree_of(text))]
    except NoJson:
        return ["refused"]


def member_answers(row):
    """A member of an object, of which the last with a key counts, or null."""
    key, text = row.split(" ", 1)
    try:
        tree = tree_of(text)
    except NoJson:
        return ["refused"]
    return [looks(tree[key]) if isinstance(tree, dict) and key in tree else f"no member, {looks(None)}"]


def levels_of(value):
    """How many levels a value nests."""
    inside = value.values() if isinstance(value, dict) else value if isinstance(value, list) else None
    return 0 if inside is None else 1 + max(map(levels_of, inside), default=0)


def text_of_step(word, value):
    """What a step adds to the text, beside a comma. A step without a value is what it adds."""
    if word == "open":
        return "[" * value
    if word == "close":
        return "]" * value
    return f"{ordered(value)}:" if word == "key" else ordered(value)


def text_answers(row):
    """The text that the steps write, with no space. At most 127 levels nest."""
    text, levels = "", 0
    for step in row.split("; "):
        word, _, rest = step.partition(" ")
        added = text_of_step(word, json.loads(rest)) if rest else step
        inside = levels_of(json.loads(rest)) if word == "value" else 0
        is_bracket = word in ("open", "close", "[", "]", "{", "}")
        begun = len(added) if is_bracket and added[0] in "[{" else 0
        if levels + begun + inside > 127:
            return ["more than 127 levels of JSON"]
        levels += begun - (len(added) if is_bracket and added[0] in "]}" else 0)
        follows = text[-1:] not in ("", "[", "{", ":") and added[0] not in "]}"
        text += "," * follows + added
    return [text]


def deep_answers(row):
    """So many lists, each in the next."""
    return ["[" * int(row) + "]" * int(row)]


def content_answers(body):
    """The call that a content part holds. One with the method `exit` goes back, as what holds no call."""
    came = meaning(body)
    if not isinstance(came, dict) or came.get("method", "exit") == "exit":
        return ["goes back"]
    kind = f"request {id_answer(came['id'])}" if "id" in came else "notification"
    return [f"{kind} {came['method']} {ordered(came.get('params'))}"]


ROWS = {
    "json": json_answers,
    "quoted": lambda row: json_answers(json.loads(row)),
    "member": member_answers,
    "text": text_answers,
    "deep": deep_answers,
    "content": lambda row: content_answers(row.encode()),
    "octets": lambda row: content_answers(row.encode("latin-1")),
}
