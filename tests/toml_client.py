#!/usr/bin/env python3
"""A client of `example_toml` over a socket, in each of its modes.

    tests/toml_client.py [--program PROGRAM] [FILE ..]

It opens valid and invalid TOML texts, and further files that are named, and requests all that the server answers about a text
(`toml_texts.py`, `toml_features.py`). It edits faster than the server checks (`toml_edits.py`). It opens a document twice, as an editor does
whose mode is called again, has changes refused, and saves before it sends its changes (`toml_documents.py`). It sets the version of TOML.

It requests hovers while a search runs, and gets their replies first. A search reports its progress, and gets one reply. A cancelled search
gets the error -32800 or its result, and nothing else (LSP 3.17, "Cancellation Support", "Work Done Progress"). So does a search that runs at
`shutdown`, before `shutdown` gets its reply. It ends in status 1 at the first difference. `.ci/run` calls it.
"""
import argparse
import sys
from pathlib import Path

sys.dont_write_bytecode = True

from lsp import EXIT, SHUTDOWN, SHUTDOWN_REPLY, Difference, Program, built, expect, frame, run
from toml_documents import check_documents, closes
from toml_edits import check_edits
from toml_session import NOTE, WARNING, Problems, Session, edit, none, place
from toml_texts import cases, check_example, check_features, check_list, check_places, check_texts

# The version of TOML, which the user sets.

# What is set, whether the texts are checked again, and whether what is new in TOML 1.1 is a problem then. A client that can't be asked for its
# settings sends them, and else it sends the section that it is asked for. What is not there changes nothing.
PUSHED = [
    ({"toml": {"version": "1.1"}}, True, False),
    ({}, False, False),
    (None, False, False),
    ({"other": {"version": "1.0"}}, False, False),
    ({"toml": {"version": "1.0"}}, True, True),
    ({"toml": {"version": "1.1"}}, True, False),
    ({"toml": {"version": 11}}, True, True),
    ({"toml": {"version": "1.1"}}, True, False),
    ({"toml": {}}, True, True),
]
ASKED = [
    ([{"version": "1.1"}], True, False),
    (None, False, False),
    ([], False, False),
    ([{"version": "1.0"}], True, True),
    ([{"version": "1.1"}], True, False),
    ([None], True, True),
]


def check_settings(session, cases, sets):
    """A change of the version shows at once, and at each edit."""
    session.ask("toml/text", NOTE)
    text, version, marks = "a = 07:32\n", 1, [(WARNING, 0)]
    session.open(text)
    session.look("an open", [Problems(NOTE, 1, marks)], text)
    for settings, is_checked, is_warned in cases:
        sets(settings)
        session.ask("toml/text", NOTE)
        marks = [(WARNING, 0)] if is_warned else []
        session.look(f"the settings {settings}", [Problems(NOTE, version, marks)] if is_checked else [], text)
        version, text = version + 1, f"a{text}"
        session.change(version, edit(0, 0, 0, "a"))
        session.look(f"an edit with the settings {settings}", [Problems(NOTE, version, marks)], text)
    closes(session)


def check_newer(session, texts, sets):
    """What is new in TOML 1.1 is a problem in each open document, unless the user has set this version."""
    for uri, text in texts.items():
        session.open(text, uri=uri)
        expect(f"whether {uri} has problems", session.marks(uri, 1) != [], True)
    for version, is_wrong in ("1.1", False), ("1.0", True):
        sets({"toml": {"version": version}})
        for uri in texts:
            while (session.marks(uri, 1) != []) != is_wrong:
                session.receive()
    session.shown = []
    for uri in texts:
        session.close(uri)
        session.look(f"a close of {uri}", [none(uri)], None, uri)


def is_set(program, mode, newer):
    """Clients that send their settings, and that are asked for them."""
    with program.connect() as client:
        session = Session(client, "utf-16", bool(mode), workspace={"didChangeConfiguration": {}})
        sets = lambda settings: client.notify("workspace/didChangeConfiguration", {"settings": settings})
        check_settings(session, PUSHED, sets)
        check_newer(session, newer, sets)
        client.leaves()
    answers = {"workspace/configuration": [{}]}
    with program.connect(answers) as client:
        session = Session(client, "utf-16", bool(mode), workspace={"configuration": True})

        def asked(reply):
            answers["workspace/configuration"] = reply
            client.notify("workspace/didChangeConfiguration", {"settings": None})

        check_settings(session, ASKED, asked)
        client.leaves()
    print("settings are taken from a client that can't be asked, and asked from another")


# Searches.

SEARCHED = 20
KEYS_OF_EACH = 500
LONG = "price = 3\n" + "".join(f"one_{number} = 1\nother_{number} = 2\n" for number in range(KEYS_OF_EACH))
# On a busy machine a search may end before the thread that serves comes to the next request. A server that waits for its searches answers
# them first in each round.
ROUNDS = 100


def long_texts(session):
    """Documents whose search takes long enough."""
    uris = [f"file:///{number}.toml" for number in range(SEARCHED)]
    for uri in uris:
        session.open(LONG, uri=uri)
        expect("what is wrong with a text", session.marks(uri, 1), [])
    session.shown = []
    return uris


def look_at_progress(notices, uris):
    """A begin, reports of which each may be dropped, and an end (LSP 3.17, "Work Done Progress")."""
    expect("the tokens of the notices", {notice["token"] for notice in notices}, {"t"})
    begin, *reports, end = (notice["value"] for notice in notices)
    expect("the first and the last notice", [begin["kind"], end["kind"]], ["begin", "end"])
    expect("the kinds of the other notices", {report["kind"] for report in reports} <= {"report"}, True)
    expect("whether each names another document", len({report["message"] for report in reports}), len(reports))
    expect("whether each names a document", {report["message"] for report in reports} <= set(uris), True)
    percentages = [notice["percentage"] for notice in [begin, *reports]]
    expect("whether percentages rise", percentages == sorted(percentages) and percentages[-1] <= 100, True)


def is_hovered_meanwhile(session, uris):
    """A search and a hover: whether the hover was answered first. What the search reports and finds is looked at."""
    client, notices = session.client, []
    search = client.request("workspace/symbol", {"query": "one", "workDoneToken": "t"})
    hover = session.request("textDocument/hover", uris[0], position=place(0, 0))
    replies = {}
    while len(replies) < 2:
        message = session.receive()
        if message.get("method") == "$/progress":
            notices.append(message["params"])
        elif "id" in message:
            expect("a reply to a request that has none", message["id"] in {search, hover} - set(replies), True)
            replies[message["id"]] = message["result"]
    look_at_progress(notices, uris)
    expect("the hover", replies[hover]["contents"], {"kind": "plaintext", "value": "price: integer"})
    found = sorted((it["location"]["uri"], it["location"]["range"]["start"]["line"], it["name"]) for it in replies[search])
    wanted = sorted((uri, 1 + 2 * number, f"one_{number}") for uri in uris for number in range(KEYS_OF_EACH))
    expect("whether it found what is there", found == wanted, True)
    return list(replies) == [hover, search]


def was_canceled(reply, who):
    """Whether a search was cancelled, by its reply. Otherwise it has its outcome."""
    if "error" in reply:
        expect("the error of a cancelled search", reply["error"], {"code": -32800, "message": f"canceled by {who}"})
    else:
        expect("how many keys it found", len(reply["result"]), SEARCHED * KEYS_OF_EACH)
    return "error" in reply


def is_cancelled(session):
    """A search that is cancelled at once: whether it was. Else its outcome came first."""
    search = session.client.request("workspace/symbol", {"query": "one"})
    session.client.notify("$/cancelRequest", {"id": search})
    return was_canceled(*session.replies(search), "client")


def runs_at_shutdown(program):
    """A session that is shut down while it searches: whether the search ran then. Its reply comes before that of `shutdown`."""
    with program.connect() as client:
        session = Session(client)
        long_texts(session)
        search = client.request("workspace/symbol", {"query": "one"})
        client.send_bytes(frame(SHUTDOWN))
        (reply,) = session.replies(search)
        expect("the reply after it", client.body(), SHUTDOWN_REPLY)
        client.send_bytes(frame(EXIT))
        expect("after the last reply", client.rest(), b"")
    return was_canceled(reply, "shutdown")


def finds(session, word, *places):
    """Searches a word, which stands in these keys of the note."""
    symbols = [it for it in session.search(word) if it["location"]["uri"] == NOTE]
    found = [(it["name"], it["location"]["range"]["start"]["line"]) for it in symbols]
    expect(f"where {word} stands", found, list(places))


def finds_what_is_there_now(session):
    """Searches share a text until it is edited."""
    session.open("alpha = 1\n")
    finds(session, "alpha", ("alpha", 0))
    finds(session, "alpha", ("alpha", 0))
    session.change(2, edit(0, 0, 5, "beta"))
    finds(session, "alpha")
    finds(session, "beta", ("beta", 0))
    session.open("\ngamma = 1\n")
    finds(session, "beta")
    finds(session, "gamma", ("gamma", 1))
    session.change(2, {"text": 1})
    finds(session, "gamma")
    session.save(text="delta = 1")
    finds(session, "delta", ("delta", 0))
    session.close()
    finds(session, "delta")
    session.shown = []


def comes_true(what, tries):
    for number in range(1, ROUNDS + 1):
        if tries():
            print(f"{what}, in round {number}")
            return
    raise Difference(f"not once in {ROUNDS} rounds: {what}")


def check_searches(program, mode):
    """Without threads of jobs a search and its progress come before the hover that follows it."""
    with program.connect() as client:
        session = Session(client, is_inline=bool(mode))
        uris = long_texts(session)
        if mode:
            expect("whether the hover is answered first", is_hovered_meanwhile(session, uris), False)
        else:
            comes_true("a hover is answered while a search runs", lambda: is_hovered_meanwhile(session, uris))
            comes_true("a search is cancelled", lambda: is_cancelled(session))
        client.leaves()
    with program.connect() as client:
        finds_what_is_there_now(Session(client, is_inline=bool(mode)))
        client.leaves()
    print("a search finds what is there after each edit")


TREES = {"textDocument": {"documentSymbol": {"hierarchicalDocumentSymbolSupport": True}}}


def check_encoding(program, mode, encoding, texts):
    """What depends on how positions are counted."""
    with program.connect() as client:
        session = Session(client, encoding, bool(mode))
        check_texts(session, texts)
        check_list(session)
        check_example(session)
        client.leaves()
    with program.connect() as client:
        check_features(Session(client, encoding, bool(mode), **TREES))
        client.leaves()
    print(f"{encoding}: hovers, symbols, completions, definitions, formatted texts, semantic tokens and folding ranges")


def check_mode(program, mode, texts):
    newer = {uri: text for uri, text in texts.items() if uri.startswith("file:///newer/")}
    for encoding in "utf-16", "utf-8":
        check_encoding(program, mode, encoding, texts)
    with program.connect() as client:
        session = Session(client, is_inline=bool(mode))
        check_places(session)
        check_documents(session)
        client.leaves()
    is_set(program, mode, newer)
    check_searches(program, mode)


def check_jobs(program):
    """What only the mode with threads of jobs does."""
    with program.connect() as client:
        check_edits(Session(client))
        client.leaves()
    comes_true("a search runs at shutdown, and has its reply", lambda: runs_at_shutdown(program))


def check_all(name, files):
    texts = {f"file:///{kind}/{at}.toml": text for kind in ("valid", "invalid", "newer") for at, text in enumerate(cases(kind))}
    texts |= {file.resolve().as_uri(): file.read_bytes().decode() for file in files}
    for mode in [], ["inline"], ["threads"]:
        with Program([name, *mode], listens=True) as program:
            print(program.name)
            check_mode(program, mode, texts)
            if not mode:
                check_jobs(program)


def main():
    parser = argparse.ArgumentParser(description=__doc__, formatter_class=argparse.RawDescriptionHelpFormatter)
    parser.add_argument("--program", type=Path, default=built("example_toml")[0], help="the program that is tried")
    parser.add_argument("files", nargs="*", type=Path, help="further texts")
    words = parser.parse_args()
    return run(lambda: check_all(words.program, words.files))


if __name__ == "__main__":
    sys.exit(main())
