"""Notifications of documents that `example_toml` can't apply, or that look odd. The server's text is the client's or lost, the server reports
why, and each means to bring the text back works.
"""
from lsp import expect, frame
from toml_session import ERROR, NOTE, WARNING, Log, Problems, edit, errors, log, none, place

DOCUMENTS = 5

AGAIN = log(WARNING, "the document was open already")
REFUSED = log(ERROR, "params of another shape")
OUT_OF_STEP = log(ERROR, "the document is out of step")
# For each way back: its name, what the client sends, the log, the version, the lines with errors, and the client's text then.
WAYS_BACK = [
    ("an open", lambda session: session.open("b = 2\n", 1), [AGAIN], 1, [], "b = 2\n"),
    ("a whole text", lambda session: session.change(8, {"text": "c = d\n"}), [], 8, [0], "c = d\n"),
    (
        "a whole text between edits",
        lambda session: session.change(8, edit(0, 0, 1, "?"), {"text": "d = 1\n"}, edit(0, 4, 5, "2")),
        [],
        8,
        [],
        "d = 2\n",
    ),
    ("a save with its text", lambda session: session.save(text="e = f\n"), [], None, [0], "e = f\n"),
]

# For each change that can't be read: its name, and its params beside the document.
UNREADABLE = [
    ("a text that is a number", {"contentChanges": [{"text": 1}]}),
    ("changes that are no list", {"contentChanges": {"text": "x = 1\n"}}),
    ("no changes", {}),
    ("a range without an end", {"contentChanges": [{"range": {"start": place(0, 0)}, "text": ""}]}),
]


def closes(session):
    session.close()
    session.look("a close", [none()], None)


def is_opened_twice(session):
    """A mode that is called again: the new text is in the place of the old one, and versions begin again."""
    session.open("old = 1\n", 0)
    session.look("an open", [errors(0)], "old = 1\n")
    for version, digit in enumerate("234", start=1):
        session.change(version, edit(0, 6, 7, digit))
        session.look("an edit", [errors(version)], f"old = {digit}\n")
    session.open("# 𝒙\nnew = one\n", 0)
    session.look("a second open", [AGAIN, errors(0, 1)], "# 𝒙\nnew = one\n")
    session.change(1, edit(1, 6, 9, "1"), edit(0, 2, 4, "😀"))
    session.look("an edit after it", [errors(1)], "# 😀\nnew = 1\n")
    closes(session)


def is_refused(session, name, params, back):
    """A change that can't be read, edits after it, and a way back: no text is shown that is not the client's."""
    session.open("a = z\n")
    session.look("an open", [errors(1, 0)], "a = z\n")
    session.notify("didChange", NOTE, {"version": 5}, **params)
    session.look(name, [REFUSED, none()], None)
    session.change(6, edit(0, 4, 5, "1"))
    session.look("an edit after it", [OUT_OF_STEP, none()], None)
    session.change(7, edit(0, 4, 5, "1"))
    session.look("another edit", [none()], None)
    session.save()
    session.look("a save without a text", [none()], None)
    way, brings, logged, version, lines, text = back
    brings(session)
    session.look(way, [*logged, errors(version, *lines)], text)
    # A client may save before it sends its last changes.
    doubt = [log(WARNING, "a save brought the text back")] if way == "a save with its text" else []
    session.change(9, edit(0, 0, 0, "# 𝒙"), edit(0, 4, 4, "ß\n"))
    session.look(f"an edit after {way}", [*doubt, errors(9, *(line + 1 for line in lines))], "# 𝒙ß\n" + text)
    closes(session)


def saves_early(session):
    """Saves before the changes that led to their text, as of Kate: nothing is said, unless the next changes lead elsewhere."""
    session.open("a = 1\n")
    session.look("an open", [errors(1)], "a = 1\n")
    session.save(text="a = 12\n")
    session.look("an early save", [errors(1)], "a = 1\n")
    session.change(2, edit(0, 5, 5, "2"))
    session.look("its change", [errors(2)], "a = 12\n")
    session.save(text="a = 123\n")
    session.look("another early save", [errors(2)], "a = 12\n")
    session.change(3, edit(0, 6, 6, "4"))
    session.look("a change that leads elsewhere", [log(WARNING, "the saved text is another one"), errors(3)], "a = 124\n")
    closes(session)


def is_not_as_it_was(session):
    """Notifications that LSP forbids for a document that is not open, and a place that the text does not have."""
    session.close()
    session.look("a close of what is not open", [log(ERROR, "the document is not open"), none()], None)
    session.change(1, {"text": "a = z\n"})
    session.look("a whole text of what is not open", [log(WARNING, "the document was not open"), errors(1, 0)], "a = z\n")
    session.change(2, edit(0, 4, 99, "1"))
    session.look("a place past the end", [log(WARNING, "a position is past the end"), errors(2)], "a = 1\n")
    session.change(2, edit(0, 4, 5, "2"))
    session.look("a version that is not higher", [log(WARNING, "the version is not higher"), errors(2)], "a = 2\n")
    closes(session)


def opens_all(session):
    """Several documents are open, and all their problems are shown."""
    others = [f"file:///{number}.toml" for number in range(DOCUMENTS)]
    for uri in others:
        session.open("a = 1\n", uri=uri)
        session.look("an open", [Problems(uri, 1, [])], "a = 1\n", uri)
    session.open("a = 1\nb = z\n")
    session.look("an open", [errors(1, 1)], "a = 1\nb = z\n")
    return [*others, NOTE]


def loses_all(session, how, lost, sends):
    """What may be about any text makes each of them lost, until its client sends it whole: a check that waits, too."""
    uris = opens_all(session)
    session.change(2, edit(0, 4, 5, "y"))
    sends(session.client)
    session.ask("toml/text", NOTE)
    if session.is_inline or session.shown[0] != lost:  # (on a busy machine the check may end before)
        expect("the problems before", session.shown.pop(0), errors(2, 0, 1))
    session.look(how, [lost, *map(none, uris)], None)
    expect(f"what a search after {how} finds", session.search(""), [])
    for uri in uris:
        session.look(how, [], None, uri)
    session.change(3, edit(1, 4, 5, "1"))
    session.look("an edit after it", [OUT_OF_STEP, none()], None)
    session.change(4, {"text": "b = 1\n"})
    session.look("a whole text after it", [errors(4)], "b = 1\n")
    for uri in uris:
        session.close(uri)
        session.look("a close", [none(uri)], None, uri)


# What is about any text: its name, the log line, and what is sent.
OF_ANY = [
    (
        "a body that is no message",
        Log(ERROR, "content was skipped that is no message: no text is known"),
        lambda client: client.send_bytes(frame(b"{")),
    ),
    (
        "a change that names no document",
        Log(ERROR, "params of another shape"),
        lambda client: client.notify("textDocument/didChange", {"contentChanges": [{"text": "a = 1\n"}]}),
    ),
]


def check_documents(session):
    is_opened_twice(session)
    print("a document is opened twice, and its text is the client's")
    for name, params in UNREADABLE:
        for back in WAYS_BACK:
            is_refused(session, name, params, back)
            print(f"{name} is refused, and {back[0]} brings the text back")
    saves_early(session)
    print("a save comes before the change that it saved, and is compared after that")
    is_not_as_it_was(session)
    print("a document that is not open, a place that is not there and a version that is not higher are logged")
    for name, lost, sends in OF_ANY:
        loses_all(session, name, lost, sends)
        print(f"{name} is skipped, and no text is shown until it is sent whole")
