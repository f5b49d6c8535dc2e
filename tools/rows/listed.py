"""What has to come of the calls over lists, of links and of messages that are made, by the lifecycle of LSP 3.17, JSON-RPC 2.0 and the
documents of the calls. Nothing here calls a library of this repository."""
import json

from rules import (
    AT_END, AT_WRONG_TIME, LEVELS, Echo, Session, Talker, beginning, debug_message, escape, frame, id_answer, is_note, is_request,
    is_whole, nesting, ordered, read, text_of, too_early
)
from tables import misspelt

ABORTED = "Initialization has been aborted during initialization"
LATE = "timed out waiting for exit notification"


def events_of(text):
    return [it if it == "timeout" else json.loads(it) for it in text.split("; ") if it]


class Boxes:
    """An inbox, an outbox and a gate, on which the calls of the lifecycle are made."""

    def __init__(self, answers, room, events):
        self.answers, self.room, self.events = list(answers), int(room), events_of(events)
        self.sent, self.seconds, self.id, self.params = [], 0, 1, None

    def send(self, message):
        """Whether there was room."""
        if len(self.sent) == self.room:
            return False
        self.sent.append(message)
        return True

    def receive(self, seconds):
        """The next event. Without limit, which is 0, a timeout is passed over."""
        self.seconds = seconds
        while self.events:
            came = self.events.pop(0)
            if came != "timeout" or seconds:
                return came
        return "closed"

    def turn(self):
        """What comes within a second, if the gate says yes."""
        if not self.answers or self.answers.pop(0) != "y":
            return "aborted"
        return self.receive(1)

    def start(self, turns):
        for _ in range(turns):
            came = self.turn()
            if came == "aborted":
                return ABORTED
            if came == "closed":
                return AT_END["new"]
            if came == "timeout":
                continue
            if is_request(came, "initialize"):
                self.id, self.params = came["id"], ordered(came.get("params"))
                return f"{id_answer(self.id)} {self.params}"
            if "method" not in came or is_note(came, "exit"):
                return AT_WRONG_TIME["new"] + beginning(debug_message(came))
            if "id" in came and not self.send(too_early(came)):
                return AT_END["new"]
        return "undecided"

    def wait(self, turns):
        for _ in range(turns):
            came = self.turn()
            if came != "timeout":
                return self.waited(came)
        return "undecided"

    def waited(self, came):
        if came == "aborted":
            return ABORTED
        if came == "closed":
            return AT_END["asked"]
        return "done" if is_note(came, "initialized") else AT_WRONG_TIME["asked"] + beginning(debug_message(came))

    def finish(self, turns, result=None):
        if not self.send({"id": self.id, "result": result}):
            return AT_END["asked"]
        return self.wait(turns) if turns else self.waited(self.receive(0))

    def shut(self, method, name="last"):
        if method == "x":
            return "false"
        if method != "shutdown":
            misspelt(f"there is no call `{method}`")
        self.send({"id": name, "result": None})
        came = self.receive(30)
        if came == "closed":
            return AT_END["ending"]
        if came == "timeout":
            return LATE
        return "true" if is_note(came, "exit") else AT_WRONG_TIME["ending"] + beginning(debug_message(came))


def calls_answer(row):
    names, answers, room, events = row.split(" | ")
    boxes, texts = Boxes(answers, room, events), []
    for name in names.split(" "):
        # (of a call that sends before it waits the sign before the name changes nothing)
        call, _, turns = name.partition(":")
        call, turns = call.removeprefix(">"), int(turns or 0)
        known = {"start": boxes.start, "wait": boxes.wait, "finish": boxes.finish}
        texts.append(f"{name} {known[call](turns) if call in known else boxes.shut(call)}; ")
    sent = "".join(map(text_of, boxes.sent))
    left = f"left {len(boxes.events)} and {len(boxes.answers)}; {boxes.seconds} seconds"
    return [f"{''.join(texts)}sent {sent}; {left}"]


class Counting(Echo):
    """The echo, and what came to it."""

    def __init__(self):
        self.asked = self.told = 0

    def heard(self, came):
        self.asked += "method" in came and "id" in came
        self.told += "method" in came and "id" not in came
        return super().heard(came)


def session_answer(word, row):
    """A session over lists. An inbox that wakes does so before each event from `initialized` up to `shutdown`."""
    room, events = row.split(" | ")
    server = Counting() if word == "serve" else Talker()
    session, end = Session(server, int(room)), None
    for came in [*events_of(events), "closed"]:
        if came == "timeout" and session.state == "ending":
            end = LATE
            break
        if came == "timeout":
            continue
        if word == "woken" and session.state == "open":
            end = session.sends(server.woken())
        end = end or (AT_END[session.state] if came == "closed" else session.hears(came))
        if end:
            break
    asked, told = (server.asked, server.told) if word == "serve" else (0, 0)
    return [f"{end}; sent {''.join(map(text_of, session.sent))}; {asked} asked, {told} told"]


def writes_answer(row):
    """The messages are written one after another, each offered to the other outbox after its write."""
    counts, events = row.split(" | ")
    fills, room = map(int, counts.split(" "))
    events, written, on, end = events_of(events), b"", [], "Closed"
    while events and end == "Closed":
        came = events.pop(0)
        if came == "timeout":
            continue
        written += frame(came)
        on += [text_of(came)] if len(on) < room else []
        if len(written) > fills:
            end, written = "Fault(Output(BrokenPipe))", written[:fills]
    return [f"{end}; wrote {escape(written)}; on {''.join(on)}; left {len(events)}"]


def link_answers(steps):
    """A link carries frames. One that nests too deep is not read, and stays in front."""
    arrived, on_way, answers = b"", b"", []
    for step in steps.split("; "):
        verb, _, word = step.partition(" ")
        if verb == "pass":
            arrived, moved, on_way = arrived + on_way[: int(word)], min(int(word), len(on_way)), on_way[int(word) :]
            answers.append(f"passed {moved}, {len(arrived)} there")
        elif verb in ("take", "skip"):
            came, left = read(arrived)
            is_whole_frame = came != "end" and came != 7
            is_taken = is_whole_frame and (verb == "skip" or came != 9)
            arrived = left if is_taken else arrived
            if verb == "skip":
                answers.append(f"skipped {'true' if is_whole_frame else 'false'}")
            else:
                answers.append(text_of(came) if is_taken else "body not read back" if is_whole_frame else "nothing")
        else:
            message = json.loads(step) if verb != "deep" else {"method": "deep", "params": lists(int(word))}
            on_way += frame(message)
            answers.append(f"{len(on_way)} on the way")
    return answers


def lists(levels):
    value = []
    for _ in range(1, levels):
        value = [value]
    return value


def extract_answer(row):
    """The params of a message as a number, or the text that the documents of `ExtractError` give."""
    method, _, text = row.partition(" ")
    message = json.loads(text)
    kind = "request" if "id" in message else "notification"
    if message["method"] != method:
        return [escape(f"Method mismatch for {kind} '{message['method']}'".encode())]
    if is_whole(message["params"]):
        name = f"{id_answer(message['id'])}: " if "id" in message else ""
        return [f"{name}{message['params']}"]
    # (the last words are those of `serde_json`)
    return [escape(f"Invalid {kind}\nMethod: {method}\n error: invalid type".encode())]


ROWS = {
    "calls": calls_answer,
    "serve": lambda row: session_answer("serve", row),
    "served": lambda row: session_answer("served", row),
    "woken": lambda row: session_answer("woken", row),
    "writes": writes_answer,
    "link": link_answers,
    "extract": extract_answer,
}
assert nesting(lists(LEVELS)) == LEVELS
