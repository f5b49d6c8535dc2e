"""Judges what passed between an LSP client and a server, by JSON-RPC 2.0 and LSP 3.17. A test keeps a `Session`:

    session = lsp_judge.Session()
    session.sent(message)     # each message that your client sends
    session.got(message)      # each message that it gets
    session.check()           # AssertionError: line 5: AlreadyOpen: the document is open (LSP 3.17, ..)

A message is what `json.dumps` takes, or the bytes of a content part. Each is judged when it passes: with `Session(raise_at_once=True)` the
call that passes a wrong one raises the error. The library is `liblsp_judge.so.0`, beside this file or at LSP_JUDGE.
"""
import ctypes
import json
import os
import weakref

CLEAN, BROKEN, NOTHING, UNREAD, FAILED, REFUSED = range(6)
SIDES = {"server": 0, "client": 1, "both": 2}
LEVELS = {"must": 0, "should": 1, "implied": 2}
_FILE = os.environ.get("LSP_JUDGE") or os.path.join(os.path.dirname(os.path.abspath(__file__)), "liblsp_judge.so.0")
_NOT_READ = {"NotUtf8", "NotJson", "Unreadable"}
_ROOM = 1 << 14


class _Options(ctypes.Structure):
    _fields_ = [("size", ctypes.c_uint64), ("from_line", ctypes.c_uint64), ("format", ctypes.c_uint8), ("side", ctypes.c_uint8)]
    _fields_ += [("level", ctypes.c_uint8), ("begins_late", ctypes.c_uint8), ("groups", ctypes.c_uint32)]


class _Verdict(ctypes.Structure):
    _fields_ = [("size", ctypes.c_uint64), ("unread", ctypes.c_uint64), ("needed", ctypes.c_uint64), ("written", ctypes.c_uint64)]


class _Session(ctypes.Structure):
    _fields_ = [("at", ctypes.c_void_p), ("is_open", ctypes.c_uint8)]


_library = ctypes.CDLL(_FILE)
_OF_REPORT = [ctypes.c_char_p, ctypes.c_size_t, ctypes.POINTER(_Verdict)]
_OF_BYTES, _OF_OPTIONS, _OF_SESSION = [ctypes.c_char_p, ctypes.c_size_t], [ctypes.POINTER(_Options)], [ctypes.POINTER(_Session)]
_library.lsp_judge_log.argtypes = [*_OF_OPTIONS, *_OF_BYTES, *_OF_REPORT]
_library.lsp_judge_rules.argtypes = _OF_REPORT
_library.lsp_judge_new.argtypes = [*_OF_OPTIONS, *_OF_SESSION]
_library.lsp_judge_message.argtypes = [*_OF_SESSION, ctypes.c_uint8, ctypes.c_uint64, *_OF_BYTES, *_OF_REPORT]
_library.lsp_judge_end.argtypes = [*_OF_SESSION, ctypes.c_uint8, *_OF_REPORT]
_library.lsp_judge_free.argtypes = _OF_SESSION
for _name in ("log", "rules", "new", "message", "end"):
    getattr(_library, f"lsp_judge_{_name}").restype = ctypes.c_uint8
_library.lsp_judge_free.restype = None
_library.lsp_judge_version.restype = ctypes.c_uint32
VERSION = _library.lsp_judge_version()


def _said(status):
    """The status, if it says something."""
    if status == REFUSED:
        raise ValueError("lsp_judge: these options do not go together, or the library has another version")
    if status == FAILED:
        raise MemoryError("lsp_judge: no memory (or frames of one direction, or a log of more than 64 servers)")
    return status


def _tell(call, room):
    """Returns the status, the lines of the report that fit into this room, and the room that all need."""
    report, verdict = ctypes.create_string_buffer(room), _Verdict(size=ctypes.sizeof(_Verdict))
    status = _said(call(report, room, ctypes.byref(verdict)))
    return status, [json.loads(it) for it in report.raw[: verdict.written].splitlines()], verdict.needed


def _ask(call):
    """Returns the status and the lines of the report. The call is made again if the report did not fit."""
    room = _ROOM
    while True:
        status, report, needed = _tell(call, room)
        if needed <= room:
            return status, report
        room = needed


def judge(log, side="both", level="implied", *, recording=True, begins_late=False, from_line=0, capabilities=False):
    """Returns the status of a log (bytes), and the report: a list of dictionaries, as the lines of `lsp_check --json`.

    With `recording=False` the log may be one that an editor wrote, and `capabilities` judges these rules too.
    """
    options = _Options(ctypes.sizeof(_Options), from_line, not recording, SIDES[side], LEVELS[level], begins_late, capabilities)
    return _ask(lambda *report: _library.lsp_judge_log(ctypes.byref(options), log, len(log), *report))


def rules():
    """Returns the rules: a list of dictionaries."""
    return _ask(_library.lsp_judge_rules)[1]


class Session:
    """The messages that passed, in their order. Each is judged when it passes. Use it from one thread at a time.

    The options are those of `judge`. With `raise_at_once` the call that passes a message raises the error of `check` if that message breaks
    a rule, or could not be read.
    """

    def __init__(self, side="both", level="must", *, begins_late=False, capabilities=False, raise_at_once=False):
        self.lines = []
        self._how = {"side": side, "level": level, "begins_late": begins_late, "capabilities": capabilities}
        self._raises, self._room, self._session = raise_at_once, _ROOM, _Session()
        weakref.finalize(self, _library.lsp_judge_free, self._session)
        self._begin()

    def _begin(self):
        """Begins with the first message."""
        options = _Options(ctypes.sizeof(_Options), 0, 0, SIDES[self._how["side"]], LEVELS[self._how["level"]])
        options.begins_late, options.groups = self._how["begins_late"], self._how["capabilities"]
        self._passed, self._report, self._over = 0, [], None
        _said(_library.lsp_judge_new(options, self._session))

    def sent(self, message):
        """Keeps a message that the client sent."""
        self._keep(b"-> ", message)

    def got(self, message):
        """Keeps a message that the client got."""
        self._keep(b"<- ", message)

    def _keep(self, mark, message):
        content = message if isinstance(message, bytes) else json.dumps(message).encode()
        # A recording has a message in each line. JSON allows "\r" just where it allows "\n".
        self.lines.append(mark + content.replace(b"\n", b"\r"))
        told = self._pass()
        if self._raises:
            self._raise(told, UNREAD)

    def _pass(self):
        """Judges the messages that were not judged so far, and returns what is said of the last one."""
        told = []
        if self._over or not self._session.is_open:
            self._begin()
        while self._passed < len(self.lines):
            line = self.lines[self._passed]
            self._passed += 1
            words = self._session, line[:1] == b"<", self._passed, line[3:], len(line) - 3
            _, told, needed = _tell(lambda *report: _library.lsp_judge_message(*words, *report), self._room)
            self._report += told
            self._grow(needed)
        return told

    def _grow(self, needed):
        """Begins again if a report did not fit: the library does not tell it twice."""
        if needed > self._room:
            self._room = 2 * needed
            self._begin()

    def _end(self):
        """Returns the status and the report of the whole session. The next message begins again."""
        while not self._over:
            self._pass()
            status, told, needed = _tell(lambda *report: _library.lsp_judge_end(self._session, 0, *report), self._room)
            self._over = status, self._report + told
            self._grow(needed)
        return self._over

    def log(self):
        """Returns a recording of the session, which `lsp_check` reads too."""
        return b"".join(it + b"\n" for it in self.lines)

    def check(self, side=None, level=None, **options):
        """Raises an AssertionError that shows each rule that is broken and its message, or that a message was not read, or that there is none.

        The options are those of `judge`; what is not given is as in the session. Otherwise this returns the summary: how many requests,
        replies and breaches there are.
        """
        how = {**self._how, **options, "side": side or self._how["side"], "level": level or self._how["level"]}
        status, report = self._end() if how == self._how else judge(self.log(), **{"recording": not self._how["capabilities"], **how})
        if status != CLEAN:
            self._raise(report, status)
            raise AssertionError("no message passed" if status == NOTHING else "a message before from_line")
        return next(it for it in report if it["kind"] == "summary")

    def _raise(self, report, status):
        shown = [self._shown(it) for it in report if it.get("fails") or (status == UNREAD and it.get("rule") in _NOT_READ)]
        if shown:
            raise AssertionError("\n".join(shown))

    def _shown(self, it):
        line = self.lines[it["line"] - 1][:200].decode(errors="replace")
        return f"line {it['line']}: {it['rule']}: {it['text']}\n    {line}"
