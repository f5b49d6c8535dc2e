"""Logs of random sessions: each fifth one is lawful, each fifth one has any messages, and the others have up to eight mistakes."""
import copy
import json
import random

URIS = ["file:///a.x", "file:///b.x", "file:///c%20d.x", "untitled:1"]
ASKS = ["textDocument/hover", "textDocument/completion", "textDocument/references", "workspace/symbol", "x/own", "$/ask"]
SERVER_ASKS = ["workspace/configuration", "client/registerCapability", "workspace/applyEdit", "window/showMessageRequest",
               "window/workDoneProgress/create", "x/back"]
SERVER_NOTES = ["window/logMessage", "window/showMessage", "telemetry/event", "textDocument/publishDiagnostics", "$/logTrace", "x/n"]
CLIENT_NOTES = ["textDocument/didSave", "workspace/didChangeConfiguration", "$/setTrace", "$/cancelRequest", "x/n",
                "window/workDoneProgress/cancel", "textDocument/willSave"]
TOKENS = [1, 2, "1", "2", "t", -7, 0, ""]


class Ids:
    """Ids of one side: how it counts, and whether it takes one again after its reply."""
    def __init__(self, rng):
        self.rng, self.free, self.next = rng, [], rng.choice([0, 1, 1, -3, 2147483640])
        self.form = rng.choice(["int", "int", "str", "mixed"])

    def new(self, open_ids):
        for _ in range(50):
            if self.free and self.rng.random() < 0.3:
                got = self.rng.choice(self.free)
            else:
                got = self.next
                self.next += 1
                if got > 2147483647:
                    got, self.next = 1, 2
                form = self.form if self.form != "mixed" else self.rng.choice(["int", "str"])
                got = str(got) if form == "str" else got
                if self.form == "mixed" and self.rng.random() < 0.3:
                    self.next -= 1
            if not any(type(it) is type(got) and it == got for it in open_ids):
                return got
        return "u%d" % self.rng.randrange(10**9)


def call(rng, method, i, params):
    m = {"jsonrpc": "2.0"}
    if i is not None:
        m["id"] = i
    m["method"] = method
    if params is not None:
        m["params"] = params
    return m


def reply(i, ok, value=None):
    m = {"jsonrpc": "2.0", "id": i}
    if ok:
        m["result"] = value
    else:
        m["error"] = {"code": -32603, "message": "no"}
    return m


def session(rng):
    """A session in which all is right."""
    log = []
    cids, sids = Ids(rng), Ids(rng)
    copen, sopen = [], []       # (id, method, work token, partial token)
    live = []                   # created tokens: [name, refused/accepted unknown]
    docs = {}

    def put(way, m):
        log.append((way, m))

    for _ in range(rng.randrange(0, 2)):
        if rng.random() < 0.2:
            i = cids.new([])
            put("->", call(rng, "initialize", i, {}))
            put("<-", reply(i, False))
    token = rng.choice(TOKENS) if rng.random() < 0.4 else None
    params = {"capabilities": {}}
    if token is not None:
        params["workDoneToken"] = token
    i = cids.new([])
    put("->", call(rng, "initialize", i, params))
    if token is not None and rng.random() < 0.7:
        put("<-", call(rng, "$/progress", None, {"token": token, "value": {"kind": "begin", "title": "x"}}))
    for _ in range(rng.randrange(0, 3)):
        put("<-", call(rng, rng.choice(SERVER_NOTES[:3]), None, {"message": "x"}))
    asked = None
    if rng.random() < 0.1:
        asked = sids.new([])
        put("<-", call(rng, "window/showMessageRequest", asked, {"message": "x"}))
        if rng.random() < 0.5:
            put("->", reply(asked, True))
            asked = None
    if token is not None and rng.random() < 0.3:
        put("<-", call(rng, "$/progress", None, {"token": token, "value": {"kind": "end"}}))
    put("<-", reply(i, True, {"capabilities": {}}))
    cids.free.append(i)
    if asked is not None:
        sopen.append((asked, "window/showMessageRequest", None))
    for _ in range(rng.randrange(0, 2)):
        put("<-", call(rng, rng.choice(SERVER_NOTES), None, {"uri": URIS[0]}))
    put("->", call(rng, "initialized", None, {}))

    down = False
    for _ in range(rng.randrange(5, 60)):
        pick = rng.random()
        if pick < 0.22:
            uri = rng.choice(URIS)
            if uri not in docs:
                version = rng.choice([0, 1, 5, -2])
                put("->", call(rng, "textDocument/didOpen", None, {"textDocument": {"uri": uri, "languageId": "x", "version": version, "text": ""}}))
                docs[uri] = version
            elif rng.random() < 0.25:
                put("->", call(rng, "textDocument/didClose", None, {"textDocument": {"uri": uri}}))
                del docs[uri]
            else:
                docs[uri] += rng.choice([1, 1, 1, 2, 10])
                put("->", call(rng, "textDocument/didChange", None, {"textDocument": {"uri": uri, "version": docs[uri]}, "contentChanges": []}))
        elif pick < 0.42:
            i = cids.new([it[0] for it in copen])
            params = {"textDocument": {"uri": rng.choice(URIS)}}
            taken = [t for it in copen for t in it[2:4] if t is not None] + [t[0] for t in live]
            work = part = None
            if rng.random() < 0.4:
                work = rng.choice(TOKENS)
                work = None if any(type(t) is type(work) and t == work for t in taken) else work
            if rng.random() < 0.3:
                part = rng.choice(TOKENS)
                part = None if any(type(t) is type(part) and t == part for t in taken + [work]) else part
            if work is not None:
                params["workDoneToken"] = work
            if part is not None:
                params["partialResultToken"] = part
            method = rng.choice(ASKS)
            put("->", call(rng, method, i, params))
            copen.append([i, method, work, part, False])
        elif pick < 0.62 and copen:
            it = copen.pop(rng.randrange(len(copen)))
            put("<-", reply(it[0], rng.random() < 0.85, rng.choice([None, [], {"a": 1}, "x", 0, False])))
            cids.free.append(it[0])
        elif pick < 0.72 and copen:
            it = rng.choice(copen)
            if it[2] is not None and not it[4]:
                end = rng.random() < 0.3
                it[4] = end
                value = {"kind": "end"} if end else {"kind": rng.choice(["begin", "report"]), "title": "x"}
                put("<-", call(rng, "$/progress", None, {"token": it[2], "value": value}))
            elif it[3] is not None:
                put("<-", call(rng, "$/progress", None, {"token": it[3], "value": rng.choice([[], [1], {"kind": "report"}])}))
            else:
                put("->", call(rng, "$/cancelRequest", None, {"id": it[0]}))
        elif pick < 0.80 and not down:
            i = sids.new([it[0] for it in sopen])
            method = rng.choice(SERVER_ASKS)
            params, name = {"items": []}, None
            if method == "window/workDoneProgress/create":
                taken = [t for it in copen for t in it[2:4] if t is not None] + [t[0] for t in live]
                free = [t for t in TOKENS if not any(type(t) is type(u) and t == u for u in taken)]
                if not free:
                    continue
                name = rng.choice(free)
                params = {"token": name}
                live.append([name, i, False])
            put("<-", call(rng, method, i, params))
            sopen.append((i, method, name))
        elif pick < 0.86 and sopen:
            it = sopen.pop(rng.randrange(len(sopen)))
            ok = rng.random() < 0.85
            put("->", reply(it[0], ok))
            sids.free.append(it[0])
            if not ok and it[2] is not None:
                live[:] = [t for t in live if not (type(t[0]) is type(it[2]) and t[0] == it[2])]
        elif pick < 0.92 and live:
            t = rng.choice(live)
            end = rng.random() < 0.4
            put("<-", call(rng, "$/progress", None, {"token": t[0], "value": {"kind": "end" if end else "begin", "title": "x"}}))
            if end:
                live.remove(t)
        elif pick < 0.96:
            put("<-", call(rng, rng.choice(SERVER_NOTES), None, {"uri": rng.choice(URIS)}))
        else:
            put("->", call(rng, rng.choice(CLIENT_NOTES), None, {"textDocument": {"uri": rng.choice(URIS)}, "id": rng.choice(TOKENS)}))
    if rng.random() < 0.8:
        i = cids.new([it[0] for it in copen])
        put("->", call(rng, "shutdown", i, None))
        late = copen
        rng.shuffle(late)
        for it in late:
            if rng.random() < 0.7:
                put("<-", reply(it[0], rng.random() < 0.5))
        put("<-", reply(i, True))
        for it in sopen:
            if rng.random() < 0.5:
                put("->", reply(it[0], True))
        if rng.random() < 0.9:
            put("->", call(rng, "exit", None, None))
    return log


def other_id(rng, value):
    if rng.random() < 0.5 and value is not None:
        if isinstance(value, int):
            return str(value)
        try:
            return int(value) if -2**31 <= int(value) < 2**31 else 7
        except ValueError:
            return 7
    return rng.choice([0, 1, 2, 3, "1", "2", "", "a", -1, 2147483647, -2147483648])


def mutate(rng, log):
    """One mistake, or a change that is none."""
    n = len(log)
    if not n:
        return
    at = rng.randrange(n)
    way, m = log[at]
    what = rng.randrange(20)
    if what == 0:
        del log[at]
    elif what == 1:
        log.insert(at, copy.deepcopy(log[at]))
    elif what == 2:
        log.insert(rng.randrange(n + 1), copy.deepcopy(log[at]))
    elif what == 3:
        log.insert(rng.randrange(n), log.pop(at))
    elif what == 4 and at + 1 < n:
        log[at], log[at + 1] = log[at + 1], log[at]
    elif what == 5:
        log[at] = ("<-" if way == "->" else "->", m)
    elif what in (6, 7):
        having = [it for it in log if "id" in it[1]]
        if having:
            it = rng.choice(having)[1]
            it["id"] = other_id(rng, it["id"])
    elif what == 8:
        having = [it for it in log if "id" in it[1] and "method" in it[1]]
        if having:
            a, b = rng.choice(having)[1], rng.choice(having)[1]
            a["id"] = b["id"]
    elif what == 9:
        having = [it for it in log if "result" in it[1] or "error" in it[1]]
        if having:
            it = rng.choice(having)[1]
            if "result" in it:
                del it["result"]
                it["error"] = {"code": -32800, "message": "cancelled"}
            else:
                del it["error"]
                it["result"] = None
    elif what in (10, 11):
        having = [it for it in log if "version" in (it[1].get("params") or {}).get("textDocument", {})]
        if having:
            it = rng.choice(having)[1]["params"]["textDocument"]
            it["version"] = (it["version"] or 0) + rng.choice([-1, -2, -10, 0, 1, 5])
            if rng.random() < 0.15:
                it["version"] = rng.choice([None, 2147483647, -2147483648])
    elif what == 12:
        having = [it for it in log if isinstance((it[1].get("params") or {}).get("textDocument"), dict)]
        if having:
            rng.choice(having)[1]["params"]["textDocument"]["uri"] = rng.choice(URIS)
    elif what in (13, 14):
        having = [it for it in log if any(t in (it[1].get("params") or {}) for t in ("token", "workDoneToken", "partialResultToken"))]
        if having:
            it = rng.choice(having)[1]["params"]
            name = rng.choice([t for t in ("token", "workDoneToken", "partialResultToken") if t in it])
            value = it[name]
            twin = str(value) if isinstance(value, int) else (int(value) if value.lstrip("-").isdigit() else value)
            it[name] = twin if rng.random() < 0.5 else rng.choice(TOKENS)
    elif what == 15:
        having = [it for it in log if isinstance((it[1].get("params") or {}).get("value"), dict)]
        if having:
            rng.choice(having)[1]["params"]["value"]["kind"] = rng.choice(["begin", "report", "end", "END"])
    elif what == 16 and "method" in m:
        m["method"] = rng.choice(["exit", "shutdown", "initialize", "initialized", "$/progress", "textDocument/didOpen", "textDocument/didClose",
                                  "textDocument/didChange", "window/workDoneProgress/create", "window/showMessage", "window/logMessage"])
    elif what == 17 and "method" in m:
        if "id" in m:
            del m["id"]
        else:
            m["id"] = other_id(rng, 1)
    elif what == 18:
        log.insert(at, random_message(rng))
    elif what == 19:
        begin = rng.randrange(n)
        del log[begin:begin + rng.randrange(1, 6)]


def random_message(rng):
    way = rng.choice(["->", "<-"])
    pick = rng.randrange(8)
    i = rng.choice([0, 1, 2, "1", "2"])
    token = rng.choice(TOKENS[:4])
    if pick == 0:
        return ("->", call(rng, "initialize", i, {"workDoneToken": token} if rng.random() < 0.5 else {}))
    if pick == 1:
        return ("->", call(rng, rng.choice(["initialized", "exit", "shutdown", "$/cancelRequest"]), None if rng.random() < 0.8 else i, {}))
    if pick == 2:
        return ("->", call(rng, "shutdown", i, None))
    if pick == 3:
        return (way, reply(i, rng.random() < 0.6))
    if pick == 4:
        return (way if rng.random() < 0.2 else "<-", call(rng, "$/progress", None, {"token": token, "value": {"kind": rng.choice(["begin", "report", "end"])}}))
    if pick == 5:
        name = rng.choice(["didOpen", "didChange", "didClose"])
        doc = {"uri": rng.choice(URIS[:2])}
        if name != "didClose" and rng.random() < 0.9:
            doc["version"] = rng.randrange(4)
        return (way if rng.random() < 0.1 else "->", call(rng, "textDocument/" + name, None if rng.random() < 0.95 else i, {"textDocument": doc}))
    if pick == 6:
        if rng.random() < 0.5:
            return ("<-", call(rng, "window/workDoneProgress/create", i, {"token": token}))
        return (way, call(rng, rng.choice(SERVER_NOTES[:3] + ["window/showMessageRequest"]), None if rng.random() < 0.7 else i, {}))
    params = {}
    if rng.random() < 0.5:
        params["workDoneToken"] = token
    if rng.random() < 0.3:
        params["partialResultToken"] = rng.choice(TOKENS[:4])
    return (way, call(rng, "x/ask", i, params))


def log(seed):
    rng = random.Random(seed)
    if seed % 5 == 4:           # a soup
        got = [random_message(rng) for _ in range(rng.randrange(3, 60))]
        if rng.random() < 0.6:
            got[:0] = [("->", call(rng, "initialize", 1, {})), ("<-", reply(1, True)), ("->", call(rng, "initialized", None, {}))]
        return got
    got = session(rng)
    if seed % 5:
        for _ in range(rng.choice([1, 1, 2, 3, 5, 8])):
            mutate(rng, got)
    return got


def lines(seed):
    return [f"{way} {json.dumps(m, separators=(',', ':'))}" for way, m in log(seed)]
