#!/usr/bin/env python3
"""`lsp_check` over the logs of its stored run: what it chooses, its statuses, the other forms, statistics and the page.

What it says in text is the stored run. The other forms say the same. It ends in status 1 at the first difference. `.ci/run` calls it.
"""
import json
import os
import re
import resource
import subprocess
import sys
import xml.etree.ElementTree as xml
from html.parser import HTMLParser

sys.dont_write_bytecode = True

from lsp import CRATES, PATIENCE, built, expect, run

DATA = CRATES / "lsp_check" / "data"
sys.path.append(str(CRATES.parent / "tools" / "rows"))
import judge
import logs

PROGRAM = os.environ.get("LSP_CHECK")
EDITOR_LOGS = sorted(it.name for it in DATA.glob("*.log"))
RECORDINGS = sorted(it.name for it in DATA.glob("*.lsp"))
ALL_RULES = ["--rules", "all"]
BOTH = ["--fail-on", "both", "--level", "implied", *ALL_RULES]


def check(*words, given=b""):
    command = [PROGRAM, *words] if PROGRAM else built("lsp_check", *words)
    return subprocess.run(command, cwd=DATA, input=given, capture_output=True, timeout=PATIENCE, check=False)


def told(*words):
    return [json.loads(it) for it in check("--json", *words).stdout.decode().splitlines()]


def check_chosen():
    print("the side, the level and what is ignored decide on the status")
    for rule, said in judge.RULES.items():
        name = f"{rule}_broken.lsp"
        found = {it["side"] for it in told(*BOTH, name) if it["kind"] == "breach"}
        for side in ("server", "client", "both"):
            for level in ("must", "should", "implied"):
                is_strong = ["must", "should", "implied"].index(said.level) <= ["must", "should", "implied"].index(level)
                is_wanted = rule != "Unreadable" and is_strong and (side == "both" or side in found)
                expect(f"{rule}: {side} {level}", check("--fail-on", side, "--level", level, *ALL_RULES, name).returncode, int(is_wanted))
        expect(f"{rule}: ignored", check(*BOTH, "--ignore", rule, name).returncode, 0)
    strict = ["--fail-on", "both", "--level", "implied"]
    for group, rules in judge.GROUPS.items():
        others = [it for it in judge.GROUPS if it != group]
        for rule in rules:
            name = f"{rule}_broken.lsp"
            expect(f"{rule}: not chosen", check(*strict, name).returncode, 0)
            expect(f"{rule}: chosen", check(*strict, "--rules", group, name).returncode, 1)
            expect(f"{rule}: others chosen", check(*strict, *[it for other in others for it in ("--rules", other)], name).returncode, 0)
    log = "vscode_text.log"
    expect("a method", check(*BOTH, "--ignore", "AlreadyOpen@textDocument/didOpen", log).returncode, 0)
    expect("another method", check(*BOTH, "--ignore", "AlreadyOpen@textDocument/didClose", log).returncode, 1)
    expect("the default", check(log).returncode, 0)


def check_statuses():
    print("a breach, nothing judged, and a file that is not read to its end")
    clean = (DATA / "NoReply_kept.lsp").read_bytes()
    for what, words, given, status in [
        ("a clean log", ["-"], clean, 0),
        ("a byte-order mark, and blank lines", ["-"], b"\xef\xbb\xbf\r\n" + clean.replace(b"\n", b"\r\n\r\n"), 0),
        ("a breach", ["-"], (DATA / "NoReply_broken.lsp").read_bytes(), 1),
        ("no message", ["-"], b"", 2),
        ("another text", ["-"], b"hello\nworld\n", 2),
        ("no file", ["no.lsp"], b"", 2),
        ("no word", [], b"", 2),
        ("no rule", ["--ignore", "Nothing", "-"], clean, 2),
        ("no side", ["--fail-on", "nobody", "-"], clean, 2),
        ("no group", ["--rules", "words", "-"], clean, 2),
        ("several groups", ["--rules", "types", "--rules", "texts", "-"], clean, 0),
        ("a first line that is no message", ["-"], b"# recorded on a Sunday\n" + clean, 3),
        ("several such lines", ["-"], b"# recorded\n\n# on a Sunday\n" * 400 + clean, 3),
        ("frames of one direction", ["-"], b"Content-Length: 2\r\n\r\n{}", 3),
        ("a line that is no message", ["-"], clean + b"hello\n", 3),
        ("that, and a breach", ["-"], (DATA / "NoReply_broken.lsp").read_bytes() + b"hello\n", 1),
        ("a cut line", ["-"], clean[:-5], 0),
        ("a clean log and no file", ["NoReply_kept.lsp", "no.lsp"], b"", 2),
        ("a breach and no file", ["no.lsp", "NoReply_broken.lsp"], b"", 1),
        ("the old option", ["--log", "neovim010.log"], b"", 0),
        ("the version", ["--version"], b"", 0),
        ("statistics of nothing", ["stats", "-"], b"", 2),
        ("a page of nothing", ["html", "-"], b"", 2),
    ]:
        ran = check(*words, given=given)
        expect(f"the status of {what}", ran.returncode, status)
        if what == "another text":
            expect("whether the formats are named", all(it in ran.stderr for it in (b"VS Code", b"Neovim", b"eglot", b"Helix", b"frames")), True)


def check_frames():
    print("what passed before a message is not known in two files of frames")
    for group in [*judge.GROUPS, "all"]:
        ran = check("--rules", group, "--to-server", "sent", "--to-client", "came")
        expect(f"the refusal of {group}", (ran.returncode, ran.stdout, b"needs the order of the messages" in ran.stderr), (2, b"", True))


def check_forms():
    print("SARIF and JUnit say what the lines of JSON say")
    found = [it for it in told(*BOTH, *RECORDINGS) if it["kind"] != "summary"]
    sarif = json.loads(check(*BOTH, "--sarif", *RECORDINGS).stdout)
    driver, results = sarif["runs"][0]["tool"]["driver"], sarif["runs"][0]["results"]
    expect("the rules", {it["id"] for it in driver["rules"]}, set(judge.RULES))
    levels = {"breach": {True: "error", False: "warning"}}
    wanted = [(it.get("rule"), levels.get(it["kind"], {}).get(it.get("fails"), "note"), it["file"], it["line"]) for it in found]
    places = [it["locations"][0]["physicalLocation"] for it in results]
    came = [(it.get("ruleId"), it["level"], at["artifactLocation"]["uri"], at["region"]["startLine"]) for it, at in zip(results, places)]
    expect("the results", came, wanted)
    suites = xml.fromstring(check(*BOTH, "--junit", *RECORDINGS).stdout)
    expect("the suites", [it.get("name") for it in suites], RECORDINGS)
    expect("the failures", len(suites.findall(".//failure")), sum(it.get("fails", False) for it in found))
    expect("the rest", len(suites.findall(".//skipped")), sum(not it.get("fails", False) for it in found))


def check_escaped():
    print("what is in a log is text in JUnit, and characters that XML 1.0 does not have (section 2.2) are shown in another way")
    asked = {"jsonrpc": "2.0", "id": 9, "method": "a\ufffe\uffff\u0001<&>\"'b"}
    lines = (DATA / "NoReply_kept.lsp").read_bytes().splitlines(keepends=True)[:3]
    ran = check(*BOTH, "--junit", "-", given=b"".join(lines) + f"-> {json.dumps(asked, ensure_ascii=False)}\n".encode())
    said = [it.get("message") for it in xml.fromstring(ran.stdout).iter("skipped")]
    expect("how many open requests there are", len(said), 1)
    shown = re.search(r"""a((?:\?|\\u\{[0-9a-f]+\}){3})<&>"'b""", said[0])
    expect(f"whether {said[0]!r} shows each character of the method", bool(shown), True)


def check_rules():
    print("the rules are those of the standards")
    lines = [json.loads(it) for it in check("rules", "--json").stdout.decode().splitlines()]
    came = {it["rule"]: judge.Rule(it["side"], it["level"], it["sentence"], it["section"]) for it in lines}
    expect("the names of the rules", sorted(came), sorted(judge.RULES))
    lines_of_rules = (CRATES.parent / "tools/rows/judge.py").read_text().splitlines()
    for rule, wanted in judge.RULES.items():
        number = next((at for at, line in enumerate(lines_of_rules, 1) if re.match(rf'\s+"{rule}":', line)), 1)
        expect(f"the rule {rule} of tools/rows/judge.py:{number}", came[rule], wanted)
    for group, rules in judge.GROUPS.items():
        expect(f"the group of {group}", {it["rule"] for it in lines if it["group"] == group}, rules)
    for line in lines:
        expect("whether both logs are there", [(DATA / line[it]).is_file() for it in ("keeps", "breaks")], [True, True])
    expect("the table", len(check("rules").stdout.decode().splitlines()), len(judge.RULES))


def rows_of(passed):
    """By method: how many requests, how many without a reply, and the times of the replies."""
    rows, asked = {}, {}
    for _, way, message, time, *known in passed:
        sort = judge.kind(message)
        if sort == "request":
            asked[way, judge.key(message["id"])] = (message["method"], time)
            rows.setdefault((way, message["method"]), [0, 0, []])[0] += 1
        elif sort == "reply" and (judge.other(way), judge.key(message["id"])) in asked:
            method, begun = asked.pop((judge.other(way), judge.key(message["id"])))
            took = known[0] if known else None if None in (begun, time) else time - begun
            if took is not None:
                rows[judge.other(way), method][2].append(took)
    for (way, _), (method, _) in asked.items():
        rows[way, method][1] += 1
    return rows


def check_stats():
    print("requests are counted and timed by method")
    for name in EDITOR_LOGS:
        servers = logs.passed_in((DATA / name).read_text(encoding="utf-8"))
        if len(servers) > 1:
            continue
        wanted = {}
        for (way, method), (count, left, times) in rows_of(next(iter(servers.values()))).items():
            times.sort()
            nearest = {it: times[max(0, -(-len(times) * part // 100) - 1)] for it, part in [("median", 50), ("p99", 99), ("worst", 100)]} if times else {}
            wanted["client" if way == "->" else "server", method] = {"count": count, "open": left, **nearest}
        lines = [json.loads(it) for it in check("stats", "--json", name).stdout.decode().splitlines()]
        kept = ("count", "open", "median", "p99", "worst")
        expect(name, {(it["sender"], it["method"]): {key: it[key] for key in kept if key in it} for it in lines}, wanted)


class Elements(HTMLParser):
    def __init__(self):
        super().__init__()
        self.seen, self.named = [], []

    def handle_starttag(self, tag, attrs):
        self.seen.append(tag)
        self.named += [name for name, _ in attrs]


def page_of(data):
    ran = check("html", "-", given=data)
    expect("the status of the page", (ran.returncode, ran.stderr), (0, b""))
    elements = Elements()
    elements.feed(ran.stdout.decode())
    return ran.stdout.decode(), elements


def check_page():
    print("a page has a bar for each request, at most 2,000, loads nothing, and what is in the log is text")
    evil = "</span><script>alert(1)</script>\"'&"
    lines = (DATA / "NoReply_kept.lsp").read_bytes().splitlines(keepends=True)
    asked = [f"-> {json.dumps({'jsonrpc': '2.0', 'id': f'{evil}{at}', 'method': evil})}\n".encode() for at in range(2500)]
    page, elements = page_of(b"".join(lines[:3] + asked))
    expect("the bars", page.count('class="row"'), 2000)
    expect("whether a script came in", ("script" in elements.seen, "<script" in page), (False, False))
    expect("what is loaded", {it for it in elements.named if it in ("src", "href", "onload", "onclick")} | ({"link", "img", "iframe"} & set(elements.seen)), set())
    expect("the rest", "<td class=\"n\">501</td>" in page, True)
    for name in EDITOR_LOGS:
        page, _ = page_of((DATA / name).read_bytes())
        servers = logs.passed_in((DATA / name).read_text(encoding="utf-8")).values()
        requests = sum(judge.kind(it[2]) == "request" for passed in servers for it in passed)
        expect(f"the bars of {name}", page.count('class="row"'), requests)


def with_open_requests(many):
    """A log in which three of four requests get no reply, each with an id and a token of its own, and progress comes under them."""
    lines = [
        '-> {"jsonrpc":"2.0","id":-1,"method":"initialize","params":{}}',
        '<- {"jsonrpc":"2.0","id":-1,"result":{"capabilities":{}}}',
        '-> {"jsonrpc":"2.0","method":"initialized","params":{}}',
    ]
    for number in range(many):
        asks = {"jsonrpc": "2.0", "id": number, "method": "workspace/symbol", "params": {"query": "", "workDoneToken": f"t{number}"}}
        tells = {"jsonrpc": "2.0", "method": "$/progress", "params": {"token": f"t{number}", "value": {"kind": "begin", "title": ""}}}
        lines += ["-> " + json.dumps(asks), "<- " + json.dumps(tells)]
        if number % 4 == 3:
            lines.append("<- " + json.dumps({"jsonrpc": "2.0", "id": number, "result": []}))
    return "\n".join(lines).encode() + b"\n"


def taken(given):
    """How much processor time `lsp_check` takes for a log."""
    before = resource.getrusage(resource.RUSAGE_CHILDREN).ru_utime
    expect("the status of open requests", check("-", given=given).returncode, 0)
    return resource.getrusage(resource.RUSAGE_CHILDREN).ru_utime - before


def check_growth():
    print("twice as many open requests take about twice the time")
    few, many = with_open_requests(20000), with_open_requests(40000)
    expect("whether the time stays below three times", taken(many) < 3 * taken(few), True)


def check_all():
    for part in [check_chosen, check_statuses, check_frames, check_forms, check_escaped, check_rules, check_stats, check_page, check_growth]:
        part()


if __name__ == "__main__":
    sys.exit(run(check_all))
