"""What has to come of jobs, in sessions and in a pool by hand, by LSP 3.17 ("Base Protocol", "Server lifecycle", "Cancellation Support",
"Progress Support") and the documents of `lsp_jobs`.

Client, server, writer and workers take steps in many orders. A row whose answer depends on the order is refused. Nothing here calls a
library of this repository."""
import json
import random

from rules import (
    AT_END, CANCELED, ENDED, GREATEST, OF_BODY, Session, Talker, frame, in_order, is_id, is_note, limit_in, ordered, reads, shown
)
from tables import misspelt

# The tokens that the params of a job in a pool by hand have.
TOKENS = {"workDoneToken": "w", "partialResultToken": 7}
# In how many orders the parts of a row with jobs take their steps.
ORDERS = 50
# So many messages of a job may wait. The last place is not for reports.
PLACES = 16
# So many messages of all jobs may wait.
ITEMS = 256
# So many jobs may wait for a thread, if the size of a pool says nothing else.
WAITING = 1024
TOO_MANY = {"code": -32803, "message": "too many requests are waiting"}
FAILED = {"code": -32803, "message": "it failed"}
NO_MEMORY = {"code": -32603, "message": "out of memory"}
NO_RESULT = {"code": -32603, "message": "no result"}
# What a script's words say by a token of the request (LSP 3.17, "Work Done Progress" and "Partial Result Progress"), and the member of
# its params that has the token.
TOLD = {
    "begins": ("workDoneToken", lambda number: {"kind": "begin", "title": "Working", "percentage": 0}),
    "offers": ("workDoneToken", lambda number: {"kind": "begin", "title": "Working", "percentage": 0, "cancellable": True}),
    "steps": ("workDoneToken", lambda number: {"kind": "report", "message": f"step {number}", "percentage": number}),
    "ends": ("workDoneToken", lambda number: {"kind": "end", "message": "done"}),
    "parts": ("partialResultToken", lambda number: [number]),
}


# The words of a job's script, and the steps of a pool by hand.
SCRIPT = [*TOLD, *"after soon cancelled rests checks replies finds asks creates reports sends counted fails starves".split()]
STEPS = "begun ended reported submit hear listen rounds message unneeded waits forget cancel reply give_up".split()


def known(texts, words):
    """The texts, each of which begins with one of these words."""
    for it in texts:
        if it.partition(" ")[0] not in words:
            misspelt(f"`{it}` begins with none of: {', '.join(sorted(words))}")
    return texts


class Job:
    """A job, its number, its value, and the params that may have tokens."""

    def __init__(self, script, number, value, params):
        self.words, self.number, self.value, self.params = known(script.split(", "), SCRIPT), number, value, params
        # Whether it is to end, and whether nobody waits for it: then what it says is dropped too.
        self.is_cancelled = self.is_dropped = False
        self.waiting, self.made, self.taken, self.told, self.ending = [], 0, 0, 0, None
        # The token of the progress that began and has no end yet, and the one by which its client may cancel it.
        self.begun, self.offered = None, None
        self.replies = self.finds = True
        # Whether a reply came, or no more comes; the reply of its client, and the token that it asks its client to agree to.
        self.is_answered, self.reply, self.created = False, None, None
        # Whether it waits for the reply to a request that it sent, and whether it starts only after an hour.
        self.is_asking = self.is_far = False

    def token(self, member):
        """A text or a whole number of 32 bits. Else there is none."""
        token = self.params.get(member) if isinstance(self.params, dict) else None
        return token if is_id(token) else None


class Key(str):
    """The name of a job that answers no request. It is no request's id."""

    def __eq__(self, other):
        return isinstance(other, Key) and str.__eq__(self, other)

    __hash__ = str.__hash__


class Pool:
    """Threads that run jobs. `wake` is called when one said something."""

    def __init__(self, workers, waiting, wake):
        self.workers, self.waiting, self.wake = [None] * max(workers, 1), waiting, wake
        self.queue, self.table, self.said, self.is_ended = [], {}, [], False
        # The jobs whose requests were sent to the client, and have no reply yet.
        self.unanswered = []
        self.counts = {"begun": 0, "stopped": 0, "ended": 0, "reported": 0, "messages": 0}

    def forget(self, name):
        job = self.table.pop(name, None)
        if job:
            job.is_cancelled = job.is_dropped = True
            self.queue = [it for it in self.queue if it is not job]

    def submit(self, name, job):
        self.forget(name)
        if not self.has_room(name):
            return False
        job.name = name
        self.table[name] = job
        self.queue.append(job)
        return True

    def has_room(self, name=None):
        """As many jobs may run and wait as there are places. Those under keys leave one worker to requests, if there are two or more."""
        jobs, waiting = [*self.queue, *filter(None, self.workers)], max(self.waiting, 1)
        if isinstance(name, Key) and sum(isinstance(it.name, Key) for it in jobs) >= self.for_keys() + waiting:
            return False
        return len(jobs) < len(self.workers) + waiting

    def for_keys(self):
        return max(len(self.workers) - 1, 1)

    def next_job(self):
        """The oldest job of a request; if none waits, the oldest under a key, but if as many of those run as may."""
        requests = [it for it in self.queue if not isinstance(it.name, Key)]
        under_keys = sum(job is not None and isinstance(job.name, Key) for job in self.workers)
        near = [it for it in self.queue if not it.is_far]
        return (requests or (near if under_keys < self.for_keys() else []) or [None])[0]

    def end(self):
        for job in [*self.table.values(), *self.queue, *filter(None, self.workers)]:
            job.is_cancelled = job.is_dropped = True
        self.table, self.is_ended = {}, True

    def say(self, job, message):
        if not job.is_dropped:
            job.waiting.append(message)
            self.said.append(job)
            self.wake()

    def steps(self):
        """What the workers can do next."""
        for number, job in enumerate(self.workers):
            if job is None and self.next_job():
                yield lambda number=number: self.begin(number)
            elif job is not None and self.can_go_on(job):
                yield lambda number=number, job=job: self.go_on(number, job)

    def begin(self, number):
        job = self.next_job()
        self.queue.remove(job)
        if not job.is_cancelled:
            self.counts["begun"] += 1
            self.workers[number] = job

    def can_go_on(self, job):
        """What is not to be dropped waits for room: an outcome, and all but reports."""
        name, _, number = job.words[0].partition(" ") if job.words else ("outcome", "", "")
        if name == "replied":
            return job.is_cancelled or job.is_answered
        if name in ("asks", "creates") and job.is_cancelled:
            return True
        if name in ("outcome", "sends", "asks", "creates") or name in ("begins", "offers", "ends", "parts") and job.token(TOLD[name][0]) is not None:
            return job.is_dropped or len(job.waiting) < PLACES and len(self.said) < ITEMS
        if name == "after":
            return self.counts["messages"] >= int(number)
        return name not in ("cancelled", "rests") or job.is_cancelled

    def go_on(self, number, job):
        if not job.words:
            if job.begun is not None:
                # Progress that began has an end (LSP 3.17, "Work Done Progress End").
                self.report(job, {"token": job.begun, "value": {"kind": "end"}}, PLACES)
                job.begun = None
                return
            self.workers[number], job.offered = None, None
            self.say(job, ("outcome", job.ending))
            return
        name, _, words = job.words.pop(0).partition(" ")
        if name == "cancelled":
            self.counts["stopped"] += 1
        elif name in ("rests", "checks"):
            if job.is_cancelled:
                self.counts["stopped"] += 1
                job.words, job.ending = [], "cancelled"
        elif name in ("replies", "finds"):
            job.replies, job.finds = job.replies and name != "replies", job.finds and name != "finds"
        elif name in ("asks", "creates"):
            self.ask(job, words)
        elif name == "replied":
            self.hear_reply(job)
        elif name in ("reports", "sends", "begins", "offers", "steps", "ends", "parts"):
            self.tell(job, name)
            if int(words or 1) > 1:
                job.words.insert(0, f"{name} {int(words) - 1}")
            elif name in ("reports", "steps"):
                self.counts["reported"] += 1
        elif name in ("counted", "fails", "starves"):
            job.ending = name
        if not job.words:
            self.counts["ended"] += 1
            endings = {"replied": job.reply, "counted": {"result": job.taken}, "fails": {"error": FAILED}}
            if job.ending not in ("starves", "cancelled"):
                job.ending = endings.get(job.ending, {"result": job.value})

    def ask(self, job, token):
        """A request to the client, for whose reply the job waits (LSP 3.17, "Creating Work Done Progress" for a token)."""
        job.created, job.is_answered, job.reply, job.ending = token or None, False, None, None
        job.words.insert(0, "replied")
        if job.is_cancelled:
            return
        method, params = ("window/workDoneProgress/create", {"token": token}) if token else ("demo/asked", job.value)
        job.is_asking = True
        self.say(job, ("ask", {"method": method, "params": params}))

    def hear_reply(self, job):
        """The reply, or none, since the job is to end, and that is told. Without agreement nothing is told under the token."""
        if job.is_asking and not job.is_answered and job.is_cancelled:
            self.wake()
        job.is_asking = False
        if job.created:
            job.params = {"workDoneToken": job.created} if "result" in (job.reply or {}) else {}
            job.reply = None
        elif job.reply is None:
            self.counts["stopped"] += 1
        else:
            job.ending = "replied"

    def tell(self, job, name):
        """A notification of progress. It is dropped if nobody waits for the job; and a report is, if there is no room for it."""
        if name in TOLD:
            token, value = job.token(TOLD[name][0]), TOLD[name][1]
            if token is None:
                return
            job.told += name in ("steps", "parts")
            params = {"token": token, "value": value(job.told)}
            if name in ("begins", "offers", "ends"):
                job.begun = None if name == "ends" else token
            if name == "offers":
                job.offered = token
        else:
            job.made += 1
            params = {"token": "job", "value": job.made}
        is_taken = self.report(job, params, PLACES - 1 if name in ("reports", "steps") else PLACES)
        job.taken += is_taken and name in ("reports", "sends")

    def report(self, job, params, room):
        is_taken = not job.is_dropped and len(job.waiting) < room and len(self.said) < ITEMS
        if is_taken:
            self.say(job, ("report", {"method": "$/progress", "params": params}))
        return is_taken

    def replied(self, job, reply):
        """The client's reply to the request of a job, or that there will be none. It counts if the job still waits."""
        if job in self.unanswered:
            self.unanswered.remove(job)
        if not (job.is_cancelled or job.is_answered):
            job.is_answered, job.reply = True, reply

    def unneeded(self):
        """A job that is to end, whose request to the client has no reply yet: it is cancelled there, once (LSP 3.17, "Cancellation Support")."""
        for job in self.unanswered:
            if job.is_cancelled:
                self.unanswered.remove(job)
                return job
        return None

    def cancel_progress(self, token):
        """The job that shows progress with this token is to end (LSP 3.17, "Canceling Work Done Progress"). It is awaited as before."""
        for job in filter(None, self.workers):
            if job.offered is not None and type(job.offered) is type(token) and job.offered == token:
                job.is_cancelled = True

    def has_message(self):
        return any(not job.is_dropped for job in self.said)

    def message(self):
        """The name of the job that said something next, what it said, and the job. What dropped jobs said goes first. None if nothing is left."""
        while self.said:
            job = self.said.pop(0)
            if not job.is_dropped:
                kind, said = job.waiting.pop(0)
                if kind == "outcome":
                    del self.table[job.name]
                return job.name, kind, said, job
        return None


class Working(Talker):
    """The server that speaks, with jobs. Each has a number."""

    def __init__(self, pool):
        super().__init__()
        self.numbered, self.starts, self.later, self.kept, self.pool = 0, [], [], {}, pool

    def make(self, script, params):
        self.numbered += 1
        return Job(script, self.numbered, params, params)

    def is_long(self, came):
        return "id" in came and came.get("method", "").startswith(("job ", "long "))

    def answer_to(self, came):
        """The job that a long request gets, or its reply at once."""
        if came["method"] == "long known":
            return {"result": came["params"]}
        if came["method"] == "long unmade":
            return {"error": NO_MEMORY}
        return self.make(came["method"][4:], came.get("params"))

    def replied(self, came):
        """A reply to a job's request is the job's, if it still waits."""
        why = self.asked[came["id"]] if came["id"] in range(len(self.asked)) else None
        if not isinstance(why, Job):
            return super().replied(came)
        self.asked[came["id"]] = None
        self.pool.replied(why, {it: came[it] for it in came if it in ("result", "error")})
        return []

    def heard(self, came):
        method, params = came.get("method"), came.get("params")
        if "method" not in came:
            return self.replied(came)
        if "id" in came and method.startswith("later "):
            job = self.make(method[6:], params)
            self.kept[job.number] = came["id"]
            self.later.append((Key(f"later {came['id']}"), job))
        elif is_note(came, "start"):
            self.starts, self.later = self.later, []
        elif "id" not in came and method.startswith("job "):
            self.starts.append((Key("own"), self.make(method[4:], params)))
        elif "id" not in came and method.startswith(("soon ", "hour ")):
            job = self.make(method[5:], params)
            job.is_far = method.startswith("hour ")
            self.starts.append((Key("own"), job))
        elif is_note(came, "stop"):
            self.starts.append((Key("own"), None))
        elif is_note(came, "answer"):
            return [{"id": params[0], "result": "by the server"}]
        elif is_note(came, "withdraw"):
            # It cancels what it asked for this request, in the order of the ids, if no reply came.
            asked = [it for it, why in enumerate(self.asked) if isinstance(why, dict) and why["id"] == params[0]]
            return [{"method": "$/cancelRequest", "params": {"id": it}} for it in asked]
        elif "id" in came or not method.startswith(("$/", "window/")):
            return super().heard(came)
        return []


class JobSession(Session):
    """A client, a server with jobs, a thread that writes and the workers, each of which takes steps."""

    def __init__(self, reads, pauses, pool, room, passes):
        # How many content parts of each kind are passed over, if that is asked.
        self.passed = dict.fromkeys(OF_BODY, 0) if passes else {}
        # What the reads give, each with the place behind it.
        self.reads, self.pauses, self.at = iter(reads), list(pauses), 0
        self.pool = Pool(*pool, self.wake)
        super().__init__(Working(self.pool), room)
        # What comes to the server: messages, faults and wakes. What goes to the writer, and the bytes that it wrote.
        self.queue, self.outbox, self.written, self.end = [], [], b"", None
        self.is_failed, self.is_read, self.pending, self.finished = False, False, set(), ""

    def wake(self):
        self.queue.append("wake")

    def steps(self):
        if not self.is_read and all(self.is_over(it) for it in self.pauses if it[0] <= self.at):
            yield self.read_next
        if self.queue and not self.end:
            yield self.serve_next
        if self.outbox:
            yield self.write_next
        if self.end and self.is_read and not self.pool.is_ended:
            yield self.pool.end
        yield from self.pool.steps()

    def is_over(self, pause):
        counts = {**self.pool.counts, "written": len(self.written)}
        return counts[pause[1]] >= pause[2]

    def read_next(self):
        came, self.at = next(self.reads)
        self.queue.append(came)
        self.is_read = is_note(came, "exit") if isinstance(came, dict) else not self.may_pass(came)

    def may_pass(self, came):
        """Whether this is a content part that is no message, and those are passed over where a session can."""
        return not isinstance(came, dict) and came in self.passed

    def write_next(self):
        data = self.outbox.pop(0)
        if self.is_failed:
            return
        if len(self.written) + len(data) > self.room:
            data, self.is_failed = data[: self.room - len(self.written)], True
        self.written += data
        self.pool.counts["messages"] += not self.is_failed

    def send(self, message):
        self.outbox.append(frame(message))

    def sends(self, messages):
        self.outbox += map(frame, messages)

    def act(self, messages):
        """What a server does is sent. A reply counts once, and then no job is awaited for its request."""
        for it in messages:
            if "method" not in it:
                self.pool.forget(it["id"])
        for it in messages:
            if "method" in it:
                self.send(it)
            elif it["id"] in self.pending:
                self.pending.remove(it["id"])
                self.send(it)
        starts, self.server.starts = self.server.starts, []
        for name, job in starts:
            self.free(name, "replaced" if job else "stopped")
            if job:
                self.submit(name, job)

    def free(self, key, end):
        """The server sees that the job under a key ended so."""
        if key in self.pool.table:
            self.finished += f" {json.dumps(key)} {end}"
            self.pool.forget(key)

    def submit(self, key, job):
        """A job without room is refused, and its server sees that."""
        if not self.pool.submit(key, job):
            self.finished += f" {json.dumps(key)} refused"
            self.send({"method": "refused", "params": [key]})

    def take(self, came):
        """A long request has its job. Without room its server is not asked for one, and nothing is told to it."""
        answer = self.server.answer_to(came) if self.pool.has_room() else {"error": TOO_MANY}
        if isinstance(answer, Job):
            self.pool.submit(came["id"], answer)
        else:
            self.act([{"id": came["id"], **answer}])

    def serve_next(self):
        came = self.queue.pop(0)
        if isinstance(came, dict):
            self.end = self.hears(came)
        elif came == "wake":
            if self.state == "open":
                self.woken()
        elif self.state == "open" and self.may_pass(came):
            self.passed[came] += 1
        else:
            self.end = AT_END[self.state] if came == "end" else f"read fault {came}"

    def woken(self):
        """A request that a job sent and does not need any more is cancelled. Otherwise the server takes a message of a job."""
        if job := self.pool.unneeded():
            self.send({"method": "$/cancelRequest", "params": {"id": self.server.asked.index(job)}})
        elif said := self.pool.message():
            self.hear(*said)

    def parts(self, name):
        """All jobs are forgotten. The server does its last acts, and each request that has no reply yet gets its error."""
        for it in list(self.pool.table):
            self.pool.forget(it)
        self.pending.discard(name)
        self.act(self.server.bye())
        for it in in_order(self.pending):
            self.send({"id": it, "error": ENDED})
        self.pending = set()

    def works(self, came):
        cancels = is_note(came, "$/cancelRequest") and came["params"]["id"]
        if cancels is not False:
            self.pool.forget(cancels)
        elif "id" in came and "method" in came:
            self.pool.forget(came["id"])
            self.pending.add(came["id"])
        if is_note(came, "window/workDoneProgress/cancel"):
            self.pool.cancel_progress(came["params"]["token"])
        if self.server.is_long(came):
            self.take(came)
        else:
            self.act(self.server.heard(came))
        if cancels is not False and cancels in self.pending:
            self.act([{"id": cancels, "error": CANCELED}])

    def hear(self, name, kind, said, job):
        if kind == "report":
            return self.send(said)
        if kind == "ask":
            self.pool.unanswered.append(job)
            return self.send(self.server.ask(said["method"], said["params"], job))
        end, reply, found = came_of(said, job)
        self.finished += f" {json.dumps(name)} {end}" if found is None else f" {json.dumps(name)}:{found}"
        if not isinstance(name, Key):
            return self.act([{"id": name, **reply}])
        if found is None or "result" not in said:
            return self.act([])
        kept = self.server.kept.get(found)
        return self.act([{"method": "published", "params": said["result"]} if kept is None else {"id": kept, **said}])

    def answer(self, is_sorted):
        end = "write fault 1" if self.is_failed else self.end
        counts = self.pool.counts
        if is_sorted:
            parts = sorted(self.written.split(b"Content-Length: "))
            return f"{end}; wrote {shown(b''.join(parts))}; {counts['begun']} begun"
        said = f"{counts['begun']} begun, {counts['stopped']} stopped; finished{self.finished}"
        passed = "; passed " + " ".join(map(str, self.passed.values())) if self.passed else ""
        return f"{end}; wrote {shown(self.written)}; {said}{passed}"


def came_of(said, job):
    """How a job ended, the reply to its request, and its number if it found that."""
    if said == "starves":
        return "failed", {"error": NO_MEMORY}, None
    if said == "cancelled":
        return "cancelled", {"error": CANCELED}, None
    return "done", said if job.replies else {"error": NO_RESULT}, job.number if job.finds else None


def hand_name(word):
    """A request's number, or that of a key behind an `s`."""
    return Key(word) if word.startswith("s") else int(word)


class HandPool:
    """The steps of a pool by hand, of which each waits for what it needs."""

    def __init__(self, pool, steps):
        self.heard, self.told, self.todo, self.asked = False, "", known(steps, STEPS), []
        self.pool = Pool(*pool, self.hear)

    def hear(self):
        """One signal stands for all messages since it was taken."""
        self.heard = True

    def steps(self):
        yield from self.pool.steps()
        if self.todo and self.is_ready(*self.todo[0].partition(" ")[::2]):
            yield self.go

    def is_ready(self, verb, words):
        if verb in ("begun", "ended", "reported"):
            return self.pool.counts[verb] >= int(words)
        return self.heard if verb == "hear" else verb != "listen" or self.pool.has_message()

    def go(self):
        verb, _, words = self.todo.pop(0).partition(" ")
        if verb == "submit":
            name, number, script = words.split(" ", 2)
            job = Job(script, int(number), [int(number)], TOKENS)
            self.told += "taken, " if self.pool.submit(hand_name(name), job) else "full, "
        elif verb == "hear":
            self.heard = False
            self.told += "heard, "
        elif verb == "listen":
            self.told += self.message()
            if int(words) > 1:
                self.todo.insert(0, f"listen {int(words) - 1}")
        elif verb == "rounds":
            self.run_rounds(*map(int, words.split()))
        elif verb == "message":
            self.told += self.message()
        elif verb == "unneeded":
            job = self.pool.unneeded()
            self.told += f"unneeded {self.asked.index(job)}, " if job else "all needed, "
        elif verb == "waits":
            self.told += "waits, " if hand_name(words) in self.pool.table else "free, "
        elif verb == "forget":
            self.pool.forget(hand_name(words))
        elif verb == "cancel":
            self.pool.cancel_progress(words)
        elif verb in ("reply", "give_up"):
            for job in self.asked[int(words) : int(words) + 1]:
                self.pool.replied(job, {"result": True} if verb == "reply" else None)
        if not self.todo:
            self.pool.end()

    def run_rounds(self, rounds, jobs):
        """Jobs that come at once to idle workers: as many may wait and run as there are places, and all come to their outcomes."""
        places = len(self.pool.workers) + max(self.pool.waiting, 1)
        self.told += f"{rounds * max(jobs - places, 0)} refused, "
        self.pool.counts["begun"] += rounds * min(jobs, places)

    def message(self):
        found = self.pool.message()
        if found is None:
            return "nothing, "
        name, kind, said, job = found
        if kind == "report":
            return f"{name} report {ordered(said['params'])}, "
        if kind == "ask":
            self.asked.append(job)
            self.pool.unanswered.append(job)
            return f"{name} ask {len(self.asked) - 1} {said['method']} {ordered(said['params'])}, "
        return f"{name} {self.shown_end(name, said, job)}, "

    def shown_end(self, name, said, job):
        """A job under a key gives no reply, and its value is found."""
        if said in ("starves", "cancelled"):
            return {"starves": "no memory"}.get(said, said)
        if isinstance(name, Key):
            return f"found {ordered(said['result'])}" if job.finds and "result" in said else "no reply"
        if not job.replies:
            return "no reply"
        return f"error {said['error']['code']}" if "error" in said else f"outcome {ordered(said['result'])}"

    def answer(self):
        counts = self.pool.counts
        return f"{self.told}{counts['begun']} begun, {counts['stopped']} stopped"


def in_all_orders(make, tell):
    """The answer, which has to be the same in whatever order the steps are taken."""
    answers = set()
    for seed in range(ORDERS):
        choice, whole = random.Random(seed), make()
        while steps := list(whole.steps()):
            choice.choice(steps)()
        answers.add(tell(whole))
    if len(answers) != 1:
        raise ValueError(f"what has to come depends on the order of the steps: {sorted(answers)}")
    return answers.pop()


def pool_size(word):
    workers, _, waiting = word.partition(":")
    return int(workers), int(waiting or WAITING)


def reads_of(data, limit):
    """What reads give up to `exit`, the end or a fault that ends each session, and where each ends."""
    for came, left in reads(data, limit):
        yield came, len(data) - len(left)
        if is_note(came, "exit") if isinstance(came, dict) else came not in OF_BODY:
            return


def job_answer(words, data, pauses):
    """What has to come of a session with jobs, where the writer has room for so many bytes, or a content part may have so many."""
    call, pool, _, device, count = *words[:4], int(words[4])
    room = count if device == "fills" else GREATEST
    limit = limit_in(device, count)

    def ended(session):
        if not session.end:
            raise ValueError("the session does not end")
        return session.answer(call == "many")

    reads = list(reads_of(data, limit))
    return in_all_orders(lambda: JobSession(reads, pauses, pool_size(pool), room, device == "passes"), ended)


def pool_answer(rest):
    size, _, steps = rest.partition(" ")

    def ended(whole):
        if whole.todo:
            raise ValueError("the pool does not come to its end")
        return whole.answer()

    return [in_all_orders(lambda: HandPool(pool_size(size), steps.split("; ")), ended)]
