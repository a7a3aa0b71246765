"""The rules of docs/PROTOCOL.md in Python: which messages the elements and control elements of a script send one another, and what becomes of
its transactions. The standard library is enough; to read a script takes Python 3.11.

    world = rules.World(rules.read("takeover.toml"))
    for step in world.steps:
        world.happen(step)
    world.sent[0]          # who sent the first message, to whom, what it is, and in which step

What an element holds in its blocks is left to a function, as in that page: `effect(element, message)` gives the codes that the operations in a
message get where they are not done, and none where they are. It is called where a transaction completes too, and changes `element.settings` where
operations that are settled change what the element has for heartbeats. No event is registered here.
"""
from dataclasses import dataclass, field

# the instances that each element has of itself, but for that which holds its epoch, which stands in no scope
OWN = {(1, 1), (2, 1)}
# the settings of heartbeats with which an element opens
SETTINGS = {"CEHBPolicy": 0, "CEHDI": 30_000, "FEHBPolicy": 0, "FEHI": 500}
QUERIES = ("ask", "record")


@dataclass(frozen=True)
class Message:
    """A message by what it says. A request and the answer to it have one stamp: the epoch of the life and a count."""

    kind: str
    stamp: tuple = None
    txn: tuple = None
    number: int = 0  # of a change; the code of a response; the epoch in a claim and in the answer to a query
    parts: tuple = ()
    scope: tuple = ()
    held: tuple = ()  # the transactions that the answer to an ask tells, each with its participants and its state
    state: str = None
    request: object = None  # what a response answers
    codes: tuple = ()  # in the response to a change that was looked at and not done: those of its operations


def reply(request, code, codes=()):
    return Message("reply", request.stamp, number=code, request=request, codes=codes)


def meets(one, other):
    """Whether two scopes meet; the empty one stands for all instances."""
    return not one or not other or bool(set(one) & set(other))


class Record:
    """What an element keeps of a transaction."""

    def __init__(self, state, parts=(), scope=()):
        self.state, self.parts, self.scope = state, parts, scope

    def is_held(self):
        return self.state in ("started", "prepared")


class Element:
    """A forwarding element: its associations, the fence, and its records."""

    def __init__(self, number, ce, instances, effect):
        self.number, self.ce, self.instances, self.effect = number, ce, instances, effect
        self.epoch, self.master, self.sequence, self.kept = 0, None, 0, None
        self.records, self.floor, self.codes = {}, (0, 0), ()
        self.settings = dict(SETTINGS)
        self.restart()

    def restart(self):
        self.associations, self.clock, self.last_beat = {}, 0, 0

    def moment(self, moment):
        """Associations that are silent for too long end, and heartbeats, which ask for no answer, go to the others. It is told to which."""
        self.clock = max(self.clock, moment)
        if self.settings["CEHBPolicy"] == 0:
            self.associations = {ce: last for ce, last in self.associations.items() if self.clock - last <= self.settings["CEHDI"]}
        if self.settings["FEHBPolicy"] != 1 or self.clock - self.last_beat < self.settings["FEHI"] or not self.associations:
            return []
        self.last_beat = self.clock
        return sorted(self.associations)

    def hear(self, ce, message):
        """What is answered to a message of a control element."""
        if message.kind == "accept" and (ce in self.associations or len(self.associations) < 64):
            self.associations[ce] = self.clock
        if message.kind == "accept" or ce not in self.associations:
            return []
        if message.kind in QUERIES:
            self.associations[ce] = self.clock
            return [self.answer(message)]
        answer = self.judge(ce, message)
        return [answer] if answer else []

    def answer(self, message):
        if message.kind == "ask":
            held = tuple((txn, record.parts, record.state) for txn, record in self.records.items() if record.is_held())
            return Message("holds", message.stamp, number=self.epoch, held=held)
        record = self.records.get(message.txn)
        parts, state = (record.parts, record.state) if record else ((), "absent")
        return Message("tells", message.stamp, message.txn, self.epoch, parts, state=state)

    def judge(self, ce, message):
        """The fence. A claim undoes what is started."""
        life, count = message.stamp
        self.codes = ()
        if message.kind == "claim" and life == message.number > self.epoch and count == 0 and life % 256 == ce % 256:
            self.epoch, self.master, self.ce, self.sequence = life, ce, ce, 0
            for record in self.records.values():
                if record.state == "started":
                    record.state = "aborted"
            code = 0
        elif self.epoch == 0:
            return reply(message, 0x0C)
        elif life != self.epoch or ce != self.master:
            return reply(message, 0x0C)
        elif count == self.sequence:
            self.associations[ce] = self.clock
            return self.kept
        elif count != self.sequence + 1:
            self.associations[ce] = self.clock
            return reply(message, 0x10)
        else:
            self.sequence = count
            code = self.act(message)
        self.associations[ce] = self.clock
        self.kept = reply(message, code, self.codes)
        return self.kept

    def operate(self, message):
        """The first code of the operations in a message that is not 0."""
        self.codes = tuple(self.effect(self, message))
        return next(filter(None, self.codes), 0)

    def act(self, message):
        """The code of the next Config."""
        txn, record = message.txn, self.records.get(message.txn)
        state = record.state if record else None
        if message.kind == "claim":
            return 0x12 if any(each.is_held() and not each.scope for each in self.records.values()) else 0x0C
        if message.kind == "plain":
            taken = any(each.is_held() and meets(each.scope, message.scope) for each in self.records.values())
            return 0x12 if taken else self.operate(message)
        if message.kind == "floor":
            if txn[0] != self.epoch or txn[1] == 0 or txn < self.floor:
                return 0x10
            if any(each.is_held() and other < txn for other, each in self.records.items()):
                return 0x12
            self.floor = txn
            self.records = {other: each for other, each in self.records.items() if other >= txn}
            return 0
        if message.kind == "sot":
            held = [each for each in self.records.values() if each.is_held()]
            if txn[0] != self.epoch or self.number not in message.parts or not self.instances.issuperset(message.scope):
                return 0x10
            if record or txn < self.floor:
                return 0x0A
            if any(meets(each.scope, message.scope) for each in held):
                return 0x12
            if len(self.records) >= 4096 or len(held) >= 64:
                return 0x0E
            self.records[txn] = Record("started", message.parts, message.scope)
            return 0
        if message.kind == "abt" and not record:
            if txn < self.floor:
                return 0x0B
            if len(self.records) >= 4096:
                return 0x0E
            self.records[txn] = Record("aborted")
            return 0
        if not record:
            return 0x0B
        if message.kind == "mot":
            code = self.operate(message) if state == "started" else 0x12
            if state == "started" and code:
                record.state = "aborted"
            return code
        before, after = {"eot": (("started",), "prepared"), "trcomp": (("prepared", "completed"), "completed"), "abt": (("started", "prepared", "aborted"), "aborted")}[message.kind]
        if state not in before:
            return 0x12
        if state != after:
            self.effect(self, message)
        record.state = after
        return 0


class Job:
    """A transaction that a life drives to its end."""

    def __init__(self, txn, parts, plan=None):
        self.txn, self.parts, self.plan = txn, parts, plan
        self.done = dict.fromkeys(parts, 0)
        self.answers, self.settled, self.stuck = {}, set(), set()
        self.decision = None

    def is_settled(self):
        return self.settled.issuperset(self.parts)

    def scope_at(self, element):
        return self.plan.scopes[element] if self.plan else ()

    def need(self, element):
        """What the job needs at a participant."""
        if element not in self.done:
            return None
        if self.decision:
            if element in self.settled or element in self.stuck:
                return None
            return Message("trcomp" if self.decision == "completed" else "abt", txn=self.txn)
        if element in self.answers:
            return None
        if not self.plan:
            return Message("record", txn=self.txn)
        done = self.done[element]
        if done == 0:
            return Message("sot", txn=self.txn, parts=self.parts, scope=self.scope_at(element))
        return Message("mot", txn=self.txn, number=done) if done <= self.plan.changes[element] else Message("eot", txn=self.txn)

    def decide(self):
        if self.decision or any(element not in self.answers for element in self.parts):
            return
        states = [self.answers[element] for element in self.parts]
        completes = "completed" in states or ("aborted" not in states and all(state == "prepared" for state in states))
        self.decision = "completed" if completes else "aborted"
        if not self.plan:
            self.settled = {element for element in self.parts if self.answers[element] == self.decision}

    def hear(self, element, message, good):
        """A response to one of its Configs."""
        if message.kind in ("sot", "mot") and good:
            self.done[element] += 1
        elif message.kind in ("sot", "mot", "eot"):
            self.answers[element] = "prepared" if good else "aborted"
        elif good:
            self.settled.add(element)
        else:
            self.stuck.add(element)


@dataclass
class Peer:
    """What a life keeps of an element."""

    met: bool = False
    claimed: bool = False
    answered: bool = False
    doubt: bool = False
    lost: bool = False
    owes: tuple = None
    waits: Message = None
    last: int = 0
    queries: int = 0

    def is_engaged(self):
        return self.owes is not None or (self.waits is not None and self.waits.kind == "plain")


class Refused(Exception):
    """A call that is refused, with the words for why."""


class Master:
    """One life of a control element. What it says is a list of messages, each with its element."""

    def __init__(self, epoch, elements):
        self.epoch, self.elements = epoch, elements
        self.at = {element: Peer() for element in elements}
        self.jobs, self.begun, self.deposed = [], 0, None

    # ---- sending
    def due(self, element):
        peer = self.at[element]
        if not peer.met or peer.lost or peer.waits or self.deposed:
            return None
        if peer.doubt or (peer.claimed and not peer.answered):
            return Message("ask")
        if not peer.claimed:
            return Message("claim", number=self.epoch)
        needs = filter(None, (job.need(element) for job in self.jobs))
        return next(needs, peer.owes and Message("floor", txn=peer.owes))

    def send(self, element, message):
        peer = self.at[element]
        count = 0 if message.kind == "claim" else (peer.queries if message.kind in QUERIES else peer.last) + 1
        if message.kind in QUERIES:
            peer.queries = count
        else:
            peer.last = max(peer.last, count)
        peer.waits = Message(message.kind, (self.epoch, count), message.txn, message.number, message.parts, message.scope)
        return [(element, peer.waits)]

    def finish(self):
        """What can be decided is decided, and what is due is sent."""
        for job in self.jobs:
            job.decide()
        return [each for element in self.elements if (message := self.due(element)) for each in self.send(element, message)]

    def again(self, element):
        return [(element, self.at[element].waits)] if self.at[element].waits else []

    # ---- hearing
    def hear(self, element, message):
        says = []
        peer = self.at[element]
        if message.kind == "setup":
            peer.met = True
            says = [(element, Message("accept")), *self.again(element)]
        elif peer.waits and message.stamp == peer.waits.stamp and (message.kind == "reply") == (peer.waits.kind not in QUERIES):
            waits, peer.waits = peer.waits, None
            if message.kind == "reply":
                self.heard_code(element, waits, message.number)
            else:
                self.heard_answer(element, waits, message)
        return says + self.finish()

    def heard_code(self, element, waits, code):
        peer = self.at[element]
        if waits.kind == "floor":
            peer.owes = None
        if waits.kind == "claim" and code == 0:
            peer.claimed = True
        if code == 0x0C or (waits.kind == "claim" and code):
            peer.doubt = True
        for job in self.jobs:
            if waits.txn == job.txn and waits.kind != "floor":
                job.hear(element, waits, code == 0)

    def heard_answer(self, element, waits, message):
        peer = self.at[element]
        if (waits.kind == "ask") != (message.kind == "holds") or waits.txn != message.txn:
            peer.lost = True
        elif message.number > self.epoch:
            self.deposed = max(self.deposed or 0, message.number)
            for each in self.at.values():
                each.waits = None
        elif message.number < self.epoch or (peer.doubt and not peer.claimed):
            peer.lost = True
        elif message.kind == "holds":
            peer.doubt, peer.answered = False, True
            for txn, parts, _ in message.held:
                if all(job.txn != txn for job in self.jobs):
                    self.jobs.append(Job(txn, parts))
        else:
            for job in self.jobs:
                if job.txn == message.txn:
                    job.answers[element] = message.state

    # ---- calls
    def refuse_deposed(self):
        if self.deposed:
            raise Refused(f"deposed {self.deposed}")

    def refuse_part(self, element, scope):
        peer = self.at.get(element)
        if not peer:
            raise Refused(f"stranger {element}")
        if not peer.answered or peer.doubt or peer.lost:
            raise Refused(f"notready {element}")
        for job in self.jobs:
            if element in job.parts and not job.is_settled() and meets(job.scope_at(element), scope):
                raise Refused(f"busy {element} {job.txn[0]}.{job.txn[1]}")
        if peer.is_engaged():
            raise Refused(f"busy {element} plain")

    def begin(self, plan):
        self.refuse_deposed()
        if len(plan.parts) > 64:
            raise Refused(f"toomany {len(plan.parts)}")
        for element in plan.parts:
            self.refuse_part(element, plan.scopes[element])
        self.begun += 1
        self.jobs.append(Job((self.epoch, self.begun), plan.parts, plan))
        return self.finish()

    def plain(self, element, scope):
        self.refuse_deposed()
        self.refuse_part(element, ())
        return self.send(element, Message("plain", scope=scope))

    def give_up(self, txn):
        self.refuse_deposed()
        own = [job for job in self.jobs if job.txn == txn and job.plan]
        if not own:
            raise Refused("unknown")
        if own[0].decision:
            raise Refused("decided")
        own[0].decision = "aborted"
        return self.finish()

    def forget(self):
        self.refuse_deposed()
        for element in self.elements:
            if not self.at[element].answered or self.at[element].lost:
                raise Refused(f"notready {element}")
        for element in self.elements:
            if self.at[element].is_engaged():
                raise Refused(f"busy {element} plain")
        for job in self.jobs:
            if not job.is_settled():
                raise Refused(f"unsettled {job.txn[0]}.{job.txn[1]}")
        for peer in self.at.values():
            peer.owes = self.epoch, self.begun + 1
        return self.finish()


class Plan:
    """A transaction of a script: its participants, how many changes there are for each, and what it may change there."""

    def __init__(self, table):
        self.name = table["name"]
        self.bodies = {}
        for change in table["change"]:
            self.bodies.setdefault(change["element"], []).append(change["body"])
        self.parts = tuple(sorted(self.bodies))
        self.changes = {element: len(bodies) for element, bodies in self.bodies.items()}
        self.touches = {element: scope_of(bodies) for element, bodies in self.bodies.items()}
        self.scopes = self.touches if table.get("scoped") else dict.fromkeys(self.parts, ())


def scope_of(bodies):
    """The instances that changes name, as they rise."""
    words = [line.split() for body in bodies for line in body.splitlines() if line.startswith("lfb ")]
    return tuple(sorted({(int(lfb, 16), int(instance, 16)) for _, lfb, instance in words}))


@dataclass(frozen=True)
class Sent:
    """A message that was sent: from the element to the controller, or the other way, in which step."""

    element: int
    controller: int
    is_up: bool
    message: Message
    step: int


@dataclass
class World:
    """A network from a script. `done` counts the steps that have happened, each delivery by itself."""

    script: dict
    effect: object = lambda element, message: ()
    sent: list = field(default_factory=list)
    refused: list = field(default_factory=list)
    done: int = 0

    def __post_init__(self):
        instances = OWN | {(each["class"], each["id"]) for each in self.script.get("instance", [])}
        self.elements = {each["id"]: Element(each["id"], each["ce"], instances, self.effect) for each in self.script["element"]}
        self.ids = {each["id"] % 256: each["id"] for each in self.script["controller"]}
        self.plans = {each["name"]: Plan(each) for each in self.script.get("transaction", [])}
        self.running = {}
        self.begun = {}  # the plan of each transaction that was begun
        self.changing = {}  # and of each plain change, by its element and its stamp
        self.steps = list(single_steps(self.script["steps"]))

    def say(self, controller, says):
        self.sent += [Sent(element, controller, False, message, self.done) for element, message in says]

    def happen(self, step):
        """Makes one step, which can be made."""
        self.done += 1
        place, word, *rest = step
        if word == "start":
            self.running[int(rest[0])] = Master(int(rest[1]) * 256 + int(rest[0]), list(self.elements))
        elif word == "stop":
            del self.running[int(rest[0])]
        elif word == "open":
            self.sent.append(Sent(int(rest[0]), int(rest[1]), True, Message("setup"), self.done))
        elif word == "moment":
            element = self.elements[int(rest[0])]
            beats = element.moment(int(rest[1]))
            self.sent += [Sent(element.number, ce % 256, True, Message("beat"), self.done) for ce in beats]
        elif word == "restart":
            self.elements[int(rest[0])].restart()
        elif word == "deliver":
            self.deliver(self.sent[int(rest[0]) - 1])
        else:
            self.call(place, word, int(rest[0]), rest[1:])

    def deliver(self, sent):
        if not sent.is_up:
            answers = self.elements[sent.element].hear(self.ids[sent.controller], sent.message)
            self.sent += [Sent(sent.element, sent.controller, True, answer, self.done) for answer in answers]
        elif sent.controller in self.running:
            self.say(sent.controller, self.running[sent.controller].hear(sent.element, sent.message))

    def call(self, place, word, controller, rest):
        master = self.running[controller]
        try:
            if word == "begin":
                plan = self.plans[rest[0]]
                self.say(controller, master.begin(plan))
                self.begun[master.jobs[-1].txn] = plan
            elif word == "plain":
                plan = self.plans[rest[0]]
                says = master.plain(plan.parts[0], plan.touches[plan.parts[0]])
                self.changing[plan.parts[0], says[0][1].stamp] = plan
                self.say(controller, says)
            elif word == "giveup":
                self.say(controller, master.give_up(tuple(int(part) for part in rest[0].split("."))))
            elif word == "forget":
                self.say(controller, master.forget())
            else:
                self.say(controller, master.again(int(rest[0])))
        except Refused as why:
            self.refused.append((place, str(why)))

    def report(self):
        """What `forces world` reports, but for the components."""
        lines = [f"step {place} {why}" for place, why in self.refused]
        for each in self.elements.values():
            lines.append(f"element {each.number} epoch {each.epoch} ce {each.ce:08X} sequence {each.sequence}")
            if each.floor != (0, 0):
                lines.append("floor %d.%d" % each.floor)
            lines += ["record %d.%d %s" % (*txn, record.state) for txn, record in each.records.items()]
        for number in self.ids:
            master = self.running.get(number)
            if not master:
                lines.append(f"controller {number} stopped")
                continue
            lines.append(f"controller {number} round {master.epoch // 256} epoch {master.epoch}" + (f" deposed {master.deposed}" if master.deposed else ""))
            for job in master.jobs:
                lines.append("txn %d.%d %s" % (*job.txn, job.decision if job.is_settled() else "unsettled"))
        return [*lines, f"sent {len(self.sent)}"]


def single_steps(texts):
    """The steps that the texts say, each as the place of its text and its words; a range of deliveries is several."""
    for place, text in enumerate(texts, 1):
        word, *rest = text.split(" ")
        if word == "deliver" and "-" in rest[0]:
            first, last = rest[0].split("-")
            for message in range(int(first), int(last) + 1):
                yield place, word, str(message)
        else:
            yield place, word, *rest


def read(path):
    """A script from its file."""
    import tomllib

    with open(path, "rb") as file:
        return tomllib.load(file)
