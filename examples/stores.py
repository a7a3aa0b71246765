"""What the elements of a script hold in their blocks, by docs/FORMATS.md: the code that each operation of a change gets, and what is configured.

    stores = stores.Stores(script, text)                # the script as it is read and as it stands in its file
    world = stores.world = rules.World(script, stores.effect)
"""
import forces
import spelling
from forces import Array, Code, NoValue, Struct

WRITABLE = 2
# the built-in classes; what is live is never set, so its type does not matter
BUILT_IN = """
[[class]]
id = 1
name = "FE Object"
component = [
    { id = 1, name = "LFBTopology", type = "u32", access = 1 }, { id = 2, name = "LFBSelectors", type = "u32", access = 1 },
    { id = 3, name = "FEName", type = "string", length = 40 }, { id = 4, name = "FEID", type = "u32", access = 1 },
    { id = 5, name = "FEVendor", type = "u32", access = 1 }, { id = 6, name = "FEModel", type = "u32", access = 1 },
    { id = 7, name = "FEState", type = "u8" }, { id = 8, name = "FENeighbors", type = "u32", access = 1 },
]

[[class]]
id = 2
name = "FE Protocol"
event_base = 61
component = [
    { id = 1, name = "CurrentRunningVersion", type = "u32", access = 1 }, { id = 2, name = "FEID", type = "u32", access = 1 },
    { id = 3, name = "MulticastFEIDs", type = "u32", access = 1 }, { id = 4, name = "CEHBPolicy", type = "u8", max = 1 },
    { id = 5, name = "CEHDI", type = "u32" }, { id = 6, name = "FEHBPolicy", type = "u8", max = 1 }, { id = 7, name = "FEHI", type = "u32" },
    { id = 8, name = "CEID", type = "u32", access = 1 }, { id = 13, name = "LastCEID", type = "u32", access = 1 },
    { id = 9, name = "BackupCEs", type = "array", entries = 16, entry = { type = "u32" } },
]

[[class]]
id = 0x1F001
name = "Mastership"
component = [
    { id = 1, name = "Epoch", type = "u32", access = 1 }, { id = 2, name = "Master", type = "u32", access = 1 },
    { id = 3, name = "Transactions", type = "u32", access = 1 }, { id = 4, name = "Opening", type = "u32", access = 1 },
    { id = 5, name = "Subject", type = "u32", access = 1 }, { id = 7, name = "Held", type = "u32", access = 1 },
]
"""
CONTROL = [(1, 1), (2, 1), (spelling.MASTERSHIP, 1)]
SETTINGS = {4: "CEHBPolicy", 5: "CEHDI", 6: "FEHBPolicy", 7: "FEHI"}
# what is not as the opening value of its type at first
OPENINGS = {(1, 1, 7): 2, (2, 1, 5): 30_000, (2, 1, 7): 500}


def opening(kind):
    """The value that a type has at first."""
    if isinstance(kind, Struct):
        return {ident: opening(part) for ident, part in kind.fields.items()}
    if isinstance(kind, Array):
        return {}
    if isinstance(kind, forces.Bool):
        return False
    if isinstance(kind, forces.Number):
        return min(max(0, kind.least), kind.greatest)
    if isinstance(kind, forces.Text):
        return ""
    return bytes(kind.length if isinstance(kind, forces.Bytes) else 0)


def entry_at(kind, value, number, data):
    """The subscript of the entry with this key."""
    if not isinstance(kind, Array) or number not in kind.keys:
        raise NoValue(Code.INVALID_PATH)
    fields = {ident: kind.entry.fields[ident] for ident in kind.keys[number]}
    if len(fields) == 1:
        (ident, field), = fields.items()
        wanted = {ident: field.read(data)}
    else:
        wanted = Struct(fields).read(data)
    for subscript, entry in value.items():
        if all(entry[ident] == part for ident, part in wanted.items()):
            return subscript
    raise NoValue(Code.NOT_FOUND)


def step_into(kind, value, step):
    """The ID of the field, or the subscript of the entry, to which a step leads."""
    if isinstance(step, tuple):
        return entry_at(kind, value, *step)
    if not isinstance(kind, (Struct, Array)):
        raise NoValue(Code.INVALID_PATH)
    if kind.part(step) is None:
        raise NoValue(Code.COMPONENT_DOES_NOT_EXIST)
    return step


def kept_in(kind, value):
    """The value of an array or a struct, if it may be that."""
    if isinstance(kind, Array):
        if len(value) > kind.entries:
            raise NoValue(Code.INVALID_ARRAY_CREATION)
        for key in kind.keys:
            if len({kind.key_value(key, entry) for entry in value.values()}) < len(value):
                raise NoValue(Code.EXISTS)
    return value


def put(kind, value, steps, operation, may_go):
    """The value behind an operation at the end of the steps; None is none. `may_go` tells whether it may be deleted where it stands."""
    if steps:
        if value is None:
            raise NoValue(Code.NOT_FOUND)
        ident = step_into(kind, value, steps[0])
        new = put(kind.part(ident), value.get(ident), steps[1:], operation, isinstance(kind, Array))
        others = {other: part for other, part in value.items() if other != ident}
        return kept_in(kind, others if new is None else {**others, ident: new})
    name, leaf = operation
    if name == "SET" and leaf.full is not None:
        return kind.read(leaf.full)
    if value is None:
        raise NoValue(Code.NOT_FOUND)
    if name == "SET":
        parts = kind.read_parts(leaf.sparse)
        return kept_in(kind, {**value, **parts})
    if not may_go:
        raise NoValue(Code.INVALID_PARAMETERS)
    return None


def operations(selects):
    """The operations of a change: where each one is, its name, its steps, and its leaf."""

    def leaves(path, steps):
        steps = [*steps, *path.ids, *([path.key] if path.key else [])]
        if not path.paths:
            yield steps, path
        for inner in path.paths:
            yield from leaves(inner, steps)

    for select in selects:
        for each in select.operations:
            for path in each.paths:
                for steps, leaf in leaves(path, []):
                    yield (select.lfb_class, select.instance), each.name, steps, leaf


class Stores:
    """What each element holds: what is settled, and the operations of what a transaction has changed there."""

    def __init__(self, script, text):
        library = forces.Library(text)
        self.classes = {**forces.Library(BUILT_IN).classes, **library.classes}
        self.instances = sorted([*library.instances, *CONTROL])
        self.opened = {
            (*instance, ident): OPENINGS.get((*instance, ident), None if each.optional else opening(each.type))
            for instance in self.instances
            for ident, each in sorted(self.classes[instance[0]].components.items())
        }
        self.settled = {each["id"]: dict(self.opened) for each in script["element"]}
        self.accepted = {}
        self.world = None

    # ---- operations
    def component_of(self, instance, steps):
        """The component at which an operation is, if one may be set there."""
        if instance[0] not in self.classes:
            raise NoValue(Code.LFB_UNKNOWN)
        if instance not in self.instances:
            raise NoValue(Code.LFB_INSTANCE_ID_NOT_FOUND)
        lfb_class = self.classes[instance[0]]
        if not steps or isinstance(steps[0], tuple):
            raise NoValue(Code.INVALID_PATH)
        if lfb_class.event_base and steps[0] == lfb_class.event_base:
            raise NoValue(Code.EVENT_ERROR)
        if steps[0] not in lfb_class.components:
            raise NoValue(Code.COMPONENT_DOES_NOT_EXIST)
        component = lfb_class.components[steps[0]]
        if not component.access & WRITABLE:
            raise NoValue(Code.READ_ONLY)
        return component

    def operate(self, held, instance, name, steps, leaf):
        """Does one operation on what is held. NoValue with its code where it is refused."""
        if name == "SET-PROP":
            raise NoValue(Code.NOT_SUPPORTED)
        component = self.component_of(instance, steps)
        place = (*instance, steps[0])
        held[place] = put(component.type, held[place], steps[1:], (name, leaf), component.optional)

    def all_or_none(self, held, several):
        """The codes of several operations where one is refused, so that none is done, and what is held then."""
        new = dict(held)
        for at, each in enumerate(several):
            try:
                self.operate(new, *each)
            except NoValue as refused:
                return [refused.code if place == at else Code.UNSPECIFIED_ERROR for place in range(len(several))], held
        return [], new

    # ---- what the rules leave open
    def effect(self, element, message):
        """The codes of the operations in a message that the element takes, where they are not done."""
        number, codes = element.number, []
        if message.kind == "plain":
            several = list(operations(spelling.body_of(self.world.changing[number, message.stamp], number, 1)))
            if all(name == "SET-PROP" for _, name, _, _ in several):
                raise NotImplementedError("a change registers events, and those are not told")
            codes, self.settled[number] = self.all_or_none(self.settled[number], several)
        elif message.kind == "mot":
            several = list(operations(spelling.body_of(self.world.begun[message.txn], number, message.number)))
            codes, _ = self.all_or_none(self.working(element), several)
            if not codes:
                self.accepted.setdefault((number, message.txn), []).extend(several)
        elif message.kind == "trcomp":
            self.settled[number] = self.folded(self.settled[number], number, message.txn)
        self.set_heartbeats(element)
        return codes

    def set_heartbeats(self, element):
        for component, name in SETTINGS.items():
            element.settings[name] = self.settled[element.number][2, 1, component]

    def folded(self, held, number, txn):
        held = dict(held)
        for each in self.accepted.get((number, txn), []):
            try:
                self.operate(held, *each)
            except NoValue:
                pass
        return held

    def working(self, element):
        held = self.settled[element.number]
        for txn, record in element.records.items():
            if record.is_held():
                held = self.folded(held, element.number, txn)
        return held

    # ---- what is told of them
    def lines(self, number):
        """The lines of the components that are not as they opened."""
        for (lfb_class, instance, ident), value in sorted(self.settled[number].items(), key=lambda each: each[0]):
            if value != self.opened[lfb_class, instance, ident]:
                kind = self.classes[lfb_class].components[ident].type
                told = "absent" if value is None else forces.digits(kind.write(value))
                yield f"config {lfb_class:08X} {instance:08X} {ident} {told}"

    def report(self):
        """What `forces world` reports of the world."""
        lines, number = [], None
        for line in self.world.report():
            if number is not None and not line.startswith(("floor", "record")):
                lines += self.lines(number)
                number = None
            lines.append(line)
            if line.startswith("element"):
                number = int(line.split()[1])
        return lines
