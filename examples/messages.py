"""Tells which messages the steps of a script send, as `forces show` tells their bytes.

Use: python3 examples/messages.py PROGRAM SCRIPT

`forces world` reports what a script comes to, and no messages. So the steps are made here by rules.py, the rules of docs/PROTOCOL.md; stores.py says
which changes an element refuses, and with which codes; and spelling.py spells the bytes of each message. After each step the front of the script up
to there is played by the program too, and the whole report has to be what those rules say. The bytes of all messages go to `forces show`, and what
is said here of each message is read from the text that it writes. For each step there is a line, and behind it one for each message that it sends.
It needs Python 3.11.
"""
import subprocess
import sys

import rules
import spelling
import stores

MASTERSHIP = f"{spelling.MASTERSHIP:08X} 00000001"
STATES = {number: state for state, number in spelling.STATES.items()}
NAMES = {"AssociationSetup": "setup", "AssociationSetupResponse": "setup response", "Heartbeat": "heartbeat"}
# in the flags of a Config: whether it is of a transaction, and its phase
TRANSACTION, PHASE = 0x00200000, 0x00180000


class Told:
    """A message by its lines in the text of `forces show`. `places` has for each path, and for what has none, the words of the LFB, of the
    operation, of the path, and of what stands there."""

    def __init__(self, lines):
        self.name, *ends = lines[0].split()
        ends = dict(word.split("=") for word in ends)
        self.epoch, self.count = int(ends["corr"][:8], 16), int(ends["corr"][8:], 16)
        self.flags = int(ends["flags"], 16)
        self.places, lfb, operation = [], "", ""
        for line in lines[1:]:
            word, _, rest = line.strip().partition(" ")
            if word == "lfb":
                lfb = rest
            elif word == "path":
                self.places.append([lfb, operation, rest, ""])
            elif word.isupper():
                operation = word
                if operation.startswith(("COMMIT", "TRCOMP")):
                    self.places.append([lfb, operation, "", ""])
            elif self.places:
                self.places[-1][3] = rest

    def value_at(self, path):
        """What stands at a path of the Mastership, and None where the message has no such path."""
        return next((value for lfb, _, at, value in self.places if lfb == MASTERSHIP and at.split(" ")[0] == path), None)

    def has(self, operation):
        return any(each == operation for _, each, _, _ in self.places)


def name(digits):
    """The transaction whose epoch and number these digits are."""
    return f"{int(digits[:8], 16)}.{int(digits[8:16], 16)}"


def held_in(digits):
    """The transactions of an array of records, each with its subscript in front and its participants behind."""
    while digits not in ("", "-"):
        yield name(digits[8:24])
        length = int(digits[36:40], 16)
        digits = digits[32 + 2 * length :]


def config_words(told):
    """What a Config asks, by its flags and by what it sets in the Mastership."""
    if not told.flags & TRANSACTION:
        if told.count == 0 and (epoch := told.value_at("1")):
            return f"claim {int(epoch, 16)}"
        return f"floor {name(floor)}" if (floor := told.value_at("6")) else "plain change"
    phase = ("SOT", "MOT", "TRCOMP" if told.has("TRCOMP") else "EOT", "ABT")[(told.flags & PHASE) >> 19]
    return f"{phase} {name(told.value_at('4') or told.value_at('5'))}"


def response_words(told):
    """The first code that is not 00. Where the subject of a change has 00 and another operation has not, the element refuses the change."""
    code = next((code for _, _, _, code in told.places if code != "00"), "00")
    return "refusal" if code != "00" and told.value_at("5") == "00" else f"response {code}"


def answer_words(told):
    if (held := told.value_at("7")) is not None:
        return "holds " + (" ".join(held_in(held)) or "nothing")
    record = told.value_at("3")
    state = STATES[int(record[16:24], 16)] if len(record) > 2 else "absent"
    return f"has {record_of(told)} {state}"


def record_of(told):
    """The transaction whose record is asked for, by the key in the path."""
    return next(name(path.split(" ")[-1]) for _, _, path, _ in told.places if " key " in path)


def words(told):
    """What a message says, in a few words."""
    if told.name == "Config":
        return config_words(told)
    if told.name == "ConfigResponse":
        return response_words(told)
    if told.name == "Query":
        return "ask" if told.value_at("7") is not None else f"record ask {record_of(told)}"
    return answer_words(told) if told.name == "QueryResponse" else NAMES[told.name]


def shown(program, data):
    """The messages that the program tells of these bytes."""
    done = subprocess.run([program, "show"], input=data, stdout=subprocess.PIPE, check=False)
    lines = done.stdout.decode().splitlines()
    if done.returncode != 0:
        sys.exit(f"the messages are refused: {lines[-1:]}")
    starts = [place for place, line in enumerate(lines) if not line.startswith(" ")]
    return [Told(lines[start:end]) for start, end in zip(starts, [*starts[1:], len(lines)])]


def played(program, text, steps):
    """The report on a script with these steps in the place of its own."""
    # all keys of the document itself stand in front of its first table
    keys, table, rest = text.partition("\n[[")
    begin = keys.index("steps = [")
    end = keys.index("\n]", begin) + 2
    texts = "".join(f'    "{" ".join(words)}",\n' for _, *words in steps)
    script = f"{keys[:begin]}steps = [\n{texts}]{keys[end:]}{table}{rest}"
    done = subprocess.run([program, "world"], input=script.encode(), stdout=subprocess.PIPE, check=False)
    lines = done.stdout.decode().splitlines()
    if done.returncode != 0:
        sys.exit(f"the script is refused: {lines}")
    return lines


def made(program, path):
    """The world that the script comes to, and each step with the number of messages that were sent behind it."""
    with open(path, encoding="utf-8") as file:
        text = file.read()
    script = rules.read(path)
    store = stores.Stores(script, text)
    world = store.world = rules.World(script, store.effect)
    # the place of a step here is that of its own, since each delivery stands by itself
    steps = [(place, *words) for place, (_, *words) in enumerate(world.steps, 1)]
    counts = []
    for place, step in enumerate(steps, 1):
        try:
            world.happen(step)
        except NotImplementedError as why:
            sys.exit(f"step {place}: {why}")
        report, said = played(program, text, steps[:place]), store.report()
        if said != report:
            sys.exit(f"step {place}: the program reports {sorted(set(report) - set(said))}, and the rules say {sorted(set(said) - set(report))}")
        counts.append(len(world.sent))
    return world, [(step[1:], count) for step, count in zip(steps, counts)]


def main():
    if len(sys.argv) != 3:
        sys.exit(__doc__)
    program, path = sys.argv[1:]
    world, steps = made(program, path)
    told = shown(program, b"".join(spelling.message(world, sent).encode() for sent in world.sent))
    before = 0
    for step, count in steps:
        print(*step)
        for number in range(before + 1, count + 1):
            sent = world.sent[number - 1]
            ends = [f"element {sent.element}", f"control element {sent.controller}"]
            source, target = ends if sent.is_up else reversed(ends)
            print(f"  {number} from {source} to {target}: {words(told[number - 1])}")
        before = count


if __name__ == "__main__":
    main()
