"""What a page has to show, worked out from the lines of `kroft show --text`; and traces at random with their shapes."""

import dataclasses
import re


# After how many events `show --text` has the whole machine again.
WHOLE_EVERY = 100


class BadScreens(Exception):
    """Lines of `show --text` that don't fit one another."""


@dataclasses.dataclass
class Step:
    """A step of `show --text`: texts by the names of their places, and the names of those that it changed."""

    event: str = ""
    answer: str = ""
    recorded: str = ""
    words: str = "the machine before the first event"
    texts: dict = dataclasses.field(default_factory=dict)
    changed: set = dataclasses.field(default_factory=set)


def whole_name(label, over):
    """A label's whole name: a word belongs to the register or frame above it, a load to the word above it."""
    depth = len(label) - len(label.lstrip())
    label = label.strip()
    if label == "load":
        over[4] = over.get(4, -1) + 1
        return f"{over[0]} {over[2]} load {over[4]}"
    over.pop(4, None)
    over[depth] = label
    return label if depth == 0 else f"{over[0]} {label}"


def owner_of(name):
    """The register or frame that a place belongs to, or the place itself."""
    found = re.match(r"(register|frame) \d+", name)
    return found[0] if found else name


def read_lines(lines):
    """The lines of a step's places: their texts, in order, and the names of those that are marked."""
    over, texts, changed = {}, {}, set()
    for line in lines:
        name = whole_name(line[2:20].rstrip(), over)
        texts[name] = "" if line[21:] == "-" else line[21:]
        if line[0] == "*":
            changed.add(name)
    return texts, changed


def followed(before, texts, changed, is_whole):
    """The texts behind a step: those before it, with what it changed. A register or frame has all of its lines, and if all of the
    machine has, nothing else may stand there."""
    # (of a register that is free only the step that freed it has a line)
    before = {name: text for name, text in before.items() if text != "free"}
    owners = {owner_of(name) for name in texts}
    kept = {name: text for name, text in before.items() if owner_of(name) not in owners}
    after = {**kept, **{name: text for name, text in texts.items() if text or name.startswith("memory ")}}
    is_memory = lambda name: name.startswith("memory ")
    if is_whole and {it for it in kept if not is_memory(it)}:
        raise BadScreens(f"lines that a whole step lacks: {sorted(kept)}")
    for name in {*before, *after} - changed:
        if before.get(name, "") != after.get(name, "") and not is_memory(name):
            raise BadScreens(f"{name} changed without a mark")
    return after


def read_screens(text):
    """The steps of `show --text`: each is followed from the one before it."""
    steps = []
    parts = re.split(r"^(?=step \d+: )", text, flags=re.MULTILINE)[1:]
    for number, part in enumerate(parts):
        head, *lines = [line for line in part.splitlines() if line]
        named = re.fullmatch(rf"step {number}: (.*?)(?: -> (.*))?", head)
        if not named:
            raise BadScreens(f"step {number} begins with {head}")
        step = Step(named[1], named[2], "", None) if number else Step()
        if number and lines[0].startswith("  recorded: "):
            step.recorded = lines.pop(0)[len("  recorded: ") :]
        if number:
            step.words = lines.pop(0)[2:]
        texts, step.changed = read_lines(lines)
        is_whole = number % WHOLE_EVERY == 0 or number == len(parts) - 1
        try:
            step.texts = followed(steps[-1].texts, texts, step.changed, is_whole) if steps else {it: of for it, of in texts.items() if of}
        except BadScreens as fault:
            raise BadScreens(f"step {number}: {fault}") from None
        steps.append(step)
    return steps


def masked(mask, word, other="__"):
    return "".join(word[2 * k : 2 * k + 2] if mask[k] == "1" else other for k in range(4))


def bytes_there(text):
    """Which bytes of a word stand in its frame, by what its register says of it."""
    found = re.fullmatch(r"(?:missing|in stack)(?:, code (\d{4}))?", text)
    return (found[1] or "0000") if found else "1111"


class Expected:
    """What a page has to show of the steps of a run on a machine of this shape."""

    def __init__(self, steps, shape):
        self.steps = steps
        self.shape = shape

    def block_of(self, step, register):
        for at in (step, self.steps[max(0, self.steps.index(step) - 1)]):
            found = re.search(r"block (\d+)", at.texts.get(f"register {register}", ""))
            if found:
                return int(found[1])
        return 0

    def entry(self, step, text):
        register, word, value = re.fullmatch(r"register (\d+), word (\d+): (\w{8})", text).groups()
        return f"word {4 * self.block_of(step, register) + int(word)}, r{register}: {value}"

    def register(self, text):
        if text in ("free", ""):
            return text
        state, block, _, frame, came = re.fullmatch(
            r"(valid|obsolete), block (\d+)(, frame (\d+))?, words came: (\d+)", text).groups()
        who = f"block {block} in f{frame}" if state == "valid" else f"obsolete: block {block}"
        return f"{who}, {came} of 4 came"

    def load(self, text, is_whole):
        tag, owed, _, mask, held = re.fullmatch(
            r"tag (\d+) is owed (\w{8})(, holds (\d{4}) (\w{8}))?", text).groups()
        return f"t{tag}: {masked(mask or '0000', held or owed, '..')}" + (f" will be {owed}" if is_whole else "")

    @staticmethod
    def waited_for(step, name):
        """The word of a register that a frame's word waits for, or None."""
        frame, word = re.fullmatch(r"frame (\d+) word (\d+)", name).groups()
        found = [it for it, text in step.texts.items() if re.fullmatch(rf"valid, block \d+, frame {frame}, .*", text)]
        return f"{found[0]} word {word}" if found else None

    def frame_word(self, step, name, text):
        there = bytes_there(step.texts.get(self.waited_for(step, name), ""))
        return masked(there, text[:8], "..") + text[8:]

    def has_come(self, number, name):
        """Whether the step brought a frame's word, or the last of its bytes."""
        before, now = self.steps[max(0, number - 1)], self.steps[number]
        word = self.waited_for(before, name)
        return bytes_there(before.texts.get(word, "")) != "1111" and bytes_there(now.texts.get(word, "")) == "1111"

    def command(self, bank, text):
        kind, place, rest = re.fullmatch(r"(read|write) place (\d+): (.*)", text).groups()
        at = int(place) * self.shape["banks"] + bank
        if kind == "read":
            return f"read word {at}, r{re.fullmatch(r'register (.*), word .*', rest)[1]}"
        return f"write word {at}: {masked(*rest.split())}"

    def shown(self, step, name, text, is_whole):
        """What stands at a place, as the page has it."""
        if text == "":
            return "-"
        numbers = [int(it) for it in re.findall(r"\d+", name)]
        if name.startswith("register"):
            if "load" in name:
                return self.load(text, is_whole)
            if "word" in name:
                return f"{4 * self.block_of(step, numbers[0]) + numbers[1]} {text}"
            return self.register(text)
        if name.startswith("frame"):
            return self.frame_word(step, name, text) if "word" in name else text.replace(", pending", " .. italic")
        if name.startswith("input stack") or "answer" in name:
            return self.entry(step, text)
        if name.startswith("write queue"):
            at, _, mask, word = re.fullmatch(r"word (\d+), block (\d+): (\d{4}) (\w{8})", text).groups()
            return f"word {at}: {masked(mask, word)}"
        if "command" in name:
            return self.command(numbers[0], text)
        if name.startswith("ready"):
            return f"t{text[len('tag '):]}"
        return text

    def entries(self, number, with_memory):
        """All entries of a step: their texts, and how they are marked. With memory they have what waiting loads will get, too."""
        step = self.steps[number]
        names = {f"register {k}": "free" for k in range(self.shape["regs"])}
        if with_memory:
            names.update({f"memory {k}": "00000000" for k in range(min(256, self.shape["words"]))})
        names.update({name: "" for name in step.changed})
        names.update(step.texts)
        read = self.read(step)
        found = {}
        for name, text in names.items():
            is_changed = name in step.changed or (name.startswith("frame ") and "word" in name and self.has_come(number, name))
            mark = "read" if name in read else "changed" if is_changed else ""
            if name.startswith("memory ") and name in step.changed:
                at = int(name.split()[1])
                found[f"bank {at % self.shape['banks']} stored"] = [f"memory, word {at}: {text}", "changed"]
            if with_memory or not name.startswith("memory "):
                found[name] = [self.shown(step, name, text, with_memory), mark]
        return found

    def read(self, step):
        """The names of what a hit reads."""
        if not (step.event.startswith("load") and step.answer == "accepted" and step.words.startswith("a hit")):
            return set()
        at = int(step.event.split()[2])
        block, word = divmod(at, 4)
        frame = next(name for name, text in step.texts.items() if re.fullmatch(rf"frame \d+", name) and re.match(rf"block {block}\b", text))
        found = {f"{frame} word {word}"}
        for name, text in step.texts.items():
            register = re.fullmatch(r"register (\d+)", name)
            if register and text.startswith(f"valid, block {block},") and step.texts[f"{name} word {word}"].startswith("in stack"):
                found |= {it for it, of in step.texts.items() if it.startswith("input stack") and of.startswith(f"{name}, word {word}:")}
        return found

    def request(self, event):
        """The box of the event: its address, cut."""
        kind, *fields = event.split()
        sets, banks = self.shape["sets"], self.shape["banks"]
        if kind in ("load", "store", "prefetch"):
            at = int(fields[1 if kind == "load" else 0])
            named = {"load": f" t{fields[0]}", "prefetch": "", "store": f" {masked(*fields[1:])}" if kind == "store" else ""}[kind]
            return f"{kind}{named} word {at} = block {at // 4} set {at // 4 % sets} word +{at % 4} bank {at % banks}"
        if kind == "evict":
            return f"evict block {fields[0]} set {int(fields[0]) % sets}"
        named = {"serve": "serve bank {}", "arrive": "arrive from bank {}, answer {}", "process": "process stack {}",
                 "take": "take value {}"}
        return named.get(kind, kind).format(*fields)

    # ---- the line of time

    def wait(self, step, tag):
        """What an accepted load waits for behind a step."""
        for name, text in step.texts.items():
            place = re.fullmatch(r"register (\d+) word (\d+) load \d+", name)
            if not place or not text.startswith(f"tag {tag} "):
                continue
            owner = f"register {place[1]}, word {place[2]}"
            if step.texts[f"register {place[1]} word {place[2]}"].startswith("in stack"):
                return "stack"
            return "answer" if any("answer" in it and of.startswith(owner + ":") for it, of in step.texts.items()) else "command"
        return "ready"

    def lives(self):
        """Each load: tag, address, the steps in which it was first asked, accepted and answered, and what it waited for."""
        asked, owed, loads = {}, {}, []
        for number, step in enumerate(self.steps):
            kind, *fields = step.event.split() or [""]
            if kind == "load":
                tag, at = map(int, fields)
                load = asked.pop((tag, at), None)
                if load is None:
                    load = {"tag": tag, "at": at, "asked": number, "accepted": None, "taken": None, "waits": {}}
                    loads.append(load)
                for before in range(max(load["waits"], default=number), number):
                    load["waits"][before] = load["waits"][max(it for it in load["waits"] if it <= before)]
                if step.answer == "accepted":
                    asked = {key: it for key, it in asked.items() if key[0] != tag}
                    load["accepted"] = number
                    owed[tag] = load
                else:
                    load["waits"][number] = step.answer
                    asked[tag, at] = load
            value = re.match(r"value (\d+) ", step.answer)
            if value:
                owed.pop(int(value[1]))["taken"] = number
            for tag, load in owed.items():
                load["waits"][number] = self.wait(step, tag)
        return loads


# ---- traces at random

def random_shape(draw):
    """A lawful shape, mostly small."""
    banks = draw.choice([1, 2, 3, 4, 4, 5, 8, 16])
    return {
        "words": 4 * draw.choice([4, 8, 16, 16, 16, 40, 100]), "sets": draw.choice([1, 2, 3, 4, 4, 8]), "ways": draw.choice([1, 2, 2]),
        "regs": draw.choice([1, 2, 4, 4, 8]), "banks": banks, "bank_queue": max(-(-4 // banks), draw.choice([2, 4, 8, 8, 16])),
        "write_queue": draw.choice([4, 8, 8, 16]), "replies": draw.choice([1, 2, 8, 8, 16]),
    }


DEFAULTS = {"words": 64, "sets": 4, "ways": 2, "regs": 4, "banks": 4, "bank_queue": 8, "write_queue": 8, "replies": 8}


def read_shape(text):
    """The numbers of a shape file that has nothing but comments and whole numbers."""
    return {key: int(number) for key, number in re.findall(r"^(\w+) = (\d+)$", text, re.MULTILINE)}


def random_line(draw, shape, tag):
    blocks = shape["words"] // 4
    # (few blocks, so that requests meet)
    at = 4 * min(blocks - 1, draw.choice([0, 0, 1, 1, 2, 3, 4, 5, draw.randrange(blocks)])) + draw.randrange(4)
    mask = "".join(draw.choice("01") for _ in range(4))
    kind = draw.choices(["load", "store", "prefetch", "evict", "drain", "serve", "arrive", "process", "take"],
                        [16, 9, 2, 4, 5, 22, 16, 16, 10])[0]
    place = draw.choice([0, 0, 0, 1, 2])
    return {
        "load": f"load {draw.choice([tag, tag, tag, draw.randrange(4)])} {at}", "store": f"store {at} {mask} {draw.randrange(1 << 32):08x}",
        "prefetch": f"prefetch {at}", "evict": f"evict {at // 4}", "drain": "drain", "serve": f"serve {draw.randrange(shape['banks'])}",
        "arrive": f"arrive {draw.randrange(shape['banks'])} {place}", "process": f"process {place}", "take": f"take {place}",
    }[kind]


def random_trace(draw, shape, events):
    return "".join(random_line(draw, shape, tag) + "\n" for tag in range(events))
