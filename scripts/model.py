"""A model of the machine that is written from its description alone, over lists, and slow: what it answers, and all that speaks
against an event in the state at hand, not only the first.

A word is four bytes; lanes are four truth values. What stands against an event is a list of causes in the order in which they
are asked; the first of them is the answer. `met` counts what came together on the way.
"""

import collections

OUT_OF_RANGE, NO_LANES, TAG_IN_USE, REPLIES_FULL, TARGETS_FULL = 1, 2, 3, 4, 5
NO_REGISTER, SET_PENDING, QUEUE_FULL, BANK_FULL, NOT_PRESENT, STACK_FULL = 7, 8, 9, 10, 11, 12
MOST_TARGETS = 4
NO_LANE, ALL_LANES = (False,) * 4, (True,) * 4
ZERO = bytes(4)

# The numbers of a machine, by the keys of its file.
Shape = collections.namedtuple("Shape", "ways block_words registers stack words sets banks bank_queue write_queue replies")


def merge(under, over, lanes):
    return bytes(o if lane else u for u, o, lane in zip(under, over, lanes))


def either(some, others):
    return tuple(a or b for a, b in zip(some, others))


def digits(lanes):
    return "".join("1" if lane else "0" for lane in lanes)


class Frame:
    """A block that lies in a way of its set."""

    def __init__(self, block, size):
        self.block, self.words, self.dirty = block, [ZERO] * size, [NO_LANE] * size

    def dirty_words(self):
        return [at for at, lanes in enumerate(self.dirty) if any(lanes)]


class Missing:
    """A word of a register."""

    def __init__(self):
        self.in_stack = self.processed = self.is_queued_twice = False
        self.code = NO_LANE
        # The tags that wait for it, each with the lanes and bytes that it holds.
        self.loads = []

    def text(self):
        tag, lanes, held = self.loads[0] if self.loads else (0, NO_LANE, ZERO)
        marks = (str(len(self.loads)) if self.loads else "-") + ("I" if self.in_stack else "-") + ("P" if self.processed else "-")
        return f"[{marks} {digits(self.code)} {tag:05} {digits(lanes)} {merge(ZERO, held, lanes).hex()}]"


class Register:
    """A missing block; without a frame it is obsolete."""

    def __init__(self, block, place, size):
        self.block, self.place, self.count = block, place, 0
        self.words = [Missing() for _ in range(size)]

    def text(self):
        return f"V{'O' if self.place is None else '-'} {self.block:07} {self.place or 0:04} {self.count:02}"


class Machine:
    def __init__(self, shape, image):
        self.shape, self.met = shape, collections.Counter()
        # The ways of each set, and which of them were taken, oldest first.
        self.sets = [[None] * shape.ways for _ in range(shape.sets)]
        self.taken = [[] for _ in range(shape.sets)]
        self.registers = [None] * shape.registers
        self.stack, self.queue, self.ready = [], [], []
        self.bank_words = list(image)
        self.commands = [[] for _ in range(shape.banks)]
        self.answers = [[] for _ in range(shape.banks)]

    # ---- what is there

    def way_of(self, block):
        frames = self.sets[block % self.shape.sets]
        return next((way for way, it in enumerate(frames) if it and it.block == block), None)

    def frame_of(self, block):
        way = self.way_of(block)
        return None if way is None else self.sets[block % self.shape.sets][way]

    def live(self, block):
        return next((it for it in self.registers if it and it.block == block and it.place is not None), None)

    def waiting_tags(self):
        return [load[0] for it in self.registers if it for word in it.words for load in word.loads]

    def way_for(self, block):
        """The way that a missing block gets; None if all are pending."""
        at = block % self.shape.sets
        free = [way for way, it in enumerate(self.sets[at]) if it is None]
        return next(iter([*free, *self.resident(at)]), None)

    def resident(self, at):
        """The ways of a set whose blocks are there whole, oldest first."""
        return [way for way in self.taken[at] if not self.live(self.sets[at][way].block)]

    def victim_for(self, block):
        way = self.way_for(block)
        return None if way is None else self.sets[block % self.shape.sets][way]

    def has_no_room(self, frame):
        return frame is not None and len(frame.dirty_words()) > self.shape.write_queue - len(self.queue)

    def bank_of(self, word):
        return word % self.shape.banks

    def banks_lack_room(self, words):
        asked = collections.Counter(map(self.bank_of, words))
        return any(count > self.shape.bank_queue - len(self.commands[bank]) for bank, count in asked.items())

    def words_of(self, block):
        return range(block * self.shape.block_words, (block + 1) * self.shape.block_words)

    # ---- what stands against an event

    def against_miss(self, block):
        if self.frame_of(block):
            return []
        lacks = [
            (NO_REGISTER, all(self.registers)),
            (SET_PENDING, self.way_for(block) is None),
            (QUEUE_FULL, self.has_no_room(self.victim_for(block))),
            (BANK_FULL, self.banks_lack_room(self.words_of(block))),
        ]
        return [cause for cause, holds in lacks if holds]

    def against_target(self, at):
        live = self.live(at // self.shape.block_words)
        word = live and live.words[at % self.shape.block_words]
        holds = word and not (word.processed or all(word.code) or word.in_stack) and len(word.loads) == MOST_TARGETS
        return [TARGETS_FULL] if holds else []

    def against(self, event):
        """All causes that hold, in the order in which they are asked."""
        name, *words = event
        if name == "evict":
            frame = self.frame_of(words[0])
            asked = [(OUT_OF_RANGE, words[0] >= self.shape.words // self.shape.block_words), (NOT_PRESENT, not frame)]
            return [cause for cause, holds in [*asked, (QUEUE_FULL, self.has_no_room(frame))] if holds]
        if name == "drain":
            return [BANK_FULL] if self.queue and self.banks_lack_room([self.queue[0][0]]) else []
        if name == "arrive":
            return [STACK_FULL] if self.answer_at(*words) and len(self.stack) == self.shape.stack else []
        if name not in ("load", "store", "prefetch"):
            return []
        at = words[1] if name == "load" else words[0]
        found = [OUT_OF_RANGE] if at >= self.shape.words else []
        if name == "load":
            tags = [*self.waiting_tags(), *(tag for tag, _ in self.ready)]
            found += [TAG_IN_USE] if words[0] in tags else []
            found += [REPLIES_FULL] if len(tags) == self.shape.replies else []
            found += self.against_target(at)
        elif name == "store":
            found += [] if any(words[1]) else [NO_LANES]
        return found + self.against_miss(at // self.shape.block_words)

    # ---- events

    def apply(self, event):
        """The text of the answer."""
        causes = self.against(event)
        self.met.update((event[0], causes[0], other) for other in causes[1:])
        self.met.update([(event[0], causes[0])] if causes else [])
        return f"refused {causes[0]}" if causes else getattr(self, event[0])(*event[1:])

    def load(self, tag, at):
        frame, live = self.fetched(at // self.shape.block_words)
        place = at % self.shape.block_words
        word = live and live.words[place]
        self.met["a load of a byte that is queued twice"] += bool(live and word.is_queued_twice)
        if not live or word.processed or all(word.code):
            self.met["a load of a word that is stored whole"] += bool(live and not word.processed)
            self.ready.append((tag, frame.words[place]))
        elif word.in_stack:
            self.met["a load of a word in the stack"] += 1
            arrived = next(it for slot, i, it in self.stack if self.registers[slot] is live and i == place)
            self.ready.append((tag, merge(arrived, frame.words[place], word.code)))
        else:
            self.met["a load behind another one"] += bool(word.loads)
            word.loads.append((tag, word.code, frame.words[place]))
        return "accepted"

    def store(self, at, lanes, word):
        frame, live = self.fetched(at // self.shape.block_words)
        place = at % self.shape.block_words
        frame.words[place] = merge(frame.words[place], word, lanes)
        frame.dirty[place] = either(frame.dirty[place], lanes)
        if live and not live.words[place].processed:
            live.words[place].code = either(live.words[place].code, lanes)
        return "accepted"

    def prefetch(self, at):
        self.fetched(at // self.shape.block_words)
        return "accepted"

    def evict(self, block):
        self.give_up(block)
        return "accepted"

    def fetched(self, block):
        """The frame of a block that is there, or is fetched, and its live register."""
        if not self.frame_of(block):
            self.fetch(block)
        return self.frame_of(block), self.live(block)

    def fetch(self, block):
        size, at, way = self.shape.block_words, block % self.shape.sets, self.way_for(block)
        victim = self.sets[at][way]
        if victim:
            self.met["an oldest way that isn't the lowest"] += any(it < way for it in self.resident(at))
            self.give_up(victim.block)
        frame = self.sets[at][way] = Frame(block, size)
        self.taken[at].append(way)
        slot = self.registers.index(None)
        self.registers[slot] = Register(block, at * self.shape.ways + way, size)
        for i, word in enumerate(self.words_of(block)):
            queued = [it for it in self.queue if it[0] == word]
            overlap = len(queued) > 1 and any(a and b for a, b in zip(queued[-2][1], queued[-1][1]))
            self.registers[slot].words[i].is_queued_twice = overlap
            for _, lanes, held in queued:
                frame.words[i] = merge(frame.words[i], held, lanes)
                self.registers[slot].words[i].code = either(self.registers[slot].words[i].code, lanes)
            self.commands[self.bank_of(word)].append(("read", word, slot, i))

    def give_up(self, block):
        at, way = block % self.shape.sets, self.way_of(block)
        frame = self.sets[at][way]
        for i in frame.dirty_words():
            self.queue.append((self.words_of(block)[i], frame.dirty[i], merge(ZERO, frame.words[i], frame.dirty[i])))
        self.met["a victim that just fits the queue"] += bool(frame.dirty_words()) and len(self.queue) == self.shape.write_queue
        live = self.live(block)
        self.sets[at][way] = None
        self.taken[at].remove(way)
        if live:
            live.place = None
            for word in live.words:
                word.code = NO_LANE

    def drain(self):
        if not self.queue:
            return "nothing"
        word, lanes, held = self.queue.pop(0)
        self.commands[self.bank_of(word)].append(("write", word, lanes, held))
        return "moved"

    def serve(self, bank):
        if bank >= self.shape.banks or not self.commands[bank]:
            return "nothing"
        kind, word, *rest = self.commands[bank].pop(0)
        if kind == "read":
            self.answers[bank].append((*rest, self.bank_words[word]))
        else:
            self.bank_words[word] = merge(self.bank_words[word], rest[1], rest[0])
        return "moved"

    def answer_at(self, bank, place):
        answers = self.answers[bank] if bank < self.shape.banks else []
        return answers[place] if place < len(answers) else None

    def arrive(self, bank, place):
        found = self.answer_at(bank, place)
        if not found:
            return "nothing"
        self.stack.append(self.answers[bank].pop(place))
        self.registers[found[0]].words[found[1]].in_stack = True
        return "moved"

    def process(self, place):
        if place >= len(self.stack):
            return "nothing"
        slot, i, arrived = self.stack.pop(place)
        register = self.registers[slot]
        word = register.words[i]
        self.ready += [(tag, merge(arrived, held, lanes)) for tag, lanes, held in word.loads]
        if register.place is not None:
            frame = self.frame_of(register.block)
            frame.words[i] = merge(arrived, frame.words[i], word.code)
        self.met["a word of a block that was given up"] += register.place is None and bool(word.loads)
        register.words[i] = Missing()
        register.words[i].processed = True
        register.count += 1
        if register.count == self.shape.block_words:
            self.registers[slot] = None
        return "moved"

    def take(self, place):
        if place >= len(self.ready):
            return "nothing"
        tag, word = self.ready.pop(place)
        return f"value {tag} {word.hex()}"

    # ---- what is asked of the machine

    def reg(self, slot):
        if slot >= self.shape.registers:
            return "none"
        it = self.registers[slot]
        words = it.words if it else [Missing()] * self.shape.block_words
        return " ".join([it.text() if it else "-- 0000000 0000 00", *(word.text() for word in words)])

    def bank(self, at):
        return self.bank_words[at].hex() if at < self.shape.words else "none"

    def settled(self):
        dirty = any(it.dirty_words() for frames in self.sets for it in frames if it)
        return "no" if any(self.registers) or dirty or self.queue or any(self.commands) else "yes"
