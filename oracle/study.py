#!/usr/bin/env python3
"""An independent computation of replay scripts, from the rules alone.

    python3 oracle/study.py FILE

prints what a program that replays the script must print. Every study is computed in two ways
that share only the models and the register of variants: `Account` keeps a day run alone for
each variant, and for each two of them what parts them; `Copies` keeps for each place its
copies, each with the set of its variants, and no lone day at all. Every answer is computed
by both, and after every call both are compared whole. Where a journal is read, and at the end,
each day is also run anew from its starting list under its orders.
"""
import copy
import sys

import collection_day
import phold_day

CAPACITY, MOST_END, MOST_VARIANTS, MOST_ENTRIES, MOST_COPIES = 512, 1000000, 16, 2048, 128


class Refused(Exception):
    def __init__(self, number, layer="study", position=0):
        self.words = f"refused {number} {layer} {position}"


def key(m):
    """time, receiver, sender, number"""
    return m[:4]


class Register:
    """Which variants there are, and the refusals that go by that alone."""

    def __init__(self, places, day):
        # how many places the model has, and a day of it for an end and a starting list
        self.places, self.day = places, day
        self.loaded, self.made, self.live, self.undecided = False, 0, set(), set()

    def need_loaded(self):
        if not self.loaded:
            raise Refused(2)

    def need_live(self, *variants):
        self.need_loaded()
        if not self.live.issuperset(variants):
            raise Refused(8)

    def need_place(self, place):
        if place >= self.places:
            raise Refused(11)

    def need_permit(self, variant):
        self.need_loaded()
        if variant not in self.undecided:
            raise Refused(10)

    def may_load(self, starts, end):
        if self.loaded:
            raise Refused(3)
        if end > MOST_END:
            raise Refused(4)
        for position, (time, receiver, kind, data) in enumerate(starts):
            if receiver >= self.places:
                raise Refused(5, position=position)
            if time > end:
                raise Refused(6, position=position)
            if position >= CAPACITY:
                raise Refused(7, "calendar", position)

    def may_branch(self, parent):
        self.need_live(parent)
        if parent in self.undecided:
            raise Refused(9)
        if self.made >= MOST_VARIANTS:
            raise Refused(12)

    def may_retire(self, variant):
        self.need_live(variant)
        if variant in self.undecided:
            raise Refused(9)
        if len(self.live) == 1:
            raise Refused(13)

    def begun(self):
        self.loaded, self.made, self.live = True, 1, {0}

    def child(self):
        number = self.made
        self.made += 1
        self.live.add(number)
        self.undecided.add(number)
        return number

    def waive(self, variant):
        self.need_permit(variant)
        self.undecided.discard(variant)


class Account(Register):
    """A day run alone for each live variant. For each two of them: the places that are reached,
    the keys of waiting messages that are marked, and the keys of entries that are both's."""

    def __init__(self, places, day):
        Register.__init__(self, places, day)
        self.days, self.orders, self.reached, self.marked, self.joint, self.ran = {}, {}, {}, {}, {}, 0

    def pairs(self, variant):
        return [frozenset((variant, other)) for other in sorted(self.live) if other != variant]

    def shared(self, v, w, place):
        return v == w or place not in self.reached[frozenset((v, w))]

    def unmarked(self, v, w, k):
        return k not in self.marked[frozenset((v, w))]

    def count_classes(self, variants, same):
        """One for each of the variants with no smaller one in its class."""
        return sum(not any(same(v, w) for w in variants if w < v) for v in variants)

    def load(self, starts, end):
        self.may_load(starts, end)
        self.begun()
        self.days, self.orders, self.starting = {0: self.day(end, starts)}, {0: []}, (end, starts)
        return 0

    def branch(self, parent):
        self.may_branch(parent)
        others = self.live - {parent}
        child = self.child()
        self.days[child] = copy.deepcopy(self.days[parent])
        self.orders[child] = list(self.orders[parent])
        for table in (self.reached, self.marked, self.joint):
            for other in others:
                table[frozenset((child, other))] = set(table[frozenset((parent, other))])
            table[frozenset((parent, child))] = set()
        self.joint[frozenset((parent, child))] = set(map(key, self.days[parent].journal))
        return child

    def decide(self, variant, place, order):
        self.need_permit(variant)
        self.need_place(place)
        after = {pair: self.reached[pair] | {place} if variant in pair else self.reached[pair] for pair in self.reached}
        if self.copies(after) > MOST_COPIES:
            raise Refused(15)
        self.undecided.discard(variant)
        self.reached = after
        self.days[variant].places[place].order = order
        self.orders[variant].append((len(self.days[variant].journal), place, order))

    def alone(self, variant):
        """The day run anew from its starting list, under the orders of the variant."""
        day = self.day(*self.starting)
        events = len(self.days[variant].journal)
        for n in range(events + 1):
            for position, place, order in self.orders[variant]:
                if position == n:
                    day.places[place].order = order
            if n < events:
                day.event()
        return day

    def copies(self, reached=None):
        reached = self.reached if reached is None else reached
        live = sorted(self.live)
        return sum(self.count_classes(live, lambda v, w: place not in reached[frozenset((v, w))]) for place in range(self.places))

    def held(self):
        waiting = {v: [key(m) for m in day.waiting] for v, day in self.days.items()}
        return sum(not any(self.unmarked(v, w, k) for w in waiting if w < v) for v in waiting for k in waiting[v])

    def entries(self):
        left = 0
        for v, day in self.days.items():
            own = set(map(key, day.journal))
            for w in self.days:
                if w < v:
                    own -= self.joint[frozenset((v, w))]
            left += len(own)
        return left

    def step(self):
        self.need_loaded()
        waiting = [key(m) for day in self.days.values() for m in day.waiting]
        if not waiting:
            return 0
        first = min(waiting)
        receiver = first[1]
        runners = [v for v in sorted(self.live) if any(key(m) == first for m in self.days[v].waiting)]
        reached = dict(self.reached)
        for pair in reached:
            if not pair.isdisjoint(runners) and first in self.marked[pair]:
                reached[pair] = reached[pair] | {receiver}
        taken = self.count_classes(runners, lambda v, w: self.unmarked(v, w, first))
        groups = self.count_classes(runners, lambda v, w: receiver not in reached[frozenset((v, w))])
        if self.held() - taken + 2 * groups > CAPACITY:
            raise Refused(7)
        if self.entries() + taken > MOST_ENTRIES:
            raise Refused(14)
        if self.copies(reached) > MOST_COPIES:
            raise Refused(15)
        sent = {}
        for v in runners:
            before = {key(m) for m in self.days[v].waiting}
            self.days[v].event()
            sent[v] = {key(m) for m in self.days[v].waiting} - before
        for pair in reached:
            ran = pair.intersection(runners)
            if len(ran) == 2 and first not in self.marked[pair]:
                self.joint[pair].add(first)
            for v in ran:
                if receiver in reached[pair]:
                    self.marked[pair] |= sent[v]
            self.marked[pair].discard(first)
        self.reached = reached
        self.ran += groups
        return groups

    def retire(self, variant):
        self.may_retire(variant)
        self.live.discard(variant)
        del self.days[variant]
        for table in (self.reached, self.marked, self.joint):
            for pair in [pair for pair in table if variant in pair]:
                del table[pair]

    def journal_of(self, variant):
        return list(self.days[variant].journal)

    def place_of(self, variant, place):
        p = self.days[variant].places[place]
        return list(p.words), p.order, p.sent

    def waiting_of(self, variant):
        return sorted(self.days[variant].waiting)

    def shares_of(self, v, w, place):
        return self.shared(v, w, place)

    def group_of(self, variant, place):
        return sum(self.shared(variant, other, place) for other in self.live)

    def counts(self):
        return self.ran, self.copies(), self.entries()


class Copy:
    """A place as it stands for a set of variants."""

    def __init__(self, variants, words, order, sent):
        self.variants, self.words, self.order, self.sent = set(variants), list(words), order, sent


class Copies(Register):
    """For each place its copies; each message and each entry once, with the set that has it."""

    def __init__(self, places, day):
        Register.__init__(self, places, day)
        self.cells, self.held, self.entries, self.ran, self.end, self.rules = [], [], [], 0, 0, None

    def load(self, starts, end):
        self.may_load(starts, end)
        self.begun()
        self.rules, self.end = self.day(end, []), end
        self.cells = [[Copy({0}, p.words, 0, 0)] for p in self.rules.places]
        self.held = [((time, receiver, 255, i, kind, data), {0}) for i, (time, receiver, kind, data) in enumerate(starts)]
        return 0

    def sets(self):
        return [c.variants for cells in self.cells for c in cells] + [s for _, s in self.held] + [s for _, s in self.entries]

    def branch(self, parent):
        self.may_branch(parent)
        child = self.child()
        for variants in self.sets():
            if parent in variants:
                variants.add(child)
        return child

    def retire(self, variant):
        self.may_retire(variant)
        self.live.discard(variant)
        for variants in self.sets():
            variants.discard(variant)
        self.cells = [[c for c in cells if c.variants] for cells in self.cells]
        self.held = [(m, s) for m, s in self.held if s]
        self.entries = [(m, s) for m, s in self.entries if s]

    def count_copies(self):
        return sum(map(len, self.cells))

    def parted(self, place, variants):
        """The copy of that place for these variants alone, who have one copy until now."""
        (cell,) = [c for c in self.cells[place] if c.variants & variants]
        assert cell.variants >= variants
        if cell.variants != variants:
            cell.variants -= variants
            cell = Copy(variants, cell.words, cell.order, cell.sent)
            self.cells[place].append(cell)
        return cell

    def decide(self, variant, place, order):
        self.need_permit(variant)
        self.need_place(place)
        alone = any(c.variants == {variant} for c in self.cells[place])
        if self.count_copies() + (not alone) > MOST_COPIES:
            raise Refused(15)
        self.undecided.discard(variant)
        self.parted(place, {variant}).order = order

    def step(self):
        self.need_loaded()
        if not self.held:
            return 0
        first = min(key(m) for m, _ in self.held)
        receiver = first[1]
        taken = [(m, s) for m, s in self.held if key(m) == first]
        groups = [(m, s & c.variants) for m, s in taken for c in self.cells[receiver] if s & c.variants]
        if len(self.held) - len(taken) + 2 * len(groups) > CAPACITY:
            raise Refused(7)
        if len(self.entries) + len(taken) > MOST_ENTRIES:
            raise Refused(14)
        # a copy is cut into those of its variants that run each message, and those that run none
        runners = set().union(*(s for _, s in taken))
        left = sum(bool(c.variants - runners) for c in self.cells[receiver])
        if self.count_copies() - len(self.cells[receiver]) + left + len(groups) > MOST_COPIES:
            raise Refused(15)
        self.held = [(m, s) for m, s in self.held if key(m) != first]
        self.entries += [(m, set(s)) for m, s in taken]
        for (time, _, sender, _, kind, data), group in groups:
            cell = self.parted(receiver, group)
            scratch = self.rules.places[receiver]
            scratch.words, scratch.order = cell.words, cell.order
            for to, delay, k, d in self.rules.react(receiver, time, sender, kind, data):
                if time + delay <= self.end:
                    self.held.append(((time + delay, to, receiver, cell.sent, k, d), set(group)))
                cell.sent += 1
        self.ran += len(groups)
        return len(groups)

    def journal_of(self, variant):
        return [m for m, s in self.entries if variant in s]

    def place_of(self, variant, place):
        (cell,) = [c for c in self.cells[place] if variant in c.variants]
        return list(cell.words), cell.order, cell.sent

    def waiting_of(self, variant):
        return sorted(m for m, s in self.held if variant in s)

    def shares_of(self, v, w, place):
        return any({v, w} <= c.variants for c in self.cells[place])

    def group_of(self, variant, place):
        (cell,) = [c for c in self.cells[place] if variant in c.variants]
        return len(cell.variants)

    def counts(self):
        return self.ran, self.count_copies(), len(self.entries)


class Study:
    """Both ways side by side: an answer is given where both give it."""

    def __init__(self, places, day):
        self.account, self.copies = Account(places, day), Copies(places, day)

    def both(self, call):
        answers = []
        for way in (self.account, self.copies):
            try:
                answers.append(call(way))
            except Refused as refusal:
                answers.append(refusal)
        a, b = answers
        if isinstance(a, Refused):
            assert isinstance(b, Refused) and a.words == b.words, (a, b)
            raise a
        assert a == b, (a, b)
        return a

    def changed(self, call):
        answer = self.both(call)
        self.compare()
        return answer

    def compare(self):
        a, b = self.account, self.copies
        assert (a.made, a.live, a.undecided) == (b.made, b.live, b.undecided)
        assert a.counts() == b.counts() and a.held() == len(b.held)
        for v in a.live:
            assert a.waiting_of(v) == b.waiting_of(v)
            assert len(a.days[v].journal) == len(b.journal_of(v)) and a.days[v].journal[-1:] == b.journal_of(v)[-1:]
            for place in range(a.places):
                assert a.place_of(v, place) == b.place_of(v, place)
                assert all(a.shares_of(v, w, place) == b.shares_of(v, w, place) for w in a.live)

    def run_anew(self):
        for v, day in self.account.days.items():
            anew = self.account.alone(v)
            assert anew.journal == day.journal and sorted(anew.waiting) == sorted(day.waiting)
            assert all(vars(p) == vars(q) for p, q in zip(anew.places, day.places))

    def reading(self, read, *variants, place=None):
        def asked(way):
            way.need_live(*variants)
            if place is not None:
                way.need_place(place)
            return read(way)
        return self.both(asked)


class Flaw(Exception):
    pass


FIELDS = {8: 255, 16: 65535, 32: 4294967295}
# the words of a call: the fields of its numbers, in bits
CALLS = {
    "calendar heap": [], "calendar buckets": [],
    "model collection": [8, 8], "model phold": [8, 32, 8],
    "start": [32, 8, 8, 32], "load": [32], "step": [32],
    "branch": [8], "decide": [8, 8, 32], "waive": [8], "retire": [8],
    "events": [8], "entry": [8, 32], "journal": [8], "place": [8, 8], "next": [8],
    "shares": [8, 8, 8], "group": [8, 8], "totals": [],
}
FIRSTS = {name.split()[0] for name in CALLS}


def number(word, bits):
    if not word or any(c not in "0123456789" for c in word):
        raise Flaw("a number is wanted, of decimal digits only")
    if int(word) > FIELDS[bits]:
        raise Flaw("a number is too small or too large")
    return int(word)


def read_line(line):
    """The name of a call and its numbers, or None for a line that says nothing."""
    words = [w for w in line.split("#")[0].replace("\t", " ").replace("\r", " ").split(" ") if w]
    if not words:
        return None
    name, rest = words[0], words[1:]
    if name not in FIRSTS:
        raise Flaw("a word is unknown")
    if name not in CALLS:
        if not rest:
            raise Flaw("a word is missing at the end")
        name, rest = f"{name} {rest[0]}", rest[1:]
        if name not in CALLS:
            raise Flaw("a word is unknown")
    if name == "step" and not rest:
        rest = ["1"]
    numbers = []
    for bits in CALLS[name]:
        if not rest:
            raise Flaw("a word is missing at the end")
        numbers.append(number(rest[0], bits))
        rest = rest[1:]
    if rest:
        raise Flaw("there is a word too many")
    return name, numbers


def spoken(m):
    return " ".join(map(str, m))


class Program:
    def __init__(self):
        self.study, self.starts, self.permits = None, [], set()

    def model(self, name, allowed, places, day, numbers):
        if not allowed:
            raise Refused(1, "model")
        # permits still held are waived at the study that gave them
        for variant in sorted(self.permits):
            self.study.changed(lambda way: way.waive(variant))
        self.study, self.starts, self.permits = Study(places, day), [], set()
        yield f"{name} {spoken(numbers)}"

    def collection(self, farms, tankers):
        allowed = 1 <= farms <= 10 and 1 <= tankers <= 6
        day = lambda end, starts: collection_day.Day(farms, tankers, end, starts)
        return self.model("model collection", allowed, 1 + farms + tankers, day, [farms, tankers])

    def phold(self, places, seed, replication):
        allowed = 1 <= places <= 32 and 1 <= seed <= 2147483646 and replication <= 7
        day = lambda end, starts: phold_day.PholdDay(places, seed, replication, end, starts)
        return self.model("model phold", allowed, places, day, [places, seed, replication])

    def run(self, name, n):
        """The lines printed for one call."""
        study = self.study
        if name.startswith("calendar"):
            return
        elif name == "model collection":
            yield from self.collection(*n)
        elif name == "model phold":
            yield from self.phold(*n)
        elif name == "start":
            self.starts.append(tuple(n))
        elif study is None:
            yield "no study"
        elif name == "load":
            yield f"loaded {study.changed(lambda way: way.load(list(self.starts), n[0]))}"
        elif name == "step":
            for _ in range(n[0]):
                yield f"ran {study.changed(lambda way: way.step())}"
        elif name == "branch":
            child = study.changed(lambda way: way.branch(n[0]))
            self.permits.add(child)
            yield f"branched {child}"
        elif name in ("decide", "waive") and n[0] not in self.permits:
            yield f"no permit {n[0]}"
        elif name == "decide":
            study.changed(lambda way: way.decide(*n))
            self.permits.discard(n[0])
            yield f"decided {n[0]}"
        elif name == "waive":
            self.permits.discard(n[0])
            study.changed(lambda way: way.waive(n[0]))
            yield f"waived {n[0]}"
        elif name == "retire":
            study.changed(lambda way: way.retire(n[0]))
            yield f"retired {n[0]}"
        elif name == "events":
            yield f"events {len(study.reading(lambda way: way.journal_of(n[0]), n[0]))}"
        elif name == "journal":
            study.run_anew()
            for m in study.reading(lambda way: way.journal_of(n[0]), n[0]):
                yield f"entry {spoken(m)}"
        elif name == "entry":
            journal = study.reading(lambda way: way.journal_of(n[0]), n[0])
            if n[1] >= len(journal):
                raise Refused(16)
            yield f"entry {spoken(journal[n[1]])}"
        elif name == "place":
            words, order, sent = study.reading(lambda way: way.place_of(*n), n[0], place=n[1])
            yield f"place {spoken(words)} order {order} sent {sent}"
        elif name == "next":
            waiting = study.reading(lambda way: way.waiting_of(n[0])[:1], n[0])
            yield f"next {spoken(waiting[0])}" if waiting else "next nothing"
        elif name == "shares":
            yield "shares yes" if study.reading(lambda way: way.shares_of(*n), n[0], n[1], place=n[2]) else "shares no"
        elif name == "group":
            yield f"group {study.reading(lambda way: way.group_of(*n), n[0], place=n[1])}"
        elif name == "totals":
            yield f"totals {spoken(study.reading(lambda way: way.counts()))}"


def replay(lines):
    program = Program()
    for number_of_line, line in enumerate(lines, 1):
        try:
            call = read_line(line)
        except Flaw as flaw:
            print(f"line {number_of_line}: {flaw}", file=sys.stderr)
            return 1
        if call is None:
            continue
        try:
            for printed in program.run(*call):
                print(printed)
        except Refused as refusal:
            print(refusal.words)
    if program.study:
        program.study.run_anew()
    return 0


def main():
    with open(sys.argv[1], encoding="latin-1", newline="\n") as script:
        return replay(line.rstrip("\n") for line in script)


if __name__ == "__main__":
    sys.exit(main())
