#!/usr/bin/env python3
"""An independent computation of a collection day, from docs/RULES.md alone.

    python3 oracle/collection_day.py FILE

prints what `dispatch FILE` must print. It shares nothing with the library. Each
variant is a day of its own, copied whole when it is branched: its waiting messages
are an unsorted list, and each event looks for the smallest key. What two variants
share is worked out for each two of them by the rule of the pair account: which
places a chain of messages from an order of only one of them has reached, and which
waiting messages such places have sent. The lines on the runs alone come from a
second computation of each day, from its start, in which what waits is kept in
order and each message is put at its place.
"""
import bisect
import copy
import itertools
import sys

DRIVE = {1: 600, 2: 900, 3: 900, 4: 1200, 5: 450, 6: 1500, 7: 1500, 8: 750, 9: 1050, 10: 600}
MILKED, READY, FREE, GO, PUMP, LOADED, UNLOAD, EMPTIED = range(8)
TOP = 2 ** 32 - 1


def read(path):
    farms = tankers = end = None
    starts, choices = [], []
    for number, line in enumerate(open(path), 1):
        words = line.split("#")[0].split()
        if not words:
            continue
        if words[0] == "farms":
            farms = int(words[1])
        elif words[0] == "tankers":
            tankers = int(words[1])
        elif words[0] == "end":
            end = int(words[1])
        elif words[0] == "milked":
            starts.append((int(words[4]), int(words[1]), MILKED, int(words[2])))
        elif words[0] == "after":
            choices.append((number, int(words[1]), words[4]))
        else:
            raise SystemExit(line)
    return farms, tankers, end, starts, choices


class Place:
    def __init__(self):
        self.words, self.order, self.sent = [0] * 8, 0, 0


class Day:
    def __init__(self, farms, tankers, end, starts):
        self.farms, self.tankers, self.end = farms, tankers, end
        self.places = [Place() for _ in range(1 + farms + tankers)]
        self.places[0].words[1] = sum(1 << j for j in range(1, tankers + 1))
        # (time, receiver, sender, number, kind, data)
        self.waiting = [(t, r, 255, i, k, d) for i, (t, r, k, d) in enumerate(starts)]
        self.journal, self.lost = [], 0

    def is_farm(self, p):
        return 1 <= p <= self.farms

    def is_tanker(self, p):
        return self.farms < p <= self.farms + self.tankers

    def ignore(self, w, kind, data):
        if kind in (MILKED, LOADED, UNLOAD):
            w[7] = min(TOP, w[7] + data)
        return []

    def send_out(self, place):
        w = place.words
        waiting = [i for i in range(1, self.farms + 1) if w[0] >> i & 1]
        free = [j for j in range(1, self.tankers + 1) if w[1] >> j & 1]
        if not waiting or not free:
            return []
        rank = {1: lambda i: (-DRIVE[i], i), 2: lambda i: i}.get(place.order, lambda i: (DRIVE[i], i))
        farm, tanker = min(waiting, key=rank), min(free)
        w[0] -= 1 << farm
        w[1] -= 1 << tanker
        return [(self.farms + tanker, 1, GO, farm)]

    def react(self, p, time, sender, kind, data):
        place = self.places[p]
        w = place.words
        if p == 0:
            if kind == READY and self.is_farm(sender):
                w[0] |= 1 << sender
                return self.send_out(place)
            if kind == FREE and self.is_tanker(sender):
                w[1] |= 1 << (sender - self.farms)
                return self.send_out(place)
            if kind == UNLOAD and self.is_tanker(sender):
                end = min(TOP, max(time, w[2]) + 60 + data // 20)
                w[2] = end
                w[3] = min(TOP, w[3] + data)
                return [(sender, max(1, min(86400, end - time)), EMPTIED, 0)]
        elif self.is_farm(p):
            if kind == MILKED:
                w[0] = min(TOP, w[0] + data)
                if w[1] == 0:
                    w[1] = 1
                    return [(0, 1, READY, 0)]
                return []
            if kind == PUMP and self.is_tanker(sender):
                load = min(w[0], 20000)
                w[0] -= load
                w[1] = 1 if w[0] else 0
                return [(sender, 1 + load // 10, LOADED, load)] + ([(0, 1, READY, 0)] if w[0] else [])
        else:
            if w[0] == 0 and kind == GO and sender == 0 and self.is_farm(data):
                w[0], w[1] = 1, data
                return [(data, DRIVE[data], PUMP, 0)]
            if w[0] == 1 and kind == LOADED and sender == w[1] and self.is_farm(w[1]):
                w[0] = 2
                return [(0, DRIVE[w[1]], UNLOAD, data)]
            if w[0] == 2 and kind == EMPTIED and sender == 0:
                w[0] = 0
                return [(0, 1, FREE, 0)]
        return self.ignore(w, kind, data)

    def take(self):
        m = min(self.waiting, key=lambda x: x[:4])
        self.waiting.remove(m)
        return m

    def put(self, m):
        self.waiting.append(m)

    def event(self):
        m = self.take()
        time, p, sender, _, kind, data = m
        sends = self.react(p, time, sender, kind, data)
        self.journal.append(m)
        for receiver, delay, k, d in sends:
            n = self.places[p].sent
            self.places[p].sent += 1
            if time + delay <= self.end:
                self.put((time + delay, receiver, p, n, k, d))
            else:
                self.lost += 1
        return m, sends


class OrderedDay(Day):
    """The same day; what waits stands in the order of its keys."""

    def __init__(self, *settings):
        super().__init__(*settings)
        self.waiting.sort(key=lambda x: x[:4])

    def take(self):
        return self.waiting.pop(0)

    def put(self, m):
        keys = [x[:4] for x in self.waiting]
        self.waiting.insert(bisect.bisect_left(keys, m[:4]), m)


def verdict(day, alone):
    """Where two days part: at an event, or at how a place stands."""
    if day.journal != alone.journal:
        pairs = zip(day.journal, alone.journal)
        same = next((i for i, (a, b) in enumerate(pairs) if a != b), min(len(day.journal), len(alone.journal)))
        return f"differs after {same} events"
    for p, (a, b) in enumerate(zip(day.places, alone.places)):
        if (a.words, a.order, a.sent) != (b.words, b.order, b.sent):
            return f"differs at place {p}"
    return "agrees"


def moment(t):
    return f"{t // 3600}:{t // 60 % 60:02}:{t % 60:02} ({t} s)"


def who(day, p):
    if p == 0:
        return "dairy"
    if day.is_farm(p):
        return f"farm {p}"
    return f"tanker {p - day.farms}" if day.is_tanker(p) else "nobody"


def words(day, m, sends):
    _, p, sender, _, kind, data = m
    here, there = who(day, p), who(day, sender)
    if kind == MILKED and day.is_farm(p):
        return f"{here} milked {data} l"
    if p == 0 and (kind == READY and day.is_farm(sender) or kind == FREE and day.is_tanker(sender)):
        if sends:
            return f"dairy sends {who(day, sends[0][0])} to farm {sends[0][3]}"
        return f"{there} waits for a tanker" if kind == READY else f"{there} is free"
    if p == 0 and kind == UNLOAD and day.is_tanker(sender):
        return f"{there} unloads {data} l at the dairy"
    if day.is_farm(p) and kind == PUMP and day.is_tanker(sender):
        return f"{there} pumps at {here}, {sends[0][3]} l"
    if day.is_tanker(p) and sends:
        if kind == GO:
            return f"{here} drives to farm {data}"
        if kind == LOADED:
            return f"{here} leaves {there} with {data} l"
        return f"{here} is empty"
    return f"{here} ignores kind {kind} from {there}"


ORDERS = {"nearest": 0, "farthest": 1, "smallest": 2}
FIRST = {
    "nearest": "the nearest farm first",
    "farthest": "the farthest farm first",
    "smallest": "the smallest farm number first",
}


def key(m):
    return m[:4]


class Study:
    """The days of all variants, each whole, and for each two of them what tells them apart."""

    def __init__(self, day):
        self.days, self.tries = [day], [None]
        # for two variants, the smaller first
        self.reached, self.marked = {}, {}
        self.executions = 0
        # why a place of a variant is shared with no smaller one
        self.causes = {}

    def pairs(self):
        return itertools.combinations(range(len(self.days)), 2)

    def shares(self, v, w, p):
        return v == w or p not in self.reached[min(v, w), max(v, w)]

    def source(self, v, p):
        """The smallest variant with which v shares the place, if that is smaller than v."""
        return next((w for w in range(v) if self.shares(v, w, p)), None)

    def branch(self, choice):
        child = len(self.days)
        for w in range(child):
            self.reached[w, child] = set(self.reached[0, w]) if w else set()
            self.marked[w, child] = set(self.marked[0, w]) if w else set()
        self.days.append(copy.deepcopy(self.days[0]))
        self.tries.append(choice)
        self.days[child].places[0].order = ORDERS[choice[2]]
        for w in range(child):
            self.reached[w, child].add(0)
        self.causes[child, 0] = "its own, by the order"
        return child

    def step(self):
        """Runs the smallest key in every variant that has it; tells which ran it, and what each sent."""
        heads = {v: min(d.waiting, key=key) for v, d in enumerate(self.days) if d.waiting}
        if not heads:
            return None
        k = min(map(key, heads.values()))
        runners = [v for v in heads if key(heads[v]) == k]
        place = k[1]
        sources = [self.source(v, place) for v in range(len(self.days))]
        ran = {}
        sent = {}
        for v in runners:
            before = set(self.days[v].waiting)
            ran[v] = self.days[v].event()
            sent[v] = {key(m) for m in set(self.days[v].waiting) - before}
        for v, w in self.pairs():
            if v not in ran and w not in ran:
                continue
            if k in self.marked[v, w]:
                self.reached[v, w].add(place)
            for j in sent.get(v, set()) | sent.get(w, set()):
                if place in self.reached[v, w]:
                    self.marked[v, w].add(j)
                else:
                    self.marked[v, w].discard(j)
        self.executions += sum(1 for i, v in enumerate(runners) if not any(self.shares(v, w, place) for w in runners[:i]))
        for v in range(len(self.days)):
            if sources[v] is not None and self.source(v, place) is None:
                by = v if v in ran else sources[v]
                m, sends = ran[by]
                what = f"{moment(m[0])} {words(self.days[by], m, sends)}"
                self.causes[v, place] = f"its own, by event {len(self.days[by].journal)} of variant {by}: {what}"
        return ran


def check(study):
    """What the rule of the pairs must give: shared places are equal, and messages in only one of two days are marked."""
    for v, w in study.pairs():
        for p, (a, b) in enumerate(zip(study.days[v].places, study.days[w].places)):
            if study.shares(v, w, p) and (a.words, a.order, a.sent) != (b.words, b.order, b.sent):
                raise SystemExit(f"variants {v} and {w} share place {p}, which is not equal")
        for m in set(study.days[v].waiting) ^ set(study.days[w].waiting):
            if key(m) not in study.marked[v, w]:
                raise SystemExit(f"{m} waits in one of {v} and {w}, and is not marked")


def row(label, value, source=None):
    taken = "" if source is None else f", taken over from variant {source}"
    print(f"  {label:<20}{value}{taken}")


def sheet(study, v):
    day, planned = study.days[v], study.days[0]
    farms = range(1, day.farms + 1)
    print()
    print(f"variant {v}: as planned" if v == 0 else f"variant {v}: {FIRST[study.tries[v][2]]}, after {study.tries[v][1]} events")
    row("litres received", day.places[0].words[3], study.source(v, 0))
    for i in farms:
        row(f"left at farm {i}", day.places[i].words[0], study.source(v, i))
    for i in farms:
        milked = any(m[1] == i and m[4] == MILKED for m in day.journal)
        pumped = any(m[1] == i and m[4] == PUMP and day.is_tanker(m[2]) for m in day.journal)
        if milked and not pumped:
            row("not visited", f"farm {i}")
    unloads = [m[0] for m in day.journal if m[1] == 0 and m[4] == UNLOAD and day.is_tanker(m[2])]
    row("last unloading", moment(unloads[-1]) if unloads else "none")
    row("events run", len(day.journal))
    row("lost after the end", day.lost)
    if v == 0:
        row("every place", "as planned")
        return
    if day.journal == planned.journal:
        row("journal", "the same as variant 0's")
    else:
        i = next(i for i in itertools.count() if day.journal[i:i + 1] != planned.journal[i:i + 1])
        first = (day.journal[i:] or planned.journal[i:])[0]
        row("journal", f"other than variant 0's from event {i + 1} on, {moment(first[0])}")
    for p in range(len(day.places)):
        w = study.source(v, p)
        if w is None:
            row(who(day, p), study.causes[v, p])
        else:
            row(who(day, p), f"taken over from variant {w}: reached by no chain of messages from an order of only one of the two")


def alone(settings, choice):
    """The day of a variant, from its start."""
    day = OrderedDay(*settings)
    for _ in range(choice[1] if choice else 0):
        day.event()
    if choice:
        day.places[0].order = ORDERS[choice[2]]
    while day.waiting:
        day.event()
    return day


def main():
    *settings, choices = read(sys.argv[1])
    farms, tankers, end, _ = settings
    study = Study(Day(*settings))
    planned = study.days[0]
    print(f"farms: {farms}, tankers: {tankers}, end of day: {moment(end)}")
    tried = set()
    while True:
        for choice in choices:
            if choice[1] == len(planned.journal) and choice[0] not in tried:
                tried.add(choice[0])
                print(f"after {choice[1]} events: variant {study.branch(choice)} tries {FIRST[choice[2]]}")
        ran = study.step()
        if ran is None:
            break
        check(study)
        if 0 in ran:
            m, sends = ran[0]
            print(moment(m[0]), words(planned, m, sends))
    for v in range(len(study.days)):
        sheet(study, v)
    print()
    print(f"executions: {study.executions}, events that separate runs would have worked: {sum(len(d.journal) for d in study.days)}")
    for v, day in enumerate(study.days):
        print(f"variant {v} run alone:", verdict(day, alone(settings, study.tries[v])))
    for line, events, _ in choices:
        if line not in tried:
            print(f"line {line}: not tried, the day has {len(planned.journal)} events")


if __name__ == "__main__":
    main()
