"""Lists of calls on runs, for calls.py."""
import texts

# The edges of the numbers that a run's calls have.
EDGES = (0, 1, 2, 15, 16, 999, 1000, 1001, 100000, 100001, 4294967295)

LATE_AT_15 = texts.TABLE.replace(b"6 50 30", b"6 50 15")

# Two jobs that end on their deadline, and a task that is late if both of them come.
TIGHT = texts.table([b"sporadic 1 3 10 3\n", b"sporadic 2 4 20 7\n", b"sporadic 3 2 30 8\n", b"sporadic 4 1 500 500\n"])

# Tasks that may be late at one clock, and a lower one that may be late sooner.
TIES = texts.table([b"sporadic 1 4 10 4\n", b"sporadic 2 2 10 5\n", b"sporadic 3 1 10 4\n", b"sporadic 4 1 10 5\n"])

# Three modes, of which each has one to follow.
RING = texts.table([
    texts.angular(5, [(2, 9), (4, 12), (3, 1000)], [(0, 1, 9), (1, 2, 14), (2, 0, 1200)]),
    b"sporadic 6 1 100000 1000\n",
])


def start(lists, number, text):
    lists.add("bench", number)
    lists.load(text)
    lists.add("begin")


def worsts(lists):
    for task in list(lists.tasks):
        for mode in range(len(task.modes)):
            lists.add("worst", task.number, mode)


def pass_to(lists, clock):
    """Advances to a clock, as far as the run goes."""
    run = lists.console.desk.run
    while run.late is None and run.clock < clock:
        lists.add("advance", min(1000, clock - run.clock))


# The worked run

def worked(lists):
    for text in (texts.TABLE, LATE_AT_15):
        start(lists, 71, text)
        for call in (("release", 7, 0, 2), ("release", 20, 1, 3), ("release", 30, 0, 6), ("advance", 10), ("release", 7, 0, 2), ("advance", 2)):
            lists.play(call)
        for call in (("release", 20, 1, 3), ("advance", 1000), ("release", 30, 0, 6), ("advance", 1)):
            lists.play(call)
        worsts(lists)
        lists.add("verdict")
        lists.add("stop")
        lists.add("judge")
        lists.look()
    start(lists, 72, texts.TABLE)
    for call in (("release", 20, 1, 3), ("advance", 11), ("release", 20, 1, 3), ("advance", 1), ("release", 20, 1, 3), ("stop",)):
        lists.play(call)


# Numbers at their edges, and several refusals at once

LEGAL = {"release": (20, 1, 3), "advance": (3,), "worst": (20, 1)}


def edges(lists, rng, base):
    for call, legal in LEGAL.items():
        for k in range(len(legal)):
            start(lists, 73, base)
            for edge in EDGES:
                # a release of one mode right after another is refused, so the run is begun again
                lists.add(call, *legal[:k], edge, *legal[k + 1:])
                worsts(lists) if call == "advance" else lists.add("stop")
                lists.add("begin")
        for text in (base, LATE_AT_15, TIGHT):
            start(lists, 74, text)
            for _ in range(40):
                lists.add(call, *(rng.choice(EDGES + (7, 30)) if rng.random() < 0.4 else n for n in legal))
                if rng.random() < 0.3:
                    lists.add("advance", rng.randint(1, 9))
            lists.add("stop")


def in_order(lists):
    """Each refusal of a release, an advance and a worst, in front of all that come behind it."""
    start(lists, 75, TIGHT)
    for number in (1, 2, 3):
        lists.add("release", number, 0, lists.console.desk.find(number).modes[0][0])
    lists.add("advance", 1000)
    for call in (("release", 3, 16, 9), ("release", 3, 1, 9), ("release", 3, 0, 9), ("release", 3, 0, 2), ("release", 4, 0, 2), ("release", 4, 0, 1), ("release", 5, 0, 2), ("release", 9, 0, 9)):
        lists.play(call)
    for call in (("advance", 0), ("advance", 1001), ("advance", 1000), ("worst", 3, 16), ("worst", 3, 1), ("worst", 3, 0), ("worst", 1, 0), ("worst", 9, 0)):
        lists.play(call)
    lists.add("keep", 76)
    for call in (("release", 3, 16, 9), ("release", 3, 1, 9), ("advance", 0), ("advance", 1), ("worst", 0, 0), ("worst", 9, 0), ("stop",), ("stop",)):
        lists.play(call)
    for call in (("release", 3, 16, 9), ("advance", 0), ("worst", 0, 0)):
        lists.play(call)
    start(lists, 77, RING)
    # a link that is not there is 23 however much time has passed, and so is a gap that is not over
    for call in (("release", 5, 0, 3), ("release", 5, 0, 2), ("advance", 1000), ("release", 5, 0, 1), ("release", 5, 2, 1), ("release", 5, 2, 4), ("release", 5, 1, 4)):
        lists.play(call)
    for call in (("advance", 13), ("release", 5, 2, 3), ("advance", 1), ("release", 5, 2, 3), ("advance", 1000), ("advance", 199), ("release", 5, 0, 2), ("advance", 1), ("release", 5, 0, 2)):
        lists.play(call)
    pass_to(lists, 2230)
    worsts(lists)
    lists.add("stop")


# The clock's end, deadlines, and what a run leaves

def clock_end(lists):
    start(lists, 81, TIGHT)
    pass_to(lists, 999000)
    for call in (("advance", 992), ("release", 1, 0, 3), ("release", 3, 0, 2), ("advance", 9), ("advance", 8), ("worst", 3, 0)):
        lists.play(call)
    for call in (("release", 3, 0, 2), ("advance", 1), ("advance", 1000), ("advance", 1001), ("stop",), ("begin",), ("advance", 1000), ("stop",)):
        lists.play(call)


def late_at_end(lists):
    """A run that is late near the clock's end answers 24, not 25."""
    start(lists, 82, TIGHT)
    pass_to(lists, 999990)
    for call in (("release", 1, 0, 3), ("release", 2, 0, 4), ("release", 3, 0, 2), ("advance", 10), ("advance", 10), ("advance", 1), ("advance", 1001), ("release", 1, 0, 3)):
        lists.play(call)
    worsts(lists)
    lists.add("stop")


def deadlines(lists):
    for costs in ((3, 4, 1), (3, 4, 2), (2, 4, 2), (3, 0, 2)):
        for stride in (1, 2, 5, 1000):
            start(lists, 83, TIGHT)
            for number, cost in zip((1, 2, 3), costs):
                lists.add("release", number, 0, cost)
            for _ in range(9):
                lists.add("advance", stride)
            worsts(lists)
            lists.add("release", 1, 0, 1)
            lists.add("release", 4, 0, 1)
            lists.add("stop")


def ties(lists):
    """Of several late at one clock the highest is named, and one that is late sooner before a higher one."""
    for first in range(16):
        start(lists, 87, TIES)
        # a task is released at clock 0 or at 1
        for clock in (0, 1):
            for place in range(4):
                if first >> place & 1 == clock:
                    lists.add("release", place + 1, 0, lists.tasks[place].modes[0][0])
            lists.add("advance", (1, 1000)[clock])
        worsts(lists)
        lists.add("stop")


EDITS = [
    ("put", 50, 0, 1, 900, 800), ("open", 51, 3), ("take", 7), ("lower", 20, 0, 4), ("widen", 20, 0, 0, 31), ("cut", 20, 0, 1),
    ("load", texts.TABLE), ("begin",),
    # refusals in front of 11, and behind it
    ("put", 0, 0, 1, 900, 800), ("put", 50, 0, 9, 9, 8), ("put", 50, 0, 8, 8, 9), ("put", 7, 0, 1, 9, 8), ("open", 0, 0), ("open", 7, 0), ("take", 1000), ("take", 9),
    ("lower", 20, 16, 1), ("lower", 20, 0, 9), ("lower", 20, 9, 1), ("widen", 20, 0, 0, 0), ("widen", 20, 0, 0, 1), ("cut", 20, 16, 0), ("cut", 20, 1, 1), ("cut", 7, 0, 0),
    ("load", b""), ("load", b"x" * 65536),
]

# A draft's calls, and those that are as they always are.
OTHERS = [
    ("mode", 1, 9), ("link", 0, 0, 9), ("close",), ("abandon",), ("verdict",), ("bound", 7, 0), ("bound", 20, 1), ("judge",), ("bound", 20, 1), ("verdict",),
    ("most", 1, 28), ("walk", 20, 28), ("walk", 7, 1000), ("walk", 9, 1), ("save",), ("sheet",), ("output",), ("short", "sheet"), ("lower", 20, 0, 4), ("fit", "sheet"),
]


def edits(lists):
    for prefix in ((), (("release", 20, 0, 5), ("advance", 2)), (("release", 30, 0, 6), ("release", 7, 0, 2), ("release", 20, 1, 3), ("advance", 12), ("release", 20, 1, 3), ("release", 7, 0, 2), ("advance", 1000))):
        start(lists, 84, LATE_AT_15)
        for call in (*prefix, *EDITS, *OTHERS):
            lists.play(call)
        worsts(lists)
        lists.add("advance", 1)
        lists.add("stop")
        lists.look()
        for call in (*EDITS[:1], ("judge",), *EDITS[1:2], ("begin",), ("abandon",), *EDITS[2:8], ("advance", 1), ("stop",), *EDITS[2:7]):
            lists.play(call)
        lists.look()
    lists.add("bench", 85)
    for call in (("begin",), ("load", texts.TABLE), ("advance", 9), ("release", 7, 0, 2), ("worst", 7, 0), ("stop",), ("load", texts.TABLE), ("begin",), ("worst", 7, 0)):
        lists.play(call)


def begun_again(lists):
    """A run that is late is open until its stop; the next one has no longest time, no job and no last release."""
    start(lists, 86, LATE_AT_15)
    for _ in range(2):
        for call in (("release", 7, 0, 2), ("release", 20, 1, 3), ("release", 30, 0, 6), ("begin",), ("advance", 10), ("release", 7, 0, 2), ("advance", 2), ("release", 20, 1, 3), ("advance", 2), ("advance", 2)):
            lists.play(call)
        worsts(lists)
        for call in (("advance", 1), ("take", 7), ("begin",), ("stop",), ("advance", 1), ("stop",), ("worst", 7, 0), ("release", 7, 0, 2), ("begin",)):
            lists.play(call)
        worsts(lists)


# Tickets of other benches

def strangers(lists):
    table = ("load", texts.TABLE)
    plays = (("release", 7, 0, 2), ("advance", 1), ("worst", 7, 0))
    for number in (92, 91):
        # a ticket of another number, or of the bench's own while no run is open
        lists.add("bench", 91)
        for call in (table, ("begin",), *plays, ("keep", number), *plays, table, *plays, ("take", 30), ("judge",), ("stop",), ("stop",), *plays):
            lists.play(call)
    lists.add("bench", 93)
    for call in (table, ("begin",), *plays, ("keep", 94), table, *plays, ("begin",), *plays, ("advance", 8), ("worst", 7, 0), ("stop",), *plays):
        lists.play(call)
    # a draft and a run in hand, both strangers', and a begin that a draft refuses
    for call in (("begin",), ("keep", 95), table, ("open", 60, 0), ("begin",), *plays, ("mode", 2, 9), ("link", 0, 0, 9), ("close",), ("begin",), ("release", 60, 0, 2), ("advance", 2), ("worst", 60, 0)):
        lists.play(call)
    for call in (("open", 61, 0), ("keep", 96), table, ("open", 61, 0), ("keep", 97), table, ("stop",), ("begin",), ("mode", 1, 5), ("close",), ("abandon",), ("open", 61, 0), *plays, ("stop",), ("open", 61, 0), ("begin",), ("keep", 98)):
        lists.play(call)
    # a bench given up with its run, and another of the same number
    for call in (("bench", 98), table, ("begin",), *plays, ("bench", 98), *plays, ("begin",), ("advance", 5), ("keep", 98), ("begin",), ("advance", 5), ("stop",), ("stop",)):
        lists.play(call)


# Many runs

def block(rng, number, share):
    """A task that takes about that share of the processor."""
    if rng.random() < 0.45:
        period = rng.randint(4, 60)
        cost = max(1, min(period, round(period * share)))
        return b"sporadic %d %d %d %d\n" % (number, cost, period, rng.randint(cost, period))
    count = rng.choice((1, 2, 2, 3, 4))
    modes, links = [], []
    for a in range(count):
        deadline = rng.randint(4, 40)
        modes.append((max(1, min(deadline, round(deadline * share * rng.uniform(0.6, 1.5)))), deadline))
        links += [(a, b, deadline + rng.choice((0, 0, 1, rng.randint(0, 30)))) for b in rng.sample(range(count), rng.randint(1, count))]
    return texts.angular(number, modes, links)


def table(rng):
    count = rng.randint(1, 6)
    load = rng.choice((0.5, 0.7, 0.9, 1.2, 1.8))
    return texts.table([block(rng, number, load / count) for number in rng.sample(range(1, 1000), count)])


class Driver:
    """Plays a run, mostly legal: each task goes its own walk, and many gaps are just kept."""

    def __init__(self, lists, rng):
        self.lists = lists
        self.rng = rng
        self.run = lists.console.desk.run

    def due(self, place):
        """The modes that may follow now, and the first clock at which another may."""
        task = self.lists.tasks[place]
        if place not in self.run.last:
            return list(range(len(task.modes))), None
        before, released = self.run.last[place]
        ready = {b: released + gap for (a, b), gap in task.gaps.items() if a == before}
        later = [clock for clock in ready.values() if clock > self.run.clock]
        return [b for b, clock in ready.items() if clock <= self.run.clock], min(later, default=None)

    def release(self):
        rng, lists = self.rng, self.lists
        for place in rng.sample(range(len(lists.tasks)), len(lists.tasks)):
            modes, _ = self.due(place)
            if modes and rng.random() < 0.8:
                task, mode = lists.tasks[place], rng.choice(modes)
                cost = task.modes[mode][0]
                lists.add("release", task.number, mode, cost if rng.random() < 0.75 else rng.randint(1, cost))

    def wrong(self):
        """A call that is mostly refused."""
        rng, task = self.rng, self.rng.choice(self.lists.tasks)
        mode = rng.randrange(len(task.modes))
        calls = [
            ("release", task.number, mode, 1), ("release", task.number, mode, 1), ("release", task.number, mode, task.modes[mode][0] + rng.randint(0, 2)), ("release", task.number, len(task.modes), 1), ("release", 1000 - task.number, mode, 1),
            ("release", task.number, rng.choice(EDGES), 1), ("release", task.number, mode, rng.choice(EDGES)), ("advance", rng.choice((0, 1001, 4294967295))),
            ("worst", task.number, len(task.modes)), ("take", task.number), ("begin",), ("open", 999, 0), ("mode", 1, 2), ("close",), ("judge",), ("bound", task.number, mode), ("walk", task.number, rng.randint(0, 99)),
        ]
        self.lists.play(rng.choice(calls))

    def advance(self):
        clocks = [clock - self.run.clock for _, clock in map(self.due, range(len(self.lists.tasks))) if clock is not None]
        ticks = min(clocks, default=1) if self.rng.random() < 0.7 else self.rng.choice((1, 2, 3, 9, 40, 1000))
        self.lists.add("advance", min(1000, ticks))

    def step(self):
        self.release()
        if self.rng.random() < 0.15:
            self.wrong()
        self.advance()
        if self.rng.random() < 0.1:
            task = self.rng.choice(self.lists.tasks)
            self.lists.add("worst", task.number, self.rng.randrange(len(task.modes)))


def many(lists, rng, count, steps):
    for k in range(count):
        lists.add("bench", 2000 + k)
        lists.load(table(rng))
        fits = lists.add("judge") == "fits\n"
        for _ in range(rng.choice((1, 1, 2))):
            lists.add("begin")
            driver = Driver(lists, rng)
            for _ in range(steps):
                driver.step()
                if driver.run.late is not None and rng.random() < 0.7:
                    break
            worsts(lists)
            if fits:
                # what fits is never late, and no job takes longer than its mode's bound
                desk = lists.console.desk
                assert driver.run.late is None
                assert all(ticks <= desk.bounds[desk.tasks[place].number, mode] for (place, mode), ticks in driver.run.longest.items())
            lists.add("stop")


def runs(lists, rng, base):
    lists.add("whole")
    worked(lists)
    edges(lists, rng, base)
    in_order(lists)
    clock_end(lists)
    late_at_end(lists)
    deadlines(lists)
    ties(lists)
    edits(lists)
    begun_again(lists)
    strangers(lists)
    many(lists, rng, 150, 14)
