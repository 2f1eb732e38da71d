"""Writes crates/console/stdin and stdout: lists of calls, and their answers, worked out by model.py.
Run it with Python's standard library: python3 reference/calls.py
Lists and answers of reference/vectors/, worked out by another program, stand behind them.
"""
import os
import random

import console
import runs
import texts

EDGES = (0, 1, 2, 15, 16, 999, 1000, 1001, 100000, 100001, 4294967295)

# The base of the lists that try single calls: two tasks of each make.
BASE = texts.table([
    b"sporadic 7 2 10 10\n",
    texts.angular(20, [(5, 20), (3, 12)], [(0, 0, 30), (0, 1, 20), (1, 0, 15), (1, 1, 12)]),
    b"sporadic 30 6 50 30\n",
    texts.angular(40, [(4, 100), (1, 60), (2, 90)], [(0, 1, 100), (1, 2, 70), (2, 0, 90), (1, 1, 65), (0, 2, 300)]),
])

# Calls that change the sheet where they are accepted.
FILLING = ("close", "load", "walk", "lower", "widen", "cut")




class Lists:
    """Lists of calls with their answers; the model plays along, so that a list can go by what stands."""

    def __init__(self):
        self.calls = []
        self.answers = []
        self.console = console.Console()

    def add(self, call, *numbers):
        line = " ".join([call, *map(str, numbers)]).encode()
        self.calls.append(line + b"\n")
        self.answers.append(self.console.answer(line))
        return self.answers[-1]

    def load(self, text):
        line = b"load %d" % len(text)
        self.calls.append(line + b"\n" + text + b"\n")
        self.answers.append(self.console.answer(line, text))
        return self.answers[-1]

    def play(self, call):
        """A call as a line or as a tuple of its name and numbers; load stands with its text."""
        if call[0] == "load":
            return self.load(call[1])
        return self.add(*call)

    @property
    def tasks(self):
        return self.console.desk.tasks

    def look(self):
        """All that stands. The model's two ways to work `most` out have to agree."""
        for task in self.tasks:
            assert all(task.by_spans(w) == task.most(w) for w in (1, 29, 77))
        self.add("verdict")
        for task in list(self.tasks):
            for mode in range(len(task.modes)):
                self.add("bound", task.number, mode)
        self.add("save")
        self.add("sheet")
        self.add("output")


# The worked examples

PAGE = os.path.join(os.path.dirname(os.path.abspath(__file__)), "..", "docs", "CONSOLE.md")


def fenced(page, word):
    """The lines between a fence with that word and the next fence."""
    return page.split("```%s\n" % word, 1)[1].split("```", 1)[0]


def documented(lists):
    """The list on the console's page, whose answers stand there too."""
    with open(PAGE) as file:
        page = file.read()
    lists.add("bench", 1)
    first = len(lists.answers)
    for line in fenced(page, "calls").splitlines():
        lists.add(line)
    assert "".join(lists.answers[first:]) == fenced(page, "answers")


def examples(lists):
    for text in texts.examples():
        lists.add("bench", 1)
        lists.load(text)
        lists.add("verdict")
        lists.add("judge")
        lists.look()
    lists.add("bench", 2)
    lists.load(texts.TABLE)
    for window in (0, 1, 12, 13, 15, 16, 26, 27, 28, 1000, 1001):
        for place in range(4):
            lists.add("most", place, window)
        for number in (7, 20, 30):
            lists.add("walk", number, window)
    shown(lists)
    by_calls(lists, 3, lists.tasks)
    lists.add("judge")
    lists.look()


def shown(lists):
    """Walks that are shown where only one has the most work, and refusals."""
    for number, window in ((7, 0), (7, 1), (7, 10), (7, 11), (7, 35), (7, 1000), (30, 51), (20, 0), (20, 1), (20, 13), (20, 28)):
        lists.add("show", number, window)
    for number, window in ((0, 5), (1000, 5), (20, 1001), (9, 5), (9, 1001)):
        lists.add("show", number, window)
    for memory in ("sheet", "list"):
        lists.add("short", memory)
        for number, window in ((20, 5), (20, 1001), (9, 5)):
            lists.add("show", number, window)
        lists.add("whole")


def by_calls(lists, number, tasks):
    """The same tasks on another bench, built call by call."""
    tasks = [t.copy() for t in tasks]
    lists.add("bench", number)
    for task in tasks:
        if not task.angular:
            cost, deadline = task.modes[0]
            lists.add("put", task.number, 15, cost, task.gaps[(0, 0)], deadline)
            continue
        lists.add("open", task.number, 15)
        for cost, deadline in task.modes:
            lists.add("mode", cost, deadline)
        for (a, b), gap in task.gaps.items():
            lists.add("link", a, b, gap)
        lists.add("close")
        lists.add("sheet")


# Round trips

def random_task(rng, number):
    if rng.random() < 0.4:
        return texts.random_block(rng, number)
    count = rng.choice((1, 1, 2, 3, 4, 6, 9, 16))
    modes = []
    for _ in range(count):
        deadline = rng.choice((3, 10, 30, 90, 400, 1000))
        modes.append((rng.randint(1, max(1, deadline // rng.choice((1, 4, 30)))), deadline))
    links = []
    for a in range(count):
        for b in rng.sample(range(count), rng.randint(1, min(count, 4))):
            links.append((a, b, rng.choice((modes[a][1], modes[a][1] + 1, rng.randint(modes[a][1], 3 * modes[a][1]), rng.randint(1000, 100000)))))
    rng.shuffle(links)
    return texts.angular(number, modes, links)


def random_table(rng):
    blocks, crank = [], 0
    for number in rng.sample(range(1, 1000), rng.randint(1, 16)):
        block = random_task(rng, number)
        if block.startswith(b"angular"):
            crank += 1
            if crank > 8:
                continue
        blocks.append(block)
    return texts.table(blocks)


def largest(rng):
    """Eight tasks of sixteen modes with all links, and eight sporadic ones."""
    blocks = []
    for number in range(101, 109):
        modes = [(rng.randint(1, 4), rng.randint(900, 1000)) for _ in range(16)]
        links = [(a, b, rng.randint(1000, 100000)) for a in range(16) for b in range(16)]
        if number == 104:
            modes = [(k + 1, 60 + k) for k in range(16)]
            links = [(a, b, 60 + a + (a * b) % 7) for a in range(16) for b in range(16)]
        blocks.append(texts.angular(number, modes, links))
        blocks.append(b"sporadic %d %d %d %d\n" % (number + 100, rng.randint(1, 5), rng.randint(300, 100000), rng.randint(250, 300)))
    return texts.table(blocks)


def longest():
    """The longest text: numbers of the most digits wherever they may stand."""
    blocks = []
    for number in range(901, 909):
        blocks.append(texts.angular(number, [(1000, 1000)] * 16, [(a, b, 100000) for a in range(16) for b in range(16)]))
        blocks.append(b"sporadic %d 1000 100000 1000\n" % (number + 50))
    return texts.table(blocks)


def round_trip(lists, text):
    lists.add("bench", 11)
    lists.load(text)
    lists.add("sheet")
    saved = lists.add("save").encode()
    lists.add("bench", 12)
    lists.load(saved)
    assert lists.add("save").encode() == saved
    lists.add("sheet")
    lists.add("output")
    lists.add("judge")
    lists.add("short", "output")
    lists.add("save")
    lists.add("output")
    lists.add("fit", "output")
    lists.add("judge")
    for task in list(lists.tasks):
        lists.add("bound", task.number, len(task.modes) - 1)
    for length in ("fit", "long"):
        lists.add(length, "output")
        lists.add("save")
        lists.add("output")


def round_trips(lists, rng, count):
    for _ in range(count):
        lists.add("whole")
        round_trip(lists, random_table(rng))
    for text in (b"end 0 0\n", longest()):
        lists.add("whole")
        round_trip(lists, text)
    lists.add("whole")
    round_trip(lists, largest(rng))
    by_calls(lists, 13, lists.tasks)
    lists.add("judge")
    lists.look()
    changes(lists, rng)


def changes(lists, rng):
    """The largest table with single numbers changed, down to one link out of each mode of a task."""
    lists.add("whole")
    for call in (("lower", 104, 15, 1), ("lower", 104, 14, 14), ("widen", 104, 15, 15, 700), ("widen", 104, 13, 0, 100000), ("cut", 104, 14, 14)):
        lists.play(call)
        lists.add("sheet")
        lists.add("walk", 104, rng.randint(61, 1000))
    lists.add("judge")
    for call in (("lower", 104, 15, 1), ("lower", 104, 16, 1), ("lower", 104, 15, 2), ("widen", 104, 15, 15, 700), ("widen", 104, 15, 15, 699), ("widen", 104, 16, 0, 700), ("cut", 104, 14, 14)):
        lists.play(call)
        lists.add("sheet")
    for a in range(16):
        for b in rng.sample(range(16), 16):
            lists.add("cut", 104, a, b)
    lists.add("sheet")
    for number in (101, 201, 104, 208, 108):
        lists.add("take", number)
        lists.add("judge")
    lists.look()


# Single calls at the edges of their numbers

LEGAL = {
    "put": (50, 1, 2, 40, 30),
    "take": (20,),
    "lower": (20, 0, 4),
    "widen": (20, 0, 1, 21),
    "cut": (20, 0, 0),
    "open": (50, 2),
    "mode": (2, 9),
    "link": (1, 0, 50),
    "bound": (20, 1),
    "most": (1, 28),
    "walk": (20, 28),
}


def stage(lists, call):
    """The base, judged, and a draft where the call needs one."""
    lists.add("bench", 21)
    lists.load(BASE)
    if call in ("mode", "link", "close"):
        lists.add("open", 60, 3)
        lists.add("mode", 3, 30)
        lists.add("mode", 1, 50)
        lists.add("link", 0, 1, 30)
    lists.add("judge")


def single(lists, call, numbers):
    stage(lists, call)
    lists.add(call, *numbers)
    if call in ("mode", "link"):
        lists.add("link", 1, 1, 70)
        lists.add("close")
    lists.look()


def edges(lists, rng):
    for call, legal in LEGAL.items():
        lists.add("whole")
        single(lists, call, legal)
        for k in range(len(legal)):
            for edge in EDGES:
                single(lists, call, legal[:k] + (edge,) + legal[k + 1:])
        for _ in range(12 * len(legal)):
            # several numbers at an edge: the refusal with the least number comes first
            stage(lists, call)
            for _ in range(3):
                lists.add(call, *(rng.choice(EDGES) if rng.random() < 0.4 else n for n in legal))
            lists.add("verdict")


# Calls in every state that refuses them

def full_table(sporadic, crank):
    blocks = texts.sporadics(sporadic, 200)
    blocks += [texts.angular(300 + k, [(1, 10)], [(0, 0, 10)]) for k in range(crank)]
    return texts.table(blocks)


def contexts():
    draft = [("open", 60, 0), ("mode", 3, 30), ("mode", 2, 20), ("link", 0, 1, 30), ("link", 1, 0, 20)]
    sixteen = [("open", 60, 0)] + [("mode", 1, 10)] * 16
    base = ("load", BASE)
    yield "plain", [base]
    yield "empty", []
    yield "draft", [base, *draft]
    yield "empty draft", [base, ("open", 60, 2)]
    yield "half a draft", [base, *draft[:-1]]
    yield "sixteen modes", [base, *sixteen]
    yield "short sheet", [base, ("short", "sheet")]
    yield "short sheet and draft", [base, *draft, ("short", "sheet")]
    yield "short sheet and half a draft", [base, *draft[:-1], ("short", "sheet")]
    yield "long sheet", [base, *draft, ("long", "sheet"), ("long", "list")]
    yield "long sheet and no draft", [base, ("long", "sheet"), ("long", "list")]
    yield "short list", [base, ("short", "list")]
    yield "short list and sheet", [base, ("short", "list"), ("short", "sheet")]
    yield "short output", [base, ("short", "output")]
    yield "stranger", [*draft, ("keep", 32), base]
    yield "stranger of one number", [*draft, ("keep", 31), base]
    yield "stranger and short sheet", [*draft, ("keep", 32), base, ("short", "sheet")]
    yield "sixteen tasks", [("load", full_table(16, 0))]
    yield "eight angular", [("load", full_table(3, 8))]
    yield "sixteen and eight", [("load", full_table(8, 8))]
    yield "fifteen tasks and a draft", [("load", full_table(15, 0)), *draft]
    yield "eighth angular", [("load", full_table(2, 7)), *draft]


def tried():
    """Calls of every kind, legal and not."""
    for number in (7, 20, 40, 200, 300, 60, 999):
        yield from (("take", number), ("open", number, 1), ("put", number, 0, 2, 20, 15), ("walk", number, 40), ("bound", number, 0))
        for mode in (0, 1, 3):
            yield from (("lower", number, mode, 1), ("lower", number, mode, 5), ("widen", number, mode, 0, 31), ("widen", number, mode, mode, 12), ("cut", number, mode, 0), ("cut", number, mode, 2))
    yield from (("put", 70, 0, 9, 20, 8), ("put", 70, 0, 9, 10, 12), ("put", 0, 0, 9, 10, 12), ("put", 70, 16, 9, 10, 8), ("put", 70, 5, 11, 10, 12), ("put", 70, 0, 9, 20, 21))
    yield from (("widen", 7, 0, 0, 11), ("widen", 7, 0, 0, 10), ("widen", 7, 0, 0, 9), ("widen", 20, 0, 1, 20), ("widen", 20, 0, 1, 19))
    yield from (("open", 0, 0), ("open", 70, 16), ("open", 70, 15), ("walk", 0, 5), ("walk", 7, 1001), ("walk", 1000, 5))
    yield from (("mode", 1, 10), ("mode", 5, 4), ("mode", 0, 1), ("mode", 1001, 1001), ("mode", 1000, 1000))
    yield from (("link", 0, 0, 100000), ("link", 0, 1, 30), ("link", 1, 1, 19), ("link", 1, 1, 20), ("link", 2, 0, 50), ("link", 16, 0, 50), ("link", 15, 0, 50), ("link", 0, 15, 9), ("link", 15, 15, 9), ("link", 14, 15, 10))
    yield from (("close",), ("close",), ("abandon",), ("judge",), ("verdict",), ("save",), ("sheet",), ("most", 0, 100), ("most", 15, 1000))
    yield from (("load", BASE), ("load", b"end 0 0\n"), ("load", b"end 0 1\n"), ("load", b""))
    yield from (("lower", 0, 0, 1), ("lower", 20, 16, 1), ("lower", 20, 0, 1001), ("widen", 0, 0, 0, 5), ("widen", 20, 0, 0, 100001), ("cut", 1000, 0, 0), ("cut", 20, 16, 0))


def states(lists, rng):
    ending = {("close",), ("abandon",)}
    for _, prefix in contexts():
        for turn in range(3):
            lists.add("whole")
            lists.add("bench", 31)
            for call in prefix:
                lists.play(call)
            calls = [c for c in tried() if rng.random() < (0.9, 0.4, 0.4)[turn]]
            if turn < 2:
                # what ends the state comes last, and so do edits that are accepted
                calls = [c for c in calls if c not in ending]
            rng.shuffle(calls)
            for call in calls:
                answer = lists.play(call)
                if call[0] in FILLING and not answer.startswith("refused"):
                    lists.add("sheet")
            for call in (("close",), ("sheet",), ("abandon",), ("open", 61, 0), ("abandon",)):
                lists.play(call)
            lists.look()


# Long lists, mostly legal

class Player:
    def __init__(self, lists, rng):
        self.lists = lists
        self.rng = rng

    def pick(self):
        """A task of the table, if there is one, and a number of one that is not."""
        tasks = self.lists.tasks
        return self.rng.choice(tasks) if tasks else None

    def numbers(self, call):
        """Numbers that the call would mostly be accepted with."""
        rng, task = self.rng, self.pick()
        number = task.number if task else rng.randint(1, 999)
        mode = rng.randrange(len(task.modes)) if task else 0
        link = rng.choice(sorted(task.gaps)) if task else (0, 0)
        if call == "put":
            deadline = rng.choice((20, 60, 200, 1000))
            return (rng.randint(1, 999), rng.randint(0, 15), rng.randint(1, deadline // 10), rng.randint(deadline, 3 * deadline), deadline)
        if call == "open":
            return (rng.randint(1, 999), rng.randint(0, 15))
        if call == "mode":
            deadline = rng.choice((12, 40, 90, 300, 1000))
            return (rng.randint(1, deadline // 3), deadline)
        if call == "link":
            draft = self.lists.console.desk.draft
            count = len(draft.modes) if draft and draft.modes else 1
            a = rng.randrange(count)
            deadline = draft.modes[a][1] if draft and draft.modes else 10
            return (a, rng.randrange(count), rng.choice((deadline, deadline + 1, rng.randint(deadline, 4 * deadline))))
        if call == "take":
            return (number,)
        if call == "lower":
            cost = task.modes[mode][0] if task else 2
            return (number, mode, rng.randint(1, max(1, cost - 1)))
        if call == "widen":
            gap = task.gaps[link] if task else 5
            return (number, *link, min(100000, gap + rng.choice((1, 2, 17, 400))))
        if call == "cut":
            # a link that is not the last out of its mode, where there is one
            spare = [(t.number, *l) for t in self.lists.tasks for l in t.gaps if sum(l[0] == a for a, _ in t.gaps) > 1]
            return rng.choice(spare) if spare and rng.random() < 0.8 else (number, *link)
        if call == "bound":
            return (number, mode)
        if call == "most":
            return (rng.randrange(max(1, len(self.lists.tasks))), rng.choice((0, 1, 9, 50, 333, 1000)))
        if call == "walk":
            return (number, rng.choice((0, 1, 2, 10, 60, 200, 1000, rng.randint(0, 1000))))
        return ()

    def damaged(self, numbers):
        numbers = list(numbers)
        numbers[self.rng.randrange(len(numbers))] = self.rng.choice(EDGES + (3, 7, 20))
        return numbers

    def next_call(self):
        rng = self.rng
        if self.lists.console.ticket is not None:
            names, weights = ("mode", "link", "close", "abandon", "put", "open", "take", "judge", "walk", "bound"), (6, 30, 45, 3, 3, 2, 2, 2, 4, 3)
        else:
            names = ("put", "open", "take", "lower", "widen", "cut", "judge", "verdict", "bound", "most", "walk", "save", "mode", "close", "load")
            weights = (14, 22, 4, 9, 9, 8, 12, 2, 8, 6, 10, 2, 1, 1, 2)
        return rng.choices(names, weights)[0]

    def draft(self):
        """The modes and links of a whole draft."""
        for _ in range(self.rng.choice((1, 2, 2, 3, 4, 6))):
            self.lists.add("mode", *self.numbers("mode"))
        draft = self.lists.console.desk.draft
        for a in range(len(draft.modes)):
            deadline = draft.modes[a][1]
            self.lists.add("link", a, self.rng.randrange(len(draft.modes)), self.rng.randint(deadline, 2 * deadline))

    def step(self):
        lists, call = self.lists, self.next_call()
        if call == "load":
            answer = lists.load(random_table(self.rng) if not lists.tasks else BASE)
        else:
            numbers = self.numbers(call)
            if numbers and self.rng.random() < 0.12:
                numbers = self.damaged(numbers)
            answer = lists.add(call, *numbers)
        if call == "open" and answer == "ok\n" and self.rng.random() < 0.8:
            self.draft()
        if call in FILLING and answer.split()[0] != "refused" and self.rng.random() < 0.6:
            lists.add("sheet")


def long_lists(lists, rng, count, steps):
    for k in range(count):
        lists.add("whole")
        lists.add("bench", 1000 + k)
        player = Player(lists, rng)
        for _ in range(steps):
            player.step()
        lists.look()


# Shown walks

def shows(lists, rng):
    heavy = [texts.heavy(20), texts.table([texts.angular(1, [(1, 30)] * 15 + [(29, 30)], [(k, (k + 1) % 16, 30 + k) for k in range(16)])])]
    light = texts.angular(1, [(16 - k, 40) for k in range(16)], [(a, b, 40 + (a + 3 * b) % 11) for a in range(16) for b in range(16)])
    ones = texts.table([texts.angular(1, [(1, 1)], [(0, 0, 1)]), b"sporadic 2 1 1 1\n", b"sporadic 3 1000 1000 1000\n", b"sporadic 4 7 99999 500\n"])
    for text in (*heavy, texts.table([light]), ones, texts.TABLE, BASE, *(random_table(rng) for _ in range(12))):
        lists.add("whole")
        lists.add("bench", 41)
        lists.load(text)
        for task in list(lists.tasks):
            gaps = rng.sample(sorted(task.gaps.values()), min(2, len(task.gaps)))
            near = {w for g in gaps for w in (g, g + 1, 2 * g, 2 * g + 1) if w <= 1000}
            for window in sorted({0, 1, 2, 500, 999, 1000, rng.randint(3, 998), *near}):
                lists.add("walk", task.number, window)
            lists.add("sheet")
        lists.look()


def refused_texts(lists, rng):
    """Texts that are refused at some line: bench and sheet are as they were, whatever came before it."""
    for text in (*texts.refused(), *texts.damaged(rng, 100)):
        if len(text) < 10000:
            lists.add("bench", 61)
            if lists.load(text) == "ok\n":
                lists.add("sheet")
                lists.add("whole")
            lists.add("most", 0, 100)
    lists.add("sheet")


def strangers_and_words(lists):
    """Lines that are no calls, numbers beyond 32 bits, and a bench that is dropped with its draft."""
    for line in (" ", " #", "judge ", "judge 1", "Judge", "put", "put 1 2 3 4", "put 1 2 3 4 5 6", "take", "take x", "take -1", "take 4294967296", "take 18446744073709551616", "short", "short list 1", "short lists", "fit ", "load", "load x", "load 1 2", "begin\t", "begin 1", "stop 1", "advance", "release 1 2", "worst 1", "walk 7", "remark #"):
        lists.add(line)
    remarks_and_digits(lists)
    lists.add("bench", 51)
    lists.add("short", "sheet")
    lists.load(b"x" * 65536)
    lists.load(b"x" * 65535)
    lists.add("whole")
    lists.add("bench", 4294967295)
    lists.add("open", 5, 0)
    lists.add("bench", 4294967295)
    lists.add("mode", 1, 2)
    lists.add("abandon")
    lists.add("open", 5, 0)
    lists.add("keep", 0)
    lists.add("open", 5, 0)
    lists.add("mode", 1, 2)
    lists.add("keep", 0)
    lists.add("open", 6, 0)
    lists.add("mode", 1, 2)
    lists.add("open", 7, 0)
    lists.add("abandon")
    lists.add("open", 7, 0)
    lists.look()


def remarks_and_digits(lists):
    """Lines that are passed over, also where they stand in a text, and numbers of ten digits and more."""
    lists.add("bench", 50)
    for line in ("", "#", "# judge", "#judge", "", "", "##", "#" * 300, "put 7 0 2 10 10", "# put 8 0 2 10 10", "judge"):
        lists.add(line)
    for text in (b"# a remark\nend 0 0\n", b"\nend 0 0\n", b"", b"#", texts.TABLE + b"#\n"):
        lists.add("bench", 50)
        lists.load(text)
        lists.add("#")
    lists.load(texts.TABLE)
    for line in ("bound 0000000007 0", "bound 00000000007 0", "bound 7 0000000000", "bound 7 00000000000", "most 4294967295 4294967295", "most 4294967296 1", "most 9999999999 1", "most 0 04294967295"):
        lists.add(line)
    for line in ("release 0000000020 01 03", "begin", "release 0000000020 01 03", "release 00000000020 1 3", "advance 00000000003", "advance 0000000003", "worst 020 001", "stop"):
        lists.add(line)
    lists.look()


VECTORS = os.path.join(os.path.dirname(os.path.abspath(__file__)), "vectors")


def vectors(lists):
    """The lists of another program, each on a new bench with new memory, and its answers."""
    for name in ("tables", "texts", "calls"):
        lists.add("whole")
        lists.add("bench", 1)
        with open(os.path.join(VECTORS, name + ".in"), "rb") as calls, open(os.path.join(VECTORS, name + ".out")) as answers:
            data, said = calls.read(), answers.read()
        assert console.answers(data) == said
        lists.calls.append(data)
        lists.answers.append(said)


def main():
    rng = random.Random(20261119)
    lists = Lists()
    examples(lists)
    documented(lists)
    strangers_and_words(lists)
    edges(lists, rng)
    states(lists, rng)
    refused_texts(lists, rng)
    round_trips(lists, rng, 40)
    shows(lists, rng)
    long_lists(lists, rng, 50, 120)
    runs.runs(lists, rng, BASE)
    vectors(lists)
    folder = os.path.join(os.path.dirname(os.path.abspath(__file__)), "..", "crates", "console")
    with open(os.path.join(folder, "stdin"), "wb") as calls:
        calls.write(b"".join(lists.calls))
    with open(os.path.join(folder, "stdout"), "w") as answers:
        answers.write("".join(lists.answers))


if __name__ == "__main__":
    main()
