"""A model of the bench, written from docs/ alone. It shares no code with the product.

Every call of the bench with its refusals, the work sheet, loading and saving a text, judging and
bounds, and runs, tick by tick. Times are whole ticks. A call that refuses raises before it changes anything.
"""

RANGE, SHORT, COST, DEADLINE, FORM, TRAILER = 1, 2, 3, 4, 5, 6
RUN, DRAFT, TICKET, TASKS, ROOM, TAKEN, ABSENT, LINKED, GAP, LINK_OUT, REDUCED = 11, 12, 13, 14, 15, 16, 17, 18, 19, 20, 21
ABOVE_MODE, NOT_YET, ENDED, PAST = 22, 23, 24, 25

SHEET, WINDOWS, LIST, TEXT = 16016, 1001, 1000, 65535
CLOCK = 1000000


class Refused(Exception):
    def __init__(self, number):
        super().__init__(number)
        self.number = number


class Fault(Exception):
    """A refusal of load, with line, byte place and layer."""

    def __init__(self, number, line, place, layer):
        super().__init__(number)
        self.number = number
        self.words = "%d %d %d %s" % (number, line, place, layer)


def need(condition, number):
    if not condition:
        raise Refused(number)


def is_task(number):
    return 1 <= number <= 999


def is_place(place):
    return 0 <= place <= 15


def is_ticks(ticks):
    return 1 <= ticks <= 1000


def is_gap(gap):
    return 1 <= gap <= 100000


class Task:
    """A task of either make: modes are [cost, deadline], gaps a dictionary from (a, b) to ticks."""

    def __init__(self, number, angular):
        self.number = number
        self.angular = angular
        self.modes = []
        self.gaps = {}
        self.kept = None

    def copy(self):
        task = Task(self.number, self.angular)
        task.modes = [list(mode) for mode in self.modes]
        task.gaps = dict(self.gaps)
        return task

    def changed(self):
        self.kept = None

    def by_spans(self, window):
        """The greatest work of a walk whose gaps add up to less than the window: forward, by the
        span that a walk has used so far."""
        if window <= 0:
            return 0
        spans = [dict() for _ in range(window)]
        for m, (cost, _) in enumerate(self.modes):
            spans[0][m] = cost
        greatest = 0
        for used in range(window):
            for m, work in spans[used].items():
                greatest = max(greatest, work)
                for (a, b), gap in self.gaps.items():
                    if a == m and used + gap < window:
                        total = work + self.modes[b][0]
                        if spans[used + gap].get(b, 0) < total:
                            spans[used + gap][b] = total
        return greatest

    def rows(self):
        """For each mode m and window w the greatest work of a walk that begins in m and fits w: the
        mode alone, or the mode, a link whose gap is less than w, and a walk on from there."""
        if self.kept is None:
            rows = [[0] for _ in self.modes]
            out = [[] for _ in self.modes]
            for (a, b), gap in self.gaps.items():
                if gap < WINDOWS:
                    out[a].append((gap, rows[b]))
            for w in range(1, WINDOWS):
                fresh = []
                for m, (cost, _) in enumerate(self.modes):
                    onward = 0
                    for gap, row in out[m]:
                        if gap < w and row[w - gap] > onward:
                            onward = row[w - gap]
                    fresh.append(cost + onward)
                for row, work in zip(rows, fresh):
                    row.append(work)
            self.kept = rows
        return self.kept

    def most(self, window):
        """The greatest work of a walk that fits the window."""
        if not self.angular:
            return self.modes[0][0] * -(-window // self.gaps[(0, 0)])
        return max(row[window] for row in self.rows())

    def walk(self, window):
        """The modes of a walk that fits the window and has the most work. Which one is free."""
        if not self.angular:
            return [0] * -(-window // self.gaps[(0, 0)])
        rows, modes = self.rows(), []
        left = max(range(len(self.modes)), key=lambda m: rows[m][window]), window
        while left is not None and left[1] > 0:
            mode, window = left
            modes.append(mode)
            onward = rows[mode][window] - self.modes[mode][0]
            follows = ((b, window - gap) for (a, b), gap in self.gaps.items() if a == mode and gap < window)
            left = next(((b, w) for b, w in follows if rows[b][w] == onward), None)
        return modes

    def fill(self, sheet):
        """What the work sheet holds after this task was closed, changed or shown."""
        if self.angular:
            for m, row in enumerate(self.rows()):
                sheet[m * WINDOWS:(m + 1) * WINDOWS] = row

    def lines(self):
        """The task's lines of text."""
        if not self.angular:
            cost, deadline = self.modes[0]
            return "sporadic %d %d %d %d\n" % (self.number, cost, self.gaps[(0, 0)], deadline)
        lines = ["angular %d\n" % self.number]
        lines += ["mode %d %d\n" % (cost, deadline) for cost, deadline in self.modes]
        lines += ["link %d %d %d\n" % (a, b, self.gaps[(a, b)]) for a, b in sorted(self.gaps)]
        return "".join(lines)


class Job:
    def __init__(self, mode, released, work):
        self.mode = mode
        self.released = released
        self.left = work


class Run:
    """A run of tasks, by place. A task has at most one job with work left: its next release is no
    sooner than the deadline of the one before, and by then that one has ended or is late."""

    def __init__(self, tasks):
        self.tasks = tasks
        self.clock = 0
        self.jobs = {}
        self.last = {}
        self.longest = {}
        self.late = None

    def release(self, place, mode, cost):
        task = self.tasks[place]
        need(cost <= task.modes[mode][0], ABOVE_MODE)
        if place in self.last:
            before, released = self.last[place]
            need((before, mode) in task.gaps and self.clock - released >= task.gaps[(before, mode)], NOT_YET)
        need(self.late is None, ENDED)
        assert place not in self.jobs
        self.last[place] = mode, self.clock
        self.jobs[place] = Job(mode, self.clock, cost)

    def tick(self):
        """A unit to the highest place with work left; then the clock; then who is late."""
        if self.jobs:
            place = min(self.jobs)
            self.jobs[place].left -= 1
        self.clock += 1
        if self.jobs and self.jobs[place].left == 0:
            job = self.jobs.pop(place)
            taken = self.clock - job.released
            self.longest[place, job.mode] = max(taken, self.longest.get((place, job.mode), 0))
        for place in sorted(self.jobs):
            job = self.jobs[place]
            if job.released + self.tasks[place].modes[job.mode][1] == self.clock:
                self.late = self.tasks[place].number, job.mode
                return

    def advance(self, ticks):
        """The ticks that were done."""
        need(self.late is None, ENDED)
        need(self.clock + ticks <= CLOCK, PAST)
        begin = self.clock
        while self.late is None and self.clock < begin + ticks:
            self.tick()
        return self.clock - begin


class Bench:
    def __init__(self, number):
        self.number = number
        self.tasks = []
        self.draft = None
        self.run = None
        self.place = 0
        self.verdict = "none"
        self.bounds = {}

    def edited(self):
        self.verdict, self.bounds = "none", {}

    def find(self, number):
        return next((t for t in self.tasks if t.number == number), None)

    def with_mode(self, number, *modes):
        """The task of that number; 17 where it or one of the modes is not there."""
        task = self.find(number)
        need(task is not None and all(m < len(task.modes) for m in modes), ABSENT)
        return task

    # Edits

    def put(self, number, place, cost, period, deadline):
        need(is_task(number) and is_place(place) and is_ticks(cost) and is_ticks(deadline) and is_gap(period), RANGE)
        need(cost <= deadline, COST)
        need(deadline <= period, DEADLINE)
        need(self.run is None, RUN)
        need(self.draft is None, DRAFT)
        need(len(self.tasks) < 16, ROOM)
        need(self.find(number) is None, TAKEN)
        task = Task(number, False)
        task.modes.append([cost, deadline])
        task.gaps[(0, 0)] = period
        self.tasks.insert(place, task)
        self.edited()

    def take(self, number):
        need(is_task(number), RANGE)
        need(self.run is None, RUN)
        need(self.draft is None, DRAFT)
        task = self.with_mode(number)
        self.tasks.remove(task)
        self.edited()

    def lower(self, number, mode, cost, sheet):
        need(is_task(number) and is_place(mode) and is_ticks(cost), RANGE)
        need(len(sheet) >= SHEET, SHORT)
        need(self.run is None, RUN)
        need(self.draft is None, DRAFT)
        task = self.with_mode(number, mode)
        need(cost < task.modes[mode][0], REDUCED)
        task.modes[mode][0] = cost
        self.refilled(task, sheet)

    def widen(self, number, a, b, gap, sheet):
        need(is_task(number) and is_place(a) and is_place(b) and is_gap(gap), RANGE)
        need(len(sheet) >= SHEET, SHORT)
        need(self.run is None, RUN)
        need(self.draft is None, DRAFT)
        task = self.with_mode(number, a, b)
        need((a, b) in task.gaps, ABSENT)
        need(gap > task.gaps[(a, b)], REDUCED)
        task.gaps[(a, b)] = gap
        self.refilled(task, sheet)

    def cut(self, number, a, b, sheet):
        need(is_task(number) and is_place(a) and is_place(b), RANGE)
        need(len(sheet) >= SHEET, SHORT)
        need(self.run is None, RUN)
        need(self.draft is None, DRAFT)
        task = self.with_mode(number, a, b)
        need((a, b) in task.gaps, ABSENT)
        need(sum(from_ == a for from_, _ in task.gaps) > 1, LINK_OUT)
        del task.gaps[(a, b)]
        self.refilled(task, sheet)

    def refilled(self, task, sheet):
        task.changed()
        task.fill(sheet)
        self.edited()

    # The draft

    def open(self, number, place):
        """Answers the ticket, which bears the bench's number."""
        need(is_task(number) and is_place(place), RANGE)
        need(self.run is None, RUN)
        need(self.draft is None, DRAFT)
        need(len(self.tasks) < 16 and sum(t.angular for t in self.tasks) < 8, ROOM)
        need(self.find(number) is None, TAKEN)
        self.draft, self.place = Task(number, True), place
        return self.number

    def ours(self, ticket):
        need(ticket == self.number and self.draft is not None, TICKET)
        return self.draft

    def mode(self, ticket, cost, deadline):
        need(is_ticks(cost) and is_ticks(deadline), RANGE)
        need(cost <= deadline, COST)
        draft = self.ours(ticket)
        need(len(draft.modes) < 16, ROOM)
        draft.modes.append([cost, deadline])

    def link(self, ticket, a, b, gap):
        need(is_place(a) and is_place(b) and is_gap(gap), RANGE)
        draft = self.ours(ticket)
        need(a < len(draft.modes) and b < len(draft.modes), ABSENT)
        need((a, b) not in draft.gaps, LINKED)
        need(gap >= draft.modes[a][1], GAP)
        draft.gaps[(a, b)] = gap

    def close(self, ticket, sheet):
        need(len(sheet) >= SHEET, SHORT)
        draft = self.ours(ticket)
        need(draft.modes, LINK_OUT)
        need(all(any(a == m for a, _ in draft.gaps) for m in range(len(draft.modes))), LINK_OUT)
        self.tasks.insert(self.place, draft)
        self.draft = None
        draft.fill(sheet)
        self.edited()

    def abandon(self, ticket):
        if ticket == self.number:
            self.draft = None

    # The run

    def begin(self):
        """Answers the ticket, which bears the bench's number."""
        need(self.run is None, RUN)
        need(self.draft is None, DRAFT)
        self.run = Run(self.tasks)
        return self.number

    def running(self, ticket):
        need(ticket == self.number and self.run is not None, TICKET)
        return self.run

    def release(self, ticket, number, mode, cost):
        need(is_task(number) and is_place(mode) and is_ticks(cost), RANGE)
        run = self.running(ticket)
        task = self.with_mode(number, mode)
        run.release(self.tasks.index(task), mode, cost)

    def advance(self, ticket, ticks):
        """The ticks done, and the late task and mode, if any."""
        need(is_ticks(ticks), RANGE)
        run = self.running(ticket)
        return run.advance(ticks), run.late

    def worst(self, ticket, number, mode):
        need(is_task(number) and is_place(mode), RANGE)
        run = self.running(ticket)
        task = self.with_mode(number, mode)
        return run.longest.get((self.tasks.index(task), mode), 0)

    def stop(self, ticket):
        """The clock; 0 of a stranger's ticket, which is only ended."""
        if ticket != self.number or self.run is None:
            return 0
        clock, self.run = self.run.clock, None
        return clock

    # Text

    def load(self, text, sheet):
        for condition, number in ((len(text) <= TEXT, RANGE), (len(sheet) >= SHEET, SHORT), (self.run is None, RUN), (self.draft is None, DRAFT), (not self.tasks, TASKS)):
            if not condition:
                raise Fault(number, 0, 0, "table")
        work = list(sheet)
        self.tasks = read(text, work)
        sheet[:] = work
        self.edited()

    def save(self):
        blocks = [t.lines() for t in self.tasks]
        return "".join(blocks) + "end %d %d\n" % (len(blocks), sum(map(len, blocks[:-1])))

    # Judging and questions

    def judge(self):
        rows, self.verdict = judge(self.tasks)
        self.bounds = {(number, mode): bound for number, mode, bound in rows}
        return self.verdict

    def bound(self, number, mode):
        need(is_task(number) and is_place(mode), RANGE)
        self.with_mode(number, mode)
        return self.bounds.get((number, mode), 0)

    def most(self, place, window):
        """What the table as a line answers: 0 outside the ranges."""
        return self.tasks[place].most(window) if place < len(self.tasks) and window <= 1000 else 0

    def show(self, number, window, sheet, cells):
        """A walk that may be shown in a list of so many cells, with the most work."""
        need(is_task(number) and 0 <= window <= 1000, RANGE)
        need(len(sheet) >= SHEET and cells >= LIST, SHORT)
        task = self.with_mode(number)
        task.fill(sheet)
        walk = task.walk(window)
        assert self.span(task, walk) < window or not walk
        assert sum(task.modes[mode][0] for mode in walk) == task.most(window)
        return walk

    def span(self, task, walk):
        return sum(task.gaps[link] for link in zip(walk, walk[1:]))


FORMS = {b"sporadic": 4, b"angular": 1, b"mode": 2, b"link": 3, b"end": 2}


def form_of(line):
    """The keyword and numbers of a line without its line feed, or None."""
    words = line.split(b" ")
    if FORMS.get(words[0]) != len(words) - 1:
        return None
    numbers = []
    for word in words[1:]:
        if not 1 <= len(word) <= 6 or any(not 48 <= byte <= 57 for byte in word):
            return None
        if len(word) > 1 and word[0] == 48:
            return None
        numbers.append(int(word))
    return words[0].decode(), numbers


def read(text, sheet):
    """The tasks of a text, or a Fault. The sheet is as the closes leave it."""
    bench, ticket, last, place, number = Bench(0), None, 0, 0, 0

    def step(layer, call, *args):
        try:
            return call(*args)
        except Refused as refusal:
            raise Fault(refusal.number, number, place, layer)

    while place < len(text):
        number += 1
        end = text.find(b"\n", place)
        form = form_of(text[place:end]) if end >= 0 else None
        if form is None:
            raise Fault(FORM, number, place, "text")
        key, ns = form
        if key in ("sporadic", "angular", "end") and ticket is not None:
            step("task", bench.close, ticket, sheet)
            ticket = None
        if key == "sporadic":
            n, c, t, d = ns
            step("table", bench.put, n, 15, c, t, d)
            last = place
        elif key == "angular":
            ticket = step("table", bench.open, ns[0], 15)
            last = place
        elif key == "end":
            if ns != [len(bench.tasks), last]:
                raise Fault(TRAILER, number, place, "text")
            if end + 1 < len(text):
                raise Fault(TRAILER, number + 1, end + 1, "text")
            return bench.tasks
        elif ticket is None:
            raise Fault(FORM, number, place, "text")
        elif key == "mode":
            step("task", bench.mode, ticket, *ns)
        else:
            step("task", bench.link, ticket, *ns)
        place = end + 1
    raise Fault(TRAILER, number + 1, len(text), "text")


def judge(tasks):
    """Lines (task, mode, bound) and the verdict; bound 0 where none is shown."""
    sums = [0] * 1001
    rows, verdict = [], "fits"
    for place, task in enumerate(tasks):
        for m, (cost, deadline) in enumerate(task.modes):
            bound = 0
            if verdict == "fits":
                bound = next((w for w in range(1, deadline + 1) if cost + sums[w] <= w), 0)
                if bound == 0:
                    verdict = "over %d %d" % (task.number, m)
            rows.append((task.number, m, bound))
        if verdict == "fits" and place + 1 < len(tasks):
            top = max(d for t in tasks[place + 1:] for _, d in t.modes)
            for w in range(1, top + 1):
                sums[w] += task.most(w)
    return rows, verdict


def report(text):
    """What the judging program prints of a text."""
    try:
        bench = Bench(1)
        bench.load(text, [0] * SHEET)
        rows, verdict = judge(bench.tasks)
    except Fault as fault:
        return "refused %s\n" % fault.words
    return "".join("%d %d %d\n" % row for row in rows) + verdict + "\n"
