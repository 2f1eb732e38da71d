"""The inputs of the benchmark: tables and lists of calls, the same at every run."""
import random

SEED = 20261127
CLOCK = 1000000


class Task:
    """Modes as (cost, deadline), and for each two modes that are linked the gap."""

    def __init__(self, number, modes, links, angular=True):
        self.number = number
        self.modes = modes
        self.links = links
        self.angular = angular

    def text(self):
        if not self.angular:
            cost, deadline = self.modes[0]
            return "sporadic %d %d %d %d\n" % (self.number, cost, self.links[0, 0], deadline)
        lines = ["angular %d\n" % self.number]
        lines += ["mode %d %d\n" % mode for mode in self.modes]
        lines += ["link %d %d %d\n" % (a, b, gap) for (a, b), gap in self.links.items()]
        return "".join(lines)


def text(tasks):
    blocks = [task.text() for task in tasks]
    return "".join(blocks) + "end %d %d\n" % (len(blocks), sum(map(len, blocks[:-1])))


def angular(rng, number, count, cost, deadline, gap, chance=1.0):
    """Each number is drawn from its range; each mode has a link to the next one, and others by chance."""
    modes = [(rng.randint(*cost), rng.randint(*deadline)) for _ in range(count)]
    links = {}
    for a in range(count):
        for b in range(count):
            if b == (a + 1) % count or rng.random() < chance:
                links[a, b] = rng.randint(max(gap[0], modes[a][1]), gap[1])
    return Task(number, modes, links)


def sporadic(rng, number, cost, period, deadline):
    return Task(number, [(rng.randint(*cost), rng.randint(*deadline))], {(0, 0): rng.randint(*period)}, False)


def largest(rng):
    """Eight angular tasks of sixteen modes with all their links, and eight sporadic ones, in turn."""
    tasks = []
    for k in range(8):
        tasks.append(angular(rng, 101 + k, 16, (1, 4), (180, 300), (200, 900)))
        tasks.append(sporadic(rng, 201 + k, (1, 5), (300, 2000), (200, 300)))
    return tasks


def typical(rng):
    """Four angular tasks of two to four modes, and six sporadic ones."""
    tasks = [angular(rng, 20 + k, rng.randint(2, 4), (1, 6), (60, 150), (150, 600), 0.6) for k in range(4)]
    tasks += [sporadic(rng, 40 + k, (1, 8), (200, 1000), (100, 200)) for k in range(6)]
    rng.shuffle(tasks)
    return tasks


def busy(rng):
    """Sixteen tasks, of both makes, whose jobs come often and overlap."""
    tasks = []
    for k in range(8):
        tasks.append(angular(rng, 101 + k, 4, (5, 15), (280, 400), (400, 800), 0.5))
        tasks.append(sporadic(rng, 201 + k, (5, 15), (400, 800), (300, 400)))
    return tasks


def as_texts(tables):
    """The input of `texts`."""
    return "".join("%d\n%s\n" % (len(t), t) for t in map(text, tables))


def as_calls(tables):
    """A list of calls that loads each table, judges it and asks for every bound."""
    calls = []
    for tasks in tables:
        table = text(tasks)
        calls.append("bench 1\nload %d\n%s\njudge\nverdict\n" % (len(table), table))
        calls += ["bound %d %d\n" % (task.number, mode) for task in tasks for mode in range(len(task.modes))]
    return "".join(calls)


def as_run(tasks, clock):
    """A list of calls that plays a run in which each task is released as soon as it may be, with its whole cost.

    A task goes on to the mode with the least gap.
    """
    table = text(tasks)
    calls = ["bench 1\nload %d\n%s\njudge\nbegin\n" % (len(table), table)]
    mode, free, now = [0] * len(tasks), [0] * len(tasks), 0
    while now < clock:
        for k, task in enumerate(tasks):
            if free[k] == now:
                calls.append("release %d %d %d\n" % (task.number, mode[k], task.modes[mode[k]][0]))
                gap, mode[k] = min((gap, b) for (a, b), gap in task.links.items() if a == mode[k])
                free[k] = now + gap
        ticks = min(min(free) - now, clock - now, 1000)
        calls.append("advance %d\n" % ticks)
        now += ticks
    calls += ["worst %d %d\n" % (task.number, m) for task in tasks for m in range(len(task.modes))]
    return "".join(calls) + "stop\n"


class Job:
    """A program and the inputs for it: the whole one to be timed, and a smaller one to count instructions on."""

    def __init__(self, name, program, fills, whole, small):
        self.name = name
        self.program = program
        # Whether it fills many work sheets.
        self.fills = fills
        self.whole = whole.encode()
        self.small = small.encode()


def jobs():
    rng = random.Random(SEED)
    large = [largest(rng) for _ in range(5)]
    usual = [typical(rng) for _ in range(50)]
    run = busy(rng)
    return [
        Job("largest table, texts", "texts", True, as_texts(large * 80), as_texts(large)),
        Job("typical table, texts", "texts", True, as_texts(usual * 160), as_texts(usual)),
        Job("largest table, console", "console", True, as_calls(large * 80), as_calls(large)),
        Job("typical table, console", "console", True, as_calls(usual * 120), as_calls(usual)),
        Job("run of a million ticks", "console", False, as_run(run, CLOCK), as_run(run, CLOCK // 20)),
    ]
