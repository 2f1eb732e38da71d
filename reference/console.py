"""Answers a list of calls as the console does, by the model alone: python3 reference/console.py < LIST

docs/CALLS.md has the calls, docs/CONSOLE.md how they are written.
"""
import sys

import model

# How many cells a long sheet and a long list have above what is asked for.
MORE = 16


def new_sheet(length):
    return [3000000 + 7 * k for k in range(length)]


def new_output(length):
    return [35 + k % 7 for k in range(length)]


def digest(cells):
    value = 1
    for cell in cells:
        value = (value * 16777619 + cell) % 4294967296
    return value


def numbers_of(words):
    """The numbers of 32 bits that the words spell in one to ten digits, or None."""
    if any(not word.isdigit() or len(word) > 10 or int(word) > 4294967295 for word in words):
        return None
    return [int(word) for word in words]


# How many numbers each call has.
ARITY = {
    "bench": 1, "keep": 1, "put": 5, "take": 1, "lower": 3, "widen": 4, "cut": 3, "open": 2, "mode": 2, "link": 3,
    "close": 0, "abandon": 0, "save": 0, "judge": 0, "verdict": 0, "bound": 2, "most": 2, "show": 2, "walk": 2,
    "begin": 0, "release": 3, "advance": 1, "worst": 2, "stop": 0,
    "sheet": 0, "output": 0, "whole": 0,
}


class Console:
    def __init__(self):
        self.desk = model.Bench(1)
        self.ticket = None
        self.running = None
        self.whole()

    def answer(self, line, text=None):
        """The answer to a call, with its line feed, and nothing to a line that is passed over. A load
        brings its text."""
        if line == b"" or line.startswith(b"#"):
            return ""
        words = line.split(b" ")
        name = words[0].decode("latin-1")
        if name == "load" and text is not None:
            return self.load(text)
        if name in ("short", "fit", "long") and len(words) == 2 and words[1] in (b"sheet", b"list", b"output"):
            self.lend(words[1].decode(), name)
            return "ok\n"
        numbers = numbers_of(words[1:])
        if numbers is None or ARITY.get(name) != len(numbers):
            return "unknown\n"
        try:
            said = getattr(self, name)(*numbers)
        except model.Refused as refusal:
            return "refused %d\n" % refusal.number
        if said is None:
            return "ok\n"
        return said if name == "save" else "%s\n" % said

    def load(self, text):
        try:
            self.desk.load(text, self.cells)
        except model.Fault as fault:
            return "refused %s\n" % fault.words
        return "ok\n"

    # The bench, and the tickets in hand

    def bench(self, number):
        self.ticket = self.running = None
        self.desk = model.Bench(number)

    def keep(self, number):
        self.desk = model.Bench(number)

    def open(self, number, place):
        ticket = self.desk.open(number, place)
        if self.ticket is not None:
            self.desk.abandon(self.ticket)
        self.ticket = ticket

    def mode(self, cost, deadline):
        return "no draft" if self.ticket is None else self.desk.mode(self.ticket, cost, deadline)

    def link(self, a, b, gap):
        return "no draft" if self.ticket is None else self.desk.link(self.ticket, a, b, gap)

    def close(self):
        if self.ticket is None:
            return "no draft"
        self.desk.close(self.ticket, self.cells)
        self.ticket = None

    def abandon(self):
        if self.ticket is None:
            return "no draft"
        self.desk.abandon(self.ticket)
        self.ticket = None

    # Runs

    def begin(self):
        running = self.desk.begin()
        if self.running is not None:
            self.desk.stop(self.running)
        self.running = running

    def release(self, *numbers):
        return "no run" if self.running is None else self.desk.release(self.running, *numbers)

    def advance(self, ticks):
        if self.running is None:
            return "no run"
        done, late = self.desk.advance(self.running, ticks)
        return done if late is None else "%d late %d %d" % (done, *late)

    def worst(self, *numbers):
        return "no run" if self.running is None else self.desk.worst(self.running, *numbers)

    def stop(self):
        if self.running is None:
            return "no run"
        clock, self.running = self.desk.stop(self.running), None
        return clock

    # Edits and questions

    def put(self, *numbers):
        self.desk.put(*numbers)

    def take(self, number):
        self.desk.take(number)

    def lower(self, *numbers):
        self.desk.lower(*numbers, self.cells)

    def widen(self, *numbers):
        self.desk.widen(*numbers, self.cells)

    def cut(self, *numbers):
        self.desk.cut(*numbers, self.cells)

    def judge(self):
        return self.desk.judge()

    def verdict(self):
        return self.desk.verdict

    def bound(self, number, mode):
        return self.desk.bound(number, mode)

    def most(self, place, window):
        return self.desk.most(place, window)

    def show(self, number, window):
        walk = self.desk.show(number, window, self.cells, self.list)
        return " ".join(map(str, [len(walk), *walk]))

    def walk(self, number, window):
        """The work of any walk that may be shown."""
        self.desk.show(number, window, self.cells, self.list)
        return "%d fits" % self.desk.find(number).most(window)

    def save(self):
        text = self.desk.save()
        model.need(len(self.bytes) >= len(text), model.SHORT)
        self.bytes[:len(text)] = text.encode()
        return text

    # The lent memory

    def sheet(self):
        return digest(self.cells)

    def output(self):
        return digest(self.bytes)

    def whole(self):
        self.cells, self.list, self.bytes = new_sheet(model.SHEET), model.LIST, new_output(model.TEXT)

    def lend(self, memory, length):
        """Makes lent memory anew: one cell too few, just enough, or more. Of the list only its
        length matters here."""
        by = {"short": -1, "fit": 0, "long": MORE}[length]
        if memory == "sheet":
            self.cells = new_sheet(model.SHEET + by)
        elif memory == "list":
            self.list = model.LIST + by
        else:
            self.bytes = new_output(model.TEXT if length == "long" else len(self.desk.save()) + by)


def calls_of(data):
    """The calls of a list, each a line and the text that it brings, if any."""
    place = 0
    while place < len(data):
        end = data.find(b"\n", place)
        if end < 0:
            end = len(data)
        line, place = data[place:end], end + 1
        words = line.split(b" ")
        length = numbers_of(words[1:]) if words[0] == b"load" and len(words) == 2 else None
        if length is not None and place + length[0] < len(data):
            begin, place = place, place + length[0] + 1
            yield line, data[begin:place - 1]
        else:
            yield line, None


def answers(data):
    console = Console()
    return "".join(console.answer(line, text) for line, text in calls_of(data))


def main():
    sys.stdout.write(answers(sys.stdin.buffer.read()))


if __name__ == "__main__":
    main()
