"""Writes crates/texts/stdin and stdout: texts of every kind, and what is to be reported of each,
worked out by model.py. Run it with Python's standard library: python3 reference/texts.py
"""
import os
import random

import model

TABLE = b"""sporadic 7 2 10 10
angular 20
mode 5 20
mode 3 12
link 0 0 30
link 0 1 20
link 1 0 15
link 1 1 12
sporadic 30 6 50 30
end 3 98
"""


def angular(number, modes, links):
    lines = [b"angular %d\n" % number]
    lines += [b"mode %d %d\n" % m for m in modes]
    lines += [b"link %d %d %d\n" % l for l in links]
    return b"".join(lines)


def table(blocks):
    """The text of tasks, each with all its lines, and a right trailer."""
    last = sum(len(b) for b in blocks[:-1])
    return b"".join(blocks) + b"end %d %d\n" % (len(blocks), last)


def full(number, modes=16, cost=1, deadline=10, gap=10):
    links = [(a, b, gap) for a in range(modes) for b in range(modes)]
    return angular(number, [(cost, deadline)] * modes, links)


def heavy(deadline):
    modes = [(1, 10)] * 15 + [(9, 10)]
    links = [(a, b, 10) for a in range(16) for b in range(16)]
    return table([angular(1, modes, links), b"sporadic 2 2 100 %d\n" % deadline])


def sporadics(n, first=1):
    return [b"sporadic %d 1 1000 1000\n" % (first + k) for k in range(n)]


def spelled(word, numbers):
    return b" ".join([word, *(b"%d" % n for n in numbers)]) + b"\n"


EDGES = (0, 1, 2, 15, 16, 999, 1000, 1001, 100000, 100001, 999999, 1000000, 4294967295)


def text_edges():
    """Each number of each form at the edges of every range, in a text that is right otherwise."""
    right = [(b"sporadic", [7, 2, 10, 10]), (b"angular", [20]), (b"mode", [5, 20]), (b"link", [0, 0, 30])]
    lines = [spelled(*line) for line in right]
    tasks = b"".join(lines)
    trailer = [2, len(lines[0])]
    for value in EDGES:
        for k, (word, numbers) in enumerate(right):
            for at in range(len(numbers)):
                changed = [*lines]
                changed[k] = spelled(word, numbers[:at] + [value] + numbers[at + 1 :])
                yield table([changed[0], b"".join(changed[1:])])
        for at in range(len(trailer)):
            yield tasks + spelled(b"end", trailer[:at] + [value] + trailer[at + 1 :])


def examples():
    yield TABLE
    yield TABLE.replace(b"6 50 30", b"6 50 18")
    yield TABLE.replace(b"6 50 30", b"6 50 17")
    yield b"end 0 0\n"
    yield heavy(20)
    yield heavy(19)


def refused():
    one = b"sporadic 7 2 10 10\n"
    ring = angular(20, [(5, 20)], [(0, 0, 30)])
    # 1: numbers out of range, and a text too long
    yield from (b"sporadic 0 2 10 10\n", b"sporadic 1000 2 10 10\n", b"sporadic 7 0 10 10\n", b"sporadic 7 1001 2000 1001\n")
    yield from (b"sporadic 7 2 0 10\n", b"sporadic 7 2 100001 10\n", b"sporadic 7 2 10 0\n", b"sporadic 7 2 10000 1001\n")
    yield from (b"angular 0\n", b"angular 1000\n", one + b"angular 999999\n")
    yield from (b"angular 20\nmode 0 1\n", b"angular 20\nmode 1 0\n", b"angular 20\nmode 1 1001\n", b"angular 20\nmode 1001 1000\n")
    yield from (b"angular 20\nmode 5 20\nlink 16 0 30\n", b"angular 20\nmode 5 20\nlink 0 16 30\n")
    yield from (b"angular 20\nmode 5 20\nlink 0 0 0\n", b"angular 20\nmode 5 20\nlink 0 0 100001\n")
    yield b"x" * 65536
    yield b"x" * 65535
    # 3 and 4: the order of cost, deadline and period
    yield from (b"sporadic 7 11 20 10\n", b"sporadic 7 2 10 20\n", b"sporadic 7 21 10 20\n", b"angular 20\nmode 6 5\n")
    # 5: no form
    lines = [b"\n", b" \n", b"sporadic\n", b"sporadic 7 2 10\n", b"sporadic 7 2 10 10 \n", b"sporadic  7 2 10 10\n", b"sporadic 7 2 10 10 1\n"]
    lines += [b"Sporadic 7 2 10 10\n", b"sporadi 7 2 10 10\n", b"sporadics 7 2 10 10\n", b"angular\n", b"angular 20 1\n", b"mode 1\n", b"end 0\n", b"end 0 0 0\n"]
    lines += [b"angular 020\n", b"angular 00\n", b"angular -1\n", b"angular +1\n", b"angular 1000000\n", b"angular 0x1\n", b"angular 2\r\n", b"angular \xc3\xa9\n"]
    lines += [b"\x00\n", b"\xff\xfe\n", b"angular 2\x00\n", b"angular\t2\n", b"mode 5 20\n", b"link 0 0 30\n", b"7\n", b"end 00 0\n"]
    yield from lines
    yield from (one + line for line in lines)
    yield from (one.rstrip(b"\n"), TABLE.rstrip(b"\n"), b"end 0 0", b"e", ring + b"mode", one + b"mode 5 20\n", one + b"link 0 0 30\n")
    yield ring + one.replace(b"7", b"8") + b"mode 1 2\n"
    # 5 and 6, and not 20: neither a formless line nor the text's end closes the task above
    yield from (b"angular 20\nmode 5 20\nx\n", b"angular 20\nmode 5 20\n")
    # 6: the trailer
    yield from (b"", one, ring, TABLE[:-9], b"end 1 0\n", b"end 0 1\n", one + b"end 0 0\n", one + b"end 1 1\n", one + b"end 2 0\n")
    yield from (one + ring + b"end 2 0\n", one + ring + b"end 2 %d\n" % (len(one) + 1), TABLE + b"\n", TABLE + b"end 3 98\n", TABLE + b"x", b"end 0 0\nend 0 0\n", TABLE + one)
    # 15: no room
    yield table(sporadics(16))
    yield table(sporadics(17))
    yield table([angular(k, [(1, 10)], [(0, 0, 10)]) for k in range(1, 9)])
    yield table([angular(k, [(1, 10)], [(0, 0, 10)]) for k in range(1, 10)])
    yield table([full(5)])
    yield angular(20, [(1, 10)] * 17, [])
    yield b"".join(sporadics(16)) + b"angular 900\n"
    # 16 and 17: taken, and not there
    yield from (one + one, one + b"angular 7\n", ring + b"sporadic 20 1 10 10\n", ring + b"angular 20\n")
    yield from (b"angular 20\nlink 0 0 30\n", b"angular 20\nmode 5 20\nlink 1 0 30\n", b"angular 20\nmode 5 20\nlink 0 1 30\n", b"angular 20\nmode 5 20\nlink 15 15 30\n")
    # 18 and 19: linked, and below the deadline
    yield from (ring + b"link 0 0 30\n", ring + b"link 0 0 19\n", b"angular 20\nmode 5 20\nlink 0 0 19\n", b"angular 20\nmode 5 20\nlink 0 0 20\n")
    # 20: a task that is not whole, at the line that ends it
    for end in (one, b"angular 21\n", b"end 1 0\n", b"sporadic 0 0 0 0\n", b"end 9 9\n"):
        yield b"angular 20\n" + end
        yield b"angular 20\nmode 5 20\n" + end
        yield b"angular 20\nmode 5 20\nmode 3 12\nlink 0 1 20\n" + end
    # refusals by rising number
    yield from (b"sporadic 0 11 5 10\n", b"sporadic 7 11 5 10\n", b"".join(sporadics(16)) + b"sporadic 1 11 20 10\n", b"".join(sporadics(16)) + b"sporadic 1 1 20 10\n")


def random_block(rng, number):
    if rng.random() < 0.5:
        deadline = rng.choice((5, 10, 20, 50, 100, 1000))
        return b"sporadic %d %d %d %d\n" % (number, rng.randint(1, max(1, deadline // 5)), rng.randint(deadline, 4 * deadline), deadline)
    count = rng.choice((1, 2, 3, 5))
    modes = []
    for _ in range(count):
        deadline = rng.choice((8, 12, 30, 90, 400))
        modes.append((rng.randint(1, max(1, deadline // 4)), deadline))
    links = []
    for a in range(count):
        follow = rng.sample(range(count), rng.randint(1, count))
        links += [(a, b, rng.randint(modes[a][1], 3 * modes[a][1])) for b in follow]
    rng.shuffle(links)
    return angular(number, modes, links)


def tables(rng, n):
    for _ in range(n):
        numbers = rng.sample(range(1, 1000), rng.randint(1, 8))
        yield table([random_block(rng, k) for k in numbers])


def damaged(rng, n):
    for text in tables(rng, n):
        bytes_ = bytearray(text)
        for _ in range(rng.randint(1, 3)):
            at = rng.randrange(len(bytes_))
            kind = rng.random()
            if kind < 0.4:
                bytes_[at] = rng.choice(b"0123456789 \nx")
            elif kind < 0.7:
                del bytes_[at]
            else:
                bytes_.insert(at, rng.choice(b"0123456789 \n"))
        yield bytes(bytes_)


def main():
    rng = random.Random(20261118)
    cases = [*examples(), *refused(), *text_edges(), *tables(rng, 60), *damaged(rng, 120)]
    folder = os.path.join(os.path.dirname(os.path.abspath(__file__)), "..", "crates", "texts")
    with open(os.path.join(folder, "stdin"), "wb") as texts, open(os.path.join(folder, "stdout"), "w") as reports:
        for text in cases:
            texts.write(b"%d\n" % len(text) + text + b"\n")
            reports.write(model.report(text))


if __name__ == "__main__":
    main()
