"""Compares the programs with the model on any number of lists of calls and of texts:

    python3 reference/compare.py [LISTS [SEED]]

It builds nothing: crates/console/out/console and crates/texts/out/texts have to be there (`rt run` in each crate makes
them). LISTS is how many lists of each kind are made (20), SEED where chance begins (1). The first difference is shown,
with the call and the seed that lead to it, and the status is then 1.
"""
import os
import random
import subprocess
import sys

import calls
import model
import runs
import texts

CRATES = os.path.join(os.path.dirname(os.path.abspath(__file__)), "..", "crates")


def output(program, data):
    path = os.path.join(CRATES, program, "out", program)
    return subprocess.run([path], input=data, stdout=subprocess.PIPE, check=True).stdout


def list_of(seed):
    """A list of calls of every kind, with the model's answers."""
    rng = random.Random(seed)
    lists = calls.Lists()
    for part in (lambda: calls.long_lists(lists, rng, 2, 150), lambda: runs.many(lists, rng, 3, 60), lambda: calls.round_trip(lists, calls.random_table(rng))):
        lists.add("whole")
        part()
    return lists


def first_difference(lists, found):
    """The first call whose answer differs, the answer that is wanted, and the one that was given."""
    place = 0
    for call, wanted in zip(lists.calls, lists.answers):
        given = found[place:place + len(wanted)]
        if given != wanted:
            return call, wanted, given
        place += len(wanted)
    return (b"", "", found[place:]) if found[place:] else None


def compare_calls(seed):
    lists = list_of(seed)
    return first_difference(lists, output("console", b"".join(lists.calls)).decode())


def compare_texts(seed):
    rng = random.Random(seed)
    for text in (*texts.tables(rng, 4), *texts.damaged(rng, 16)):
        wanted = model.report(text)
        given = output("texts", b"%d\n%s\n" % (len(text), text)).decode()
        if given != wanted:
            return text, wanted, given
    return None


def main():
    count = int(sys.argv[1]) if len(sys.argv) > 1 else 20
    first = int(sys.argv[2]) if len(sys.argv) > 2 else 1
    for seed in range(first, first + count):
        for compare in (compare_calls, compare_texts):
            difference = compare(seed)
            if difference:
                what, wanted, given = difference
                print(f"seed {seed}: {what!r}\nwanted {wanted!r}\ngiven  {given!r}")
                sys.exit(1)
    print(f"{count} lists of calls and {count * 20} texts from seed {first} on: no difference")


if __name__ == "__main__":
    main()
