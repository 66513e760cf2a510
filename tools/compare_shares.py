#!/usr/bin/env python3
"""Compares the program share with the sharing rules written once more, on small and on random questions, and on texts that
ask nothing: what it prints to standard output and to standard error, and its status.

Usage: tools/compare_shares.py [HOW_MANY [SEED]]
"""
import random
import subprocess
import sys
from pathlib import Path

TOOLS = Path(__file__).resolve().parent
SHARE = subprocess.run([TOOLS / "built", "share"], stdout=subprocess.PIPE, text=True, check=True).stdout.strip()
NAMES = "place,need,line_order,proportion,parts_over_line_order,parts_over_proportion"

NO_NUMBER = "this is no number of up to ten digits without a needless zero in front"
NO_END = "the line does not end in a line feed"

# texts that ask nothing, each with the line that tells why
NO_QUESTIONS = {
    "": f"line 1: {NO_END}",
    "5,3": f"line 1: {NO_END}",
    "5\n": "line 1, field 2: the line ends before its first need",
    "5,3,03\n": f"line 1, field 3: {NO_NUMBER}",
    "5,-3\n": f"line 1, field 2: {NO_NUMBER}",
    "5," + 2000 * "1" + "\n": f"line 1, field 2: {NO_NUMBER}",
    "5" + 33 * ",3" + "\n": "line 1, field 34: the line has more fields than it may",
    "5,3\n5000": f"line 2: {NO_END}",
    "5,3\n\n": f"line 2, field 1: {NO_NUMBER}",
    "5,3\n5000,x\n": f"line 2, field 2: {NO_NUMBER}",
    "5,3\n1" + 32 * ",1" + "\n": "line 2, field 33: the line has more fields than it may",
    "5,3\n5000\n\n": "line 3: the text goes on after its second line",
}


def line_order(pool, needs):
    shares = []
    for need in needs:
        shares.append(min(need, pool - sum(shares)))
    return shares


def proportion(pool, needs):
    whole = sum(needs)
    given = min(pool, whole)
    if whole == 0:
        return [0] * len(needs)
    marks = [given * sum(needs[:place]) // whole for place in range(len(needs) + 1)]
    return [marks[place + 1] - marks[place] for place in range(len(needs))]


def with_parts(rule, parts, pool, needs):
    first = [min(need, pool * part // 10_000) for need, part in zip(needs, parts)]
    rest = rule(pool - sum(first), [need - own for need, own in zip(needs, first)])
    return [own + more for own, more in zip(first, rest)]


def answer(pool, needs, parts):
    """The table, or the line of the refusal."""
    if pool > 1_000_000_000 or any(need > 2_000_000 for need in needs):
        return "refused by 8: the pool is over 1000000000 kWh or a need over 2000000 kWh"
    if sum(parts) > 10_000:
        return "refused by 9: there are not 32 parts, or they add up to over 10000"
    parts = parts + [0] * (32 - len(parts))
    columns = [
        line_order(pool, needs),
        proportion(pool, needs),
        with_parts(line_order, parts, pool, needs),
        with_parts(proportion, parts, pool, needs),
    ]
    rows = [[place, need] + [column[place] for column in columns] for place, need in enumerate(needs)]
    rows.append(["left", "-"] + [pool - sum(column) for column in columns])
    return "\n".join([NAMES] + [",".join(map(str, row)) for row in rows]) + "\n"


def question(rng):
    most = rng.choice([1, 3, 10, 1000, 2_000_000, 2_000_001])
    needs = [rng.randint(0, most) for _ in range(rng.choice([1, 2, 3, 7, 31, 32]))]
    pool = rng.choice([0, rng.randint(0, 2 * sum(needs) + 1), 1_000_000_000, 1_000_000_001, 9_999_999_999])
    parts, left = [], rng.choice([0, 1, 9_999, 10_000, 10_000, 10_001])
    for _ in range(rng.choice([0, 1, 2, 5, 32])):
        parts.append(rng.randint(0, left))
        left -= parts[-1]
    if parts and rng.random() < 0.5:
        parts[rng.randrange(len(parts))] += left
    return pool, needs, parts


def told(text):
    """What share prints to standard output and to standard error, and its status."""
    run = subprocess.run([SHARE], input=text.encode(), capture_output=True, check=False)
    return run.stdout.decode(), run.stderr.decode(), run.returncode


def text_of(pool, needs, parts):
    lines = [[pool] + needs] + ([parts] if parts else [])
    return "".join(",".join(map(str, line)) + "\n" for line in lines)


def compare(text, expected):
    """Fails where share does not answer the text by a table, or else by one line."""
    wanted = (expected, "", 0) if expected.startswith(NAMES) else ("", expected + "\n", 1)
    found = told(text)
    if found != wanted:
        sys.exit(f"this text differs:\n{text}expected {wanted}\nfound {found}")


def main():
    how_many = int(sys.argv[1]) if len(sys.argv) > 1 else 2000
    seed = int(sys.argv[2]) if len(sys.argv) > 2 else 1
    rng = random.Random(seed)
    small = [(pool, needs, []) for pool in (0, 9, 10) for needs in ([0], [1], [10], [1, 2], [10, 2], [1, 2, 3])]
    questions = small + [question(rng) for _ in range(how_many)]
    refused = 0
    for pool, needs, parts in questions:
        expected = answer(pool, needs, parts)
        refused += expected.startswith("refused")
        compare(text_of(pool, needs, parts), expected)
    for text, line in NO_QUESTIONS.items():
        compare(text, line)
    print(f"{len(questions)} questions agree, {refused} of them refused, and {len(NO_QUESTIONS)} texts that ask nothing")


main()
