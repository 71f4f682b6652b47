#!/usr/bin/env python3
"""Writes a film for other solvers: `film.py FILM.csv asp|dzn|lp|sets`.

Rows `before` aren't read. The film is reduced first: actors who never wait are set apart, scenes of equal cast
are joined, and so are actors of the same scenes. What is paid in any order is `base`; the rest is paid for waiting.
"""
import csv
import itertools
import sys


def read(name):
    """The days and casts of the scenes, the hold rates of the actors, and what is paid in any order."""
    with open(name, newline="", encoding="utf-8-sig") as text:
        rows = [[field.strip() for field in row] for row in csv.reader(text)]
    rows = [row for row in rows if any(row)]
    rates = [int(field) for field in rows[1][2:]]
    holds, rest = rates, rows[2:]
    if rest[0][0].lower() == "hold":
        holds, rest = [int(field) for field in rest[0][2:]], rest[1:]
    scenes = [row for row in rest if row[0].lower() != "before"]
    days = [int(row[1]) for row in scenes]
    casts = [{actor for actor, mark in enumerate(row[2:]) if mark in ("x", "X", "1")} for row in scenes]
    base = sum(days[scene] * rates[actor] for scene, cast in enumerate(casts) for actor in cast)
    return days, casts, dict(enumerate(holds)), base


def reduce(days, casts, holds):
    """The same film with fewer scenes and actors, the waiting of which costs the same."""
    while True:
        scenes_of = {actor: frozenset(s for s, cast in enumerate(casts) if actor in cast) for actor in holds}
        idle = {actor for actor in holds if holds[actor] == 0 or len(scenes_of[actor]) < 2}
        joined_days, joined_holds = {}, {}
        for scene, cast in enumerate(casts):
            key = frozenset(cast - idle)
            joined_days[key] = joined_days.get(key, 0) + days[scene]
        for actor in holds:
            if actor not in idle:
                key = scenes_of[actor]
                joined_holds.setdefault(key, [actor, 0])[1] += holds[actor]
        kept = dict(joined_holds.values())
        before = len(casts), len(holds)
        casts = [set(cast) & set(kept) for cast in joined_days]
        days, holds = list(joined_days.values()), kept
        if before == (len(casts), len(holds)):
            numbers = {actor: number for number, actor in enumerate(holds)}
            return days, [{numbers[actor] for actor in cast} for cast in casts], list(holds.values())


def write_dzn(days, casts, holds, base):
    works = ["{" + ", ".join(str(s + 1) for s, cast in enumerate(casts) if a in cast) + "}" for a in range(len(holds))]
    print(f"scenes = {len(days)};\nactors = {len(holds)};\nbase = {base};")
    print(f"days = {days};\nhold = {holds};\nworks = [{', '.join(works)}];")


def write_asp(days, casts, holds, base):
    print(f"base({base}).")
    print(*[f"days({scene + 1}, {number})." for scene, number in enumerate(days)])
    print(*[f"hold({actor + 1}, {rate})." for actor, rate in enumerate(holds)])
    print(*[f"works({actor + 1}, {scene + 1})." for scene, cast in enumerate(casts) for actor in sorted(cast)])


def write_sets(days, casts, holds, base):
    print(len(days), len(holds), base)
    print(*days)
    print(*holds)
    print(*[sum(1 << actor for actor in cast) for cast in casts])


def total(terms):
    """A sum in the LP format, a few terms a row."""
    return "".join(("\n " if place % 8 == 7 else " ") + term for place, term in enumerate(terms))


def write_lp(days, casts, holds, base):
    """p_i_j: scene i is shot before scene j, where i < j. m_i_s_j: s is shot between i and j, where i < j.
    w_a_s: actor a waits while s is shot. Only the p need be asked to be whole."""
    every = range(len(days))
    rows = ["p_0_1 = 1"] if len(days) > 1 else []

    def after(factor, i, s):
        """The factor times whether i is shot before s, as a term and a constant."""
        if i < s:
            return f"{'+' if factor > 0 else '-'} p_{i}_{s}", 0
        return f"{'-' if factor > 0 else '+'} p_{s}_{i}", factor

    for i, j, k in itertools.combinations(every, 3):
        # No cycle of three in either direction; one of the three is in the middle, and the p say which.
        rows.append(f"p_{i}_{j} + p_{j}_{k} - p_{i}_{k} <= 1")
        rows.append(f"p_{i}_{j} + p_{j}_{k} - p_{i}_{k} >= 0")
        rows.append(f"m_{j}_{i}_{k} + m_{i}_{j}_{k} + m_{i}_{k}_{j} = 1")
        for one, middle, other in ((j, i, k), (i, j, k), (i, k, j)):
            for factor in (1, -1):
                (first, more), (second, less) = after(factor, one, middle), after(-factor, other, middle)
                rows.append(f"m_{one}_{middle}_{other} {first} {second} >= {-more - less}")
    objective = []
    for actor, hold in enumerate(holds):
        own = [s for s in every if actor in casts[s]]
        for s in every:
            if actor not in casts[s]:
                objective.append(f"+ {hold * days[s]} w_{actor}_{s}")
                rows += [f"w_{actor}_{s} - m_{i}_{s}_{j} >= 0" for i, j in itertools.combinations(own, 2)]
    print("Minimize\n cost: base" + total(objective) + "\nSubject To")
    for number, row in enumerate(rows):
        print(f" c{number}: {row}")
    print(f"Bounds\n base = {base}\nBinaries")
    print(total([f"p_{i}_{j}" for i, j in itertools.combinations(every, 2)]) + "\nEnd")


def main():
    days, casts, holds, base = read(sys.argv[1])
    days, casts, holds = reduce(days, casts, holds)
    writers = {"asp": write_asp, "dzn": write_dzn, "lp": write_lp, "sets": write_sets}
    writers[sys.argv[2]](days, casts, holds, base)


main()
