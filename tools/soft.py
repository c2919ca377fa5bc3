#!/usr/bin/env python3
"""A judge of soft leaves: from the meaning of document 02, request 6 (in every W wanted windows starting at a multiple of W·T', at least W − D have their
C'), and from the request's own sentences on what a stretch of W windows can lose. It knows nothing of the crates.

  python3 tools/soft.py 7 12 3 4 2 3    served C and T, wanted C and T, D and W: what each stretch can lose, and whether D allows it
  python3 tools/soft.py check           the sentences held to the meaning, and the meaning to a search among all allocations (seconds)

All rests on how many of W windows in a row an allocation that honours the served type can miss. Small numbers are tried out (`tried`), large ones go by
the request's sentences (`told`), which `check` holds to the trial.
"""
import functools, itertools, sys
from math import gcd

sys.dont_write_bytecode = True
import pairs


def divides(served, wanted):
    """Whether one of the served T and the wanted T divides the other."""
    (_, T), (_, T2) = served, wanted
    return T % T2 == 0 or T2 % T == 0


def allowed(served, wanted, misses):
    """Rule 11 of a soft leaf: no stretch can lose more than D."""
    D, W = misses
    return worst(served, wanted, W, tried if served[1] <= 12 and W * wanted[1] <= 36 else told) <= D


def worst(served, wanted, W, lost):
    return max(lost(served, wanted, first, W) for first in stretches(served, wanted, W))


def stretches(served, wanted, W):
    """The first window of each stretch: multiples of W, up to the stretch that starts at a multiple of the served T again."""
    return range(0, served[1] // gcd(served[1], W * wanted[1]) * W, W)


# The meaning


def missed(wanted, slots, first, W):
    """How many of W windows, from window `first` on, have fewer than C' ones."""
    C, T = wanted
    return sum(sum(slots[w * T:(w + 1) * T]) < C for w in range(first, first + W))


@functools.cache
def tried(served, wanted, first, W):
    """The most that an allocation which honours the served type can miss of W windows from window `first` on. Slot by slot, for each number of ones that
    the served period and the window can have so far (more than C and C' ones count as C and C'), the most windows missed before."""
    (C, T), (C2, T2) = served, wanted
    start, end = first * T2, (first + W) * T2
    best = {(0, 0): 0}
    for n in range(start // T * T, (end + T - 1) // T * T):
        after = {}
        for (served_ones, ones), lost in best.items():
            for slot in (0, 1):
                now, has, count = min(served_ones + slot, C), min(ones + slot, C2) if start <= n < end else 0, lost
                if (n + 1) % T == 0:
                    if now < C:
                        continue
                    now = 0
                if start <= n < end and (n + 1) % T2 == 0:
                    count, has = lost + (has < C2), 0
                after[now, has] = max(count, after.get((now, has), count))
        best = after
    return max(best.values())


# The request's sentences


def told(served, wanted, first, W):
    """The same where one of the served T and the wanted T divides the other."""
    (C, T), (C2, T2) = served, wanted
    if T2 % T == 0:  # "either no window can miss or all can"
        return W if T2 // T * C < C2 else 0
    assert T % T2 == 0, "neither period divides the other"
    K, u = T // T2, most_lost(served, wanted)
    return sum(min(u, covered) for covered in covers(K, first, W))


@functools.cache
def most_lost(served, wanted):
    """u, the greatest with u ≤ K and u·(C' − 1) + (K − u)·T' ≥ C; none if C' = 0."""
    (C, T), (C2, T2) = served, wanted
    K = T // T2
    return max(u for u in range(K + 1) if u * (C2 - 1) + (K - u) * T2 >= C) if C2 > 0 else 0


def covers(K, first, W):
    """How many windows of each served period the stretch covers that has W windows from window `first` on; a period has K windows."""
    return [min(first + W, (period + 1) * K) - max(first, period * K) for period in range(first // K, (first + W - 1) // K + 1)]


# Trials


def check_search():
    """The trial against a plain search among all allocations of up to 12 slots, whether or not one period divides the other."""
    count, types = 0, [(C, T) for T in range(1, 7) for C in range(T + 1)]
    for served, T2, W in itertools.product(types, range(1, 7), range(1, 7)):
        whole = served[1] * W * T2 // gcd(served[1], W * T2)  # from here on stretches and served periods go as from slot 0
        if whole <= 12:
            honouring = [slots for slots in itertools.product((0, 1), repeat=whole) if pairs.honours("aligned", *served, slots)]
            for C2, first in itertools.product(range(T2 + 1), stretches(served, (0, T2), W)):
                assert tried(served, (C2, T2), first, W) == max(missed((C2, T2), slots, first, W) for slots in honouring), (served, C2, T2, first, W)
                count += 1
    return count


def check_sentences():
    """The request's sentences against the trial, wherever one of the periods divides the other and neither is over 12, for W up to 7."""
    count = 0
    for T, T2, W in itertools.product(range(1, 13), range(1, 13), range(1, 8)):
        for C, C2 in itertools.product(range(T + 1), range(T2 + 1)) if W * max(T, T2) <= 24 and divides((0, T), (0, T2)) else ():
            for first in stretches((C, T), (C2, T2), W):
                assert told((C, T), (C2, T2), first, W) == tried((C, T), (C2, T2), first, W), (C, T, C2, T2, first, W)
                assert T != T2 or told((C, T), (C2, T2), first, W) == W * most_lost((C, T), (C2, T2)), "T = T' falls under both cases"
                count += 1
    return count


def check_hard():
    """A leaf that may miss none is a hard one, whatever W is: pairs of any periods up to 6."""
    count, types = 0, [(C, T) for T in range(1, 7) for C in range(T + 1)]
    for served, wanted, W in itertools.product(types, types, (1, 2, 3)):
        hard = pairs.judge(("aligned", *served), ("aligned", *wanted), pairs.tried).startswith("holds")
        assert hard == (worst(served, wanted, W, tried) == 0), (served, wanted, W)
        count += 1
    return count


def check_named():
    """The request's example, and two that its readers may take wrongly: the worst stretch need not be the first, and in a period that is covered in part
    only the windows covered count."""
    assert [allowed((7, 12), (3, 4), (D, 3)) for D in (0, 1, 2, 3)] == [False, False, True, True] and most_lost((7, 12), (3, 4)) == 2
    assert most_lost((11, 12), (2, 2)) == 1 and [told((11, 12), (2, 2), first, 4) for first in (0, 4, 8)] == [1, 2, 1]
    assert most_lost((5, 8), (2, 2)) == 3 and worst((5, 8), (2, 2), 6, tried) == worst((5, 8), (2, 2), 6, told) == 5


def line(C, T, C2, T2, D, W):
    """The judgement on one soft leaf."""
    served, wanted = (C, T), (C2, T2)
    asked = f"{C}/{T} for {C2}/{T2} with {D} of {W} missed"
    if not divides(served, wanted):
        return f"{asked}: refused 20, neither of {T} and {T2} divides the other"
    lose = [told(served, wanted, first, W) for first in stretches(served, wanted, W)]
    periods = f"a served period of {T // T2} windows can lose {most_lost(served, wanted)}, " if T % T2 == 0 else ""
    verdict = "allowed" if max(lose) <= D else "refused 11"
    return f"{asked}: {verdict}: {periods}the stretches can lose {' '.join(map(str, lose))}"


def main(words):
    if words == ["check"]:
        check_named()
        print(f"{check_search()} stretches by search, {check_sentences()} by the sentences and {check_hard()} hard pairs agree")
    elif len(words) == 6:
        print(line(*map(int, words)))
    else:
        sys.exit(__doc__)


if __name__ == "__main__":
    main(sys.argv[1:])
