#!/usr/bin/env python3
"""A judge of pairs of types that works from their meaning (document 01, "Types and what they mean") and knows no formula of the crates.

  python3 tools/pairs.py aligned 1 4 sliding 1 5           the decision on one pair, giver first: KIND C T KIND C T, on one line
  python3 tools/pairs.py aligned 1 4 sliding 1 5 judge     whether the pair holds, and the least ones of any wanted window
  python3 tools/pairs.py aligned 1 4 sliding 1 5 room 8    the decision with a buffer of 8 bytes, each 7 before, and all of the buffer after
  python3 tools/pairs.py file crates/vectors_types/stdin   the same for the words of each line: what the program of that crate has to print
  python3 tools/pairs.py check                             the judge held to itself and to the decisions that document 01 lists (seconds)

Bytes are printed as runs, `0x5 1x2` for five zeros and two ones, and two runs that follow on themselves once, `(0x1 1x3)x1024`.

All rests on the least ones that an allocation honouring the giver can have in a window. Small periods are tried out (`tried`), large ones go by
a counting argument (`argued`) that `check` holds to the trial.
"""
import functools, itertools, sys

LISTED = """\
aligned 1/4 for aligned 1/5: fails at 5 with 0 of 8: 1x1 0x5 1x2
aligned 1/4 for aligned 2/8: holds 2
aligned 2/4 for sliding 2/8: holds 2
aligned 2/4 for sliding 3/8: fails at 2 with 2 of 12: 1x2 0x4 1x2 0x2 1x2
sliding 2/3 for sliding 3/5: holds 3
sliding 2/3 for sliding 4/5: fails at 0 with 3 of 6: (0x1 1x2)x2
aligned 2/3 for aligned 2/3: holds 2
aligned 2/4 for aligned 1/3: fails at 3 with 0 of 8: 1x3 0x3 1x2
sliding 2/4 for aligned 1/3: holds 1
sliding 3/4 for sliding 2/3: holds 2
aligned 0/4 for aligned 0/3: holds 0
aligned 0/4 for sliding 0/3: holds 0
sliding 0/4 for aligned 0/3: holds 0
sliding 0/4 for sliding 0/3: holds 0"""


def honours(kind, C, T, slots):
    """Whether each window of T slots among these, or each that starts at a multiple of T, holds at least C ones."""
    return all(sum(slots[s:s + T]) >= C for s in range(0, len(slots) - T + 1, T if kind == "aligned" else 1))


@functools.cache
def in_block(C, T, low, high):
    """The least ones between two places of a block, over all 2^T patterns with at least C ones."""
    return min(sum(p[low:high]) for p in itertools.product((0, 1), repeat=T) if sum(p) >= C)


@functools.cache
def tried(kind, C, T, s, L):
    """The least ones in the window of L slots from s, over all honouring allocations. An aligned giver's blocks are independent of each other."""
    if kind == "aligned":
        return sum(in_block(C, T, max(s - b, 0), min(s + L - b, T)) for b in range(s // T * T, s + L, T))
    best = {0: 0}  # the last T - 1 slots as bits: the least ones of the window so far. T more slots than the window has, and then ones for ever
    for n in range(s + L + T):
        after = {}
        for past, ones in best.items():
            for slot in (0, 1):
                last = past << 1 | slot
                if n + 1 < T or bin(last).count("1") >= C:
                    key, now = last & ((1 << (T - 1)) - 1), ones + slot * (s <= n < s + L)
                    after[key] = min(now, after.get(key, now))
        best = after
    return min(best.values())


def argued(kind, C, T, s, L):
    """The same for any period. A block with C ones has at most T - C zeros and may put all of them into the window. A sliding giver's windows
    from s on are such blocks, and the zeros at the front of each one leave C ones in every window of T."""
    s = s if kind == "aligned" else 0
    return sum(max(0, min(s + L, b + T) - max(s, b) - (T - C)) for b in range(s // T * T, s + L, T))


def written(C, T, s, L):
    """The bytes of the stretch that is reported."""
    slots = []
    for b in range(s // T * T, s + L, T):
        zeros = set([n for n in range(b, b + T) if s <= n < s + L][:T - C])
        slots += [int(n not in zeros) for n in range(b, b + T)]
    return slots


def malformed(giver, wanted):
    for place, (_, C, T) in enumerate((giver, wanted)):
        if not (1 <= T <= 4096 and 0 <= C <= T):
            return f"refused 4 place {place}"


def each_window(giver, wanted, least):
    """The start of each wanted window, with its least ones. The start after these stands at a multiple of T again, as the first does."""
    (kind, C, T), (kind2, _, T2) = giver, wanted
    step = T2 if kind2 == "aligned" else 1
    return ((s, least(kind, C, T, s, T2)) for s in range(0, step * T, step))


def judge(giver, wanted, least):
    if malformed(giver, wanted):
        return malformed(giver, wanted)
    lowest = min(ones for _, ones in each_window(giver, wanted, least))
    return f"{'holds' if wanted[1] <= lowest else 'short'} {lowest}"


def decide(giver, wanted, least):
    """What is said, and the bytes that are written."""
    if not malformed(giver, wanted):
        for s, ones in each_window(giver, wanted, least):
            if ones < wanted[1]:
                slots = written(giver[1], giver[2], s, wanted[2])
                return f"fails at {s} with {ones} of {len(slots)}", slots
    return judge(giver, wanted, least), []


def decide_in(room, giver, wanted, least):
    said, slots = decide(giver, wanted, least)
    return ("refused 17", [7] * room) if room < len(slots) else (said, slots + [7] * (room - len(slots)))


def runs(slots):
    """The bytes from the front, run by run; where the first two runs are followed by the same bytes again, those two, with how often."""
    parts = [(byte, len(list(same))) for byte, same in itertools.groupby(slots)]
    shown = [f"{byte}x{length}" for byte, length in parts[:2]]
    if len(parts) < 2:
        return shown
    both, times = parts[0][1] + parts[1][1], 1
    while slots[times * both:(times + 1) * both] == slots[:both]:
        times += 1
    if times == 1:
        return shown[:1] + runs(slots[parts[0][1]:])
    return [f"({' '.join(shown)})x{times}"] + runs(slots[times * both:])


def line(giver, wanted, asked=(), least=None):
    least = least or (tried if giver[2] <= 6 and wanted[2] <= 30 else argued)
    pair = " for ".join(f"{kind} {C}/{T}" for kind, C, T in (giver, wanted))
    if asked == ("judge",):
        return f"{pair} judged: {judge(giver, wanted, least)}"
    if asked:
        pair += f" in room {asked[1]}"
    said, slots = decide_in(int(asked[1]), giver, wanted, least) if asked else decide(giver, wanted, least)
    return f"{pair}: {said}" + (": " + " ".join(runs(slots)) if slots else "")


def check_windows():
    """Trial against plain search among all sequences of 12 slots, for T up to 4, and the argument against trial, for T up to 10."""
    count = 0
    for kind, T in itertools.product(("aligned", "sliding"), range(1, 11)):
        for C in range(T + 1):
            for s in range(T if kind == "aligned" or T <= 6 else 1):
                for L in range(1, 2 * T + 2):
                    assert argued(kind, C, T, s, L) == tried(kind, C, T, s, L), (kind, C, T, s, L)
                    count += 1
            if T <= 4:
                honouring = [a for a in itertools.product((0, 1), repeat=12) if honours(kind, C, T, a)]
                for s, end in itertools.combinations(range(13), 2):
                    assert tried(kind, C, T, s, end - s) == min(sum(a[s:end]) for a in honouring), (kind, C, T, s, end)
                    count += 1
    return count


def check_pairs():
    """Every pair with periods up to 6: decided by trial and by the argument alike, and a reported allocation does what is said of it."""
    types = [(kind, C, T) for kind in ("aligned", "sliding") for T in range(7) for C in range(T + 2)]
    said = {"holds": 0, "fails": 0, "refused": 0}
    for giver, wanted in itertools.product(types, types):
        decision, slots = decide(giver, wanted, tried)
        assert (decision, slots) == decide(giver, wanted, argued), line(giver, wanted)
        word = decision.split()
        said[word[0]] += 1
        if word[0] == "fails":
            s, ones, T = int(word[2]), int(word[4]), giver[2]
            whole = [1] * (s // T * T) + slots + [1] * 2 * T
            assert honours(*giver, whole) and sum(whole[s:s + wanted[2]]) == ones < wanted[1], line(giver, wanted)
            assert giver[0] == "aligned" or s == 0, line(giver, wanted)
            assert int(judge(giver, wanted, tried).removeprefix("short ")) <= ones, line(giver, wanted)
    return said


def parsed(kind, C, T, kind2, C2, T2, *asked):
    assert {kind, kind2} <= {"aligned", "sliding"} and (asked in ((), ("judge",)) or len(asked) == 2 and asked[0] == "room"), __doc__
    return (kind, int(C), int(T)), (kind2, int(C2), int(T2)), asked


if __name__ == "__main__":
    words = sys.argv[1:]
    if words == ["check"]:
        for expected in LISTED.split("\n"):
            pair = expected.split(":")[0].replace("/", " ").replace(" for ", " ").split()
            assert line(*parsed(*pair)) == line(*parsed(*pair), argued) == expected, expected
        print(f"{check_windows()} windows and {len(LISTED.splitlines())} listed decisions agree; pairs: {check_pairs()}")
    elif len(words) == 2 and words[0] == "file":
        for text in open(words[1]):
            print(line(*parsed(*text.split())))
    elif 6 <= len(words) <= 8:
        print(line(*parsed(*words)))
    else:
        sys.exit(__doc__)
