#!/usr/bin/env python3
"""What `busplan` prints, from the sentences of document 01, "Decisions to check against", last part, and of document 02. It knows nothing of the crates:
plans are read by tools/plans.py, slots given out by tools/slots.py and least ones found by tools/pairs.py.

  python3 tools/listing.py of FILE      the listing of a plan file
  python3 tools/listing.py examples     writes examples/NAME.plan and examples/NAME.txt for each example below
  python3 tools/listing.py plans        the examples as crates/vectors_listing/stdin has them: a label and the bytes in hex digits
  python3 tools/listing.py expect       what the program of that crate has to print
"""
import os, sys
from fractions import Fraction
from math import floor

sys.dont_write_bytecode = True
import pairs, plans, slots

DOCUMENT = """\
accepted 3
0 body 1 2/4 2
1 log 2 1/4 1
2 door 1 2/4 4
slot 0 0 1
slot 1 333 -
slot 2 666 2
slot 3 1000 2
slot 4 1333 1
slot 5 1666 -
slot 6 2000 2
slot 7 2333 2
"""

TWO_CORES = """\
tick 250 1
supply 1/1
supply 1/2
host doors on 0 wants 2/4 gets 2/4
sliding front in doors wants 1/8 gets 1/4
sliding rear in doors wants 2/16 gets 1/4
aligned log on 0 wants 1/2 gets 1/2
sliding panel on 1 wants 3/16 gets 1/4
aligned media on 1 wants 1/8 gets 1/8
"""
EIGHT_LEVELS = """\
tick 1000000 7
supply 1/1
host depot on 0 wants 1/2 gets 1/2
host fleet in depot wants 1/2 gets 1/2
host bus in fleet wants 1/4 gets 1/4
host body in bus wants 1/4 gets 1/4
host side in body wants 1/4 gets 1/4
host door in side wants 1/8 gets 1/8
host step in door wants 1/8 gets 1/8
aligned lamp in step wants 1/16 gets 1/16
aligned horn in side wants 1/8 gets 1/8
aligned map on 0 wants 1/4 gets 1/4
sliding camera on 0 wants 1/16 gets 1/8
"""
QUICK_SLOTS = """\
tick 1 3
supply 1/1
supply 4/4
supply 0/4
aligned log on 0 wants 0/5 gets 0/4
aligned door on 0 wants 3/4 gets 3/4
host spare on 2 wants 0/4 gets 0/4
"""
OVERFULL = """\
tick 1000 3
supply 1/2
aligned door on 0 wants 1/4 gets 1/4
aligned log on 0 wants 2/8 gets 2/8
aligned media on 0 wants 1/16 gets 1/16
"""
AT_ODDS = """\
edition 2
tick 1000 3
supply 1/1
aligned door on 0 wants 1/4 gets 1/4
aligned media on 0 wants 3/6 misses 2/3 gets 2/4
"""
EXAMPLES = {
    "example": plans.lay(plans.EXAMPLE),
    "two_cores": plans.lay(TWO_CORES),
    "eight_levels": plans.lay(EIGHT_LEVELS),
    "quick_slots": plans.lay(QUICK_SLOTS),
    "whole_core": plans.lay(plans.WHOLE_CORE),
    "whole_host": plans.lay(plans.WHOLE_HOST),
    "sibling_gains": plans.lay(slots.SIBLING_GAINS),
    "soft_leaf": plans.lay(plans.SOFT),
    "soft_cores": plans.lay(slots.SOFT_CORES),
    "nearly_whole": plans.lay(plans.WHOLE_CORE.replace("supply 4/4", "supply 3/4")),
    "overfull": plans.lay(OVERFULL),
    "one_miss": plans.lay(plans.SOFT.replace("misses 2/3", "misses 1/3")),
    "at_odds": plans.lay(AT_ODDS),
    "soft_host": plans.lay(plans.SOFT.replace("wants 2/12 gets", "wants 2/12 misses 1/3 gets")),
    "cut_off": plans.lay(plans.EXAMPLE)[:44],
}


def listing(data):
    """First line: node count. Node lines. Then eight slot lines. A refused plan prints only `refused`, number and place."""
    try:
        plan = plans.read(data)
    except plans.Refused as refused:
        return f"refused {refused.number} {refused.place}\n"
    lines = [f"accepted {len(plan.nodes)}"] + [node_line(plan, i) for i in range(len(plan.nodes))]
    value = slots.Value(plan)
    _, state = slots.fresh(value)
    return "\n".join(lines + [slot_line(plan, value, state, n) for n in range(8)]) + "\n"


def node_line(plan, i):
    """Number, name, depth, served type, least ones in a wanted window, of a soft leaf too."""
    node = plan.nodes[i]
    C, T = node.served
    return f"{i} {plan.names[i]} {plans.depth(node.parent, plan.nodes)} {C}/{T} {least(node)}"


def least(node):
    kind = "sliding" if node.kind == 1 else "aligned"
    rule = pairs.tried if node.served[1] <= 6 and node.wanted[1] <= 30 else pairs.argued
    return min(ones for _, ones in pairs.each_window(("aligned", *node.served), (kind, *node.wanted), rule))


def slot_line(plan, value, state, n):
    """Number, start, and per supply the leaf, `-` idle or `x` not supplied; all cores supplied, nobody declining, request 12's switch off."""
    shown = {slots.IDLE: "-", slots.NOT_SUPPLIED: "x"}
    answers = [shown.get(answer, str(answer)) for answer in slots.slot(slots.OFF, value, state, 0xff, 0)]
    return f"slot {n} {floor(n * Fraction(plan.P, plan.Q))} {' '.join(answers)}"


def expected(name, data):
    """A label, the listing, and what comes of a room that is one byte short."""
    return f"{name}:\n{listing(data)}one byte short: refused 17, nothing written\n"


def write_examples():
    folder = os.path.join(os.path.dirname(os.path.abspath(__file__)), os.pardir, "examples")
    for name, data in EXAMPLES.items():
        with open(os.path.join(folder, name + ".plan"), "wb") as file:
            file.write(data)
        with open(os.path.join(folder, name + ".txt"), "w") as file:
            file.write(listing(data))


def main(words):
    assert listing(EXAMPLES["example"]) == DOCUMENT
    if words[:1] == ["of"] and len(words) == 2:
        with open(words[1], "rb") as file:
            print(listing(file.read()), end="")
    elif words == ["examples"]:
        write_examples()
    elif words == ["plans"]:
        print("".join(f"{name} {data.hex()}\n" for name, data in EXAMPLES.items()), end="")
    elif words == ["expect"]:
        print("".join(expected(name, data) for name, data in EXAMPLES.items()), end="")
    else:
        sys.exit(__doc__)


if __name__ == "__main__":
    main(sys.argv[1:])
