#!/usr/bin/env python3
"""Giving out slots from the sentences of document 01, "Giving out slots", and of document 02, requests 6 and 12. It knows nothing of the crates; plans and
rules are those of tools/plans.py.

  python3 tools/slots.py cases          the cases of crates/vectors_dispatch/stdin, one a line
  python3 tools/slots.py expect         what the program of that crate has to print
  python3 tools/slots.py check          demand 3 tried with the switch off, on, and set anew for each slot, and where it is on that nothing is wasted;
                                        with plans (whole parents and soft leaves among them), supplies and declines that follow no pattern (seconds)

A case is a label, an accepted plan in hex digits, any number of edits `with WHAT INDEX VALUE`, and what is done:

  fresh
  run SETTING SUPPLIES DECLINES ROOM
  demand SETTING SUPPLIES DECLINES ROOM
  steps SETTINGS SUPPLIES DECLINES
  mixed SETTINGS SUPPLIES DECLINES ROOM

SETTING is `off` or `on`. SETTINGS has a digit for each slot, 0 for off and 1 for on. Supply bytes are in hex digits, decline words too, with a comma
between two; `-` stands for none. The state is the plan's fresh one. An edit changes the plan value (edition, P, Q, the numbers S of supplies and N of
nodes, supply, kind, parent, wants, misses, gets) or the state (clock, left).
What comes of it is printed as outcome, clock, the counts left (of all nodes, and on to the last that is not 0) and the room: a leaf, `-` idle, `x` not
supplied, `.` not written; a comma stands between the cores of a slot. Of steps the outcome and eight answers of each come first. `demand` is a run
and then, for each leaf, its wanted type and how many slots it received in each of its wanted windows inside the run. `mixed` makes a call for each
stretch of slots with one setting, a step for a single slot and otherwise a run, each from the state and behind the answers of the one before. Its
calls with their outcomes come first, and what each leaf received last.
"""
import collections, itertools, random, sys

sys.dont_write_bytecode = True
import pairs, soft
from plans import (EXAMPLE, NONE_MISSED, SOFT, WHOLE_CORE, WHOLE_HOST, Node, Plan, Refused, borne, chain, depth, in_host, is_soft, lay, names_a_parent, read,
                   rules, siblings, type_of, well_formed, whole_chain)

LAST = 2 ** 40
IDLE, NOT_SUPPLIED, NOT_WRITTEN = 254, 255, 200
OFF, ON = SETTINGS = 0, 1


class Value:
    """A plan value: edition, tick, two counts and all entries, those past the counts zeros."""

    def __init__(self, plan):
        self.edition, self.P, self.Q, self.cores, self.size = plan.edition, plan.P, plan.Q, len(plan.supplies), len(plan.nodes)
        self.supplies = plan.supplies + [(0, 0)] * (8 - self.cores)
        self.nodes = plan.nodes + [Node(0, 0, (0, 0), (0, 0), (0, 0))] * (64 - self.size)

    def broken(self):
        """The number of a refusal from 2 to 7, 11 to 14, 19 or 20 that it breaks, or 0 where it is fit."""
        supplies, nodes = self.supplies[:self.cores], self.nodes[:self.size]
        if not (1 <= self.edition <= 2 and 1 <= self.cores <= 8 and 1 <= self.size <= 64):
            return 2
        if not (1 <= self.P <= 1_000_000 and 1 <= self.Q <= 1_000_000):
            return 3
        if not all(map(well_formed, supplies + [node.wanted for node in nodes] + [node.served for node in nodes])):
            return 4
        for i, node in enumerate(nodes):
            if not names_a_parent(node.parent, supplies, nodes[:i]):
                return 6
            if depth(node.parent, nodes) > 8:
                return 7
            if not (borne(node.kind, node.misses) if self.edition == 2 else node.misses == NONE_MISSED):
                return 19
        try:
            rules(supplies, nodes)
        except Refused as refused:
            return refused.number
        return 0


class State:
    def __init__(self, clock, left):
        self.clock, self.left = clock, left


def fresh(value):
    """The outcome (0 for done, or a refusal) and the state."""
    if value.broken():
        return 16, State(0, [0] * 64)
    return 0, State(0, [node.served[0] if i < value.size else 0 for i, node in enumerate(value.nodes)])


def refusal(value, state, supplied, declined, room):
    """16, 17 and 15 in this order, or 0."""
    if value.broken() or state.clock > LAST or any(state.left[i] > value.nodes[i].served[0] for i in range(value.size)):
        return 16
    if len(supplied) != len(declined) or room < len(supplied) * value.cores:
        return 17
    return 15 if state.clock + len(supplied) > LAST else 0


def run(setting, value, state, supplied, declined, room):
    """The outcome and the room; the state is moved on."""
    outcome = refusal(value, state, supplied, declined, room)
    answers = []
    if outcome == 0:
        for supply, decline in zip(supplied, declined):
            answers += slot(setting, value, state, supply, decline)
    return outcome, answers + [NOT_WRITTEN] * (room - len(answers))


def step(setting, value, state, supplied, declined):
    """A run of one, with eight answers."""
    outcome, answers = run(setting, value, state, [supplied], [declined], value.cores)
    answers = [] if outcome else answers
    return outcome, answers + [NOT_SUPPLIED] * (8 - len(answers))


def slot(setting, value, state, supplied, declined):
    refill(value, state)
    state.clock += 1
    walk = {OFF: go_down, ON: go_back}[setting]
    return [walk(value, state, k, declined) if supplied >> k & 1 else NOT_SUPPLIED for k in range(value.cores)]


def refill(value, state):
    for i, node in enumerate(value.nodes[:value.size]):
        if state.clock % node.served[1] == 0:
            state.left[i] = node.served[0]


def takers(value, state, parent, declined):
    """The children of a parent, named as a parent byte names it, that have slots left, leaves that decline passed over, in the order of choice."""
    return sorted((i for i, node in enumerate(value.nodes[:value.size])
                   if node.parent == parent and state.left[i] > 0 and (node.kind == 2 or not declined >> i & 1)),
                  key=lambda i: (value.nodes[i].served[1], i))


def go_down(value, state, parent, declined):
    """Who gets the slot of a parent by document 01: the first is charged and, if it is a host, the choice is made among its children; hosts already
    passed stay charged."""
    order = takers(value, state, parent, declined)
    if not order:
        return IDLE
    i = order[0]
    state.left[i] -= 1
    return go_down(value, state, 128 + i, declined) if value.nodes[i].kind == 2 else i


def go_back(value, state, parent, declined):
    """Who gets it by request 12: where nobody under a host takes the slot, the host is not charged and the choice goes to the next sibling."""
    for i in takers(value, state, parent, declined):
        grant = go_back(value, state, 128 + i, declined) if value.nodes[i].kind == 2 else i
        if grant != IDLE:
            state.left[i] -= 1
            return grant
    return IDLE


# Demand 3


def leaves(value):
    return [i for i, node in enumerate(value.nodes[:value.size]) if node.kind != 2]


def windows(node, slots):
    """The starts of a leaf's wanted windows inside so many slots: multiples of the wanted T for an aligned leaf, every slot for a sliding one."""
    T = node.wanted[1]
    return range(0, slots - T + 1, T if node.kind == 0 else 1)


def received(value, i, answers, start):
    """How many slots of its wanted window from `start` leaf i received."""
    return answers[start * value.cores:(start + value.nodes[i].wanted[1]) * value.cores].count(i)


def keeps_types(value, supplied):
    """Whether each core is supplied in C slots of each of its periods; the slots after the run may be supplied."""
    return all(sum(byte >> k & 1 for byte in supplied[b:b + T]) + max(0, b + T - len(supplied)) >= C
               for k, (C, T) in enumerate(value.supplies[:value.cores]) for b in range(0, len(supplied), T))


def declines_near(node, i, declined, start, end):
    """Whether leaf i declines in a slot of its served periods that touch the slots from `start` up to before `end`."""
    T = node.served[1]
    return any(word >> i & 1 for word in declined[start // T * T:(end + T - 1) // T * T])


def demand(value, supplied, declined, answers, seen):
    """Asserts demand 3 of a run from a fresh start, and counts the windows of hard leaves and the stretches of soft ones in which it spoke."""
    for i in leaves(value) if keeps_types(value, supplied) else ():
        node = value.nodes[i]
        ask = ask_stretches if is_soft(node) else ask_windows
        assert ask(value, i, len(supplied), declined, answers, seen), (value.supplies, value.nodes[:value.size], i)


def ask_windows(value, i, slots, declined, answers, seen):
    """Whether a hard leaf has its C' in each of its wanted windows inside the run, where it does not decline in a served period that touches the window."""
    node = value.nodes[i]
    spoken = [start for start in windows(node, slots) if not declines_near(node, i, declined, start, start + node.wanted[1])]
    seen["windows"] += len(spoken)
    return all(received(value, i, answers, start) >= node.wanted[0] for start in spoken)


def ask_stretches(value, i, slots, declined, answers, seen):
    """Whether a soft leaf has at most D windows short in each whole stretch inside the run, where it does not decline in a served period that touches the
    stretch."""
    node = value.nodes[i]
    (C, T), (D, W) = node.wanted, node.misses
    spoken = [start for start in range(0, slots - W * T + 1, W * T) if not declines_near(node, i, declined, start, start + W * T)]
    short = [sum(received(value, i, answers, window) < C for window in range(start, start + W * T, T)) for start in spoken]
    seen["stretches"] += len(spoken)
    seen["short"] += sum(short)
    seen["most"] += short.count(D)
    return all(count <= D for count in short)


# Cases


class Case:
    """What is to be done. `setting` is one setting for `run` and `demand`, and a list with one for each slot for `steps` and `mixed`."""

    def __init__(self, label, plan, edits, verb, setting=OFF, supplied=(), declined=(), room=0):
        self.label, self.data, self.edits, self.verb = label, lay(plan), edits, verb
        self.setting, self.supplied, self.declined, self.room = setting, supplied, declined, room
        assert len(supplied) <= 64 and len(declined) <= 64 and room <= 512, label

    def line(self):
        words = [self.label, self.data.hex()] + [f"with {edit}" for edit in self.edits] + [self.verb]
        if self.verb != "fresh":
            words.append(called_setting(self.setting) if self.verb in ("run", "demand") else "".join(map(str, self.setting)))
            words += [bytes(self.supplied).hex() or "-", ",".join(f"{word:x}" for word in self.declined) or "-"]
        return " ".join(words + ([str(self.room)] if self.verb in ("run", "demand", "mixed") else []))

    def said(self):
        return f"{self.label}: {self.result()}"

    def result(self):
        value = Value(read(self.data))
        state = fresh(value)[1]
        for edit in self.edits:
            edited(value, state, *edit.split())
        how = {"fresh": self.start, "run": self.one_run, "demand": self.one_run, "steps": self.each_step, "mixed": self.each_call}
        return how[self.verb](value, state)

    def start(self, value, _):
        outcome, state = fresh(value)
        return f"{called(outcome)}, {counted(value, state)}"

    def one_run(self, value, state):
        outcome, room = run(self.setting, value, state, self.supplied, self.declined, self.room)
        shown = f"{called(outcome)}, {counted(value, state)}, room{listed(room, value.cores)}"
        return shown + (self.demanded(value, room) if self.verb == "demand" else "")

    def each_step(self, value, state):
        steps = [step(setting, value, state, *both) for setting, *both in zip(self.setting, self.supplied, self.declined)]
        return "".join(f"step {called(outcome)}{listed(eight, 8)}, " for outcome, eight in steps) + counted(value, state)

    def each_call(self, value, state):
        calls, answers = "", []
        for setting, stretch in itertools.groupby(zip(self.setting, self.supplied, self.declined), key=lambda slot: slot[0]):
            _, supplied, declined = zip(*stretch)
            if len(supplied) == 1:
                outcome, given = step(setting, value, state, supplied[0], declined[0])
                calls += f"step {called_setting(setting)} {called(outcome)}, "
            else:
                outcome, given = run(setting, value, state, supplied, declined, self.room - len(answers))
                calls += f"run {called_setting(setting)} {len(supplied)} {called(outcome)}, "
            assert outcome == 0, self.label
            answers += given[:len(supplied) * value.cores]
        room = answers + [NOT_WRITTEN] * (self.room - len(answers))
        return f"{calls}{counted(value, state)}, room{listed(room, value.cores)}{self.demanded(value, room)}"

    def demanded(self, value, answers):
        seen = collections.Counter()
        demand(value, self.supplied, self.declined, answers, seen)
        assert not self.edits and seen["stretches" if any(map(is_soft, value.nodes)) else "windows"] > 0, self.label
        shown = ""
        for i in leaves(value):
            node = value.nodes[i]
            counts = "".join(f" {received(value, i, answers, start)}" for start in windows(node, len(self.supplied)))
            shown += f", leaf {i} wants {node.wanted[0]}/{node.wanted[1]} received{counts}"
        return shown


def edited(value, state, what, index, number):
    i, node = int(index), value.nodes[int(index)]
    if what in ("edition", "P", "Q", "S", "N"):
        setattr(value, {"S": "cores", "N": "size"}.get(what, what), int(number))
    elif what == "supply":
        value.supplies[i] = type_of(number)
    elif what in ("kind", "parent"):
        value.nodes[i] = node._replace(**{what: int(number)})
    elif what in ("wants", "misses", "gets"):
        value.nodes[i] = node._replace(**{{"wants": "wanted", "gets": "served"}.get(what, what): type_of(number)})
    elif what == "clock":
        state.clock = int(number)
    else:
        assert what == "left", what
        state.left[i] = int(number)


def called(outcome):
    return f"refused {outcome}" if outcome else "done"


def called_setting(setting):
    return {OFF: "off", ON: "on"}[setting]


def counted(value, state):
    last = max([i + 1 for i, left in enumerate(state.left) if left] + [min(value.size, 64)])
    return f"clock {state.clock}, left" + "".join(f" {left}" for left in state.left[:last])


def listed(answers, cores):
    names = {IDLE: "-", NOT_SUPPLIED: "x", NOT_WRITTEN: "."}
    return "".join((" " if cores == 0 or j % cores == 0 else ",") + names.get(answer, str(answer)) for j, answer in enumerate(answers))


TWO = """\
supply 1/1
supply 1/2
host doors on 0 wants 2/4 gets 2/4
aligned front in doors wants 1/4 gets 1/4
aligned rear in doors wants 1/8 gets 1/8
aligned log on 0 wants 1/2 gets 1/2
sliding panel on 1 wants 1/8 gets 1/4
aligned media on 1 wants 1/8 gets 1/8
"""
TIES = "supply 1/1; aligned a on 0 wants 1/6 gets 1/6; aligned b on 0 wants 1/3 gets 1/3; " \
       "aligned c on 0 wants 1/3 gets 1/3; aligned d on 0 wants 1/6 gets 1/6\n"
EIGHT = "".join(f"supply {k + 1}/8\n" for k in range(8)) + "".join(f"aligned n{k} on {k} wants {k + 1}/8 gets {k + 1}/8\n" for k in range(8))
NOBODY = "supply 1/1; supply 1/1; host h on 0 wants 1/2 gets 1/2; aligned a on 0 wants 0/2 gets 0/2; aligned b on 0 wants 1/4 gets 1/4\n"
WIDE = "supply 1/1\n" + "".join(f"aligned n{i} on 0 wants 1/64 gets 1/64\n" for i in range(64))
TREE = """\
supply 1/1
supply 3/4
supply 1/1
host a on 0 wants 1/2 gets 1/2
host b in a wants 1/4 gets 1/4
aligned c in b wants 1/8 gets 1/8
sliding d in b wants 0/8 gets 1/16
aligned e in a wants 2/8 gets 2/8
aligned f on 0 wants 2/4 gets 2/4
host g on 1 wants 2/4 gets 2/4
host h on 1 wants 1/8 gets 2/8
aligned i in g wants 3/8 gets 3/8
aligned j in h wants 1/8 gets 1/8
sliding k in g wants 0/2 gets 1/8
aligned l on 2 wants 5/6 gets 5/6
aligned m on 2 wants 1/12 gets 1/12
"""


def cases():
    found = []

    def run_case(label, plan, slots, supply=0xff, decline=0, edits=(), room=None, steps=True, meant=None, on_label=None):
        """Slots with the same supply byte and decline word, or with a list of each; as a run, and as steps too; with the switch off, and on.
        `meant` is what is to be left and to stand in the room, off and on."""
        supplied = supply if isinstance(supply, list) else [supply] * slots
        declined = decline if isinstance(decline, list) else [decline] * slots
        plain_steps = steps and supplied and room is None and len(supplied) == len(declined)
        room = slots * cores_of(plan) if room is None else room
        labels = label, on_label or label + "-on"
        runs = [Case(labels[setting], plan, edits, "run", setting, supplied, declined, room) for setting in SETTINGS]
        same_where_it_must_be(plan, *runs)
        for each in runs:
            assert meant is None or each.result().endswith(meant[each.setting]), (each.said(), meant)
            found.append(each)
            if plain_steps:
                found.append(Case(each.label + "-by-steps", plan, edits, "steps", [each.setting] * slots, supplied, declined))

    for group in (plain, declining, supplying, trees, whole_parents, states, refused_plans, refused_runs, orders, varied, switched,
                  soft_leaves, soft_values):
        group(run_case)
    for label, plan, edits in fresh_starts():
        found.append(Case(label, plan, edits, "fresh"))
    for label, plan, supplied, declined in demands():
        for setting in SETTINGS:
            room = len(supplied) * cores_of(plan)
            found.append(Case(label + ("-on" if setting else ""), plan, (), "demand", setting, supplied, declined, room))
    found += mixed()
    assert len({case.label for case in found}) == len(found)
    return found


def cores_of(plan):
    return len(read(lay(plan)).supplies)


def same_where_it_must_be(plan, off, on):
    """Without hosts nobody is passed in vain, and a refusal looks at no setting."""
    if "host" not in plan or off.result().startswith("refused"):
        assert off.result() == on.result(), off.label


def plain(case):
    case("example", EXAMPLE, 8)
    case("ties-go-to-the-lower-number", TIES, 12)
    case("two-cores", TWO, 16)
    case("eight-cores", EIGHT, 10)
    case("a-leaf-of-64", WIDE, 64, steps=False)
    case("full-type", "supply 1/1; aligned a on 0 wants 4096/4096 gets 4096/4096\n", 3)
    case("period-1", "supply 1/1; aligned a on 0 wants 1/1 gets 1/1; aligned b on 0 wants 0/1 gets 0/1\n", 3)
    case("C-0-and-a-host-with-no-children", NOBODY, 8)
    case("refill-only-at-the-served-period", siblings("1/1", "2/5", "1/5"), 16)


def declining(case):
    case("door-declines-once", EXAMPLE, 8, decline=[0, 0, 4, 0, 0, 0, 0, 0])
    case("door-declines-always", EXAMPLE, 8, decline=4)
    case("log-declines-always-and-its-host-is-charged", EXAMPLE, 8, decline=2, on_label="log-declines-always-and-its-host-is-not-charged-on")
    case("log-declines-the-first-slot", EXAMPLE, 8, decline=[2, 0, 0, 0, 0, 0, 0, 0])
    case("all-leaves-decline", EXAMPLE, 5, decline=6)
    case("a-host's-decline-bit-is-ignored", EXAMPLE, 8, decline=1)
    case("bits-naming-no-leaf-are-ignored", EXAMPLE, 8, decline=2 ** 64 - 8)
    case("all-bits-set", EXAMPLE, 5, decline=2 ** 64 - 1)
    case("leaf-63-declines", WIDE, 64, decline=2 ** 63, steps=False)
    case("all-but-leaf-63-decline", WIDE, 3, decline=2 ** 63 - 1)
    case("a-tie-where-the-lower-declines", TIES, 6, decline=[2, 2, 0, 0, 2, 0])
    case("front-declines-and-rear-takes-it", TWO, 8, decline=2)
    case("leaves-of-two-cores-decline", TWO, 8, decline=[8, 16, 8 + 16, 32, 0, 2, 4, 2 + 4])


def supplying(case):
    case("never-supplied", EXAMPLE, 8, supply=0)
    case("supplied-every-second-slot", EXAMPLE, 8, supply=[1, 0] * 4)
    case("bits-naming-no-supply-are-ignored", EXAMPLE, 8, supply=0xfe)
    case("only-the-last-slots-of-the-period", EXAMPLE, 8, supply=[0, 0, 1, 1] * 2)
    case("first-core-only", TWO, 8, supply=1)
    case("second-core-only", TWO, 8, supply=2)
    case("third-core-that-is-not-there", TWO, 4, supply=4)
    case("core-with-no-node-is-idle", NOBODY, 4, supply=2)
    case("one-core-of-eight-a-slot", EIGHT, 8, supply=[1 << k for k in range(8)])


def trees(case):
    case("depth-8", chain(8), 4)
    case("depth-8-the-leaf-declines", chain(8), 4, decline=0x80)
    case("depth-8-a-host-at-the-end", chain(8, "host"), 4)
    case("depth-8-every-host's-bit-set", chain(8), 4, decline=0x7f)
    case("idle-hosts-stay-charged", TREE, 16, decline=0b100, on_label="idle-hosts-are-not-charged-on")
    case("tree", TREE, 24)


WHOLE_EDITS = (  # edits of plans with whole parents, each beside the number that the value then breaks, 0 for none
    (0, "whole-core-as-1-of-1", WHOLE_CORE, "supply 0 1/1"), (0, "whole-core-as-6-of-6", WHOLE_CORE, "supply 0 6/6"),
    (0, "whole-core-as-4096-of-4096", WHOLE_CORE, "supply 0 4096/4096"), (12, "whole-core-but-3-of-4", WHOLE_CORE, "supply 0 3/4"),
    (12, "whole-core-but-0-of-4", WHOLE_CORE, "supply 0 0/4"), (13, "whole-core-rule-13", WHOLE_CORE, "gets 1 2/4"),
    (14, "whole-core-overfull-by-one", WHOLE_CORE, "gets 2 3/6"), (0, "whole-host-full", WHOLE_HOST, "gets 2 4/6"),
    (14, "whole-host-overfull-by-one", WHOLE_HOST, "gets 2 5/6"), (12, "whole-host-but-wants-3-of-4", WHOLE_HOST, "wants 0 3/4"),
    (14, "whole-host-and-a-sibling", WHOLE_HOST, "gets 3 1/4"), (14, "whole-host-of-a-core-of-3-of-4", WHOLE_HOST, "supply 0 3/4"),
    (11, "whole-host-served-less", WHOLE_HOST, "gets 0 3/4"), (12, "core-of-3-of-4-and-room-enough", siblings("4/4", "1/6"), "supply 0 3/4"),
    (12, "core-of-0-of-4-and-nobody-asks", siblings("4/4", "0/6"), "supply 0 0/4"),
    (12, "host-that-wants-5-of-6-and-room-enough", in_host("6/6", "6/6", "1/9"), "wants 0 5/6"))


def whole_parents(case):
    case("whole-core", WHOLE_CORE, 12)
    case("whole-core-door-declines-once", WHOLE_CORE, 12, decline=[1] + [0] * 11)
    case("whole-core-door-declines-a-period", WHOLE_CORE, 12, decline=[1] * 3 + [0] * 9)
    case("whole-core-log-declines-always", WHOLE_CORE, 12, decline=2)
    case("whole-core-a-slot-short-in-each-frame", WHOLE_CORE, 12, supply=[1, 1, 0, 1] * 3)
    case("whole-host", WHOLE_HOST, 12)
    case("whole-host-all-decline", WHOLE_HOST, 12, decline=[0, 6, 6, 0] * 3)
    case("whole-chain-of-8", whole_chain(8), 14)
    case("whole-chain-of-8-the-leaf-declines", whole_chain(8), 14, decline=[0x80, 0] * 7)
    case("whole-core-with-children-of-period-2", siblings("4/4", "1/2", "1/2"), 6)
    case("whole-core-with-the-longest-odd-period", siblings("4096/4096", "4094/4095", "1/4095"), 3)
    for number, label, plan, edit in WHOLE_EDITS:
        value = Value(read(lay(plan)))
        edited(value, State(0, []), *edit.split())
        assert value.broken() == number, (label, value.broken())
        case("plan-value-" + label, plan, 6, edits=(edit,), room=6)


def states(case):
    case("entries-past-the-last-node", EXAMPLE, 4, edits=("left 3 7", "left 63 65535"))
    case("entries-past-the-last-node-and-no-slots", EXAMPLE, 0, edits=("left 3 1",))
    case("state-at-clock-1-as-fresh", EXAMPLE, 8, edits=("clock 0 1",))
    case("state-at-clock-3-with-nothing-left", EXAMPLE, 3, edits=("clock 0 3", "left 0 0", "left 1 0", "left 2 0"))
    case("state-at-clock-4-with-nothing-left", EXAMPLE, 3, edits=("clock 0 4", "left 0 0", "left 1 0", "left 2 0"))
    case("no-slots", EXAMPLE, 0)
    case("no-slots-and-no-refill", EXAMPLE, 0, edits=("clock 0 4", "left 0 0", "left 2 1"))
    case("no-slots-and-room", EXAMPLE, 0, room=3)
    case("no-slots-at-the-last-clock", EXAMPLE, 0, edits=("clock 0 1099511627776",))
    case("last-slot-of-all", EXAMPLE, 1, edits=("clock 0 1099511627775",))
    case("last-two-slots-of-all", EXAMPLE, 2, edits=("clock 0 1099511627774",))
    case("room-beyond-stays", EXAMPLE, 4, room=9)
    case("room-beyond-stays-with-two-cores", TWO, 3, room=7)
    case("junk-past-the-last-supply", EXAMPLE, 4, edits=("supply 1 5/4", "supply 7 65535/0"))
    case("junk-past-the-last-node", EXAMPLE, 8, edits=("kind 3 2", "parent 3 255", "wants 3 9/0", "gets 63 1/1", "parent 63 0"))
    case("supply-and-leaf-of-C-0", "supply 0/4; aligned a on 0 wants 0/4 gets 0/4\n", 2)
    case("tick-at-its-limits", EXAMPLE, 2, edits=("P 0 1000000", "Q 0 1"))


SPOILT = (  # edits of the example, each beside the number that the value then breaks
    (2, "no-supplies", "S 0 0"), (2, "9-supplies", "S 0 9"), (2, "no-nodes", "N 0 0"), (2, "65-nodes", "N 0 65"),
    (2, "very-many-nodes", "N 0 1000000000000"), (2, "very-many-supplies", "S 0 18446744073709551615"),
    (3, "P-0", "P 0 0"), (3, "P-1000001", "P 0 1000001"), (3, "P-largest", "P 0 4294967295"), (3, "Q-0", "Q 0 0"), (3, "Q-1000001", "Q 0 1000001"),
    (4, "a-supply-of-zeros", "S 0 2"), (4, "a-node-of-zeros", "N 0 4"), (4, "supply-T-0", "supply 0 0/0"), (4, "supply-T-4097", "supply 0 4097/4097"),
    (4, "supply-C-over-T", "supply 0 2/1"), (4, "wanted-T-0", "wants 1 0/0"), (4, "wanted-C-over-T", "wants 2 11/10"),
    (4, "served-T-4097", "gets 2 2/4097"), (4, "served-C-over-T", "gets 1 5/4"), (6, "parent-supply-1", "parent 2 1"),
    (6, "parent-supply-127", "parent 0 127"), (6, "parent-itself", "parent 0 128"), (6, "parent-a-leaf", "parent 2 129"),
    (6, "parent-later", "parent 1 130"), (6, "parent-far-away", "parent 1 255"), (6, "host-a-leaf", "kind 0 0"),
    (11, "rule-11", "wants 2 5/10"), (11, "rule-11-at-the-host", "wants 0 3/5"), (12, "rule-12", "wants 0 1/8"),
    (13, "rule-13", "gets 2 6/6"), (14, "rule-14", "gets 0 3/4"), (14, "rule-14-in-the-host", "wants 0 0/4"))


def refused_plans(case):
    for number, label, edit in SPOILT:
        value = Value(read(lay(EXAMPLE)))
        edited(value, State(0, []), *edit.split())
        assert value.broken() == number, (label, value.broken())
        case("plan-value-" + label, EXAMPLE, 2, edits=(edit,), room=2)
    case("plan-value-rule-13-and-not-11", siblings("1/1", "1/4", "1/8"), 2, edits=("gets 1 2/6", "wants 1 0/8"))
    case("plan-value-rule-11-by-the-kind", siblings("1/1", "2/4"), 2, edits=("kind 0 1",))
    case("plan-value-depth-9", chain(8, "host") + "aligned x in h6 wants 0/2 gets 0/2\n", 1, edits=("parent 8 135",))
    case("plan-value-changed-and-fit", EXAMPLE, 8, edits=("gets 1 2/4", "kind 1 1", "wants 2 0/1"))
    case("plan-value-with-a-node-less", EXAMPLE, 8, edits=("N 0 2",))
    case("plan-value-by-a-step", EXAMPLE, 1, edits=("P 0 0",))
    case("plan-value-by-a-step-with-9-supplies", EXAMPLE, 1, edits=("S 0 9",))


def refused_runs(case):
    case("left-over-the-served-C", EXAMPLE, 2, edits=("left 1 2",))
    case("left-over-the-served-C-at-the-last-node", EXAMPLE, 2, edits=("left 2 3",))
    case("left-far-over-the-served-C", EXAMPLE, 2, edits=("left 0 65535",))
    case("left-over-the-served-C-and-no-slots", EXAMPLE, 0, edits=("left 1 2",))
    case("left-over-though-the-slot-would-refill", EXAMPLE, 1, edits=("clock 0 4", "left 1 2"))
    case("clock-over", EXAMPLE, 1, edits=("clock 0 1099511627777",))
    case("clock-over-and-no-slots", EXAMPLE, 0, edits=("clock 0 1099511627777",))
    case("clock-largest", EXAMPLE, 1, edits=("clock 0 18446744073709551615",))
    case("one-decline-word-too-few", EXAMPLE, 3, decline=[0, 0], room=3)
    case("one-decline-word-too-many", EXAMPLE, 2, decline=[0, 0, 0], room=3)
    case("a-decline-word-and-no-slots", EXAMPLE, 0, decline=[0], room=3)
    case("no-decline-words", EXAMPLE, 2, decline=[], room=3)
    case("no-supply-bytes", EXAMPLE, 0, supply=[], decline=[0, 0], room=3)
    case("room-too-little-by-one", EXAMPLE, 4, room=3)
    case("room-too-little-by-one-with-two-cores", TWO, 4, room=7)
    case("room-too-little-by-one-with-eight-cores", EIGHT, 3, room=23)
    case("no-room", EXAMPLE, 1, room=0)
    case("beyond-the-last-slot", EXAMPLE, 1, edits=("clock 0 1099511627776",))
    case("beyond-the-last-slot-by-one", EXAMPLE, 3, edits=("clock 0 1099511627774",))


def orders(case):
    """Two faults and more, of which the document's order picks one."""
    last, over, bad = "clock 0 1099511627776", "clock 0 1099511627777", "left 1 2"
    case("16-by-the-counts-before-17", EXAMPLE, 2, edits=(bad,), room=1)
    case("16-by-the-clock-before-17", EXAMPLE, 2, decline=[0], edits=(over,), room=2)
    case("16-by-the-plan-before-17", EXAMPLE, 2, edits=("P 0 0",), room=1)
    case("16-by-the-counts-before-15", EXAMPLE, 2, edits=(bad, last))
    case("16-by-the-plan-before-15", EXAMPLE, 2, edits=("Q 0 0", last))
    case("17-by-the-room-before-15", EXAMPLE, 2, edits=(last,), room=1)
    case("17-by-unequal-inputs-before-15", EXAMPLE, 2, decline=[0], edits=(last,), room=2)
    case("17-by-unequal-inputs-with-room-for-all", EXAMPLE, 1, decline=[0, 0], room=9)
    case("16-before-17-and-15", EXAMPLE, 2, edits=(bad, last), room=0)


def numbers():
    """A plain generator of numbers of so many bits, the same for ever."""
    seed = 1

    def number(bits):
        nonlocal seed
        seed = (seed * 6364136223846793005 + 1442695040888963407) % 2 ** 64
        return seed >> (64 - bits)

    return number


def varied(case):
    """Supplies and declines that follow no pattern."""
    number = numbers()
    plans = ("example", EXAMPLE, 48), ("two-cores", TWO, 48), ("tree", TREE, 48), ("eight-cores", EIGHT, 32), ("depth-8", chain(8), 16)
    for name, plan, slots in plans:
        for turn in range(2):
            supplied = [number(8) | number(8) for _ in range(slots)]
            case(f"varied-{name}-{turn}", plan, slots, supply=supplied, decline=[number(64) & number(64) for _ in range(slots)], steps=turn == 0)


SIBLING_GAINS = """\
tick 1000 3
supply 1/1
host body on 0 wants 2/4 gets 2/4
host rack in body wants 1/4 gets 1/4
aligned log in rack wants 1/9 gets 1/4
aligned lamp in body wants 1/4 gets 1/4
sliding door on 0 wants 4/10 gets 2/4
"""
BESIDE = """\
supply 1/1
host a on 0 wants 1/4 gets 1/4
aligned b in a wants 1/4 gets 1/4
aligned c on 0 wants 1/4 gets 1/4
aligned d on 0 wants 1/4 gets 1/4
"""
LADDER = """\
supply 1/1
host a on 0 wants 3/4 gets 3/4
host b in a wants 2/4 gets 2/4
host c in b wants 1/4 gets 1/4
aligned d in c wants 1/4 gets 1/4
aligned e in b wants 1/4 gets 1/4
aligned f in a wants 1/4 gets 1/4
aligned g on 0 wants 1/4 gets 1/4
"""
TWO_HOSTS = """\
supply 1/1
host a on 0 wants 1/4 gets 1/4
host b on 0 wants 1/4 gets 1/4
aligned c in a wants 1/4 gets 1/4
aligned d in b wants 1/4 gets 1/4
aligned e on 0 wants 1/4 gets 1/4
"""
BETWEEN = """\
supply 1/1
host a on 0 wants 2/4 gets 2/4
host b in a wants 1/4 gets 1/4
aligned c in b wants 2/8 gets 2/8
aligned d on 0 wants 1/4 gets 1/4
"""
ORDERED = """\
supply 1/1
aligned a on 0 wants 1/8 gets 1/8
host b on 0 wants 1/4 gets 1/4
aligned c in b wants 1/4 gets 1/4
aligned d on 0 wants 1/4 gets 1/4
aligned e on 0 wants 1/4 gets 1/4
"""
PERIODS = """\
supply 1/1
host a on 0 wants 1/2 gets 1/2
aligned b in a wants 1/2 gets 1/2
aligned c on 0 wants 1/8 gets 1/8
aligned d on 0 wants 1/4 gets 1/4
"""
CORES = """\
supply 1/1
supply 1/1
host a on 0 wants 1/2 gets 1/2
aligned b in a wants 1/2 gets 1/2
aligned c on 0 wants 1/2 gets 1/2
host d on 1 wants 1/2 gets 1/2
aligned e in d wants 1/2 gets 1/2
aligned f on 1 wants 1/2 gets 1/2
"""
BESIDE_A_CHAIN = "aligned beside on 0 wants 1/2 gets 1/2\n"

SWITCHED = (  # a plan and decline words; what is left and who has each slot, worked out by hand, with the switch off and on
    ("sibling-gains", SIBLING_GAINS, [12, 4, 0, 0, 12, 4, 16, 16], "left 0 0 1 0 2, room - 3 4 4 - 3 - -", "left 0 0 0 0 1, room 4 3 2 4 4 3 2 -"),
    ("sibling-gains-in-one-slot", SIBLING_GAINS, [12], "left 1 0 1 1 2, room -", "left 2 1 1 1 1, room 4"),
    ("in-vain-as-its-leaf-declines", BESIDE, [2, 4, 0, 0], "left 0 1 0 0, room - 3 2 -", "left 0 0 0 0, room 2 1 3 -"),
    ("in-vain-as-its-leaf-has-nothing-left", EXAMPLE, [0] * 4, "left 0 0 0, room 1 - 2 2", "left 1 0 0, room 1 2 2 -"),
    ("in-vain-as-a-host-between-has-nothing-left", BETWEEN, [0] * 4, "left 0 0 1 0, room 2 - 3 -", "left 1 0 1 0, room 2 3 - -"),
    ("in-vain-and-the-slots-of-a-new-period", BETWEEN, [0] * 8, "left 0 0 0 0, room 2 - 3 - 2 - 3 -", "left 1 0 0 0, room 2 3 - - 2 3 - -"),
    ("in-vain-and-its-own-bit-set", BESIDE, [3, 4, 0, 0], "left 0 1 0 0, room - 3 2 -", "left 0 0 0 0, room 2 1 3 -"),
    ("only-the-host's-own-bit-set", BESIDE, [1, 1, 1, 1], "left 0 0 0 0, room 1 2 3 -", "left 0 0 0 0, room 1 2 3 -"),
    ("two-hosts-in-vain-and-then-a-leaf", TWO_HOSTS, [12, 4, 0, 0], "left 0 0 1 0 0, room - 3 4 -", "left 0 0 0 0 0, room 4 3 2 -"),
    ("the-second-of-two-hosts-in-vain", TWO_HOSTS, [8, 8, 0, 0], "left 0 0 0 1 0, room 2 - 4 -", "left 0 0 0 0 0, room 2 4 3 -"),
    ("a-tie-behind-a-host-in-vain", ORDERED, [4] * 4, "left 0 0 1 0 0, room - 3 4 0", "left 0 1 1 0 0, room 3 4 0 -"),
    ("a-tie-behind-a-host-in-vain-the-lower-declines", ORDERED, [12, 4, 0, 0], "left 0 0 1 0 0, room - 3 4 0", "left 0 0 0 0 0, room 4 3 2 0"),
    ("a-smaller-T-behind-a-host-in-vain", PERIODS, [2] * 4, "left 0 1 0 0, room - 3 - 2", "left 1 1 0 0, room 3 2 - -"),
    ("nobody-takes-it-and-nobody-is-charged", BESIDE, [14, 14, 14, 14], "left 0 1 1 1, room - - - -", "left 1 1 1 1, room - - - -"),
    ("a-slot-for-nobody-and-then-all-take", BESIDE, [14, 0, 0, 0], "left 0 1 0 0, room - 2 3 -", "left 0 0 0 0, room - 1 2 3"),
    ("ladder-nobody-declines", LADDER, [0], "left 2 1 0 0 1 1 1, room 3", "left 2 1 0 0 1 1 1, room 3"),
    ("ladder-one-level-back", LADDER, [8], "left 2 1 0 1 1 1 1, room -", "left 2 1 1 1 0 1 1, room 4"),
    ("ladder-two-levels-back", LADDER, [24], "left 2 1 0 1 1 1 1, room -", "left 2 2 1 1 1 0 1, room 5"),
    ("ladder-three-levels-back", LADDER, [56], "left 2 1 0 1 1 1 1, room -", "left 3 2 1 1 1 1 0, room 6"),
    ("ladder-nobody-takes-it", LADDER, [120], "left 2 1 0 1 1 1 1, room -", "left 3 2 1 1 1 1 1, room -"),
    ("ladder-every-level-in-turn", LADDER, [8, 24, 0, 0], "left 0 0 0 1 1 0 0, room - - 5 6", "left 0 0 0 0 0 0 0, room 4 5 3 6"),
    ("in-vain-on-one-core-and-on-two", CORES, [2, 16, 18, 0], "left 0 1 0 0 1 0, room -,4 2,5 -,- 2,5", "left 0 0 0 0 0 0, room 2,4 1,5 2,5 1,4"),
    ("a-slot-does-not-go-to-another-core", CORES, [6, 0], "left 0 1 0 0 0 0, room -,4 2,5", "left 0 0 1 0 0 0, room -,4 1,5"))


def switched(case):
    """Hosts that are passed in vain."""
    for label, plan, declined, off, on in SWITCHED:
        case(label, plan, len(declined), decline=declined, meant=(off, on))
    case("in-vain-on-a-core-that-is-not-supplied", CORES, 2, supply=[2, 1], decline=2,
         meant=("left 0 1 1 0 0 1, room x,4 -,x", "left 1 1 0 0 0 1, room x,4 2,x"))
    nested(case)
    at_the_ends(case)


def nested(case):
    """Hosts in each other, passed in vain together: at depth d a leaf that declines, or a host without children; node d is a leaf beside them all."""
    for d in (2, 3, 8):
        leaf, zeros, ones = 1 << d - 1, " 0" * (d - 1), " 1" * (d - 1)
        case(f"nested-in-vain-to-a-leaf-at-depth-{d}", chain(d) + BESIDE_A_CHAIN, 4, decline=[leaf, 0, leaf, leaf],
             meant=(f"left{zeros} 1 0, room - {d} - {d}", f"left{ones} 1 0, room {d} {d - 1} {d} -"))
        case(f"nested-in-vain-to-a-host-at-depth-{d}", chain(d, "host") + BESIDE_A_CHAIN, 2,
             meant=(f"left{zeros} 0 0, room - {d}", f"left{ones} 1 0, room {d} -"))


def at_the_ends(case):
    """Where states and runs have their limits: the last slots of all, a state from elsewhere, counts that are ignored, room beyond."""
    case("in-vain-in-the-last-slots-of-all", BESIDE, 2, decline=[2, 4], edits=("clock 0 1099511627774",),
         meant=("left 0 1 1 0, room - 3", "left 0 0 0 1, room 2 1"))
    case("in-vain-in-a-state-where-its-leaf-has-nothing-left", BESIDE, 1, edits=("clock 0 1", "left 1 0"),
         meant=("left 0 0 1 1, room -", "left 1 0 0 1, room 2"))
    case("in-vain-and-entries-past-the-last-node", BESIDE, 4, decline=[2, 4, 0, 0], edits=("left 4 7", "left 63 65535"),
         meant=("65535, room - 3 2 -", "65535, room 2 1 3 -"))
    case("in-vain-and-room-beyond-stays", BESIDE, 2, decline=[2, 4], room=5, meant=("left 0 1 1 0, room - 3 . . .", "left 0 0 0 1, room 2 1 . . ."))


SOFT_CORES = """\
edition 2
tick 250 1
supply 3/4
supply 1/2
aligned door on 0 wants 1/4 gets 1/4
aligned media on 0 wants 2/4 misses 2/3 gets 5/12
aligned map on 0 wants 1/6 misses 1/2 gets 1/12
aligned radio on 1 wants 1/2 misses 4/4 gets 2/6
aligned camera on 1 wants 3/12 misses 2/2 gets 1/6
"""
SOFT_EDITS = (  # edits of plans of both editions, each beside the number that the value then breaks, 0 for none
    (0, "soft-misses-all", SOFT, "misses 3 3/3"), (11, "soft-misses-one-too-few", SOFT, "misses 3 1/3"), (11, "soft-leaf-made-hard", SOFT, "misses 3 0/3"),
    (11, "soft-longer-stretch", SOFT, "misses 3 2/4"), (0, "soft-longest-stretch", SOFT, "misses 3 684/1024"),
    (11, "soft-longest-stretch-and-one-too-few", SOFT, "misses 3 683/1024"), (19, "soft-W-0", SOFT, "misses 3 2/0"), (19, "soft-D-over-W", SOFT, "misses 3 4/3"),
    (19, "soft-W-1025", SOFT, "misses 3 2/1025"), (19, "soft-D-and-W-65535", SOFT, "misses 3 65535/65535"), (19, "soft-host-with-D-1", SOFT, "misses 1 1/3"),
    (19, "soft-host-with-W-0", SOFT, "misses 1 0/0"), (0, "soft-host-with-W-1024", SOFT, "misses 1 0/1024"),
    (0, "soft-hard-leaf-with-W-1024", SOFT, "misses 0 0/1024"), (19, "soft-hard-leaf-with-W-0", SOFT, "misses 2 0/0"), (20, "soft-and-sliding", SOFT, "kind 3 1"),
    (20, "soft-periods-at-odds", SOFT, "wants 3 3/5"), (20, "soft-periods-at-odds-and-C-0", SOFT, "wants 3 0/5"), (11, "soft-wants-all", SOFT, "wants 3 4/4"),
    (0, "soft-wants-longer-windows", SOFT, "wants 3 7/24"), (2, "soft-edition-0", SOFT, "edition 0 0"), (2, "soft-edition-3", SOFT, "edition 0 3"),
    (2, "soft-edition-255", SOFT, "edition 0 255"), (19, "soft-leaf-in-edition-1", SOFT, "edition 0 1"), (0, "edition-2", EXAMPLE, "edition 0 2"),
    (2, "edition-0", EXAMPLE, "edition 0 0"), (2, "edition-3", EXAMPLE, "edition 0 3"), (19, "edition-1-and-W-2", EXAMPLE, "misses 1 0/2"),
    (19, "edition-1-and-D-1", EXAMPLE, "misses 2 1/1"), (19, "edition-1-and-W-0", EXAMPLE, "misses 0 0/0"), (0, "edition-1-unchanged", EXAMPLE, "misses 1 0/1"))


def soft_leaves(case):
    """Soft leaves are given slots as hard ones are."""
    case("soft", SOFT, 12, meant=("left 0 0 0 0, room 0 2 - 3 0 3 3 3 0 3 3 3", "left 0 1 0 0, room 0 2 3 3 0 3 3 3 0 3 3 -"))
    case("soft-media-declines-once", SOFT, 12, decline=[0] * 5 + [8] + [0] * 6,
         meant=("left 0 0 0 1, room 0 2 - 3 0 - 3 3 0 3 3 3", "left 0 1 0 0, room 0 2 3 3 0 - 3 3 0 3 3 3"))
    case("soft-log-declines-always", SOFT, 12, decline=4,
         meant=("left 0 0 1 0, room 0 - - 3 0 3 3 3 0 3 3 3", "left 0 2 1 0, room 0 3 3 3 0 3 3 3 0 3 - -"))
    case("soft-cores", SOFT_CORES, 24, supply=[3, 1, 3, 0] * 6)
    case("soft-cores-all-supplied", SOFT_CORES, 12)


def soft_values(case):
    for number, label, plan, edit in SOFT_EDITS:
        value = Value(read(lay(plan)))
        edited(value, State(0, []), *edit.split())
        assert value.broken() == number, (label, value.broken())
        case("plan-value-" + label, plan, 4, edits=(edit,), room=4)
    case("plan-value-soft-periods-at-odds-and-misses-all", SOFT, 4, edits=("wants 3 3/5", "misses 3 3/3"), room=4)
    case("plan-value-soft-20-and-11-at-an-earlier-node", SOFT, 4, edits=("wants 3 3/5", "wants 0 1/5"), room=4)
    case("plan-value-soft-as-hard-in-edition-1", SOFT, 12, edits=("edition 0 1", "misses 3 0/1", "wants 3 0/4"))
    case("plan-value-edition-2-and-a-soft-leaf", EXAMPLE, 8, edits=("edition 0 2", "misses 1 1/2", "wants 1 1/2"))
    case("plan-value-soft-junk-past-the-last-node", SOFT, 12, edits=("misses 4 9/0", "misses 63 65535/65535"))
    case("plan-value-junk-past-the-last-node-of-edition-1", EXAMPLE, 4, edits=("misses 3 9/0", "misses 63 65535/65535"))


def fresh_starts():
    yield "fresh-example", EXAMPLE, ()
    yield "fresh-tree", TREE, ()
    yield "fresh-longest-counts", "supply 1/1; aligned a on 0 wants 4096/4096 gets 4096/4096\n", ()
    for _, label, edit in SPOILT:
        yield "fresh-" + label, EXAMPLE, (edit,)
    yield "fresh-whole-core", WHOLE_CORE, ()
    for _, label, plan, edit in WHOLE_EDITS:
        yield "fresh-" + label, plan, (edit,)
    yield "fresh-soft", SOFT, ()
    for _, label, plan, edit in SOFT_EDITS:
        yield "fresh-" + label, plan, (edit,)
    yield "fresh-ignores-junk", EXAMPLE, ("kind 3 2", "gets 3 9/0", "supply 1 9/0")
    yield "fresh-whatever-the-state-was", EXAMPLE, ("clock 0 5", "left 0 0")


def demands():
    """Runs from a fresh start in which the supply keeps its types."""
    for label, plan, slots in (("example", EXAMPLE, 20), ("tree", TREE, 32), ("whole-core", WHOLE_CORE, 24), ("whole-host", WHOLE_HOST, 24),
                               ("whole-host-full", WHOLE_HOST.replace("3/6", "4/6"), 24), ("whole-chain-of-8", whole_chain(8), 24),
                               ("whole-core-with-children-of-period-6", siblings("4/4", "2/6", "4/6"), 24),
                               ("whole-core-with-a-child-of-period-2", siblings("4/4", "1/2", "3/6"), 24)):
        yield "demand-" + label, plan, [0xff] * slots, [0] * slots
    yield "demand-two-cores-supplied-as-little-as-they-may", TWO, [3, 1, 1, 3] * 8, [0] * 32
    yield "demand-whole-core-log-and-media-decline-always", WHOLE_CORE, [1] * 24, [6] * 24
    yield "demand-whole-core-door-and-log-decline-now-and-then", WHOLE_CORE, [1] * 24, [1, 2, 0, 3, 0, 0, 2, 1] * 3
    yield "demand-whole-host-door-declines-every-fifth-slot", WHOLE_HOST, [1] * 24, [2 if n % 5 == 0 else 0 for n in range(24)]
    yield "demand-example-log-declines-always", EXAMPLE, [1] * 20, [2] * 20
    yield "demand-example-log-declines-now-and-then", EXAMPLE, [1] * 20, [2, 0, 2, 2, 0] * 4
    yield "demand-two-cores-front-declines-and-they-are-supplied-as-little-as-they-may", TWO, [3, 1, 1, 3] * 8, [2] * 32
    yield "demand-tree-c-and-i-decline-now-and-then", TREE, [7] * 32, [4, 0, 0x104, 0x100] * 8
    yield "demand-ladder-d-and-e-decline-now-and-then", LADDER, [1] * 24, [8, 24, 0, 16, 8, 0] * 4
    yield "demand-sibling-gains-log-and-lamp-decline-now-and-then", SIBLING_GAINS, [1] * 20, [12, 4, 0, 0, 8] * 4
    yield "demand-two-hosts-in-vain", TWO_HOSTS, [1] * 24, [12] * 24
    yield "demand-nested-in-vain-at-depth-8", chain(8) + BESIDE_A_CHAIN, [1] * 16, [0x80] * 16
    yield "demand-soft", SOFT, [1] * 36, [0] * 36
    yield "demand-soft-and-a-stretch-that-is-not-over", SOFT, [1] * 35, [0] * 35
    yield "demand-soft-log-declines-now-and-then", SOFT, [1] * 36, [4, 4, 0] * 12
    yield "demand-soft-door-and-log-decline-now-and-then", SOFT, [1] * 36, [1, 4, 5, 0, 1, 0] * 6
    yield "demand-soft-media-declines-in-the-second-stretch", SOFT, [1] * 36, [0] * 12 + [8, 0, 8] * 4 + [0] * 12
    yield "demand-soft-cores-supplied-as-little-as-they-may", SOFT_CORES, [3, 1, 3, 0] * 12, [0] * 48
    yield "demand-soft-cores-supplied-late", SOFT_CORES, [0, 3, 1, 3] * 12, [0] * 48
    yield "demand-soft-cores-map-and-camera-decline-now-and-then", SOFT_CORES, [1, 3, 3, 0] * 12, [4, 16, 0, 0, 20, 0] * 8


MIXED = (  # a plan, settings, supply bytes and decline words of slots, three times one after the other; who has each of them, worked out by hand
    ("each-slot-another", EXAMPLE, "0101", [1] * 4, [0] * 4, " 1 2 - 2"), ("on-in-the-middle", EXAMPLE, "0110", [1] * 4, [0] * 4, " 1 2 2 -"),
    ("off-in-the-middle", EXAMPLE, "1001", [1] * 4, [0] * 4, " 1 - 2 2"), ("on-and-then-off", EXAMPLE, "1100", [1] * 4, [0] * 4, " 1 2 - 2"),
    ("on-once-and-its-leaf-declines", BESIDE, "1000", [1] * 4, [2, 4, 0, 0], " 2 1 3 -"),
    ("off-once-and-its-leaf-declines", BESIDE, "0111", [1] * 4, [2, 4, 0, 0], " - 3 2 -"),
    ("two-cores", CORES, "0011", [3] * 4, [2, 16, 18, 0], " -,4 2,5 2,5 1,4"),
    ("soft-leaf", SOFT, "000001111111", [1] * 12, [0] * 12, " 0 2 - 3 0 3 3 3 0 3 3 3"),
    ("soft-leaf-and-on-at-first", SOFT, "111100000000", [1] * 12, [0] * 12, " 0 2 3 3 0 - 3 3 0 3 3 3"))
DRAWN = (  # a plan, slots, supply bytes that come round, and who declines now and then
    ("drawn-example", EXAMPLE, 20, [1], 2), ("drawn-tree", TREE, 32, [7], 0b110), ("drawn-two-cores", TWO, 32, [3, 1, 1, 3], 2 + 8),
    ("drawn-ladder", LADDER, 24, [1], 8 + 16), ("drawn-two-hosts", TWO_HOSTS, 24, [1], 4), ("drawn-whole-host", WHOLE_HOST, 24, [1], 4),
    ("drawn-nested", chain(8) + BESIDE_A_CHAIN, 16, [1], 0x80), ("drawn-soft", SOFT, 48, [1], 4), ("drawn-soft-cores", SOFT_CORES, 48, [3, 1, 3, 0], 1 + 16))


def mixed():
    """Runs and steps one after the other, each with a setting of its own: what each leaf received, and the same slots by steps alone."""
    number = numbers()
    for label, plan, settings, supplied, declined, meant in MIXED:
        yield from mixed_case("mixed-" + label, plan, settings * 3, supplied * 3, declined * 3, f"room{meant * 3},")
    for label, plan, slots, supplied, who in DRAWN:
        settings, declined = "".join(str(number(1)) for _ in range(slots)), [who * number(1) for _ in range(slots)]
        yield from mixed_case("mixed-" + label, plan, settings, supplied * (slots // len(supplied)), declined)


def mixed_case(label, plan, settings, supplied, declined, meant=""):
    """The calls, with what was meant to stand in the room where it was worked out, and the steps."""
    settings = [int(digit) for digit in settings]
    calls = Case(label, plan, (), "mixed", settings, supplied, declined, len(supplied) * cores_of(plan))
    assert meant in calls.result(), (calls.said(), meant)
    return calls, Case(label + "-by-steps", plan, (), "steps", settings, supplied, declined)


# Trial


def tried_plan(draw):
    """A plan value with a whole supply of any period, up to three whole hosts in a chain, and nodes in the last that share its slots."""
    nodes = []
    for i in range(draw(range(4))):
        wanted, served = draw(range(1, 10)), draw(range(1, 10))
        nodes.append(Node(2, 127 + i if i else 0, (wanted, wanted), (0, draw(range(1, 5))), (served, served)))
    nodes += sharing(draw, 127 + len(nodes) if nodes else 0, draw((4, 6, 8, 9, 10, 12)))
    T = draw(range(1, 10))
    return tried([(T, T)], nodes)


def tried(supplies, nodes):
    value = Value(Plan(2, 1, 1, supplies, nodes, []))
    assert value.broken() == 0, (supplies, nodes)
    return value


def sharing(draw, parent, M):
    """Leaves with periods that divide M and each other, and all of M slots among them. Each wants the most that its served type stands in for."""
    leaves, left = [], M
    while left > 0:
        T = draw(periods(leaves, 1, M)) if len(leaves) < 4 else M
        C = draw(range(left * T // M + 1)) if len(leaves) < 4 else left
        leaves.append(drawn_leaf(draw, draw((0, 1)), parent, (C, T)))
        left -= C * (M // T)
    return leaves


def periods(siblings, unit, M):
    """The multiples of a unit that divide M and keep rule 13 with these siblings."""
    return [t for t in range(unit, M + 1, unit) if M % t == 0 and all(t % node.served[1] == 0 or node.served[1] % t == 0 for node in siblings)]


def drawn_leaf(draw, kind, parent, served):
    """A leaf of this kind; of the aligned ones about half are soft."""
    if kind == 0 and draw((False, True)):
        return misses_least(draw, parent, served)
    return wants_most(draw, kind, parent, served, draw(range(1, 2 * served[1] + 3)))


def wants_most(draw, kind, parent, served, T):
    """A hard node that wants, in windows of T, the most that its served type stands in for; with any W."""
    windows = pairs.each_window(("aligned", *served), ("sliding" if kind == 1 else "aligned", 0, T), pairs.argued)
    return Node(kind, parent, (min(ones for _, ones in windows), T), (0, draw(range(1, 5))), served)


def misses_least(draw, parent, served):
    """A soft leaf with a wanted type that keeps rule 20, and the least D above 0 that keeps rule 11."""
    T = served[1]
    wanted_T = draw([t for t in range(1, 2 * T + 1) if T % t == 0 or t % T == 0])
    wanted, W = (draw(range(wanted_T + 1)), wanted_T), draw(range(1, 7))
    return Node(0, parent, wanted, (max(1, soft.worst(served, wanted, W, soft.tried)), W), served)


def tried_tree(draw):
    """A plan value with a core or two and, under each, hosts in each other and leaves."""
    supplies, nodes = [], []
    for k in range(draw((1, 1, 2))):
        T = draw(range(1, 7))
        supplies.append((draw(range((T + 1) // 2, T + 1)), T))
        grow(draw, nodes, k, supplies[k], 1)
    return tried(supplies, nodes)


def grow(draw, nodes, parent, own, level):
    """Adds the children of a parent of this own type, up to four: periods that keep rules 12 and 13, counts that keep 14; and theirs, where they are
    hosts."""
    C, T = own
    unit = 1 if C == T else T
    M = unit * draw([times for times in (1, 2, 3, 4, 6, 8) if times == 1 or unit * times <= 24])
    left, first, children = (M if C == T else C * (M // T)), len(nodes), []
    for _ in range(draw(range(1, 5))):
        t = draw(periods(children, unit, M))
        most = left * t // M
        c = draw(range(min(1, most), most + 1))
        kind = draw((0, 1, 2, 2) if level < 5 and len(nodes) < 16 else (0, 1))
        children.append(wants_most(draw, kind, parent, (c, t), t) if kind == 2 else drawn_leaf(draw, kind, parent, (c, t)))
        left -= c * (M // t)
    nodes += children
    for i, child in enumerate(children):
        if child.kind == 2:
            grow(draw, nodes, 128 + first + i, child.wanted, level + 1)


def drawn_supply(draw, value, slots):
    """Supply bytes in which each core keeps its type, with as little as it may in about half of its periods."""
    supplied = [0] * slots
    for k, (C, T) in enumerate(value.supplies[:value.cores]):
        for b in range(0, slots, T):
            given = list(range(b, b + T))
            for _ in range(draw((0, T - C))):
                given.remove(draw(given))
            for n in given:
                if n < slots:
                    supplied[n] |= 1 << k
    return supplied


def above(value, i):
    """A node and the hosts above it, and its core."""
    found = [i]
    while value.nodes[found[-1]].parent >= 128:
        found.append(value.nodes[found[-1]].parent - 128)
    return found, value.nodes[found[-1]].parent


def could_take(value, left, k, declined):
    """The leaves under core k that could take a slot: those that do not decline, have slots left and stand under hosts that all have slots left."""
    lines = ((i, above(value, i)) for i in leaves(value) if not declined >> i & 1)
    return [i for i, (line, core) in lines if core == k and all(left[j] > 0 for j in line)]


def try_out(value, settings, supplied, declined, seen):
    """Asserts demand 3 of these slots, and of each in which the switch is on what `nothing_wasted` asks."""
    state, answers = fresh(value)[1], []
    for setting, *inputs in zip(settings, supplied, declined):
        before, off = copied(state), slot(OFF, value, copied(state), *inputs)
        given = slot(setting, value, state, *inputs)
        answers += given
        if setting == ON:
            refill(value, before)
            nothing_wasted(value, before.left, *inputs, given, state.left)
            seen["idle"] += given.count(IDLE)
            seen["gained"] += sum(one == IDLE != other for one, other in zip(off, given))
    demand(value, supplied, declined, answers, seen)


def copied(state):
    return State(state.clock, list(state.left))


def nothing_wasted(value, left, supplied, declined, given, after):
    """Asserts that a supplied core is idle exactly when no leaf under it could take the slot, and that only who has a slot and the hosts above are
    charged."""
    for k, grant in enumerate(given):
        ready = could_take(value, left, k, declined) or [IDLE]
        assert grant in (ready if supplied >> k & 1 else [NOT_SUPPLIED]), (value.nodes[:value.size], left, declined, given)
    charged = [j for grant in given if grant < value.size for j in above(value, grant)[0]]
    assert after == [count - charged.count(j) for j, count in enumerate(left)], (value.nodes[:value.size], left, declined, given)


def check():
    """Counts of what was seen: windows and stretches that demand 3 spoke of, windows short in these and how many stretches had just D of them, and, where
    the switch was on, idle slots and slots that would have been idle without."""
    draw, seen, slots = random.Random(1).choice, collections.Counter(), 36
    for turn in range(2000):
        value = (tried_plan, tried_tree)[turn % 2](draw)
        words = range(2 ** value.size)
        some = draw(words)
        supplied = drawn_supply(draw, value, slots)
        declined = [draw((some, some & draw(words))) for _ in range(slots)]
        for settings in [OFF] * slots, [ON] * slots, [draw(SETTINGS) for _ in range(slots)]:
            try_out(value, settings, supplied, declined, seen)
    return seen


def main(words):
    if words == ["cases"]:
        text = "\n".join(case.line() for case in cases())
        assert len(text) < 524288, "the program reads no more"
        print(text)
    elif words == ["expect"]:
        print("\n".join(case.said() for case in cases()))
    elif words == ["check"]:
        seen = check()
        print(f"{seen['windows']} windows of hard leaves have what was wanted; {seen['stretches']} stretches of soft ones have at most D windows short, "
              f"{seen['most']} of them just D, {seen['short']} windows in all; with the switch on {seen['gained']} slots went on to a sibling, "
              f"and each of {seen['idle']} idle ones was for nobody")
    else:
        sys.exit(__doc__)


if __name__ == "__main__":
    main(sys.argv[1:])
