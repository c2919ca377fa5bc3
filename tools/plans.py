#!/usr/bin/env python3
"""Plan bytes from the sentences of document 01, "The plan file", "Rules beyond the bytes" and "Refusal numbers", and of document 02, requests 2 and 6. It
knows nothing of the crates.

  python3 tools/plans.py vectors        the files of crates/vectors_plans/stdin, one a line: a label, the bytes in hex digits (`-` for none) and,
                                        where one stands there, the number of a node whose name is asked for
  python3 tools/plans.py expect         what the program of that crate has to print: the answer, and the names of an accepted plan; in edition 2 with D/W
  python3 tools/plans.py read HEX..     the answer for one file
  python3 tools/plans.py lay < TEXT     a plan as hex digits, from lines as those of EXAMPLE and SOFT below

Whether a served type stands in for a wanted one (rule 11) is decided by tools/pairs.py, and of a soft leaf by tools/soft.py, from the meaning of types.
Each vector stands beside the answer that its author had in mind, and is refused here where the reading says something else.
"""
import collections, itertools, sys

sys.dont_write_bytecode = True
import pairs, soft

# kind 0, 1 or 2; the parent's byte; a type (C, T); D and W, which are 0 and 1 in edition 1; a type, aligned
Node = collections.namedtuple("Node", "kind parent wanted misses served")
Plan = collections.namedtuple("Plan", "edition P Q supplies nodes names")
KINDS = ("aligned", "sliding", "host")


class Refused(Exception):
    def __init__(self, number, place):
        self.number, self.place = number, place


# Reading


class File:
    """Plan bytes, and the place of the field that is read next."""

    def __init__(self, data):
        self.data, self.at = data, 0

    def field(self, size):
        first, self.at = self.at, self.at + size
        if len(self.data) < self.at:
            raise Refused(1, first)
        return int.from_bytes(self.data[first:self.at], "little")

    def one_of(self, allowed, size, number):
        """A field that has to be one of the allowed numbers, or else is refused by `number` at its first byte."""
        first, value = self.at, self.field(size)
        if value not in allowed:
            raise Refused(number, first)
        return value

    def slot_type(self):
        first, C, T = self.at, self.field(2), self.field(2)
        if not well_formed((C, T)):
            raise Refused(4, first)
        return C, T

    def misses(self, kind):
        first, D, W = self.at, self.field(2), self.field(2)
        if not borne(kind, (D, W)):
            raise Refused(19, first)
        return D, W

    def node(self, edition, supplies, nodes):
        kind = self.one_of(range(3), 1, 5)
        place, parent = self.at, self.field(1)
        if not names_a_parent(parent, supplies, nodes):
            raise Refused(6, place)
        if depth(parent, nodes) > 8:
            raise Refused(7, place)
        return Node(kind, parent, self.slot_type(), self.misses(kind) if edition == 2 else NONE_MISSED, self.slot_type())

    def name(self, before):
        first = self.at
        length = self.one_of(range(1, 33), 1, 8)
        name = bytes(self.one_of(range(33, 127), 1, 8) for _ in range(length)).decode()
        if name in before:
            raise Refused(9, first)
        return name


def well_formed(slot_type):
    C, T = slot_type
    return 1 <= T <= 4096 and 0 <= C <= T


NONE_MISSED = 0, 1  # D and W of a node of edition 1


def borne(kind, misses):
    """Whether 1 ≤ W ≤ 1,024 and D ≤ W, and for a host D = 0."""
    D, W = misses
    return 1 <= W <= 1024 and D <= W and (kind != 2 or D == 0)


def names_a_parent(byte, supplies, nodes):
    """Below 128 a supply; from 128 on one of the earlier nodes, which are those given, and a host."""
    if byte < 128:
        return byte < len(supplies)
    return byte - 128 < len(nodes) and nodes[byte - 128].kind == 2


def depth(parent, nodes):
    """The depth of a node with this parent byte."""
    return 1 if parent < 128 else 1 + depth(nodes[parent - 128].parent, nodes)


def read(data):
    """The plan, or Refused."""
    file = File(data)
    edition = file.one_of([1, 2], 1, 2)
    P, Q = (file.one_of(range(1, 1_000_001), 4, 3) for _ in "PQ")
    for _ in range(8 if edition == 2 else 0):
        file.one_of([0], 1, 3)
    supplies, nodes, names = [], [], []
    for _ in range(file.one_of(range(1, 9), 1, 2)):
        supplies.append(file.slot_type())
    for _ in range(file.one_of(range(1, 65), 1, 2)):
        nodes.append(file.node(edition, supplies, nodes))
    for _ in range(file.one_of([len(nodes)], 1, 2)):
        names.append(file.name(names))
    if file.at < len(data):
        raise Refused(10, file.at)
    rules(supplies, nodes)
    return Plan(edition, P, Q, supplies, nodes, names)


# Rules beyond the bytes


def is_soft(node):
    """Leaves with D = 0 and all hosts are treated as hard."""
    return node.kind != 2 and node.misses[0] > 0


def stands_in(node):
    """Rule 11. A soft leaf is aligned."""
    if is_soft(node):
        return soft.allowed(node.served, node.wanted, node.misses)
    least = pairs.tried if node.served[1] <= 6 and node.wanted[1] <= 30 else pairs.argued
    return pairs.judge(("aligned", *node.served), ("sliding" if node.kind == 1 else "aligned", *node.wanted), least).startswith("holds")


def rules(supplies, nodes):
    """Rule 11 over all nodes, at each just after 20; then, for each supply and each host in number order, rules 12, 13 and 14."""
    for i, node in enumerate(nodes):
        if is_soft(node) and not (node.kind == 0 and soft.divides(node.served, node.wanted)):
            raise Refused(20, i)
        if not stands_in(node):
            raise Refused(11, i)
    for k, supply in enumerate(supplies):
        rules_of_parent(supply, [i for i, node in enumerate(nodes) if node.parent == k], nodes)
    for h, host in enumerate(nodes):
        if host.kind == 2:
            rules_of_parent(host.wanted, [i for i, node in enumerate(nodes) if node.parent == 128 + h], nodes)


def is_whole(own):
    """A parent with C = T gives all slots."""
    C, T = own
    return C == T


def rules_of_parent(own, children, nodes):
    """Rule 12 is not asked under a parent that gives all slots, and its side of rule 14 is M."""
    C, T = own
    period = {i: nodes[i].served[1] for i in children}
    for i in children:
        if not is_whole(own) and period[i] % T != 0:
            raise Refused(12, i)
    for i in children:
        if any(period[i] % period[j] != 0 and period[j] % period[i] != 0 for j in children if j < i):
            raise Refused(13, i)
    M = max(period.values(), default=T)
    side = M if is_whole(own) else C * (M // T)
    total = 0
    for i in children:
        total += nodes[i].served[0] * (M // period[i])
        if total > side:
            raise Refused(14, i)


# Laying out

EXAMPLE = """\
tick 1000 3
supply 1/1
host body on 0 wants 2/4 gets 2/4
aligned log in body wants 1/9 gets 1/4
sliding door on 0 wants 4/10 gets 2/4
"""
SOFT = """\
edition 2
tick 1000 3
supply 1/1
aligned door on 0 wants 1/4 gets 1/4
host rack on 0 wants 2/12 gets 2/12
aligned log in rack wants 1/12 gets 1/12
aligned media on 0 wants 3/4 misses 2/3 gets 7/12
"""


def type_of(text):
    return tuple(int(number) for number in text.split("/"))


def lay(text):
    """The bytes of a plan described by lines as those of EXAMPLE and SOFT, or with semicolons between them. `on` names a supply, `in` an earlier node,
    `at` a parent byte. In edition 2 a node may have `misses D/W`; without it has 0/1. Nothing is tested."""
    edition, tick, supplies, nodes, names = 1, (1, 1), [], [], []
    for word, *rest in (line.split() for line in text.replace(";", "\n").splitlines()):
        if word == "edition":
            edition = int(rest[0])
        elif word == "tick":
            tick = [int(number) for number in rest]
        elif word == "supply":
            supplies.append(type_of(rest[0]))
        else:
            name, how, parent, _, wanted, *misses, _, served = rest
            assert not misses or edition == 2 and misses[0] == "misses", (word, *rest)
            byte = 128 + names.index(parent) if how == "in" else int(parent)
            nodes.append(Node(KINDS.index(word), byte, type_of(wanted), type_of(misses[1]) if misses else NONE_MISSED, type_of(served)))
            names.append(name)
    return lay_parts(edition, tick, supplies, nodes, names)


def lay_parts(edition, tick, supplies, nodes, names):
    """Edition 2 has a second record in the tick, of eight zero bytes, and D and W in each node."""
    return b"".join((
        bytes([edition]), *(number.to_bytes(4, "little") for number in tick), bytes(8 if edition == 2 else 0),
        bytes([len(supplies)]), *map(lay_type, supplies),
        bytes([len(nodes)]), *(lay_node(edition, node) for node in nodes),
        bytes([len(names)]), *(bytes([len(name)]) + name.encode() for name in names)))


def lay_node(edition, node):
    misses = lay_type(node.misses) if edition == 2 else b""
    return bytes([node.kind, node.parent]) + lay_type(node.wanted) + misses + lay_type(node.served)


def lay_type(pair):
    """A type, or D and W."""
    return b"".join(number.to_bytes(2, "little") for number in pair)


def put(data, *edits):
    """The bytes with others in their place: a place and what stands there instead (a byte, or bytes), any number of times."""
    data = bytearray(data)
    for place, new in zip(edits[::2], edits[1::2]):
        new = bytes([new]) if isinstance(new, int) else new
        data[place:place + len(new)] = new
    return bytes(data)


# Vectors


class Vectors:
    def __init__(self):
        self.all = {}

    def add(self, label, data, meant, asked=None):
        """A file, what its author had in mind, and a node to ask a name of."""
        data = data if isinstance(data, bytes) else lay(data)
        said = answer(data).split(":")[0]
        assert said == meant, f"{label}: meant {meant}, read {said}"
        assert label not in self.all and label[0].isalpha() and " " not in label, label
        self.all[label] = data, asked


def answer(data):
    try:
        plan = read(data)
    except Refused as r:
        return f"refused {r.number} at {r.place}"
    if plan.edition == 1:
        return f"accepted {len(plan.nodes)}: {' '.join(plan.names)}"
    named = " ".join(f"{name} {node.misses[0]}/{node.misses[1]}" for name, node in zip(plan.names, plan.nodes))
    return f"accepted {len(plan.nodes)} of edition {plan.edition}: {named}"


def asked_name(data, i):
    """The name of a node; of a refused plan, or of a node not there, an empty part."""
    try:
        names = read(data).names
    except Refused:
        names = []
    return f", node {i} is {names[i]}" if i < len(names) else f", node {i} has no name"


def vectors():
    v = Vectors()
    for group in (examples, counts, ticks, types, kinds_and_parents, depths, names, ends, rule_11, rule_12, rule_13, rule_14, whole_supplies,
                  whole_limits, whole_hosts, not_whole, whole_chains, orders, whole_orders, longest, neighbours, editions, spare_bytes, misses, hard_in_edition_2,
                  rule_20, rule_11_soft, soft_edges, soft_siblings, soft_orders, longest_soft, soft_neighbours):
        group(v.add)
    return v.all


def examples(add):
    example = lay(EXAMPLE)
    assert example == bytes.fromhex(
        "01 E8030000 03000000 01 0100 0100 03 0200 0200 0400 0200 0400 0080 0100 0900 0100 0400 0100 0400 0A00 0200 0400"
        "03 04626F6479 036C6F67 04646F6F72")
    add("example", example, "accepted 3", 3)
    add("example-asked-for-a-name", example, "accepted 3", 1)
    add("example-asked-far-away", example, "accepted 3", 2 ** 32)
    fields = [0, 1, 5, 9, 10, 12, 14]  # where each field starts
    fields += [15 + 10 * i + k for i in range(3) for k in (0, 1, 2, 4, 6, 8)] + list(range(45, 60))
    for length in range(60):
        first = max(place for place in fields if place <= length)
        label = f"example-cut-to-{length}-bytes" if length else "empty-file"
        add(label, example[:length], f"refused 1 at {first}", 0 if length % 20 == 0 else None)


def counts(add):
    example = lay(EXAMPLE)
    for place, what, bad in ((0, "tick", (0, 3, 255)), (9, "supply", (0, 9, 255)), (14, "node", (0, 65, 255)), (45, "name", (0, 2, 4, 255))):
        for count in bad:
            add(f"{what}-count-{count}", put(example, place, count), f"refused 2 at {place}", 0)
    add("node-count-65-before-name-count-0", put(example, 14, 65, 45, 0), "refused 2 at 14")
    add("tick-count-0-before-P-0", put(example, 0, 0, 1, bytes(4)), "refused 2 at 0")
    add("supply-count-2-reads-on-into-nodes", put(example, 9, 2), "refused 4 at 14")
    add("node-count-2-takes-a-node-for-names", put(example, 14, 2), "refused 2 at 35")
    add("node-count-4-takes-names-for-a-node", put(example, 14, 4), "refused 5 at 45")
    add("just-a-tick-count-2", b"\2", "refused 1 at 1")
    add("just-a-tick-count-3", b"\3", "refused 2 at 0")
    add("ends-after-supply-count-9", put(example, 9, 9)[:10], "refused 2 at 9")


def ticks(add):
    example = lay(EXAMPLE)
    for letter, place in (("P", 1), ("Q", 5)):
        for number in (1, 65_536, 1_000_000):
            add(f"{letter}-{number}", put(example, place, number.to_bytes(4, "little")), "accepted 3")
        for number in (0, 1_000_001, 16_777_216, 2 ** 32 - 1):
            add(f"{letter}-{number}", put(example, place, number.to_bytes(4, "little")), f"refused 3 at {place}", 0)
    add("P-0-before-Q-0", put(example, 1, bytes(8)), "refused 3 at 1")
    add("P-0-before-Q-missing", put(example, 1, bytes(4))[:5], "refused 3 at 1")
    add("P-0-before-Q-cut", put(example, 1, bytes(4))[:7], "refused 3 at 1")
    add("Q-0-before-supply-count-0", put(example, 5, bytes(5)), "refused 3 at 5")


def types(add):
    example = lay(EXAMPLE)
    full = "supply 1/1; aligned a on 0 wants %s gets %s\n"
    add("T-4096", full % ("1/4096", "1/4096"), "accepted 1")
    add("T-4096-C-4096", full % ("4096/4096", "4096/4096"), "accepted 1")
    add("T-1-C-0", full % ("0/1", "0/1"), "accepted 1")
    add("supply-T-4096", "supply 4096/4096; aligned a on 0 wants 4096/4096 gets 4096/4096\n", "accepted 1")
    for place, what in ((10, "supply"), (17, "wanted"), (21, "served"), (37, "last-wanted"), (41, "last-served")):
        for C, T in ((0, 0), (1, 0), (0, 4097), (1, 4097), (5, 4), (4097, 4096), (65535, 65535), (256, 1)):
            if what in ("supply", "wanted", "served") or T == 4097:
                add(f"{what}-{C}-of-{T}", put(example, place, lay_type((C, T))), f"refused 4 at {place}", 0 if T == 0 else None)
    add("supply-C-is-T", put(example, 10, lay_type((4, 4))), "accepted 3")
    add("C-65535-before-T-missing", put(example, 10, b"\xff\xff")[:12], "refused 1 at 12")
    add("C-65535-before-T-cut", put(example, 10, b"\xff\xff")[:13], "refused 1 at 12")
    add("supply-malformed-and-the-file-ends", put(example, 10, lay_type((2, 1)))[:14], "refused 4 at 10")
    add("supply-malformed-before-node-count-0", put(example, 10, lay_type((2, 1)), 14, 0), "refused 4 at 10")
    add("wanted-before-served-malformed", put(example, 27, lay_type((2, 1)) * 2), "refused 4 at 27")
    add("wanted-malformed-before-next-kind-bad", put(example, 27, lay_type((2, 1)), 35, 3), "refused 4 at 27")
    add("served-malformed-before-next-kind-bad", put(example, 31, lay_type((2, 1)), 35, 3), "refused 4 at 31")
    add("kind-bad-before-wanted-malformed-later", put(example, 25, 3, 37, lay_type((2, 1))), "refused 5 at 25")
    two = "supply 1/1; supply %s; aligned a on 0 wants 1/4 gets 1/4\n"
    add("second-supply-malformed", two % "3/2", "refused 4 at 14")
    add("second-supply-C-0", two % "0/2", "accepted 1")


def kinds_and_parents(add):
    example = lay(EXAMPLE)
    for i in range(3):
        for kind in (3, 255):
            add(f"node-{i}-kind-{kind}", put(example, 15 + 10 * i, kind), f"refused 5 at {15 + 10 * i}", 0)
    add("kind-3-before-parent-bad", put(example, 25, b"\3\xff"), "refused 5 at 25")
    add("kind-3-before-parent-missing", put(example, 25, 3)[:26], "refused 5 at 25")
    add("first-node-a-leaf-and-the-second-in-it", put(example, 15, 0), "refused 6 at 26")
    for i, what in ((0, "first"), (2, "last")):
        place = 16 + 10 * i
        for byte in (1, 7, 8, 127, 128 + i, 128 + 3, 191, 192, 255):
            add(f"{what}-node-parent-byte-{byte}", put(example, place, byte), f"refused 6 at {place}", 0)
    add("parent-is-the-next-node", put(example, 16, 129), "refused 6 at 16")
    add("parent-is-a-leaf", put(example, 36, 129), "refused 6 at 36")
    add("parent-is-a-sliding-leaf", put(example, 25, 1, 36, 129), "refused 6 at 36")
    add("parent-is-a-later-host", "supply 1/1; aligned a at 129 wants 1/4 gets 1/4; host b on 0 wants 1/4 gets 1/4\n", "refused 6 at 16")
    add("parent-bad-before-wanted-malformed", put(example, 26, 255, 27, lay_type((2, 1))), "refused 6 at 26")
    add("parent-bad-before-wanted-missing", put(example, 26, 255)[:27], "refused 6 at 26")
    cores = "supply 1/1\n" * 8
    add("supply-7-of-8", cores + "aligned a on 7 wants 1/4 gets 1/4\n", "accepted 1")
    add("supply-8-of-8", cores + "aligned a on 8 wants 1/4 gets 1/4\n", "refused 6 at 44")


def chain(levels, last="aligned"):
    """Hosts, each in the one before, and a leaf in the last, or a host."""
    lines = ["supply 1/1"] + [f"host h{i} {'on 0' if i == 0 else f'in h{i - 1}'} wants 1/2 gets 1/2" for i in range(levels - 1)]
    return "\n".join(lines + [f"{last} end in h{levels - 2} wants 1/2 gets 1/2\n"])


def depths(add):
    add("depth-8", chain(8), "accepted 8")
    add("depth-8-a-host", chain(8, "host"), "accepted 8")
    add("depth-9", chain(9), "refused 7 at 96", 0)
    add("depth-9-a-host", chain(9, "host"), "refused 7 at 96")
    add("depth-9-twice", chain(9) + "aligned other in h7 wants 1/2 gets 1/2\n", "refused 7 at 96")
    add("depth-9-before-wanted-malformed", put(lay(chain(9)), 97, lay_type((3, 2))), "refused 7 at 96")
    add("depth-9-before-wanted-missing", lay(chain(9))[:97], "refused 7 at 96")
    add("depth-9-after-a-kind-bad", put(lay(chain(9)), 95, 3), "refused 5 at 95")
    add("depth-9-in-a-leaf", put(lay(chain(9)), 85, 0), "refused 6 at 96")


def names(add):
    one = "supply 1/1; aligned %s on 0 wants 1/4 gets 1/4\n"
    example = lay(EXAMPLE)
    add("name-of-1", one % "!", "accepted 1", 0)
    add("name-of-32", one % ("n" * 31 + "~"), "accepted 1", 0)
    add("name-of-33", one % ("n" * 33), "refused 8 at 26", 0)
    add("name-of-0", put(example, 46, 0), "refused 8 at 46", 0)
    add("name-of-255", put(example, 51, 255), "refused 8 at 51")
    add("name-of-0-and-the-file-ends", put(example, 51, 0)[:52], "refused 8 at 51")
    add("name-of-33-before-its-bytes-missing", put(example, 55, 33)[:56], "refused 8 at 55")
    for place, what in ((47, "first"), (50, "fourth"), (59, "last")):
        for byte in (33, 126):
            add(f"{what}-name-byte-{byte}", put(example, place, byte), "accepted 3")
        for byte in (0, 10, 32, 127, 128, 255):
            add(f"{what}-name-byte-{byte}", put(example, place, byte), f"refused 8 at {place}", 0 if byte == 32 else None)
    add("name-byte-bad-before-a-missing-one", put(example, 56, 32)[:58], "refused 8 at 56")
    add("name-byte-missing-before-a-bad-length", put(example, 55, 5), "refused 1 at 60")
    three = "supply 1/1\n" + "".join(f"aligned %s on 0 wants 1/4 gets 1/4\n" for _ in range(3))
    add("names-differ-in-the-last-byte", three % ("door1", "door2", "door3"), "accepted 3")
    add("names-differ-in-the-first-byte", three % ("adoor", "bdoor", "cdoor"), "accepted 3")
    add("names-begin-alike", three % ("door", "doo", "doors"), "accepted 3")
    add("names-differ-in-case", three % ("door", "Door", "DOOR"), "accepted 3")
    add("name-2-is-name-1", three % ("a", "door", "door"), "refused 9 at 53", 2)
    add("name-2-is-name-0", three % ("door", "a", "door"), "refused 9 at 53")
    add("name-1-is-name-0", three % ("door", "door", "a"), "refused 9 at 51", 0)
    add("all-names-alike", three % ("d", "d", "d"), "refused 9 at 48")
    add("name-occurs-before-next-byte-bad", put(lay(three % ("ab", "ab", "cd")), 53, 32), "refused 9 at 49")
    add("name-occurs-before-next-length-bad", put(lay(three % ("ab", "ab", "cd")), 52, 0), "refused 9 at 49")
    add("name-occurs-before-next-missing", lay(three % ("ab", "ab", "cd"))[:52], "refused 9 at 49")
    add("name-byte-bad-before-the-name-occurs", put(lay(three % ("ab", "cd", "ab")), 53, 32), "refused 8 at 53")
    add("name-occurs-before-bytes-left-over", lay(three % ("ab", "cd", "ab")) + b"\0", "refused 9 at 52")


def ends(add):
    example = lay(EXAMPLE)
    add("one-byte-left-over", example + b"\0", "refused 10 at 60", 0)
    add("four-bytes-left-over", example + b"door", "refused 10 at 60")
    add("twice-the-example", example * 2, "refused 10 at 60")
    add("left-over-before-rule-11", put(example, 37, lay_type((5, 10))) + b"\0", "refused 10 at 60")
    add("left-over-before-rule-14", put(example, 10, lay_type((1, 2))) + b"\n", "refused 10 at 60")


def alone(kind, wanted, served):
    return f"supply 1/1\n{kind} a on 0 wants {wanted} gets {served}\n"


def rule_11(add):
    for kind, wanted, served, meant in (
            ("aligned", "1/5", "1/4", "refused 11 at 0"), ("aligned", "2/8", "1/4", "accepted 1"), ("aligned", "2/3", "2/3", "accepted 1"),
            ("aligned", "1/3", "2/4", "refused 11 at 0"), ("aligned", "3/3", "4/4", "accepted 1"), ("aligned", "0/3", "0/4", "accepted 1"),
            ("aligned", "1/4096", "2047/4095", "refused 11 at 0"), ("aligned", "1/4096", "2048/4095", "accepted 1"),
            ("aligned", "1/4096", "1/2048", "accepted 1"), ("aligned", "2/4096", "1/2048", "accepted 1"),
            ("aligned", "3/4096", "1/2048", "refused 11 at 0"),
            ("sliding", "2/8", "2/4", "accepted 1"), ("sliding", "3/8", "2/4", "refused 11 at 0"), ("sliding", "2/4", "2/4", "refused 11 at 0"),
            ("sliding", "4/4", "4/4", "accepted 1"), ("sliding", "0/4096", "0/1", "accepted 1"),
            ("sliding", "4094/4096", "4093/4094", "refused 11 at 0"),
            ("sliding", "2048/4096", "3072/4096", "accepted 1"), ("sliding", "2049/4096", "3072/4096", "refused 11 at 0"),
            ("sliding", "4/10", "2/4", "accepted 1"), ("sliding", "5/10", "2/4", "refused 11 at 0"),
            ("host", "2/4", "2/4", "accepted 1"), ("host", "1/5", "1/4", "refused 11 at 0"), ("host", "3/8", "2/4", "accepted 1")):
        add(f"{kind}-wants-{wanted}-gets-{served}".replace("/", "of"), alone(kind, wanted, served), meant, 0 if meant[0] == "r" else None)
    add("rule-11-at-two-nodes", "supply 1/1; host h on 0 wants 1/4 gets 1/4; aligned a in h wants 1/5 gets 1/4; aligned b on 0 wants 1/5 gets 1/4\n",
        "refused 11 at 1")


def rule_12(add):
    add("period-no-multiple-of-the-supply's", "supply 1/2; aligned a on 0 wants 1/3 gets 1/3\n", "refused 12 at 0", 0)
    add("period-shorter-than-the-supply's", "supply 2/4; aligned a on 0 wants 1/2 gets 1/2\n", "refused 12 at 0")
    add("period-a-multiple-of-the-supply's", "supply 1/2; aligned a on 0 wants 1/6 gets 3/6\n", "accepted 1")
    add("lowest-of-two-periods-that-do-not-fit",
        "supply 2/4; aligned a on 0 wants 1/4 gets 1/4; aligned b on 0 wants 0/6 gets 0/6; aligned c on 0 wants 0/2 gets 0/2\n",
        "refused 12 at 1")
    host = "supply 1/1; host h on 0 wants %s gets %s; aligned a in h wants %s gets %s\n"
    add("host's-wanted-period-counts", host % ("2/4", "1/2", "1/2", "1/2"), "refused 12 at 1")
    add("host's-served-period-does-not-count", host % ("1/3", "6/6", "1/9", "1/9"), "accepted 2")
    add("child-of-a-host-fits", host % ("2/4", "1/2", "4/8", "4/8"), "accepted 2")
    add("child-with-C-0-and-a-period-that-does-not-fit", "supply 1/2; aligned a on 0 wants 0/3 gets 0/3\n", "refused 12 at 0")
    add("rule-12-at-supply-1", "supply 1/1; supply 1/2; aligned a on 0 wants 1/3 gets 1/3; aligned b on 1 wants 1/3 gets 1/3\n", "refused 12 at 1")


def siblings(supply, *served):
    lines = (f"aligned n{i} on 0 wants {t} gets {t}\n" for i, t in enumerate(served))
    return f"supply {supply}\n" + "".join(lines)


def rule_13(add):
    add("periods-4-and-6", siblings("1/2", "0/4", "0/6"), "refused 13 at 1", 0)
    add("periods-4-8-6", siblings("1/1", "1/4", "1/8", "1/6"), "refused 13 at 2")
    add("periods-12-4-6", siblings("1/1", "1/12", "1/4", "1/6"), "refused 13 at 2")
    add("periods-6-12-4", siblings("1/1", "1/6", "1/12", "1/4"), "refused 13 at 2")
    add("periods-12-6-3", siblings("1/1", "1/12", "1/6", "1/3"), "accepted 3")
    add("periods-2-3-5", siblings("1/1", "1/2", "0/3", "0/5"), "refused 13 at 1")
    add("periods-4-and-6-of-two-cores", "supply 1/1; supply 1/1; aligned a on 0 wants 1/4 gets 1/4; aligned b on 1 wants 1/6 gets 1/6\n", "accepted 2")
    add("periods-4-and-6-in-a-host",
        "supply 1/1; host h on 0 wants 1/2 gets 1/2; aligned a in h wants 1/4 gets 1/4; aligned b in h wants 1/6 gets 1/6\n",
        "refused 13 at 2")
    add("periods-4-and-6-of-parent-and-child", "supply 1/1; host h on 0 wants 1/3 gets 4/4; aligned a in h wants 1/6 gets 1/6\n", "accepted 2")
    add("sibling-apart", "supply 1/1; aligned a on 0 wants 1/4 gets 1/4; host h on 0 wants 1/2 gets 1/2; aligned b in h wants 1/2 gets 1/2\n"
        "aligned c on 0 wants 0/6 gets 0/6\n", "refused 13 at 3")


def rule_14(add):
    add("sum-exact", siblings("1/2", "1/4", "2/8"), "accepted 2")
    add("sum-over-by-one", siblings("1/2", "1/4", "3/8"), "refused 14 at 1", 1)
    add("first-child-over", siblings("1/2", "3/4", "0/4"), "refused 14 at 0")
    add("sum-over-at-the-second-of-three", siblings("1/2", "1/4", "2/4", "1/4"), "refused 14 at 1")
    add("sum-over-at-the-last-of-three", siblings("1/2", "1/4", "1/4", "1/8"), "refused 14 at 2")
    add("sum-exact-and-then-C-0", siblings("1/2", "1/4", "1/4", "0/8"), "accepted 3")
    add("longest-period-last", siblings("1/2", "1/2", "1/4096"), "refused 14 at 1")
    add("longest-period-last-over", siblings("1/2", "511/1024", "2/2048", "4/4096"), "refused 14 at 2")
    add("longest-period-last-exact", siblings("1/2", "511/1024", "1/2048", "2/4096"), "accepted 3")
    add("supply-C-0", siblings("0/4", "0/4", "0/8"), "accepted 2")
    add("supply-C-0-over", siblings("0/4", "0/4", "1/8"), "refused 14 at 1")
    add("full-supply-exact", siblings("4096/4096", "4095/4096", "1/4096"), "accepted 2")
    add("full-supply-over", siblings("4096/4096", "4096/4096", "1/4096"), "refused 14 at 1")
    host = "supply 1/1; host h on 0 wants %s gets %s; aligned a in h wants 1/8 gets 1/8; aligned b in h wants %s gets %s\n"
    add("host's-wanted-type-counts", host % ("1/4", "4/4", "2/8", "2/8"), "refused 14 at 2")
    add("host's-wanted-type-exact", host % ("1/4", "4/4", "1/8", "1/8"), "accepted 3")
    add("child-T-4096-C-0", siblings("1/1", "1/1", "0/4096"), "accepted 2")
    add("hosts-with-no-children", "supply 1/1; host h on 0 wants 1/2 gets 1/2; host g on 0 wants 1/2 gets 1/2\n", "accepted 2")
    add("core-with-no-node", "supply 1/1; supply 2/4; aligned a on 1 wants 2/4 gets 2/4\n", "accepted 1")
    add("sliding-leaves", "supply 1/1; sliding a on 0 wants 4/10 gets 2/4; host h on 0 wants 2/4 gets 2/4; sliding b in h wants 1/8 gets 1/4\n"
        "sliding c in h wants 1/16 gets 1/8\n", "accepted 4")
    many = [f"1/{2 ** (1 + i)}" for i in range(12)]
    add("twelve-halvings-exact", siblings("1/1", *many, "1/4096"), "accepted 13")
    add("twelve-halvings-over", siblings("1/1", *many, "2/4096"), "refused 14 at 12")


WHOLE_CORE = """\
tick 2500 1
supply 4/4
aligned door on 0 wants 1/3 gets 1/3
aligned log on 0 wants 2/6 gets 2/6
sliding media on 0 wants 2/10 gets 2/6
"""
WHOLE_HOST = """\
tick 2500 1
supply 4/4
host body on 0 wants 4/4 gets 4/4
aligned door in body wants 1/3 gets 1/3
aligned log in body wants 3/6 gets 3/6
aligned spare on 0 wants 0/4 gets 0/4
"""


def whole_supplies(add):
    """Under a supply of (4,4), and the same under (3,4)."""
    add("whole-core", WHOLE_CORE, "accepted 3", 2)
    add("whole-core-but-3-of-4", WHOLE_CORE.replace("supply 4/4", "supply 3/4"), "refused 12 at 0", 2)
    add("whole-core-overfull-by-one", WHOLE_CORE.replace("2/10 gets 2/6", "2/10 gets 3/6"), "refused 14 at 2", 1)
    for children, whole, short in (
            (["1/6"], "accepted 1", "refused 12 at 0"), (["6/6"], "accepted 1", "refused 12 at 0"), (["0/6"], "accepted 1", "refused 12 at 0"),
            (["5/6", "1/6"], "accepted 2", "refused 12 at 0"), (["5/6", "2/6"], "refused 14 at 1", "refused 12 at 0"),
            (["2/6", "4/6"], "accepted 2", "refused 12 at 0"), (["2/6", "5/6"], "refused 14 at 1", "refused 12 at 0"),
            (["3/6", "3/6", "1/6", "0/6"], "refused 14 at 2", "refused 12 at 0"), (["5/6", "1/6", "0/6"], "accepted 3", "refused 12 at 0"),
            (["1/3", "4/6"], "accepted 2", "refused 12 at 0"), (["1/3", "5/6"], "refused 14 at 1", "refused 12 at 0"),
            (["4/12", "2/6", "1/3"], "accepted 3", "refused 12 at 1"), (["4/12", "2/6", "1/3", "1/12"], "refused 14 at 3", "refused 12 at 1"),
            (["0/4", "0/12", "0/2"], "accepted 3", "refused 12 at 2"), (["1/2"], "accepted 1", "refused 12 at 0"),
            (["2/2"], "accepted 1", "refused 12 at 0"), (["2/2", "1/2"], "refused 14 at 1", "refused 12 at 0"),
            (["1/2", "3/6"], "accepted 2", "refused 12 at 0"), (["1/2", "4/6"], "refused 14 at 1", "refused 12 at 0"),
            (["1/2", "2/4"], "accepted 2", "refused 12 at 0"), (["2/4", "1/2", "1/2"], "refused 14 at 2", "refused 12 at 1"),
            (["1/1"], "accepted 1", "refused 12 at 0"), (["1/1", "1/1"], "refused 14 at 1", "refused 12 at 0"),
            (["4/4"], "accepted 1", "refused 14 at 0"), (["3/4", "1/4"], "accepted 2", "refused 14 at 1"),
            (["3/4", "2/8"], "accepted 2", "refused 14 at 1"), (["3/4", "3/8"], "refused 14 at 1", "refused 14 at 1")):
        shown = "-".join(children).replace("/", "of")
        add(f"under-4of4-{shown}", siblings("4/4", *children), whole)
        add(f"under-3of4-{shown}", siblings("3/4", *children), short)


def whole_limits(add):
    """The longest periods, and the shortest: whole is C = T, not one less and not C = 0."""
    for supply, children, meant in (
            ("4096/4096", ["4095/4095"], "accepted 1"), ("4096/4096", ["4094/4095", "1/4095"], "accepted 2"),
            ("4096/4096", ["4095/4095", "1/4095"], "refused 14 at 1"), ("4096/4096", ["1/3", "2730/4095"], "accepted 2"),
            ("4096/4096", ["1/3", "2731/4095"], "refused 14 at 1"),
            ("4095/4096", ["1/4095"], "refused 12 at 0"), ("4095/4096", ["4095/4096"], "accepted 1"), ("4095/4096", ["4096/4096"], "refused 14 at 0"),
            ("4095/4095", ["4096/4096"], "accepted 1"), ("4095/4095", ["4096/4096", "1/4096"], "refused 14 at 1"),
            ("4094/4095", ["1/4096"], "refused 12 at 0"), ("1/1", ["4095/4095", "0/3"], "accepted 2"), ("2/2", ["4095/4095", "0/3"], "accepted 2"),
            ("0/4", ["0/6"], "refused 12 at 0"), ("0/4", ["0/2"], "refused 12 at 0"), ("0/4", ["0/8", "0/6"], "refused 12 at 1"),
            ("0/1", ["0/6"], "accepted 1"), ("0/1", ["1/6"], "refused 14 at 0"), ("0/4096", ["0/4095"], "refused 12 at 0")):
        add(f"under-{supply}-{'-'.join(children)}".replace("/", "of"), siblings(supply, *children), meant)


def in_host(wanted, served, *children, supply="4/4"):
    lines = (f"aligned n{i} in h wants {t} gets {t}\n" for i, t in enumerate(children))
    return f"supply {supply}\nhost h on 0 wants {wanted} gets {served}\n" + "".join(lines)


def whole_hosts(add):
    """A host is whole by the type that it wants, and its children are asked by that type."""
    add("whole-host", WHOLE_HOST, "accepted 4", 3)
    add("whole-host-but-wants-3-of-4", WHOLE_HOST.replace("wants 4/4", "wants 3/4"), "refused 12 at 1")
    add("whole-host-but-wants-and-gets-3-of-4", WHOLE_HOST.replace("wants 4/4 gets 4/4", "wants 3/4 gets 3/4"), "refused 12 at 1")
    add("whole-host-of-a-core-of-3-of-4", WHOLE_HOST.replace("supply 4/4", "supply 3/4"), "refused 14 at 0")
    add("whole-host-and-core-but-3-of-4", WHOLE_HOST.replace("4/4", "3/4"), "refused 12 at 1")
    add("whole-host-served-less", WHOLE_HOST.replace("gets 4/4", "gets 3/4"), "refused 11 at 0")
    add("whole-host-full", WHOLE_HOST.replace("3/6", "4/6"), "accepted 4")
    add("whole-host-overfull-by-one", WHOLE_HOST.replace("3/6", "5/6"), "refused 14 at 2", 2)
    for wanted, served, children, meant in (
            ("4/4", "4/4", ["2/3", "1/3"], "accepted 3"), ("4/4", "4/4", ["2/3", "1/3", "0/6", "1/3"], "refused 14 at 4"),
            ("4/4", "4/4", ["1/2"], "accepted 2"), ("4/4", "4/4", ["2/2", "1/2"], "refused 14 at 2"), ("5/5", "7/7", ["1/3", "4/6"], "accepted 3"),
            ("5/5", "7/7", ["1/3", "5/6"], "refused 14 at 2"), ("6/6", "6/6", ["4/4"], "accepted 2"), ("6/6", "6/6", ["9/9"], "accepted 2"),
            ("1/1", "3/3", ["5/5"], "accepted 2"), ("3/4", "4/4", ["1/12", "1/3"], "refused 12 at 2"), ("3/4", "4/4", ["3/4"], "accepted 2"),
            ("3/4", "4/4", ["4/4"], "refused 14 at 1")):
        add(f"host-{wanted}-by-{served}-{'-'.join(children)}".replace("/", "of"), in_host(wanted, served, *children), meant)


def not_whole(add):
    """Hosts that are served whole and want less, and hosts that want nothing."""
    for wanted, served, children, meant in (
            ("5/6", "6/6", ["1/4"], "refused 12 at 1"), ("5/6", "6/6", ["1/9"], "refused 12 at 1"), ("5/6", "6/6", ["0/9"], "refused 12 at 1"),
            ("5/6", "6/6", ["10/12"], "accepted 2"), ("5/6", "6/6", ["11/12"], "refused 14 at 1"), ("5/6", "6/6", ["1/6", "1/3"], "refused 12 at 2"),
            ("5/6", "6/6", ["5/6"], "accepted 2"), ("5/6", "6/6", ["5/6", "1/12"], "refused 14 at 2"), ("6/6", "6/6", ["6/6"], "accepted 2"),
            ("4095/4096", "4096/4096", ["1/4095"], "refused 12 at 1"), ("4096/4096", "4096/4096", ["4095/4095"], "accepted 2"),
            ("0/4", "4/4", ["0/6"], "refused 12 at 1"), ("0/4", "0/4", ["0/6"], "refused 12 at 1"), ("0/4", "0/4", ["0/8"], "accepted 2")):
        add(f"host-wants-{wanted}-gets-{served}-{'-'.join(children)}".replace("/", "of"), in_host(wanted, served, *children, supply="6/6"), meant)


def whole_chain(levels):
    """Whole hosts, each in the one before, of periods that have no divisor in common, and a leaf that takes all."""
    whole = [f"{p}/{p}" for p in (3, 7, 5, 11, 13, 8, 17, 19)]
    lines = ["supply 4/4"] + [f"host h{i} {'on 0' if i == 0 else f'in h{i - 1}'} wants {whole[i]} gets {whole[i + 1]}" for i in range(levels - 1)]
    return "\n".join(lines + [f"aligned end in h{levels - 2} wants 6/6 gets 6/6\n"])


def whole_chains(add):
    """Whole hosts stand in chains from a whole core: their siblings are served none."""
    add("whole-chain-of-2", whole_chain(2), "accepted 2")
    add("whole-chain-of-8", whole_chain(8), "accepted 8", 7)
    add("whole-chain-of-8-overfull", whole_chain(8) + "aligned more in h6 wants 1/6 gets 1/6\n", "refused 14 at 8")
    add("whole-chain-of-8-from-3-of-4", whole_chain(8).replace("supply 4/4", "supply 3/4"), "refused 12 at 0")
    add("whole-chain-broken-in-the-middle", whole_chain(8).replace("wants 11/11", "wants 10/11"), "refused 12 at 4")
    add("whole-host-beside-a-leaf", in_host("4/4", "6/6") + "aligned a on 0 wants 1/6 gets 1/6\n", "refused 14 at 1")
    add("whole-host-beside-a-leaf-with-C-0", in_host("4/4", "6/6") + "aligned a on 0 wants 0/6 gets 0/6\n", "accepted 2")
    add("whole-host-after-a-leaf", "supply 4/4; aligned a on 0 wants 1/6 gets 1/6; host h on 0 wants 4/4 gets 6/6\n", "refused 14 at 1")
    add("two-whole-cores", "supply 4/4; supply 3/3; aligned a on 0 wants 6/6 gets 6/6; aligned b on 1 wants 4/4 gets 4/4\n", "accepted 2")
    add("a-whole-core-and-one-of-3-of-4", "supply 4/4; supply 3/4; aligned a on 0 wants 1/6 gets 1/6; aligned b on 1 wants 1/6 gets 1/6\n",
        "refused 12 at 1")
    sliding = "supply 4/4; sliding a on 0 wants %s gets 1/3; sliding b on 0 wants 2/10 gets 2/6\n"
    add("sliding-leaves-of-a-whole-core", sliding % "1/5", "accepted 2")
    add("sliding-leaves-of-a-whole-core-and-rule-11", sliding % "1/4", "refused 11 at 0")


def orders(add):
    """Two faults, of which the document's order picks one."""
    hosts = "supply 1/1; host g on 0 wants 1/2 gets 1/2; host h on 0 wants 1/2 gets 1/2; " \
            "aligned a in %s wants %s gets %s; aligned b in %s wants %s gets %s\n"
    late = "supply 1/2; aligned a on 0 wants 1/3 gets 1/3; aligned b on 0 wants 2/2 gets 2/2; aligned c on 0 wants %s gets 1/4\n"
    add("rule-11-at-a-late-node-before-12-at-an-early-one", late % "1/5", "refused 11 at 2")
    add("rule-12-at-an-early-node-where-11-holds", late % "1/4", "refused 12 at 0")
    add("rule-11-at-a-late-node-before-13", siblings("1/2", "0/4", "0/6") + "aligned z on 0 wants 1/5 gets 1/4\n", "refused 11 at 2")
    add("rule-11-at-a-late-node-before-14", siblings("1/2", "2/2") + "aligned z on 0 wants 1/5 gets 1/4\n", "refused 11 at 1")
    add("rule-12-at-host-0-before-14-at-host-1", hosts % ("g", "1/3", "1/3", "h", "2/2", "2/2"), "refused 12 at 2")
    add("rule-14-at-host-0-before-12-at-host-1", hosts % ("g", "2/2", "2/2", "h", "1/3", "1/3"), "refused 14 at 2")
    add("rule-14-at-host-0-before-12-at-host-1-by-host-number", hosts % ("h", "1/3", "1/3", "g", "2/2", "2/2"), "refused 14 at 3")
    add("rule-13-before-14-at-one-parent", siblings("1/2", "4/4", "1/6"), "refused 13 at 1")
    add("rule-12-before-13-at-one-parent", siblings("1/2", "0/4", "0/6", "0/5"), "refused 12 at 2")
    add("rule-12-before-14-at-one-parent", siblings("1/2", "4/4", "0/5"), "refused 12 at 1")
    add("a-supply's-14-before-a-host's-12",
        "supply 1/2; host h on 0 wants 1/4 gets 1/4; aligned a in h wants 1/6 gets 1/6; aligned b on 0 wants 2/4 gets 2/4\n",
        "refused 14 at 2")
    add("a-late-supply's-14-before-an-early-host's-12", "supply 1/2; supply 1/2; host h on 0 wants 1/4 gets 1/4; aligned a in h wants 1/6 gets 1/6\n"
        "aligned b on 1 wants 2/2 gets 2/2\n", "refused 14 at 2")
    add("rule-14-at-supply-0-before-12-at-supply-1",
        "supply 1/2; supply 1/2; aligned a on 1 wants 1/3 gets 1/3; aligned b on 0 wants 2/2 gets 2/2\n", "refused 14 at 1")
    add("a-name's-8-before-rule-11", put(lay("supply 1/1; aligned a on 0 wants 1/5 gets 1/4\n"), 27, 32), "refused 8 at 27")
    add("name-count-before-rule-12", put(lay("supply 1/2; aligned a on 0 wants 1/3 gets 1/3\n"), 25, 2), "refused 2 at 25")


def whole_orders(add):
    """The same under whole parents: 13 is still asked, and named before 14."""
    add("whole-rule-13-before-14", siblings("4/4", "6/6", "4/4"), "refused 13 at 1")
    add("whole-rule-13-at-a-late-child-before-14-at-an-early-one", siblings("4/4", "6/6", "6/6", "0/4"), "refused 13 at 2")
    add("whole-rule-13-alone", siblings("4/4", "0/6", "0/4"), "refused 13 at 1")
    add("whole-rule-13-in-a-host", in_host("4/4", "4/4", "3/3", "1/6", "0/2"), "refused 13 at 3")
    add("whole-rule-13-in-a-host-where-14-holds", in_host("4/4", "4/4", "1/6", "1/9"), "refused 13 at 2")
    add("whole-rule-11-at-a-late-node-before-13", siblings("4/4", "0/6", "0/4") + "aligned z on 0 wants 1/5 gets 1/4\n", "refused 11 at 2")
    two = "supply 4/4; supply 3/4; aligned a on 1 wants 1/6 gets 1/6; aligned b on 0 wants 6/6 gets 6/6; aligned c on 0 wants %s gets %s\n"
    add("a-whole-supply's-14-before-the-next-one's-12", two % ("1/6", "1/6"), "refused 14 at 2")
    add("a-whole-supply's-13-before-the-next-one's-12", two % ("0/4", "0/4"), "refused 13 at 2")
    add("a-whole-supply-in-order-and-the-next-one's-12", two % ("0/6", "0/6"), "refused 12 at 0")
    host = "supply 4/4; host h on 0 wants 5/6 gets 6/6; aligned a in h wants 1/4 gets 1/4; aligned b on 0 wants %s gets %s\n"
    add("a-whole-supply's-14-before-a-host's-12", host % ("1/6", "1/6"), "refused 14 at 2")
    add("a-whole-supply's-13-before-a-host's-12", host % ("0/4", "0/4"), "refused 13 at 2")
    add("a-whole-supply-in-order-and-a-host's-12", host % ("0/3", "0/3"), "refused 12 at 1")
    add("a-whole-host's-14-before-a-later-host's-12", in_host("4/4", "4/4", "3/3") + "host g in h wants 0/2 gets 0/3\n"
        "aligned a in g wants 0/3 gets 0/3; aligned b in h wants 1/3 gets 1/3\n", "refused 14 at 4")


def long_plan():
    """Eight supplies, 64 nodes and names of 32 bytes. Each core has a host with a host and a leaf in it, a leaf in that, and four nodes more."""
    lines = ["tick 1000000 999999"] + [f"supply {8 - k}/8" for k in range(8)]
    called = ["partition-" * 3 + f"{i:02}" for i in range(64)]
    for i in range(64):
        core, turn = i % 8, i // 8
        parent = {1: f"in {called[core]}", 2: f"in {called[core]}", 3: f"in {called[8 + core]}"}.get(turn, f"on {core}")
        kind, wanted, served = [("host", "1/8", "1/8"), ("host", "1/16", "1/16"), ("aligned", "0/8", "0/8"), ("aligned", "1/32", "1/32"),
                                ("sliding", "0/9", "0/16"), ("aligned", "0/4096", "0/4096"), ("sliding", "0/1", "0/8"), ("host", "0/1", "0/8")][turn]
        lines.append(f"{kind} {called[i]} {parent} wants {wanted} gets {served}")
    return "\n".join(lines)


def longest(add):
    """Of edition 1."""
    data = lay(long_plan())
    assert len(data) == 2796
    add("longest-plan", data, "accepted 64", 64)
    add("longest-plan-and-a-byte", data + b"!", "refused 10 at 2796", 63)
    add("longest-plan-last-name-occurs-before", data[:-32] + data[2796 - 66 + 1:2796 - 33], "refused 9 at 2763", 0)
    add("longest-plan-last-byte-missing", data[:-1], "refused 1 at 2795")
    add("longest-plan-last-parent-itself", put(data, 674, 191), "refused 6 at 674")
    add("longest-plan-last-parent-byte-190", put(data, 674, 190), "accepted 64")


def neighbours(add):
    """The example with one byte one more or one less: nobody had an answer in mind here."""
    example = lay(EXAMPLE)
    for place in range(60):
        for word, by in (("plus", 1), ("minus", 255)):
            data = put(example, place, (example[place] + by) % 256)
            add(f"example-byte-{place}-{word}-1", data, answer(data).split(":")[0])


# Edition 2

NODE = (0, 1, 2, 4, 6, 8, 10, 12)  # where the fields of a node start: kind, parent, wanted C and T, D, W, served C and T
DOOR, RACK, LOG, MEDIA = range(4)  # the nodes of SOFT


def place_of(i, field=0):
    """Where node i of a plan with one supply has a field."""
    return 23 + 14 * i + field


def editions(add):
    soft_plan = lay(SOFT)
    assert soft_plan == bytes.fromhex(
        "02 E8030000 03000000 0000000000000000 01 0100 0100 04 0000 0100 0400 0000 0100 0100 0400 0200 0200 0C00 0000 0100 0200 0C00"
        "0081 0100 0C00 0000 0100 0100 0C00 0000 0300 0400 0200 0300 0700 0C00 04 04646F6F72 047261636B 036C6F67 056D65646961")
    add("soft", soft_plan, "accepted 4 of edition 2", 4)
    add("soft-asked-for-a-name", soft_plan, "accepted 4 of edition 2", MEDIA)
    fields = [0, 1, 5, *range(9, 17), 17, 18, 20, 22] + [place_of(i, field) for i in range(4) for field in NODE] + list(range(79, 100))
    for length in range(1, 100):
        first = max(place for place in fields if place <= length)
        add(f"soft-cut-to-{length}-bytes", soft_plan[:length], f"refused 1 at {first}", 1 if length % 20 == 0 else None)
    for count in (0, 3, 255):
        add(f"soft-tick-count-{count}", put(soft_plan, 0, count), "refused 2 at 0", 0)
    add("soft-tick-count-0-before-P-0", put(soft_plan, 0, bytes(5)), "refused 2 at 0")
    add("soft-tick-count-1", put(soft_plan, 0, 1), "refused 2 at 9", 0)
    add("soft-as-edition-1-without-the-eight-bytes", put(soft_plan[:9] + soft_plan[17:], 0, 1), "refused 4 at 27")
    add("example-with-tick-count-2", put(lay(EXAMPLE), 0, 2), "refused 3 at 9", 0)
    add("example-in-edition-2", "edition 2\n" + EXAMPLE, "accepted 3 of edition 2", 2)
    add("example-in-edition-2-nodes-of-ten-bytes", put(lay(EXAMPLE)[:9] + bytes(8) + lay(EXAMPLE)[9:], 0, 2), "refused 19 at 29")
    for place, what, bad in ((17, "supply", (0, 9)), (22, "node", (0, 65)), (79, "name", (0, 3, 5))):
        for count in bad:
            add(f"soft-{what}-count-{count}", put(soft_plan, place, count), f"refused 2 at {place}")
    add("soft-one-byte-left-over", soft_plan + b"\0", "refused 10 at 100")
    add("soft-left-over-before-rule-11", put(soft_plan, place_of(MEDIA, 6), lay_type((1, 3))) + b"\0", "refused 10 at 100")
    add("soft-left-over-before-rule-20", put(soft_plan, place_of(MEDIA), 1) + b"\0", "refused 10 at 100")


def spare_bytes(add):
    soft_plan = lay(SOFT)
    for place in range(9, 17):
        for byte in (1, 255):
            add(f"spare-byte-{place}-is-{byte}", put(soft_plan, place, byte), f"refused 3 at {place}", 1 if byte == 1 else None)
        add(f"spare-byte-{place}-is-128-and-the-file-ends", put(soft_plan, place, 128)[:place + 1], f"refused 3 at {place}")
    add("spare-bytes-all-set", put(soft_plan, 9, b"\xff" * 8), "refused 3 at 9")
    add("spare-bytes-12-and-16-set", put(soft_plan, 12, 1, 16, 1), "refused 3 at 12")
    add("spare-bytes-a-second-tick", put(soft_plan, 9, soft_plan[1:9]), "refused 3 at 9")
    add("spare-byte-set-before-supply-count-0", put(soft_plan, 16, b"\1\0"), "refused 3 at 16")
    add("P-0-before-a-spare-byte-set", put(soft_plan, 1, bytes(4), 9, 1), "refused 3 at 1")
    add("Q-0-before-a-spare-byte-set", put(soft_plan, 5, bytes(4), 9, 1), "refused 3 at 5")
    add("Q-1000001-before-the-spare-bytes-missing", put(soft_plan, 5, (1_000_001).to_bytes(4, "little"))[:9], "refused 3 at 5")
    add("soft-P-1000000-and-Q-1000000", put(soft_plan, 1, (1_000_000).to_bytes(4, "little") * 2), "accepted 4 of edition 2")


def misses(add):
    soft_plan = lay(SOFT)
    leaf, host = place_of(MEDIA, 6), place_of(RACK, 6)
    for D, W in ((0, 0), (1, 0), (2, 1), (3, 2), (0, 1025), (1, 1025), (1025, 1024), (1025, 1025), (256, 1), (0, 65535), (65535, 65535), (65535, 1024)):
        add(f"media-misses-{D}-of-{W}", put(soft_plan, leaf, lay_type((D, W))), f"refused 19 at {leaf}", 1 if W == 0 else None)
    for D, W in ((0, 0), (1, 1), (1, 3), (3, 3), (1, 1024), (1024, 1024), (0, 1025), (4, 3)):
        add(f"host-misses-{D}-of-{W}", put(soft_plan, host, lay_type((D, W))), f"refused 19 at {host}", 1 if D == 1 else None)
    for i, what in ((DOOR, "first-node"), (LOG, "leaf-in-a-host")):
        add(f"{what}-misses-1-of-0", put(soft_plan, place_of(i, 6), lay_type((1, 0))), f"refused 19 at {place_of(i, 6)}")
    add("two-nodes-with-W-0", put(soft_plan, host, bytes(4), leaf, bytes(4)), f"refused 19 at {host}")
    for by in (2, 3):
        add(f"D-65535-before-W-missing-after-{by}-bytes", put(soft_plan, leaf, b"\xff\xff")[:leaf + by], f"refused 1 at {leaf + 2}")
    add("host-D-1-before-W-missing", put(soft_plan, host, 1)[:host + 2], f"refused 1 at {host + 2}")
    add("W-0-and-the-file-ends", put(soft_plan, leaf, bytes(4))[:leaf + 4], f"refused 19 at {leaf}")
    add("wanted-malformed-before-W-0", put(soft_plan, leaf - 4, lay_type((5, 4)) + bytes(4)), f"refused 4 at {leaf - 4}")
    add("wanted-malformed-before-D-missing", put(soft_plan, leaf - 4, lay_type((5, 4)))[:leaf], f"refused 4 at {leaf - 4}")
    add("W-0-before-served-malformed", put(soft_plan, leaf, bytes(4) + lay_type((13, 12))), f"refused 19 at {leaf}")
    add("W-0-before-served-missing", put(soft_plan, leaf, bytes(4))[:leaf + 5], f"refused 19 at {leaf}")
    add("soft-served-malformed", put(soft_plan, leaf + 4, lay_type((13, 12))), f"refused 4 at {leaf + 4}")
    add("soft-served-malformed-before-next-kind-bad", put(soft_plan, host + 4, lay_type((13, 12)), place_of(LOG), 3), f"refused 4 at {host + 4}")
    add("W-0-before-next-kind-bad", put(soft_plan, host, bytes(4), place_of(LOG), 3), f"refused 19 at {host}")
    add("soft-kind-bad-before-W-0", put(soft_plan, place_of(MEDIA), 3, leaf, bytes(4)), f"refused 5 at {place_of(MEDIA)}")
    add("soft-parent-bad-before-W-0", put(soft_plan, place_of(MEDIA, 1), 1, leaf, bytes(4)), f"refused 6 at {place_of(MEDIA, 1)}")
    add("soft-depth-9-before-W-0", put(lay("edition 2\n" + chain(9)), place_of(8, 6), bytes(4)), f"refused 7 at {place_of(8, 1)}")
    add("W-0-before-name-count-0", put(soft_plan, leaf, bytes(4), 79, 0), f"refused 19 at {leaf}")
    add("host-D-1-before-rule-11", put(soft_plan, leaf, lay_type((1, 3)), host, lay_type((1, 3))), f"refused 19 at {host}")
    add("D-and-W-exchanged", SOFT.replace("2/3", "3/2"), f"refused 19 at {leaf}")
    add("host-that-becomes-a-leaf-may-miss", "edition 2; supply 1/1; aligned a on 0 wants 1/2 misses 1/1 gets 0/2\n", "accepted 1 of edition 2")


def soft_alone(kind, wanted, misses, served):
    return f"edition 2\nsupply 1/1\n{kind} a on 0 wants {wanted} misses {misses} gets {served}\n"


ALLOWED = "accepted 1 of edition 2"


def soft_cases(add, rows):
    for kind, wanted, misses, served, meant in rows:
        add(f"{kind}-wants-{wanted}-misses-{misses}-gets-{served}".replace("/", "of"), soft_alone(kind, wanted, misses, served), meant,
            0 if meant[0] == "r" else None)


def hard_in_edition_2(add):
    """Leaves with D = 0 and all hosts, whatever W is: decided as in edition 1."""
    soft_cases(add, [(kind, wanted, f"0/{W}", served, meant) for W in (1, 2, 3, 1024) for kind, wanted, served, meant in (
        ("aligned", "1/5", "1/4", "refused 11 at 0"), ("aligned", "2/8", "1/4", ALLOWED), ("aligned", "3/4", "7/12", "refused 11 at 0"),
        ("aligned", "1/6", "1/4", ALLOWED), ("aligned", "3/4", "11/12", ALLOWED), ("sliding", "2/8", "2/4", ALLOWED),
        ("sliding", "3/8", "2/4", "refused 11 at 0"), ("sliding", "1/7", "1/4", ALLOWED), ("host", "2/4", "2/4", ALLOWED),
        ("host", "1/5", "1/4", "refused 11 at 0"), ("host", "1/6", "1/4", ALLOWED))])
    add("example-in-edition-2-with-other-W", "edition 2\n" + EXAMPLE.replace("gets", "misses 0/1024 gets"), "accepted 3 of edition 2")


def rule_20(add):
    """A soft leaf is aligned, and one of its served T and T' divides the other, whether or not rule 11 is kept."""
    soft_cases(add, [(kind, wanted, misses, served, "refused 20 at 0") for kind, wanted, misses, served in (
        ("sliding", "3/4", "2/3", "7/12"), ("sliding", "1/8", "1/2", "4/4"), ("sliding", "1/4", "1/1", "4/4"), ("sliding", "0/4", "1/3", "1/4"),
        ("sliding", "0/1", "1/1", "0/1"), ("sliding", "1/5", "5/5", "1/4"), ("sliding", "1/1", "1024/1024", "1/1"),
        ("aligned", "1/5", "1/2", "1/4"), ("aligned", "1/6", "1/2", "1/4"), ("aligned", "1/6", "2/2", "1/4"), ("aligned", "1/6", "1/1", "0/4"),
        ("aligned", "0/6", "1/3", "1/4"), ("aligned", "0/6", "3/3", "4/4"), ("aligned", "1/4", "1/2", "6/6"), ("aligned", "1/4", "1/1", "6/6"),
        ("aligned", "1/4096", "1024/1024", "4095/4095"), ("aligned", "1/4095", "1/1024", "4096/4096"), ("aligned", "2/2", "1/1", "3/3"))])


def rule_11_soft(add):
    """The request's own example and its neighbours: served periods of three windows, each of 3/4."""
    soft_cases(add, [("aligned", "3/4", f"{D}/3", "7/12", meant) for D, meant in ((1, "refused 11 at 0"), (2, ALLOWED), (3, ALLOWED))])
    for C, u in ((12, 0), (11, 0), (10, 1), (9, 1), (8, 2), (6, 3), (5, 3), (0, 3)):
        soft_cases(add, [("aligned", "3/4", f"{D}/3", f"{C}/12", ALLOWED if u <= D else "refused 11 at 0") for D in (1, 2)])
    for W, least in ((1, 1), (2, 2), (4, 4), (5, 4), (6, 4), (7, 6), (8, 6), (9, 6), (10, 8), (1023, 682), (1024, 684)):
        soft_cases(add, [("aligned", "3/4", f"{D}/{W}", "7/12", ALLOWED if least <= D else "refused 11 at 0")
                         for D in sorted({1, least - 1, least, W}) if D > 0])


def soft_edges(add):
    rows = []
    for wanted, served, W, least in (
            ("2/4", "1/4", 1, 1), ("2/4", "1/4", 3, 3), ("2/4", "1/4", 1024, 1024), ("2/4", "2/4", 3, 0), ("4/4", "4/4", 1024, 0), ("1/1", "0/1", 2, 2),
            ("1/1", "1/1", 1, 0), ("4096/4096", "4095/4096", 1024, 1024), ("4096/4096", "4096/4096", 1024, 0),  # T = T'
            ("0/4", "0/12", 3, 0), ("0/4", "0/4", 1, 0), ("0/8", "0/4", 1024, 0), ("0/1", "0/4096", 1024, 0),  # C' = 0
            ("1/4", "0/12", 3, 3), ("1/4", "0/12", 4, 4), ("1/1", "0/4096", 1024, 1024), ("4/4", "0/8", 5, 5), ("4/4", "6/8", 5, 5),  # u = K
            ("4/4", "7/8", 5, 3),
            ("3/8", "1/4", 3, 3), ("2/8", "1/4", 3, 0), ("3/8", "1/4", 1024, 1024), ("1/4096", "0/1", 2, 2), ("4096/4096", "1/1", 2, 0),
            ("2/4096", "1/4", 1024, 0), ("1024/4096", "1/4", 7, 0), ("1025/4096", "1/4", 7, 7),  # T divides T'
            ("2/2", "11/12", 4, 2), ("2/2", "11/12", 6, 1), ("2/2", "11/12", 5, 2), ("2/2", "11/12", 7, 2), ("2/2", "11/12", 1, 1),  # not the first
            ("2/2", "5/8", 6, 5), ("2/2", "5/8", 4, 3), ("2/2", "5/8", 3, 3), ("2/2", "5/8", 8, 6), ("2/2", "5/8", 1022, 767),  # covered in part
            ("1/1", "3584/4096", 1024, 512), ("1/1", "3584/4096", 1023, 1023), ("1/1", "4095/4096", 1024, 1), ("1/1", "4095/4096", 1023, 2),
            ("1/1", "3072/4096", 1024, 1024), ("1/1", "3073/4096", 1024, 1023), ("2048/2048", "4094/4096", 3, 3), ("2048/2048", "4095/4096", 3, 2)):
        for D in sorted({1, least - 1, least, least + 1, W}):
            if 0 < D <= W:
                rows.append(("aligned", wanted, f"{D}/{W}", served, ALLOWED if least <= D else "refused 11 at 0"))
    soft_cases(add, rows)


def soft_siblings(add):
    """Rules 12 to 14 go by the served type, of a soft leaf too."""
    meant = "accepted 4 of edition 2"
    add("soft-core-overfull", SOFT.replace("7/12", "8/12"), "refused 14 at 3")
    add("soft-served-less-and-misses-all", SOFT.replace("2/3", "3/3").replace("7/12", "5/12"), meant)
    add("soft-served-less", SOFT.replace("7/12", "6/12"), "refused 11 at 3")
    add("soft-period-at-odds", SOFT.replace("2/3 gets 7/12", "4/4 gets 7/16"), "refused 13 at 3")
    add("soft-on-a-core-of-period-5", SOFT.replace("supply 1/1", "supply 4/5"), "refused 12 at 0")
    add("soft-on-a-whole-core-of-5", SOFT.replace("supply 1/1", "supply 5/5"), meant)
    add("soft-leaf-in-a-host", SOFT.replace("wants 1/12 gets 1/12", "wants 1/4 misses 2/3 gets 2/12"), meant)
    add("soft-leaf-in-a-host-misses-one-too-few", SOFT.replace("wants 1/12 gets 1/12", "wants 1/4 misses 1/3 gets 2/12"), "refused 11 at 2")
    add("soft-leaf-in-a-host-overfull", SOFT.replace("wants 1/12 gets 1/12", "wants 1/4 misses 2/3 gets 3/12"), "refused 14 at 2")
    add("every-leaf-soft", SOFT.replace("wants 1/4 gets", "wants 1/4 misses 1/7 gets").replace("wants 1/12 gets", "wants 1/12 misses 9/9 gets"), meant)
    add("soft-media-twice-at-different-D", "edition 2; supply 1/1; supply 1/1; aligned a on 0 wants 3/4 misses 2/3 gets 7/12; "
        "aligned b on 1 wants 3/4 misses 1/3 gets 7/12\n", "refused 11 at 1")
    add("soft-name-occurs-before", SOFT.replace("aligned log", "aligned rack"), "refused 9 at 90")


def soft_orders(add):
    """Two faults, of which the document's order picks one: node by node, at each 20 and then 11; after all of them 12 to 14."""
    bad = (("rule-20-by-periods", 20, "aligned %s on 0 wants 1/6 misses 1/2 gets 1/4\n"),
           ("rule-20-by-the-kind", 20, "sliding %s on 0 wants 3/4 misses 2/3 gets 7/12\n"),
           ("rule-11-of-a-soft-leaf", 11, "aligned %s on 0 wants 3/4 misses 1/3 gets 7/12\n"),
           ("rule-11-of-a-hard-leaf", 11, "aligned %s on 0 wants 1/5 gets 1/4\n"))
    for first, second in itertools.permutations(bad, 2):
        label, number, both = f"{first[0]}-before-{second[0]}", first[1], first[2] % "a" + second[2] % "b"
        add(label, "edition 2; supply 1/1\n" + both, f"refused {number} at 0")
        add(f"in-order-and-then-{label}", "edition 2; supply 1/1; aligned z on 0 wants 1/4 gets 1/4\n" + both, f"refused {number} at 1")
    for _, fault_of, node in bad[0], bad[2]:
        node %= "z"
        add(f"soft-rule-{fault_of}-at-a-late-node-before-12", "edition 2; supply 1/2; aligned a on 0 wants 1/3 gets 1/3\n" + node, f"refused {fault_of} at 1")
        add(f"soft-rule-{fault_of}-at-a-late-node-before-13", "edition 2\n" + siblings("1/1", "0/4", "0/6") + node, f"refused {fault_of} at 2")
        add(f"soft-rule-{fault_of}-at-a-late-node-before-14", "edition 2\n" + siblings("1/2", "2/2") + node, f"refused {fault_of} at 1")
    hosts = "edition 2; supply 1/1; host h on 0 wants 1/4 gets 1/4; aligned a in h wants 1/4 misses %s gets %s\n"
    add("rule-11-of-a-soft-leaf-in-a-host-before-its-12", hosts % ("1/2", "0/2"), "refused 11 at 1")
    add("rule-12-of-a-soft-leaf-in-a-host", hosts % ("2/2", "0/2"), "refused 12 at 1")
    add("rule-20-of-a-soft-leaf-in-a-host-before-its-12", hosts % ("2/2", "0/6"), "refused 20 at 1")


def long_soft_plan():
    """The long plan in edition 2, with soft leaves among the aligned ones and W of all sizes."""
    head, *lines = long_plan().splitlines()
    for k, misses in enumerate(("0/1024", "0/7", "1/2", "1023/1024", "0/5", "1024/1024", "0/1024", "0/1")):
        for i in range(8 + 8 * k, 16 + 8 * k):
            lines[i] = lines[i].replace(" gets ", f" misses {misses} gets ")
    return "\n".join(["edition 2", head] + lines)


def longest_soft(add):
    data = lay(long_soft_plan())
    assert len(data) == 3060
    node_63 = 9 + 8 + 33 + 1 + 14 * 63
    add("longest-soft-plan", data, "accepted 64 of edition 2", 63)
    add("longest-soft-plan-and-a-byte", data + b"!", "refused 10 at 3060", 63)
    add("longest-soft-plan-last-byte-missing", data[:-1], "refused 1 at 3059")
    add("longest-soft-plan-last-name-occurs-before", data[:-32] + data[3060 - 66 + 1:3060 - 33], "refused 9 at 3027")
    add("longest-soft-plan-last-node-with-D-1", put(data, node_63 + 6, 1), f"refused 19 at {node_63 + 6}")
    add("longest-soft-plan-node-47-soft-and-sliding", put(data, node_63 - 14 * 16, 1), "refused 20 at 47")


def soft_neighbours(add):
    """The plan with a soft leaf, one byte one more or one less: nobody had an answer in mind here."""
    data = lay(SOFT)
    for place in range(100):
        for word, by in (("plus", 1), ("minus", 255)):
            changed = put(data, place, (data[place] + by) % 256)
            add(f"soft-byte-{place}-{word}-1", changed, answer(changed).split(":")[0])


def main(words):
    if words == ["vectors"]:
        lines = [" ".join([label, data.hex() or "-"] + ([] if asked is None else [str(asked)])) for label, (data, asked) in vectors().items()]
        assert len("\n".join(lines)) < 524288, "the program reads no more"
        print("\n".join(lines))
    elif words == ["expect"]:
        for label, (data, asked) in vectors().items():
            print(f"{label}: {answer(data)}{'' if asked is None else asked_name(data, asked)}")
    elif words[:1] == ["read"]:
        print(answer(bytes.fromhex("".join(words[1:]))))
    elif words == ["lay"]:
        print(lay(sys.stdin.read()).hex())
    else:
        sys.exit(__doc__)


if __name__ == "__main__":
    main(sys.argv[1:])
