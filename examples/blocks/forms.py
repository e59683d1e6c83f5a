"""The two forms of the rules, the lines that lead from one to the other, and what each form makes of a datagram."""
import random
import socket
import struct

SIZE = 64
FLOWS = [0, 1, 2, 6, 7, 8, 9, 10, 11, 12, 13, 14]
BY_THREE = ("ldb [15]; mod #3; ret a", ("003000000000000f", "0094000000000003", "0016000000000000"), lambda flow: flow % 3)
BY_FOUR = ("ldb [15]; add #1; and #3; ret a",
           ("003000000000000f", "0004000000000001", "0054000000000003", "0016000000000000"), lambda flow: flow + 1 & 3)
BY_TWO = ("ldb [15]; and #1; ret a", ("003000000000000f", "0054000000000001", "0016000000000000"), lambda flow: flow & 1)
# A selector is its text, its words, and the index that it picks for a flow. A form has its groups in rising order of key, each as key,
# selector and members by index. A member is its ID, its socket, how many bytes it gets, and whether it is locked. All lengths are
# different. For no flow in FLOWS do BY_THREE and BY_FOUR pick the same index.
FORMS = {
    "A": [("10.0.0.2:53", BY_THREE, [(1, 0, 40, False), (2, 1, 41, True), (3, 2, 42, False)]),
          ("10.0.0.3:53", None, [(9, 3, 43, False)]),
          ("10.0.0.4:53", BY_TWO, [(4, 4, 44, False), (5, 0, 45, True)]),
          *[(f"10.0.1.{place}:53", BY_TWO, [(1, 1, 46, False), (2, 2, 0, True)]) for place in range(12)]],
    "B": [("10.0.0.2:53", BY_FOUR, [(3, 1, 50, True), (2, 0, 51, False), (5, 3, 52, False), (6, 4, 53, False)]),
          ("10.0.0.3:53", BY_TWO, [(7, 2, 54, False), (9, 0, 55, True)]),
          *[(f"10.0.2.{place}:53", None, [(3, 3, 56, False)]) for place in range(8)]],
}
IN_BOTH = ["10.0.0.2:53", "10.0.0.3:53"]
IN_ONE = "10.0.0.4:53"
OTHER = {"A": "B", "B": "A"}
# The socket that is for none, and what joins it to a group and leaves again.
TRAP = 5
TRAPPED = 99

chance = random.Random()


def head_of(key, flow):
    """The headers of a packet of SIZE bytes to the group, from the flow's address."""
    address, port = key.split(":")
    header = struct.pack(">BBHHHBBH4s4s", 0x45, 0, SIZE, 0, 0, 64, 17, 0, bytes([10, 0, 0, flow]), socket.inet_aton(address))
    return header + struct.pack(">HHHH", 5353, int(port), SIZE - 20, 0)


HEADS = {(key, flow): head_of(key, flow) for key in [*IN_BOTH, IN_ONE] for flow in FLOWS}


def packet_of(key, flow, number):
    return HEADS[key, flow] + struct.pack(">Q", number) + bytes(SIZE - 36)


def expected(form, key, flow):
    """The socket that gets the flow's datagrams under the form, and how many bytes. None if the form lacks the group."""
    for name, selector, members in FORMS[form]:
        if name == key:
            _, to, kept, _ = members[selector[2](flow) if selector else 0]
            return to, kept
    return None


EXPECTED = {(form, *it): expected(form, *it) for form in FORMS for it in HEADS}


def mixed(*parts):
    """One list of the parts' lines, in a random order which keeps that of each part."""
    turns = [part for part in parts for _ in part]
    chance.shuffle(turns)
    each = {id(part): iter(part) for part in parts}
    return [next(each[id(part)]) for part in turns]


class Rules:
    """The lines that make the forms. `ports` has the port of each socket."""

    def __init__(self, ports):
        self.ports = ports

    def member_lines(self, key, member):
        number, to, kept, locked = member
        yield f"filter {key} {number} asm ret #{kept}"
        if locked:
            yield f"lock {key} {number}"

    def trap_lines(self, key):
        return [f"{word} {key} {TRAPPED}{end}" for _ in range(20) for word, end in (("join", f" 127.0.0.1:{self.ports[TRAP]}"), ("leave", ""))]

    def filled(self, group):
        """The lines that fill a group without members."""
        key, selector, members = group
        joins = [f"join {key} {number} 127.0.0.1:{self.ports[to]}" for number, to, _, _ in members]
        choice = [f"selector {key} asm {selector[0]}" if selector else f"selector {key} asm ret #0", *([] if selector else [f"selector {key} none"])]
        filters = mixed(*[list(self.member_lines(key, member)) for member in members])
        return mixed(choice, joins + self.trap_lines(key)[:40 if key in IN_BOTH else 0] + filters)

    def whole(self, form):
        """The lines that make a form of a configuration without its groups."""
        return mixed(*[[f"add {group[0]}", *self.filled(group)] for group in FORMS[form]])

    def block(self, before, after, is_single):
        """A block that makes the one form of the other one: its first word, and its lines."""
        kind = chance.choice(("all", "change") if is_single else ("anew", "all", "change"))
        if kind == "anew":
            return "anew", self.whole(after)
        removed = {group[0]: [f"remove {group[0]}"] for group in FORMS[before]}
        if kind == "all":
            lines = list(removed.values())
            chance.shuffle(lines)
            return "all", [line for it in lines for line in it] + self.whole(after)
        # What is in both forms stays, and gets other members.
        for key, selector, members in FORMS[before]:
            if key in IN_BOTH:
                leaves = [f"leave {key} {member[0]}" for member in members]
                chance.shuffle(leaves)
                removed[key] = self.trap_lines(key) + leaves
        added = {group[0]: [*([] if group[0] in IN_BOTH else [f"add {group[0]}"]), *self.filled(group)] for group in FORMS[after]}
        parts = [removed.get(key, []) + added.get(key, []) for key in dict.fromkeys([*removed, *added])]
        return "all", mixed(*[part for part in parts if part])

    def read_back(self, form):
        """The lines that read a form back, each with its reply behind `version N `."""
        groups = FORMS[form]
        members = sum(len(group[2]) for group in groups)
        charge = 2 + 4 * len(groups) + 4 * members + sum(len(group[1][1]) if group[1] else 0 for group in groups) + members
        yield "show", f"groups {len(groups)} members {members} charge {charge}"
        for place, (key, selector, members) in enumerate(groups):
            yield f"group {place}", f"group {place} of {len(groups)} {key} members {len(members)} selector {len(selector[1]) if selector else 0}"
            if selector:
                yield f"words {key} selector 0", f"words 0 of {len(selector[1])} " + " ".join(selector[1])
            for index, (number, to, kept, locked) in enumerate(members):
                yield f"member {key} {index}", f"member {index} of {len(members)} {number} 127.0.0.1:{self.ports[to]} filter 1 locked {int(locked)}"
                yield f"words {key} {number} 0", f"words 0 of 1 00060000{kept:08x}"
