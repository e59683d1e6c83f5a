"""A plain switch: what each line of a script is replied, by docs/COMMANDS.md ("Control lines", "replay", "Refusals") and docs/SWITCH.md.

It reads lines and packets from their text. Of programs it knows the texts of ASSEMBLY and EXPRESSIONS, each with its charge and what
it returns for a packet, worked by hand from docs/MACHINE.md and docs/EXPRESSIONS.md, and the texts of FAULTS, each with its refusal.
Further it knows `ret #0`, repeated. It does not know which words an expression compiles to.
"""
import dataclasses
import re
import typing

import plain_assembly

MAX_GROUPS = 64
MAX_MEMBERS = 64
MAX_INSTRUCTIONS = 4096
MAX_CHARGE = 8192
MAX_PACKET = 65535

WHOLE = 65535
DROP = 0


# Packets

def field(packet, place, size):
    """The big-endian number in so many bytes of a packet."""
    return int.from_bytes(packet[place:place + size], "big")


def header(packet):
    """The length of the IPv4 header in bytes."""
    return (packet[0] & 0x0f) * 4


def source(packet):
    return field(packet, 12, 4), field(packet, header(packet), 2)


def destination(packet):
    return field(packet, 16, 4), field(packet, header(packet) + 2, 2)


def udp_length(packet):
    return field(packet, header(packet) + 4, 2)


def payload(packet):
    return packet[header(packet) + 8:]


def is_dispatched(packet):
    """The ten rules of docs/SWITCH.md, "Which packets are dispatched"."""
    if len(packet) < 20 or packet[0] >> 4 != 4 or header(packet) < 20:
        return False
    room = field(packet, 2, 2) - header(packet)
    fragment = field(packet, 6, 2)
    return (len(packet) == field(packet, 2, 2) and room >= 8 and not fragment & 0x2000 and not fragment & 0x1fff and packet[9] == 17
            and 8 <= udp_length(packet) <= room)


# Programs

class Program(typing.NamedTuple):
    charge: int
    returns: typing.Callable[[bytes], int]
    # Those of assembly; which words an expression is compiled to this switch does not say.
    words: tuple[str, ...] | None = None


def always(number):
    return lambda packet: number


def when(test, number=WHOLE):
    return lambda packet: number if test(packet) else DROP


# The charge is the number of instructions. A load past the end and a division by an X of 0 end a program with 0.
ASSEMBLY = {
    "ret #0": Program(1, always(0)),
    "ret #1": Program(1, always(1)),
    " ;; ret#0x2 ;": Program(1, always(2)),
    "ret #20": Program(1, always(20)),
    "ret #4294967295": Program(1, always(4294967295)),
    "ldx 4*([0]&0xf); ldh [x+0]; ret a": Program(3, lambda packet: source(packet)[1]),
    "ldb [15]; and #3; ret a": Program(3, lambda packet: packet[15] & 3),
    "ld len; sub #30; ret a": Program(3, lambda packet: (len(packet) - 30) % 2**32),
    "ldb [15]; st M[0]; ldb [19]; ldx M[0]; add x; mod #3; ret a": Program(7, lambda packet: (packet[15] + packet[19]) % 3),
    "ldx 4*([0]&0xf); ldh [x+0]; jeq #5000,0,1; ret #0; ret #1": Program(5, when(lambda packet: source(packet)[1] != 5000, 1)),
    "ldb [9]; jeq #17,udp,other; udp: ret #65535; other: ret #7": Program(4, lambda packet: 65535 if packet[9] == 17 else 7),
    "ldb [40]; ret #65535": Program(2, when(lambda packet: len(packet) > 40)),
    "ldx #4294967295; ldb [x+10]; ret #1": Program(3, always(0)),
    "ldx #0; ld #7; div x; ret a": Program(4, always(0)),
    "ret #3; ld M[0]; ret a": Program(3, always(3)),
}

# The charge is the size of docs/EXPRESSIONS.md, "Measures". A byte that the packet lacks makes an expression fail, also under `not`.
EXPRESSIONS = {
    "less 28": Program(6, when(lambda packet: len(packet) <= 28)),
    "udp and less 28": Program(15, when(lambda packet: packet[9] == 17 and len(packet) <= 28)),
    "greater 30": Program(6, when(lambda packet: len(packet) >= 30)),
    "len > 30": Program(10, when(lambda packet: len(packet) > 30)),
    "ip": Program(7, when(lambda packet: packet[0] >> 4 == 4)),
    "  udp\t": Program(11, when(lambda packet: packet[9] == 17)),
    "tcp": Program(11, when(lambda packet: packet[9] == 6)),
    "not tcp": Program(11, when(lambda packet: packet[9] != 6)),
    "port 53": Program(30, when(lambda packet: 53 in (source(packet)[1], destination(packet)[1]))),
    "udp src port 5000": Program(20, when(lambda packet: source(packet)[1] == 5000)),
    "src host 10.0.0.1": Program(11, when(lambda packet: packet[12:16] == bytes([10, 0, 0, 1]))),
    "udp[8] = 0x61": Program(27, when(lambda packet: payload(packet)[:1] == b"a")),
    "not udp[8] = 0x61": Program(27, when(lambda packet: payload(packet)[:1] not in (b"a", b""))),
    "udp[4:2] > 10": Program(27, when(lambda packet: udp_length(packet) > 10)),
    "ip[0] & 15 > 5": Program(22, when(lambda packet: header(packet) > 20)),
}

FAULTY_ASSEMBLY = {
    "foo": "A1 1",
    "ret #0;;foo": "A1 3",
    "neg; ja x": "A2 2",
    "l: neg; l: neg": "A3 2",
    "top: ja top": "A4 1",
    "jeq #1,256,0": "A5 1",
    "": "V1",
    ";;": "V1",
    "ld #1": "V10",
    "neg; div #0; ret a": "V5 1",
    "lsh #32; ret a": "V6 0",
    "st M[16]; ret a": "V7 0",
    "ja +1; ret #1": "V8 0",
    "ld #0; ld [2147483648]; ret a": "V9 1",
    "jeq #0,0,1; st M[0]; ld M[0]; ret a": "V11 2",
    "ret #0; ret #4294967296": "A1 2",
}

FAULTY_EXPRESSIONS = {
    "": "P1 0",
    "udp and": "P1 7",
    "udp and ": "P1 8",
    "host 10": "P1 5",
    "(1 + 2) and ip": "P1 8",
    "src || dst host 1.2.3.4": "P1 4",
    "port 65536": "P2 5",
    "portrange 1-70000": "P2 12",
    "host 10.0.0.256": "P3 5",
    "net 1.2.3.256/99": "P3 4",
    "net 10.0.0.1/8": "P4 13",
    "net 10.0.0.0/33": "P4 13",
}


class Refused(Exception):
    """A line is refused; the code, and the place if there is one."""


class Untold(Exception):
    """A line reads the words of an expression, and changes nothing."""


def words_of(made):
    if made.words is None:
        raise Untold
    return made.words


def size(made):
    return len(words_of(made)) if made else 0


def program(language, text):
    known, faults = (ASSEMBLY, FAULTY_ASSEMBLY) if language == "asm" else (EXPRESSIONS, FAULTY_EXPRESSIONS)
    if text in faults:
        raise Refused(faults[text])
    if text in known:
        return known[text]._replace(words=tuple(plain_assembly.assemble(text).split()[1:])) if language == "asm" else known[text]
    instructions = text.split(";")
    assert language == "asm" and set(instructions) == {"ret #0"}, text
    if len(instructions) > MAX_INSTRUCTIONS:
        raise Refused("V2")
    return Program(len(instructions), always(0), ("0006000000000000",) * len(instructions))


# Configurations

@dataclasses.dataclass(frozen=True)
class Member:
    number: int
    to: str
    filter: Program | None = None
    is_locked: bool = False


@dataclasses.dataclass(frozen=True)
class Group:
    selector: Program | None = None
    members: tuple[Member, ...] = ()

    def place(self, number):
        for place, member in enumerate(self.members):
            if member.number == number:
                return place
        raise Refused("G3")

    def with_member(self, place, **changes):
        members = list(self.members)
        members[place] = dataclasses.replace(members[place], **changes)
        return dataclasses.replace(self, members=tuple(members))

    def programs(self):
        return [it for it in (self.selector, *(member.filter for member in self.members)) if it]

    def chosen(self, packet):
        index = self.selector.returns(packet) if self.selector else len(self.members)
        if index >= len(self.members):
            (from_address, from_port), (to_address, to_port) = source(packet), destination(packet)
            index = (from_address ^ to_address ^ (from_port * 65536 + to_port)) % len(self.members)
        return self.members[index]


def charge(groups):
    return 2 + sum(4 + 4 * len(group.members) + sum(it.charge for it in group.programs()) for group in groups.values())


# The commands: each takes the groups by their keys and the line's fields, and returns the groups that come next.

def add(groups, key):
    if key in groups:
        raise Refused("G2")
    if len(groups) >= MAX_GROUPS:
        raise Refused("G5")
    return groups | {key: Group()}


def group_of(groups, key):
    if key not in groups:
        raise Refused("G1")
    return groups[key]


def remove(groups, key):
    group_of(groups, key)
    return {other: group for other, group in groups.items() if other != key}


def join(groups, key, number, to):
    group = group_of(groups, key)
    if any(member.number == number for member in group.members):
        raise Refused("G4")
    if len(group.members) >= MAX_MEMBERS:
        raise Refused("G6")
    return groups | {key: dataclasses.replace(group, members=(*group.members, Member(number, to)))}


def leave(groups, key, number):
    """The last member takes the place of the one that leaves."""
    group = group_of(groups, key)
    place = group.place(number)
    *members, last = group.members
    if place < len(members):
        members[place] = last
    return groups | {key: dataclasses.replace(group, members=tuple(members))}


def lock(groups, key, number):
    group = group_of(groups, key)
    return groups | {key: group.with_member(group.place(number), is_locked=True)}


def set_selector(groups, key, made):
    group = group_of(groups, key)
    if not (made or group.selector):
        raise Refused("G7")
    return groups | {key: dataclasses.replace(group, selector=made)}


def set_filter(groups, key, number, made):
    group = group_of(groups, key)
    place = group.place(number)
    if group.members[place].is_locked:
        raise Refused("G9")
    if not (made or group.members[place].filter):
        raise Refused("G7")
    return groups | {key: group.with_member(place, filter=made)}


# Lines

DECIMAL = r"(?:0|[1-9][0-9]*)"
KEY = rf"({DECIMAL}\.{DECIMAL}\.{DECIMAL}\.{DECIMAL}:{DECIMAL})"
ID = rf"({DECIMAL})"
TEXT = r"(asm|expr) ([^\n]*)"


def number(text, most):
    if int(text) > most:
        raise Refused("C1")
    return int(text)


def endpoint(text):
    *address, port = re.split("[.:]", text)
    for part in address:
        number(part, 255)
    number(port, 65535)
    return text


def key_of(endpoint_of_packet):
    address, port = endpoint_of_packet
    return ".".join(str(part) for part in address.to_bytes(4, "big")) + f":{port}"


def member_id(text):
    return number(text, 4294967295)


# A form of a line that reads, its fields, and what it reads.
READINGS = [
    (rf"group {ID}", "group", [member_id]),
    (rf"member {KEY} {ID}", "member", [endpoint, member_id]),
    (rf"words {KEY} selector {ID}", "selector_words", [endpoint, member_id]),
    (rf"words {KEY} {ID} {ID}", "filter_words", [endpoint, member_id, member_id]),
]

# A form of line, its fields, and its command. A program's text is judged before the group is looked for.
FORMS = [
    (rf"add {KEY}", add, [endpoint]),
    (rf"remove {KEY}", remove, [endpoint]),
    (rf"join {KEY} {ID} {KEY}", join, [endpoint, member_id, endpoint]),
    (rf"leave {KEY} {ID}", leave, [endpoint, member_id]),
    (rf"lock {KEY} {ID}", lock, [endpoint, member_id]),
    (rf"selector {KEY} none", lambda groups, key: set_selector(groups, key, None), [endpoint]),
    (rf"selector {KEY} asm ([^\n]*)", lambda groups, key, text: set_selector(groups, key, program("asm", text)), [endpoint, str]),
    (rf"filter {KEY} {ID} none", lambda groups, key, member: set_filter(groups, key, member, None), [endpoint, member_id]),
    (rf"filter {KEY} {ID} {TEXT}",
     lambda groups, key, member, language, text: set_filter(groups, key, member, program(language, text)),
     [endpoint, member_id, str, str]),
]


class Switch:
    def __init__(self):
        self.groups = {}
        self.version = 0
        self.reclaimed = 0

    def charge(self):
        return charge(self.groups)

    def change(self, line):
        for form, command, fields in FORMS:
            if found := re.fullmatch(form, line):
                groups = command(self.groups, *(read(text) for read, text in zip(fields, found.groups(), strict=True)))
                if charge(groups) > MAX_CHARGE:
                    raise Refused("B1")
                self.groups = groups
                self.version += 1
                return f"ok version {self.version}"
        raise Refused("C1")

    def show(self):
        members = sum(len(group.members) for group in self.groups.values())
        return f"version {self.version} groups {len(self.groups)} members {members} charge {self.charge()}"

    def group(self, index):
        keys = sorted(self.groups, key=lambda key: [int(part) for part in re.split("[.:]", key)])
        if index >= len(keys):
            raise Refused("G1")
        group = self.groups[keys[index]]
        return (f"version {self.version} group {index} of {len(keys)} {keys[index]} members {len(group.members)}"
                f" selector {size(group.selector)}")

    def member(self, key, index):
        members = group_of(self.groups, key).members
        if index >= len(members):
            raise Refused("G3")
        it = members[index]
        return (f"version {self.version} member {index} of {len(members)} {it.number} {it.to} filter {size(it.filter)}"
                f" locked {int(it.is_locked)}")

    def words(self, made, place):
        if not made:
            raise Refused("G7")
        words = words_of(made)
        return " ".join([f"version {self.version} words {place} of {len(words)}", *words[place:place + 5]])

    def selector_words(self, key, place):
        return self.words(group_of(self.groups, key).selector, place)

    def filter_words(self, key, number, place):
        group = group_of(self.groups, key)
        return self.words(group.members[group.place(number)].filter, place)

    def reading(self, line):
        """What a line reads, or None of another line."""
        for form, name, fields in READINGS:
            if found := re.fullmatch(form, line):
                return getattr(self, name)(*(read(text) for read, text in zip(fields, found.groups(), strict=True)))
        return None

    def sweep(self):
        first, self.reclaimed = self.reclaimed, self.version
        return f"reclaimed {first} {self.version - first}"

    def verdict(self, packet):
        if not is_dispatched(packet):
            return "malformed"
        key = key_of(destination(packet))
        if key not in self.groups:
            return "nogroup"
        if not self.groups[key].members:
            return "nomembers"
        member = self.groups[key].chosen(packet)
        kept = min(member.filter.returns(packet), len(packet)) if member.filter else len(packet)
        return f"deliver {key} {member.number} {member.to} {kept}" if kept else f"dropped {key} {member.number}"

    def judge(self, digits):
        if len(digits) % 2:
            raise Refused("C1")
        packet = bytes.fromhex(digits)
        if len(packet) > MAX_PACKET:
            raise Refused("C3")
        return f"version {self.version} {self.verdict(packet)}"

    def reply(self, line):
        """The reply to a line without its LF; the line has at most 262,144 bytes."""
        try:
            if line == "show":
                return self.show()
            if line == "sweep":
                return self.sweep()
            if found := re.fullmatch(r"packet ([0-9a-fA-F]*)", line):
                return self.judge(found[1])
            return self.reading(line) or self.change(line)
        except Refused as refused:
            return f"refused {refused}"
