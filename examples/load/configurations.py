"""Configurations drawn by a seed: their rules files, what a line makes of them, and the fewest lines between two of them."""
import collections

KEYS = ["10.0.0.2:53", "10.0.0.3:53", "10.0.0.3:54", "10.1.0.2:53", "192.0.2.1:1"]
ENDPOINTS = ["127.0.0.1:9001", "127.0.0.1:9002"]
# Each as the program prints it, with `; ` for LF.
PROGRAMS = ["ret #0", "ret #65535", "ld len; ret a", "ldb [9]; jeq #17,0,1; ret #65535; ret #0", "ldh [20]; and #3; ret a"]

Member = collections.namedtuple("Member", "id to filter locked")
Group = collections.namedtuple("Group", "selector members")
EMPTY = Group(None, ())


def number_of(key):
    address, port = key.split(":")
    number = 0
    for part in address.split("."):
        number = number * 256 + int(part)
    return number * 65536 + int(port)


def length(program):
    return program.count(";") + 1 if program else 0


def charge_of(config):
    return 2 + sum(4 + length(group.selector) + sum(4 + length(it.filter) for it in group.members) for group in config.values())


def measures(config):
    return f"groups {len(config)} members {sum(len(it.members) for it in config.values())} charge {charge_of(config)}"


def member_lines(key, member):
    yield f"join {key} {member.id} {member.to}"
    if member.filter:
        yield f"filter {key} {member.id} asm {member.filter}"
    if member.locked:
        yield f"lock {key} {member.id}"


def rules_lines(config):
    """The lines that `rules` prints of a configuration, but for the comment."""
    for key in sorted(config, key=number_of):
        yield f"add {key}"
        if config[key].selector:
            yield f"selector {key} asm {config[key].selector}"
        for member in config[key].members:
            yield from member_lines(key, member)


def rules_text(version, config):
    return "".join(f"{line}\n" for line in [f"# version {version} {measures(config)}", *rules_lines(config)])


def changed(group, words):
    """What a change line makes of a group, without its key; EMPTY is a group that was added. It must not be refused."""
    selector, members = group
    members = list(members)
    place = next((i for i, it in enumerate(members) if len(words) > 1 and it.id == words[1]), None)
    program = words[-1]
    if words[0] == "selector":
        assert selector or program, words
        return Group(program, tuple(members))
    if words[0] == "join":
        assert place is None, words
        return Group(selector, (*members, Member(words[1], words[2], None, False)))
    assert place is not None, words
    if words[0] == "leave":
        last = members.pop()
        if place < len(members):
            members[place] = last
    elif words[0] == "filter":
        assert not members[place].locked and (members[place].filter or program), words
        members[place] = members[place]._replace(filter=program)
    else:
        assert words[0] == "lock", words
        members[place] = members[place]._replace(locked=True)
    return Group(selector, tuple(members))


def applied(config, lines):
    """What change lines make of a configuration. None of them may be refused."""
    config = dict(config)
    for line in lines:
        name, key, *rest = line.split(" ", 3 if line.startswith("filter ") else 2 if line.startswith("selector ") else -1)
        if name == "add":
            assert key not in config, line
            config[key] = EMPTY
        elif name == "remove":
            del config[key]
        else:
            if name in ("filter", "selector"):
                rest[-1] = None if rest[-1] == "none" else rest[-1].removeprefix("asm ")
            config[key] = changed(config[key], [name, *([int(rest[0])] if name != "selector" else []), *rest[name != "selector":]])
    return config


def drawn_member(chance, number):
    return Member(number, chance.choice(ENDPOINTS), chance.choice([None, *PROGRAMS]), chance.random() < 0.3)


def drawn_group(chance, most):
    numbers = chance.sample([*range(1, most + 2), 4294967295], chance.randint(0, most))
    return Group(chance.choice([None, *PROGRAMS]), tuple(drawn_member(chance, it) for it in numbers))


def drawn(chance, keys=KEYS, most=5):
    return {key: drawn_group(chance, most) for key in chance.sample(keys, chance.randint(0, len(keys)))}


def near(chance, config, keys=KEYS):
    """A configuration that differs little from another one, or not at all."""
    config = dict(config)
    for _ in range(chance.randint(0, 4)):
        key = chance.choice(keys)
        if key not in config:
            config[key] = drawn_group(chance, 2)
            continue
        selector, members = config[key][0], list(config[key].members)
        what = chance.randrange(7)
        if what == 0:
            del config[key]
            continue
        if what == 1:
            selector = chance.choice([None, *PROGRAMS])
        elif what == 2:
            chance.shuffle(members)
        elif what == 3:
            members = members[:-1]
        elif what == 4 and members:
            members[chance.randrange(len(members))] = drawn_member(chance, 7)
            members = list({it.id: it for it in members}.values())
        elif members:
            place = chance.randrange(len(members))
            members[place] = drawn_member(chance, members[place].id)
        config[key] = Group(selector, tuple(members))
    return config


def file_of(chance, config):
    """A rules file that makes the configuration, in some other way than `rules` prints it."""
    lines = []
    for key in chance.sample(sorted(config), len(config)):
        group = config[key]
        if chance.random() < 0.3:
            lines += ["", f"# {key}"]
        lines.append(f"add {key}")
        if group.selector and chance.random() < 0.5:
            lines.append(f"selector {key} asm {group.selector}")
        if chance.random() < 0.2:
            lines += [f"join {key} 99 127.0.0.1:9", f"leave {key} 99"]
        lines += [line for it in group.members for line in member_lines(key, it)]
        if group.selector:
            lines.append(f"selector {key} asm {group.selector}")
    end = chance.choice(["\n", "\n", "\r\n"])
    return end.join(lines) + chance.choice(["", end]) if lines else ""


def neighbours(group, ids, endpoints, programs):
    """The groups that one line makes of a group. None is no group."""
    if group is None:
        yield EMPTY
        return
    yield None
    for program in [None, *programs]:
        if program != group.selector:
            yield changed(group, ["selector", program])
    there = {it.id for it in group.members}
    for number in ids:
        if number not in there:
            for to in endpoints:
                yield changed(group, ["join", number, to])
            continue
        yield changed(group, ["leave", number])
        member = next(it for it in group.members if it.id == number)
        if not member.locked:
            yield changed(group, ["lock", number])
            for program in [None, *programs]:
                if program != member.filter:
                    yield changed(group, ["filter", number, program])


def fewest(one, other, ids, endpoints, programs):
    """The fewest lines that lead from a group to another one, by a breadth-first search."""
    seen, ring, count = {one}, [one], 0
    while other not in seen:
        found = []
        for group in ring:
            for it in neighbours(group, ids, endpoints, programs):
                if it not in seen:
                    seen.add(it)
                    found.append(it)
        ring, count = found, count + 1
    return count
