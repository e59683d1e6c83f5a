"""Scripts of control lines, programs, expressions and packets: `replay` beside the plain switch, on every reply."""
import re
import subprocess

import drawn
import plain_switch

SECONDS = 120

# The gate's scripts: a seed, a number of lines, and of how many settings one is a long program (none at 0).
SCRIPTS = [(1, 400, 0), (2, 400, 0), (3, 400, 0), (8, 400, 0), (5, 250, 5), (6, 250, 5)]

# The replies that have to come to the gate's scripts, by `kind_of`. Few scripts with other seeds may lack one.
KINDS = ("ok groups group member words reclaimed malformed nogroup nomembers dropped deliver A1 A2 A3 A4 A5 B1 C1 G1 G2 G3 G4 G7 G9 P1 P2 P3 P4 V1 V10 V11 "
         "V2 V5 V6 V7 V8 V9").split()

KEYS = ["10.0.0.2:53", "10.0.0.2:5353", "0.0.0.0:0", "255.255.255.255:65535"]
MEMBERS = [0, 1, 2, 7, 65536, 4294967295]
SOURCE_PORTS = [0, 1, 2, 3, 53, 5000, 40000, 65535]

# No lines, for their words, their spaces, their fields or their bytes.
NO_LINES = [
    "", " show", "show ", "Show", "sweep\r", "stop", "totals", "add", "add  10.0.0.2:53", "add 10.0.0.2:053", "add 10.0.0.256:53",
    "add 10.0.0.2:65536", "remove 10.0.0.2:53 1", "join 10.0.0.2:53 1", "join 10.0.0.2:53 01 127.0.0.1:9001",
    "group", "group 01", "group 4294967296", "member 10.0.0.2:53", "member 10.0.0.2:53 0 0", "words 10.0.0.2:53 selector",
    "words 10.0.0.2:53 expr 0", "words 10.0.0.2:53 1 2 3", "leave 10.0.0.2:53 4294967296", "lock 10.0.0.2:53", "lock 10.0.0.2:53 1 none", "selector 10.0.0.2:53 asm",
    "selector 10.0.0.2:53 expr udp", "filter 10.0.0.2:53 1 none none", "filter 10.0.0.2:53 1 Expr udp", "packet", "packet 4", "packet 4g",
    "packet 4500 ",
]


def endpoint(address, port):
    return f"{address >> 24}.{address >> 16 & 255}.{address >> 8 & 255}.{address & 255}:{port}"


class Lines(drawn.Numbers):
    """Draws the lines of a script."""

    def __init__(self, seed, long_in):
        super().__init__(seed)
        self.long_in = long_in

    def address_and_port(self):
        return self.below(65536) << 16 | self.below(65536), self.below(65536)

    def source(self):
        address, port = self.address_and_port()
        if self.below(3) == 0:
            address = 0x0a000001
        if self.below(4) > 0:
            port = self.pick(SOURCE_PORTS)
        return address, port

    def destination(self):
        """Mostly a key of the scripts, else one beside it."""
        *parts, port = (int(part) for part in re.split("[.:]", self.pick(KEYS)))
        beside = self.below(16)
        if beside == 0:
            port = (port + 1) % 65536
        address = int.from_bytes(bytes(parts), "big")
        return address ^ (beside == 1), port

    def payload_length(self):
        which = self.below(32)
        if which == 0:
            return 1400
        return self.below(4 if which < 16 else 40)

    def datagram(self):
        """The fields of a datagram that is dispatched. Its UDP length may be less than there is room for."""
        payload = self.payload_length()
        options = max(self.below(6) - 3, 0)
        slack = payload // 2 if self.below(4) == 0 else 0
        return {"version": 4, "words": 5 + options, "options": options, "fragment": self.pick([0, 0x4000, 0x8000, 0xc000]),
                "protocol": 17, "source": self.source(), "destination": self.destination(), "udp_length": payload + 8 - slack,
                "payload": self.pick(b"ab").to_bytes(1, "big") * payload, "kept": 28 + 4 * options + payload}

    def spoiled(self):
        """A datagram with a fault in its header, or one that is cut or has a byte too many."""
        fields = self.datagram()
        which = self.below(9)
        if which == 0:
            fields["version"] = self.pick([0, 3, 5, 6, 15])
        elif which == 1:
            fields["words"] = self.below(5)
        elif which == 2:
            fields["fragment"] |= 0x2000
        elif which == 3:
            fields["fragment"] |= self.below(0x1fff) + 1
        elif which == 4:
            fields["protocol"] = self.pick([0, 1, 6, 132])
        elif which == 5:
            fields["udp_length"] = self.below(8)
        elif which == 6:
            fields["udp_length"] = len(fields["payload"]) + 9
        elif which == 7:
            fields["kept"] += 1
        else:
            fields["kept"] = self.below(fields["kept"])
        return fields

    def program(self, language):
        known, faults = ((plain_switch.ASSEMBLY, plain_switch.FAULTY_ASSEMBLY) if language == "asm"
                         else (plain_switch.EXPRESSIONS, plain_switch.FAULTY_EXPRESSIONS))
        return f"{language} {self.pick(list(faults if self.below(6) == 0 else known))}"

    def long_program(self, charge):
        """So many instructions as the largest charge leaves, or one more, or half, or the most that a program has, or one more."""
        left = max(plain_switch.MAX_CHARGE - charge, 0)
        which = self.below(4)
        count = [left, left + 1, left // 2][which] if which < 3 else self.below(2) + plain_switch.MAX_INSTRUCTIONS
        return "asm " + ";".join(["ret #0"] * min(count, plain_switch.MAX_INSTRUCTIONS + 1))

    def selector(self, charge):
        if self.long_in and self.below(self.long_in) == 0:
            return self.long_program(charge)
        return "none" if self.below(4) == 0 else self.program("asm")

    def filter(self, charge):
        return self.selector(charge) if self.below(2) == 0 else self.program("expr")

    def line(self, charge):
        """The next line of a script, for a switch with this charge."""
        key, member = self.pick(KEYS), self.pick(MEMBERS)
        which = self.below(100)
        if which < 6:
            return f"add {key}"
        if which < 7:
            return f"remove {key}"
        if which < 24:
            return f"join {key} {member} {endpoint(*self.address_and_port())}"
        if which < 30:
            return f"leave {key} {member}"
        if which < 32:
            return f"lock {key} {member}"
        if which < 42:
            return f"selector {key} {self.selector(charge)}"
        if which < 61:
            return f"filter {key} {member} {self.filter(charge)}"
        if which < 64:
            return self.pick(["show", f"group {self.below(6)}", f"member {key} {self.below(3)}", f"words {key} selector {self.below(8)}",
                              f"words {key} {member} {self.below(3)}"])
        if which < 68:
            return "sweep"
        if which < 97:
            return f"packet {packet(self.datagram() if which < 92 else self.spoiled()).hex()}"
        return self.pick(NO_LINES)


def packet(fields):
    """The bytes of a datagram, of which `kept` are kept; zeros follow if these are more."""
    def numbers(*pairs):
        return b"".join(number.to_bytes(size, "big") for number, size in pairs)
    (source, source_port), (destination, destination_port) = fields["source"], fields["destination"]
    length = 28 + 4 * fields["options"] + len(fields["payload"])
    whole = (numbers((fields["version"] << 4 | fields["words"], 1), (0xb8, 1), (length, 2), (0x1234, 2), (fields["fragment"], 2), (64, 1),
                     (fields["protocol"], 1), (0xabcd, 2), (source, 4), (destination, 4))
             + bytes([1, 1, 1, 0]) * fields["options"]
             + numbers((source_port, 2), (destination_port, 2), (fields["udp_length"], 2), (0xef01, 2)) + fields["payload"])
    return (whole + b"\0")[:fields["kept"]]


def script(seed, count, long_in):
    """The lines of a script, and the plain switch's replies."""
    lines, switch = Lines(seed, long_in), plain_switch.Switch()
    pairs = []
    while len(pairs) < count:
        line = lines.line(switch.charge())
        try:
            pairs.append((line, switch.reply(line)))
        except plain_switch.Untold:
            pass
    return pairs


def replayed(program, pairs):
    """The replies of `replay`, and what is wrong about how it ended."""
    text = "".join(line + "\n" for line, _ in pairs).encode()
    made = subprocess.run([program, "replay"], input=text, capture_output=True, timeout=SECONDS)
    ended = [f"status {made.returncode}: {made.stderr.decode()}"] if made.returncode or made.stderr else []
    return made.stdout.decode(errors="replace").split("\n"), ended


def not_in_a_row(replies):
    """What no plain switch has to say: the versions are in a row, and each is reported once, by the first sweep after it is replaced."""
    version = reported = 0
    for number, reply in enumerate(replies, 1):
        if found := re.match(r"ok version (\d+)$", reply):
            version += 1
            fits = int(found[1]) == version
        elif found := re.match(r"reclaimed (\d+) (\d+)$", reply):
            fits = int(found[1]) == reported
            reported += int(found[2])
            fits = fits and reported == version
        else:
            fits = not reply.startswith("version ") or reply.split()[1] == str(version)
        if not fits:
            yield f"line {number}: {reply}, at version {version}, with {reported} reported"


def kind_of(reply):
    words = reply.split() or [""]
    return words[2] if words[0] == "version" else words[1] if words[0] == "refused" else words[0]


def differences(program, seeds=None, times=1):
    """Compares the gate's scripts, or TIMES as many with seeds that `seeds` draws. Each difference is a text."""
    kinds = set()
    for fixed, count, long_in in SCRIPTS * times:
        seed = seeds.randrange(2**63) if seeds else fixed
        pairs = script(seed, count, long_in)
        replies, ended = replayed(program, pairs)
        wrong = [f"line {number}: {line[:200]!r}: {found!r}, and not {reply!r}"
                 for number, ((line, reply), found) in enumerate(zip(pairs, replies), 1) if reply != found]
        if len(replies) != count + 1 or replies[-1]:
            wrong.append(f"{len(replies) - 1} replies to {count} lines")
        wrong += [*not_in_a_row(replies[:-1]), *ended]
        kinds |= {kind_of(reply) for reply in replies}
        yield from (f"seed {seed}, {count} lines, long programs 1 in {long_in}: {it}" for it in wrong[:10])
    missing = [kind for kind in KINDS if kind not in kinds]
    if missing and not seeds:
        yield f"no reply was {' '.join(missing)}"
