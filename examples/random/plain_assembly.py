"""A plain assembler (docs/MACHINE.md, "Assembly text"): the tokens of a line are laid beside each row of the instruction table, and a name
is looked for in all lines."""
import re

TOKEN = re.compile(r"[A-Za-z_][0-9A-Za-z_]*|[0-9][0-9A-Za-z]*|[^ \t]", re.DOTALL)
ALU = {"add": 0x04, "sub": 0x14, "mul": 0x24, "div": 0x34, "or": 0x44, "and": 0x54, "lsh": 0x64, "rsh": 0x74, "mod": 0x94, "xor": 0xa4}
JUMPS = {"jeq": 0x15, "jgt": 0x25, "jge": 0x35, "jset": 0x45}
# The rows of the instruction table: K is a number, N a name, T and F are either. 4 and 15 may have any spelling.
ROWS = [(text.split(), code) for text, code in [
    *[(f"{name} [ K ]", 0x20 | bits) for name, bits in (("ld", 0), ("ldh", 8), ("ldb", 16))],
    *[(f"{name} [ x + K ]", 0x40 | bits) for name, bits in (("ld", 0), ("ldh", 8), ("ldb", 16))],
    ("ld # K", 0x00), ("ld M [ K ]", 0x60), ("ld len", 0x80),
    ("ldx # K", 0x01), ("ldx M [ K ]", 0x61), ("ldx len", 0x81), ("ldx 4 * ( [ K ] & 15 )", 0xb1),
    ("st M [ K ]", 0x02), ("stx M [ K ]", 0x03),
    *[(f"{name} # K", code) for name, code in ALU.items()], *[(f"{name} x", code | 8) for name, code in ALU.items()],
    ("neg", 0x84), ("tax", 0x07), ("txa", 0x87), ("ja + K", 0x05), ("ja N", 0x05),
    *[(f"{name} # K , T , F", code) for name, code in JUMPS.items()], *[(f"{name} x , T , F", code | 8) for name, code in JUMPS.items()],
    ("ret # K", 0x06), ("ret a", 0x16),
]]


class Fault(Exception):
    pass


def number(token):
    if re.fullmatch("0x[0-9a-fA-F]+", token):
        value = int(token, 16)
    elif re.fullmatch("0|[1-9][0-9]*", token):
        value = int(token)
    else:
        return None
    return value if value < 1 << 32 else None


def is_name(token):
    return re.fullmatch("[A-Za-z_][0-9A-Za-z_]*", token) is not None


def fits(piece, token):
    if piece == "K":
        return number(token) is not None
    if piece == "N":
        return is_name(token)
    if piece in ("T", "F"):
        return is_name(token) or number(token) is not None
    if piece.isdigit():
        return number(token) == int(piece)
    return piece == token


def instruction(tokens):
    """The code of the tokens, and what is at the letters of its row; None if they are in no row."""
    for pieces, code in ROWS:
        if len(pieces) == len(tokens) and all(map(fits, pieces, tokens)):
            return code, {piece: token for piece, token in zip(pieces, tokens) if piece in ("K", "N", "T", "F")}
    return None


def parts(line):
    """The label of a line, if it has one, and the tokens after it."""
    tokens = TOKEN.findall(line)
    if tokens[1:2] == [":"] and is_name(tokens[0]):
        return tokens[0], tokens[2:]
    return None, tokens


def offset(target, pc, places, most):
    """The offset of a jump at pc to a target, which is a number or a name."""
    value = number(target)
    if value is None:
        if target not in places:
            raise Fault("UnknownLabel")
        value = places[target] - pc - 1
        if value < 0:
            raise Fault("BackwardJump")
    if value > most:
        raise Fault("TooFar")
    return value


def word(pc, code, letters, places):
    k = number(letters["K"]) if "K" in letters else 0
    if "N" in letters:
        k = offset(letters["N"], pc, places, 0xffffffff)
    jt, jf = (offset(letters[it], pc, places, 255) if it in letters else 0 for it in "TF")
    return code << 48 | jt << 40 | jf << 32 | k


def assemble(text):
    """The words of a text, or its fault, as test_rows prints them."""
    lines = [parts(line) for line in re.split("[\n;]", text)]
    places, read = {}, []
    for at, (label, tokens) in enumerate(lines, 1):
        if tokens:
            read.append((at, instruction(tokens)))
            if not read[-1][1]:
                return f"Syntax {{ line: {at} }}"
    count = 0
    for at, (label, tokens) in enumerate(lines, 1):
        if label in places:
            return f"DoubleLabel {{ line: {at} }}"
        if label:
            places[label] = count
        count += bool(tokens)
    words = []
    for pc, (at, (code, letters)) in enumerate(read):
        try:
            words.append(word(pc, code, letters, places))
        except Fault as fault:
            return f"{fault} {{ line: {at} }}"
    return " ".join([str(len(words)), *(f"{it:016x}" for it in words)])
