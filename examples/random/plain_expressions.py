"""A plain recogniser of filter expressions (docs/EXPRESSIONS.md): the grammar as a list of rules, and a chart of them (Earley 1970). It
has no stack, no precedence and no decision at a bracket. It says which tokens are viable, and which fault a short text has, but for depths."""
import re

WORDS = "ip tcp udp icmp proto host net port portrange less greater len src dst and or not".split()
SIGNS = "&& || << >> >= <= == != ( ) [ ] : / + - * % & | ^ < > = !".split()
TOKEN = re.compile(r"[0-9][0-9A-Za-z.]*|[A-Za-z_][0-9A-Za-z_]*|&&|\|\||<<|>>|>=|<=|==|!=|[^ \t]", re.DOTALL)
DECIMAL = "(?:0|[1-9][0-9]*)"

# "Grammar". A name of CLASSES, or `number`, `size` or `address`, is any such token. A direction and a transport may be left out.
CLASSES = {
    "name": "ip tcp udp icmp".split(),
    "operator": "| ^ & << >> + - * / %".split(),
    "relation": "> < >= <= = == !=".split(),
    "connective": "and or && ||".split(),
}
GRAMMAR = """
expression = unary
expression = expression connective unary
unary = not unary
unary = ! unary
unary = ( expression )
unary = primitive
unary = arithmetic relation arithmetic
primitive = name
primitive = ip proto number
primitive = direction host address
primitive = direction net address / number
primitive = transport direction port number
primitive = transport direction portrange number - number
primitive = less number
primitive = greater number
direction =
direction = src
direction = dst
direction = src or dst
direction = src and dst
transport =
transport = tcp
transport = udp
arithmetic = operand
arithmetic = arithmetic operator arithmetic
operand = number
operand = len
operand = ( arithmetic )
operand = name [ arithmetic ]
operand = name [ arithmetic : size ]
"""
RULES = [(left, right.split()) for left, right in re.findall(r"^(\w+) = ?(.*)$", GRAMMAR, re.MULTILINE)]
PARTS = {left for left, _ in RULES}


def number(text):
    if re.fullmatch("0x[0-9a-fA-F]+", text):
        return int(text, 16)
    return int(text) if re.fullmatch(DECIMAL, text) else None


def address(text):
    parts = text.split(".")
    if len(parts) != 4 or not all(re.fullmatch(DECIMAL, part) and int(part) < 256 for part in parts):
        return None
    return int.from_bytes(bytes(map(int, parts)), "big")


class Token:
    def __init__(self, found):
        self.place, self.text = found.start(), found[0]
        self.is_address = self.text[0] in "0123456789" and "." in self.text
        self.value = address(self.text) if self.is_address else number(self.text)

    def fits(self, symbol):
        if symbol == "address":
            return self.is_address
        if symbol in ("number", "size"):
            return not self.is_address and self.value is not None and (symbol == "number" or self.value in (1, 2, 4))
        if symbol in CLASSES:
            return self.text in CLASSES[symbol]
        return self.text == symbol and (symbol in WORDS or symbol in SIGNS)


def viable(tokens):
    """How many tokens some expression begins with, and whether all of them are one."""
    chart = [{(rule, 0, 0) for rule, (left, _) in enumerate(RULES) if left == "expression"}]
    for place in range(len(tokens) + 1):
        left_to_do = list(chart[place])
        following = set()
        while left_to_do:
            rule, dot, start = left_to_do.pop()
            left, right = RULES[rule]
            if dot == len(right):
                fresh = {(it, at + 1, since) for it, at, since in chart[start] if RULES[it][1][at:at + 1] == [left]}
            elif right[dot] in PARTS:
                fresh = {(it, 0, place) for it, (other, _) in enumerate(RULES) if other == right[dot]}
                if right[dot] in ("direction", "transport"):
                    fresh.add((rule, dot + 1, start))
            else:
                fresh = set()
                if place < len(tokens) and tokens[place].fits(right[dot]):
                    following.add((rule, dot + 1, start))
            left_to_do += fresh - chart[place]
            chart[place] |= fresh
        if not following:
            return place, place == len(tokens) and any(RULES[it][0] == "expression" and at == len(RULES[it][1]) and not since
                                                       for it, at, since in chart[place])
        chart.append(following)
    raise AssertionError("a token after the last one")


def largest(texts):
    """The largest number that may follow these tokens."""
    if texts[-1:] in (["port"], ["portrange"]) or (texts[-1:] == ["-"] and texts[-3:-2] == ["portrange"]):
        return 65535
    return 255 if texts[-1:] == ["proto"] else 0xffffffff


def own_fault(tokens, index):
    """The fault that a viable token has by its value."""
    token, before = tokens[index], tokens[:index]
    if token.is_address:
        return "BadAddress" if token.value is None else None
    if token.value is None:
        return None
    if token.value > largest([it.text for it in before]):
        return "NumberTooBig"
    if len(before) > 1 and before[-1].text == "/" and before[-2].is_address and before[-2].value is not None:
        host_bits = 32 - token.value
        if host_bits < 0 or before[-2].value % (1 << host_bits):
            return "BadPrefix"
    return None


def fault(text):
    """The fault of a text, as the parser's fault is printed, or None."""
    tokens = [Token(found) for found in TOKEN.finditer(text)]
    count, is_whole = viable(tokens)
    for index in range(count):
        if name := own_fault(tokens, index):
            return f"{name} {{ at: {tokens[index].place} }}"
    if count < len(tokens):
        return f"Syntax {{ at: {tokens[count].place} }}"
    return None if is_whole else f"Syntax {{ at: {len(text)} }}"
