"""Filter expressions: the parser beside the plain recogniser, on the worked texts and on texts with one token changed."""
import drawn
import plain_expressions
import rows

# The gate's texts: each of TEXTS, so many times over.
SEED, ROUNDS = 1, 500

TEXTS = [text.split() for text in (
    "not ( udp [ 1 + 2 ] = 3 or net 10.0.0.0 / 8 )",
    "( ( 1 ) + 2 ) > ip [ 0 : 2 ] and ip",
    "tcp src or dst portrange 1 - 65535 || less 28",
    "src and dst host 10.0.0.1 && ! ip proto 17",
    "( ip or ( 1 = len ) ) and greater 9",
    "len * ( 2 << tcp [ 12 ] ) != 0",
)]
PARTS = """ip tcp udp icmp proto host net port portrange less greater len src dst and or not && || ! << >= = == < ( ) [ ] : / - + | & 0 1 2 3
    33 256 65536 4294967296 010 10.0.0.0 10.0.0.256 ports #""".split()


def changed(chance, tokens):
    """The tokens, of which one is left out, is exchanged for another or has another before it; or with another after them all."""
    place, other = chance.below(len(tokens) + 1), chance.pick(PARTS)
    rest = tokens[place:]
    return tokens[:place] + chance.pick([rest[1:], [other, *rest[1:]], [other, *rest]])


def is_fault(answer):
    return " { at: " in answer


def differences(program, seeds=None, times=1):
    """Describes each text on which the two differ. The parser is that of test_rows, whatever the program."""
    chance = drawn.Numbers(seeds.randrange(2**63) if seeds else SEED)
    worked = [*rows.worked("expr"), ("ip\nor ip", "Syntax { at: 2 }")]
    texts = [" ".join(changed(chance, tokens)) + chance.pick(["", " "]) for _ in range(times * ROUNDS) for tokens in TEXTS]
    found = [*worked, *zip(texts, rows.answers([f"expr {text}" for text in texts]))]
    for text, answer in found:
        fault = plain_expressions.fault(text)
        if (answer if is_fault(answer) else None) != fault:
            yield f"{text!r}: {answer}, and by the plain recogniser {fault or 'an expression'}"
    # A comparison of texts of one kind would show little.
    for name in ("Syntax", "NumberTooBig", "BadAddress", "BadPrefix"):
        if not any(answer.startswith(name) for _, answer in found[len(worked):]):
            yield f"no text that was drawn has the fault {name}"
    if sum(not is_fault(answer) for _, answer in found[len(worked):]) < 100:
        yield "fewer than a hundred texts that were drawn are expressions"
