"""Assembly texts: the assembler beside the plain one, on the worked texts, on texts of mixed lines and on texts of mixed tokens."""
import drawn
import plain_assembly
import rows

# The gate's texts: so many of lines, and so many of pieces.
SEED, TEXTS = 1, 4000

LINES = ["", "a:", "b: neg", "c: ret #0", "d:;ld [x+4]", "M: ld M[0x3]", "ja a", "ja b", "ja +0", "ja M", "jeq #1,a,b", "jset x,0,b",
         "jgt #2,256,a", "jge #2,255,256", "jeq x,c,d", "jeq #0,d,1", "ldx 4*([9]&0xf)", "add #4294967295", "xor x", "ret a", "tax", "ja c",
         "jgt x,d,c", "ld #08"]
PIECES = ["ld", "ldb", "ldx", "st", "ja", "jeq", "ret", "add", "neg", "x", "M", "l:", " ", ";", "[", "]", "#", "+", ",", "7", "0xf", "4", "l",
          "\t"]
FAULTS = ["Syntax", "DoubleLabel", "UnknownLabel", "BackwardJump", "TooFar"]


def mixed(chance, parts, between, most):
    return "".join(chance.pick(parts) + between for _ in range(chance.below(most)))


def differences(program, seeds=None, times=1):
    """Describes each text on which the two differ. The assembler is that of test_rows, whatever the program."""
    chance = drawn.Numbers(seeds.randrange(2**63) if seeds else SEED)
    texts = [text for _ in range(times * TEXTS) for text in (mixed(chance, LINES, "\n", 11), mixed(chance, PIECES, "", 7))]
    # In a row an end of line is `\`.
    given = [text.replace("\n", "\\") for text in texts]
    worked = [*rows.worked("asm"), ("ret #0\r", "Syntax { line: 1 }"), ("ret #0 \xff", "Syntax { line: 1 }")]
    answers = rows.answers([f"asm {text}" for text in given])
    found = [*worked, *zip(given, answers)]
    for text, answer in found:
        plain = plain_assembly.assemble(text.replace("\\", "\n"))
        if answer != plain:
            yield f"{text!r}: {answer}, and by the plain assembler {plain}"
    for name in FAULTS:
        if sum(answer.startswith(name) for answer in answers) < 10:
            yield f"fewer than ten texts that were drawn have the fault {name}"
    if sum(answer[0].isdigit() for answer in answers) < 100:
        yield "fewer than a hundred texts that were drawn are assembled"
