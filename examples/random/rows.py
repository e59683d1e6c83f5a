"""Calls that no command shows, by the program of crates/test_rows: a row for each call, and a line for what it returns."""
import os
import subprocess

CRATE = os.path.realpath(f"{os.path.dirname(os.path.realpath(__file__))}/../../crates/test_rows")
PROGRAM = f"{CRATE}/out/test_rows"
SECONDS = 120


def answers(rows):
    """What is returned for each of the rows."""
    made = subprocess.run([PROGRAM], input="".join(f"{row}\n" for row in rows), stdout=subprocess.PIPE, text=True, timeout=SECONDS, check=True)
    lines = made.stdout.split("\n")[:-1]
    if len(lines) != len(rows):
        raise ValueError(f"{len(rows)} rows have {len(lines)} answers")
    return lines


def worked(call):
    """The rows of a call that the tests have, with the answers that were worked out by hand."""
    with open(f"{CRATE}/stdin", encoding="utf-8") as rows, open(f"{CRATE}/stdout", encoding="utf-8") as told:
        pairs = list(zip(rows.read().split("\n"), told.read().split("\n"), strict=True))
    return [(row.removeprefix(f"{call} "), answer) for row, answer in pairs if row.startswith(f"{call} ")]
