#!/usr/bin/env python3
"""Runs the definitions of the unit on a stream and compares them with the plain implementation.

    python3 tests/definitions.py SEED COMMANDS

The stream comes from tests/trips.py and the expected lines from tests/plain.rs, which know nothing of the definitions. The checker
computes the same stream over `call_of` and `area_of` of crates/rules/specs, in a copy of the repository, and has to find every answer
and every area equal. Bytes 14 to 17 of a report are a largest number, which would be walked to; they are computed by the
division that cases/proofs/ChangeFigures proves equal to it. A few hundred commands take some seconds; from about 400 on the checker
may stop at its step limit.
"""

import os
import shutil
import subprocess
import sys
import tempfile

HERE = os.path.dirname(os.path.abspath(__file__))
ROOT = os.path.dirname(HERE)
LENGTHS = {0x01: 24, 0x02: 6, 0x10: 14, 0x20: 12, 0x21: 6, 0x22: 8, 0x23: 6, 0x30: 6, 0x31: 5, 0x32: 5, 0x40: 5, 0x50: 8, 0x51: 12, 0x52: 7, 0x53: 6}
UNTOUCHED = 7  # what every byte of a lent area holds

PROOF = """-- A stream, computed over the definitions.
use Rattle.std.specs.Prelude.{{◌≡◌, ℕ, true, cond, List, [], ◌∷◌, ◌++◌, take, drop, replicate}}
use mathlib.Core.Path.{{refl}}
use Rattle.wire.specs.Form.{{report_length}}
use Rattle.wire.specs.Bytes.{{same_bytes}}
use Rattle.curve.specs.Ground.{{never}}
use Rattle.rules.specs.Numbers.{{answer_number, is_answered}}
use Rattle.rules.specs.Reports.{{four}}
use Rattle.rules.specs.Commands.{{fresh_stm}}
use Rattle.rules.specs.Runs.{{Sent, Moment, moments}}
use Rattle.rules.specs.History.{{is_in}}
use Rattle.rules.specs.declared.State.{{State}}
use Rattle.rules.specs.declared.Stm.{{Stm}}
use Rattle.rules.proofs.Computing.{{computing}}
use Rattle.rules.proofs.Written.{{shown}}
use Rattle.cases.proofs.ChangeFigures.{{divided_of}}

abbrev send : List ℕ → Sent
send command = record {{ command = command; area = replicate report_length {untouched} }}

abbrev change : Stm → ℕ
change stm = cond (is_in State.DA stm) (divided_of stm.train stm.kept (shown stm)) never

abbrev area : Moment → List ℕ
area m = take 14 m.area ++ cond (is_answered m.answer) (four (change m.stm) (drop 18 m.area)) (drop 14 m.area)

abbrev told : List Moment → List ℕ
told [] = []
told (m ∷ ms) = answer_number m.answer ∷ (area m ++ told ms)

abbrev sent : List Sent
sent =
{sent}
    []

abbrev expected : List ℕ
expected = {expected}

same : same_bytes (told (moments fresh_stm sent)) expected ≡ true
unfolding computing
same = refl
"""


def listed(numbers):
    return "".join(f"{n} ∷ " for n in numbers) + "[]"


def split(stream):
    """The whole commands of a stream."""
    commands, at = [], 0
    while at < len(stream) and at + LENGTHS[stream[at]] <= len(stream):
        commands.append(stream[at : at + LENGTHS[stream[at]]])
        at += LENGTHS[stream[at]]
    return commands


def expected_of(lines):
    """The answers and areas that lines of the stream program tell."""
    numbers = []
    for line in lines:
        answer, _, report = line.partition(" ")
        numbers += [int(answer), *(bytes.fromhex(report) or bytes([UNTOUCHED] * 19))]
    return numbers


def main():
    seed, count = sys.argv[1], int(sys.argv[2])
    with tempfile.TemporaryDirectory() as work:
        plain = os.path.join(work, "plain")
        subprocess.run(["rustc", "-O", "-o", plain, os.path.join(HERE, "plain.rs")], check=True)
        trip = subprocess.run([sys.executable, os.path.join(HERE, "trips.py"), seed, str(count)], check=True, capture_output=True)
        commands = split(trip.stdout)[:count]
        lines = subprocess.run([plain], input=b"".join(commands), check=True, capture_output=True).stdout.decode().splitlines()

        copy = os.path.join(work, "copy")
        shutil.copytree(ROOT, copy, ignore=shutil.ignore_patterns(".git", "out"))
        proofs = os.path.join(copy, "crates", "cases", "proofs")
        with open(os.path.join(proofs, "Stream.antt"), "w") as out:
            sent = "\n".join(f"    send ({listed(c)}) ∷" for c in commands)
            out.write(PROOF.format(untouched=UNTOUCHED, sent=sent, expected=listed(expected_of(lines))))
        with open(os.path.join(proofs, "Lib.antt"), "a") as out:
            out.write("pub mod Stream\n")
        run = subprocess.run(["rt", "check"], cwd=os.path.join(copy, "crates", "cases"), capture_output=True, text=True)
    said = run.stdout + run.stderr
    if run.returncode == 0:
        print(f"seed {seed}: {len(commands)} commands, no difference")
    elif "step-limit" in said:
        sys.exit(f"seed {seed}: no verdict, the checker stopped at its step limit: try fewer commands")
    else:
        sys.exit(f"seed {seed}: the definitions and the plain implementation differ within {len(commands)} commands")


main()
