"""A trip as text: what `tools/trip` takes, made into commands. docs/COMMANDS.md says how a trip is written."""

import re
from fractions import Fraction
from typing import NamedTuple

from commands import COMMANDS, LAST_NUMBER


class Mistake(Exception):
    """A line that can't be taken, with the reason."""

    def __init__(self, line, reason):
        super().__init__(f"line {line}: {reason}")
        self.line = line
        self.reason = reason


class Wrong(Exception):
    """The reason alone."""


class Sent(NamedTuple):
    """Bytes to send, and the line of the trip that they come from."""

    line: int
    raw: bytes


WORDS = {name.lower(): command for command in COMMANDS for name in (command.word, command.name)}
MOST = 100000  # how often a line may be taken


def said(words):
    return ", ".join(f"'{word}'" for word in words)


# ---------------------------------------------------------------- figures


def figure_of(operand, text, borrowed=None):
    """A figure with its unit, in the operand's own steps. `borrowed` is the unit of the other end of a span."""
    for word, value in operand.words.items():
        if text.lower() == word.lower():
            return value
    match = re.fullmatch(r"([+-]?\d+(?:\.\d+)?)(.*)", text)
    if not match:
        wanted = f"one of {said(operand.words)}" if operand.words else "a figure"
        raise Wrong(f"{operand.name} wants {wanted}, not '{text}'")
    number, suffix = Fraction(match[1]), match[2] or borrowed
    unit = operand.unit
    if not suffix:
        suffix = unit.bare if number else next(iter(unit.suffixes))
    if suffix is None:
        raise Wrong(f"{operand.name}={text} needs its unit: one of {said(unit.suffixes)}")
    scale = {name.lower(): size for name, size in unit.suffixes.items()}.get(suffix.lower())
    if scale is None:
        units = said(name for name in unit.suffixes if name)
        raise Wrong(f"{operand.name}={text}: '{suffix}' is no unit of it" + (f", but {units}" if units else ""))
    steps = number * scale
    if steps.denominator != 1 and not unit.down:
        raise Wrong(f"{operand.name}={text} is no whole number of {unit.name or 'steps'}")
    return steps.numerator // steps.denominator


def span_of(operand, text):
    """The two ends of 'a..b', or of a single figure."""
    first, dots, last = text.partition("..")
    if not dots:
        return (figure_of(operand, text),) * 2
    unit = re.fullmatch(r"[+-]?\d+(?:\.\d+)?(.*)", last)
    return figure_of(operand, first, unit and unit[1]), figure_of(operand, last)


def check(operand, value, values, force, shown=None):
    """That a figure is in range or, under force, that its bytes can carry it."""
    shown = f"{operand.name}={value if shown is None else shown}"
    low, high = operand.limits()
    fits = low <= value <= high
    if not fits and (force or operand.ranges == ((low, high),)):
        raise Wrong(f"{shown} does not fit into its {operand.bytes} byte{'s' * (operand.bytes > 1)}")
    if not force and not operand.allows(value, values):
        unit = f" {operand.unit.name}" if operand.unit.name else ""
        raise Wrong(f"{shown} is out of range: {operand.range_text()}{unit}")


# ---------------------------------------------------------------- a line


def command_of(words):
    """The command that the first words name, and the words after them."""
    for count in (3, 2, 1):
        command = WORDS.get(" ".join(words[:count]).lower())
        if command and len(words) >= count:
            return command, words[count:]
    if words[0].isdigit():
        raise Wrong(f"'{words[0]}' is no command; '{words[0]} x' before a command takes it so often")
    raise Wrong(f"'{words[0]}' is no command; there are {said(c.word for c in COMMANDS)}, 'again' and 'hex'")


def spans_of(command, words):
    """What a line says of each operand: the two ends of its span, and the text. The number is apart."""
    named = {operand.name.lower(): operand for operand in command.operands}
    spans, bits, number = {}, {}, None
    bare = [operand for operand in command.operands if operand.bare]
    for word in words:
        name, equals, text = word.partition("=")
        bit_of = next((o for o in command.operands if word.lower() in o.bits), None)
        if bit_of and not equals:
            bits[bit_of.name] = bits.get(bit_of.name, 0) | 1 << bit_of.bits.index(word.lower())
            continue
        if equals and name.lower() == "number":
            number = number_of(text)
            continue
        if equals:
            operand = named.get(name.lower())
        else:
            operand, text = bare.pop(0) if bare else None, word
        if operand is None:
            words = [o.name + "=" for o in command.operands if not o.bare] + [b for o in command.operands for b in o.bits]
            raise Wrong(f"'{word}' is no word of {command.word}" + (f"; there are {said(dict.fromkeys(words))}" if words else ""))
        if operand.name in spans:
            raise Wrong(f"{operand.name} is said twice")
        spans[operand.name] = (*span_of(operand, text), text)
    for name, value in bits.items():
        if name in spans:
            raise Wrong(f"{name} is said twice")
        spans[name] = (value, value, str(value))
    return spans, number


def number_of(text):
    if not re.fullmatch(r"\d+", text) or int(text) > LAST_NUMBER:
        raise Wrong(f"number={text} is no number from 0 to {LAST_NUMBER:,}")
    return int(text)


def choose(command, spans):
    """An operand that stands only with some values of another says the first of them, if the line doesn't."""
    for operand in command.operands:
        if operand.name in spans and operand.stands_when:
            other, values = operand.stands_when
            if other not in spans:
                spans[other] = (values[0], values[0], str(values[0]))


# Defaults that go by the other operands: the ground of a tenth of a second, in whole centimetres.
RULES = {"a tenth of a second at the speed": lambda values: values["speed"] // 10}


def values_of(command, spans, turn, turns, force):
    """The operands of the turn-th of so many commands, each in range or forced."""
    values = {}
    for operand in command.operands:
        if operand.name in spans:
            first, last, _ = spans[operand.name]
            values[operand.name] = first + (last - first) * turn // max(turns - 1, 1)
        elif operand.default in RULES:
            values[operand.name] = RULES[operand.default](values)
        elif operand.default is not None and operand.stands(values):
            values[operand.name] = operand.default
    standing = command.standing(values)
    missing = [operand.name + ("" if operand.bare else "=") for operand in standing if operand.name not in values]
    if missing:
        raise Wrong(f"{command.word} needs {said(missing)}")
    for name in spans:
        if name not in (operand.name for operand in standing):
            raise Wrong(f"{name}= does not stand beside the rest of this line")
    for operand in standing:
        value = values[operand.name]
        first, last, text = spans.get(operand.name, (value, value, f"{value} (not said)"))
        check(operand, value, values, force, text if first == last else None)
    return {operand.name: values[operand.name] for operand in standing}


def turns_of(words):
    """'31 x ..': how often a line is taken."""
    if len(words) > 1 and words[1].lower() == "x" and words[0].isdigit():
        count = int(words[0])
        if not 1 <= count <= MOST:
            raise Wrong(f"{count} x is out of range: 1 to {MOST:,}")
        return count, words[2:]
    return 1, words


# ---------------------------------------------------------------- a trip


class Trip:
    """The commands of a trip so far, with the last number that was used up."""

    def __init__(self):
        self.sent = []
        self.number = 0

    def take(self, line, text):
        words = text.partition("#")[0].split()
        if not words:
            return
        try:
            force = words[0].lower() == "force"
            turns, words = turns_of(words[force:])
            if not force and words and words[0].lower() == "force":
                force, words = True, words[1:]
            if not words:
                raise Wrong("there is no command on this line")
            for raw in self.bytes_of(words, turns, force):
                self.sent.append(Sent(line, raw))
        except Wrong as wrong:
            raise Mistake(line, wrong) from None

    def bytes_of(self, words, turns, force):
        kind = words[0].lower()
        if kind == "again":
            return self.again(words[1:]) * turns
        if kind == "hex":
            return [hexadecimal(words[1:])] * turns
        return self.numbered(*command_of(words), turns, force)

    def again(self, words):
        if words:
            raise Wrong(f"'{words[0]}' is no word of again")
        if not self.sent:
            raise Wrong("there is no command before this one to send again")
        return [self.sent[-1].raw]

    def numbered(self, command, words, turns, force):
        spans, number = spans_of(command, words)
        if turns == 1:
            for name, (first, last, text) in spans.items():
                if first != last:
                    raise Wrong(f"{name}={text} goes from one figure to another: that takes '2 x' or more")
        if number == 0 and not force:
            raise Wrong("number=0 is out of range: 1 to 4,294,967,295")
        choose(command, spans)
        made = []
        for turn in range(turns):
            values = values_of(command, spans, turn, turns, force)
            at = self.next(command) if number is None else number + turn
            if at > LAST_NUMBER:
                raise Wrong("the numbers are used up: only a start is taken, or say number=")
            made.append(command.encode(at, values))
            if at and not command.out_of_range(values):
                self.number = at
        return made

    def next(self, command):
        """One more than the last; a start is also taken after the last number of all."""
        if self.number == LAST_NUMBER and command.word == "start":
            return 1
        return self.number + 1


def hexadecimal(words):
    text = "".join(words)
    if not words or len(text) % 2 or not re.fullmatch(r"[0-9A-Fa-f]+", text):
        raise Wrong("hex wants pairs of hexadecimal digits")
    return bytes.fromhex(text)


def commands_of(lines):
    """The commands of a trip. The first line that can't be taken is a Mistake."""
    trip = Trip()
    for line, text in enumerate(lines, 1):
        trip.take(line, text)
    return trip.sent


def title_of(lines):
    """The first comment of a trip."""
    for text in lines:
        if text.startswith("#") and text.strip("# \n"):
            return text.strip("# \n")
    return ""
