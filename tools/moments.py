"""A stream of commands beside the unit's lines: what `tools/read` and `tools/draw` look at."""

import os
import subprocess
import sys
from typing import Any, NamedTuple

from commands import ACCEPTED, AGAIN, BY_CODE, HEAD, REPORT_LENGTH, report_of
from text import Mistake, commands_of, title_of

ROOT = os.path.dirname(os.path.dirname(os.path.abspath(__file__)))
PROGRAM = os.path.join(ROOT, "crates", "stream", "out", "stream")
TRIP = ".trip"  # how the name of a trip that is text ends


class Unreadable(Exception):
    """What can't be read, with the reason."""


class Portion(NamedTuple):
    """A whole command of a stream, or what ends it: a byte that is no code (`command` is None), or a rest too short."""

    index: int
    at: int
    raw: bytes
    command: Any
    line: Any = None

    @property
    def is_whole(self):
        return self.command is not None and len(self.raw) == self.command.length()

    @property
    def number(self):
        return int.from_bytes(self.raw[1:HEAD], "big")

    @property
    def values(self):
        return self.command.decode(self.raw)

    @property
    def place(self):
        """Where it stands."""
        line = f"line {self.line}, " if self.line else ""
        return f"{line}command {self.index} at byte {self.at:,}"


class Moment(NamedTuple):
    """A portion with the unit's answer and, where it is answered, the report."""

    portion: Portion
    answer: int
    report: Any

    @property
    def is_accepted(self):
        return self.answer == ACCEPTED

    @property
    def is_again(self):
        return self.answer == AGAIN

    @property
    def is_refused(self):
        return self.report is None


def portions_of(stream, lines=None):
    """The portions of a stream, up to the one that ends it. `lines` has the line of the trip for each first byte."""
    portions, at = [], 0
    while at < len(stream):
        command = BY_CODE.get(stream[at])
        length = command.length() if command else 1
        raw = stream[at:at + length]
        portions.append(Portion(len(portions) + 1, at, raw, command, (lines or {}).get(at)))
        at += length
        if not portions[-1].is_whole:
            break
    return portions


def answer_of(text, line):
    """The answer and the report of a line of the unit."""
    words = text.split(" ")
    try:
        answer = int(words[0])
        if len(words) == 1:
            return answer, None
        raw = bytes.fromhex(words[1])
        if len(words) > 2 or answer not in (ACCEPTED, AGAIN):
            raise ValueError
    except ValueError:
        raise Unreadable(f"line {line} of the output is no answer of the unit: '{text}'") from None
    if len(raw) != REPORT_LENGTH:
        raise Unreadable(f"line {line} of the output has a report of {len(raw)} bytes, not {REPORT_LENGTH}")
    return answer, report_of(raw)


def moments_of(portions, output):
    lines = output.splitlines()
    if len(lines) != len(portions):
        raise Unreadable(f"the output has {len(lines)} lines, and the stream {len(portions)} commands")
    return [Moment(portion, *answer_of(text, line))
            for line, (portion, text) in enumerate(zip(portions, lines), 1)]


# ---------------------------------------------------------------- files


def bytes_from(name):
    try:
        if name == "-":
            return sys.stdin.buffer.read()
        with open(name, "rb") as file:
            return file.read()
    except OSError as reason:
        raise Unreadable(reason.strerror) from None


def lines_from(name):
    try:
        return bytes_from(name).decode().splitlines()
    except UnicodeDecodeError:
        raise Unreadable("this is no text") from None


def is_text(content):
    """Lines that can be printed. The numbers of a stream have bytes that can't."""
    try:
        return content.endswith(b"\n") and all(line.isprintable() for line in content.decode().expandtabs().splitlines())
    except UnicodeDecodeError:
        return False


def write_to(name, content):
    try:
        with open(name, "wb") as file:
            file.write(content)
    except OSError as reason:
        raise Unreadable(f"{name} can't be written: {reason.strerror}") from None


def run(stream):
    """What the stream program writes."""
    if not os.path.exists(PROGRAM):
        raise Unreadable("the stream program is not built: `rt run </dev/null` in crates/stream proves and builds it")
    return subprocess.run([PROGRAM], input=stream, stdout=subprocess.PIPE, check=True).stdout.decode()


def moments_from(name, output=None):
    """The moments of a trip (a file whose name ends in .trip) or of a stream of bytes, with its title. The output is read
    from a file, or the program is run."""
    title, lines = "", {}
    try:
        if name.endswith(TRIP):
            text = lines_from(name)
            title, stream = title_of(text), b""
            for sent in commands_of(text):
                lines[len(stream)] = sent.line
                stream += sent.raw
        else:
            stream = bytes_from(name)
            if is_text(stream):
                raise Unreadable(f"this is text, and the name of a trip ends in {TRIP}")
    except Mistake as mistake:
        raise Unreadable(mistake) from None
    told = bytes_from(output).decode(errors="replace") if output else run(stream)
    return moments_of(portions_of(stream, lines), told), title
