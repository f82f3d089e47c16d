"""What our answers have and the Rust's have not: it is taken out of them, so that the rest can be held to the Rust's, and is itself held to a second reading of
01 and 02 (tools/expected).

#105: a refusal by 1 names its field. `esr records` says `refused 1 carried=0xH start=S width=W MESSAGE`, and the message ends with `, bits S..E`.
#107: a number ends at the first stop, and `esr number` refuses what else stands behind it by 23. The Rust is given the bytes before the stop.
#108: class 0x18 is divided, and 01's domain of equality is without it. The Rust is not given its values, and our answers to them are held to the second reading alone.
#109: a record has a mark, the last column of its line in `esr records`."""
import itertools
import sys
from importlib.machinery import SourceFileLoader
from importlib.util import module_from_spec, spec_from_loader
from pathlib import Path

sys.dont_write_bytecode = True
expected = module_from_spec(spec_from_loader("expected", SourceFileLoader("expected", str(Path(__file__).resolve().parent.parent / "tools" / "expected"))))
expected.__loader__.exec_module(expected)

RECORDS, LISTING = b"refused 1 ", b"refused 1: "
RECORD = b"0|", b"1|"


def without_bits(line, refusal):
    """The line of a refusal by 1 in the Rust's form; one that does not have just the bits of the second reading says so, and is then no line of the Rust's."""
    ended = b", bits %d..%d\n" % (refusal.start, refusal.start + refusal.width)
    named = b" start=%d width=%d " % (refusal.start, refusal.width) if line.startswith(RECORDS) else b" "
    if not line.endswith(ended) or named not in line:
        return line[:-1] + b" (a second reading has start %d and width %d)\n" % (refusal.start, refusal.width)
    return line.replace(named, b" ", 1)[: -len(ended)] + b"\n"


def marks_of(value):
    """The marks of the records of a value, by the second reading."""
    if expected.refusal_of(value) is None:
        yield from (part.mark.encode() for _, _, part, _ in expected.marked_records(value))


def without_mark(line, mark):
    """The line of a record in the Rust's form; one that does not end with just this mark says so, and is then no line of the Rust's."""
    ended = b"|%b\n" % mark
    return line[: -len(ended)] + b"\n" if line.endswith(ended) else line[:-1] + b" (a second reading has the mark '%b')\n" % mark


def of_the_domain(value):
    """Whether a value is one of those for which 01 asks for the Rust's answer."""
    return expected.bits(value, 26, 32) != 0x18


def alone(value, block):
    """What is left of our answer to a value that is not of the domain: nothing, where it is that of the second reading."""
    wanted = (expected.record_block(value), f"> {value:#x}\n{expected.answered(value)}")
    return [] if b"".join(block).decode() in wanted else [*block[:-1], block[-1][:-1] + b" (a second reading has another answer)\n"]


def of_the_rust(lines):
    """The lines of the blocks that are of the domain; the others are looked at here and now."""
    value, block = 0, []
    for line in itertools.chain(lines, [b"> 0x0"]):
        if line.startswith(b"> 0x"):
            yield from block if of_the_domain(value) else alone(value, block)
            value, block = int(line[4:], 16), []
        block.append(line)


def in_rusts_form(lines):
    """The lines of `esr records` or `esr listing`, each ended by a line feed, without what they have beyond the Rust's."""
    value, marks = None, iter(())
    for line in of_the_rust(lines):
        if line.startswith(b"> 0x"):
            value = int(line[4:], 16)
            marks = marks_of(value)
        elif line.startswith((RECORDS, LISTING)):
            line = without_bits(line, expected.refusal_of(value) or expected.Refused(0))
        elif line.startswith(RECORD):
            line = without_mark(line, next(marks, b""))
        yield line


def before_stop(string):
    """The bytes that the Rust is given: those before the first stop."""
    return string[: min((at for at in map(string.find, map(bytes, zip(expected.STOPS))) if at >= 0), default=len(string))]


def without_rest(string, line):
    """The line of `esr number` for a string in the Rust's form: where a rest is refused, what the second reading has of the number before it. One that refuses another
    rest, or does not refuse this one, says so, and is then no line of the Rust's."""
    refusal, _ = expected.whole_number(string)
    if (line == b"refused 23\n") != (refusal == 23):
        return line[:-1] + b" (a second reading has the refusal %d)\n" % refusal
    return b"ok 0x%x\n" % expected.front_number(string)[1] if refusal == 23 else line
