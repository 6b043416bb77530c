"""Training sheets: comma files read, sheets written, read and moved between their versions, and the refusals in order, a second time and apart from the proved
code."""
import itertools
import math
import os
import re
import struct
import sys
from collections import namedtuple

BODY = {1: 5, 2: 9}  # where the body begins in each version: behind the length, and in version 2 behind the family number too
HEADER = struct.Struct(">HHdddIB")  # the body up to its rows
FOUR_BYTES = 0xFFFFFFFF  # the largest length, and the largest family number
NORMALISE, LAZY = 1, 2
CANCELLED = 0  # as the target of a row, which then has no score and no place in the matrix
FIT_ROWS, FIT_FEATURES = 4096, 64
PROGRAM_ROWS, PROGRAM_FEATURES, PROGRAM_BYTES = 256, 16, 35882
SHOWN_FAULTS = 20

# Low, high and the words for both. The largest finite number as tol's bound says finite.
RANGES = {
    "alpha": (0, 1e6, "from 0 to 1,000,000"),
    "l1_ratio": (0, 1, "from 0 to 1"),
    "tol": (0, sys.float_info.max, "finite and at least 0"),
    "rounds": (0, 1000, "from 0 to 1,000"),
}

# What each refusal means. {k} is the place; {name} is a feature's name in brackets, where it is known.
MEANINGS = {
    1: f"rows or features outside what a fit takes: 1 to {FIT_ROWS:,} rows that are not cancelled, 1 to {FIT_FEATURES} features",
    2: "a slice has the wrong length for the rows and features",
    3: "a setting is outside its range: " + ", ".join(f"{name} {words}" for name, (_, _, words) in RANGES.items()),
    4: "the scratch memory is too short",
    5: "value {k} is not finite; values count from 0, through the features row by row, then through the scores, cancelled rows left out",
    6: "feature {k}{name} is constant; a normalised fit needs features that vary",
    7: "the search made 100 trials and accepted none",
    8: "the solver's tolerance came out at or below 0",
    9: "the paused record is impossible, or its fit has already ended",
    10: "the solver alone was called with limit 0",
    11: "the sheet's version is neither 1 nor 2",
    12: "the sheet's length is wrong; the file is cut, too long or no sheet",
    13: "the sheet's flags are above 3",
    14: "row {k} (from 0, cancelled rows counted) has a source outside 1 to 999, a target outside 0 to 999, or target 0 (cancelled) with a score",
    15: "row {k} (from 0, cancelled rows counted) has a pair that does not come after the pair of the row before",
    16: f"too large for claimfit: it takes {PROGRAM_ROWS} rows (cancelled ones count), {PROGRAM_FEATURES} features and {PROGRAM_BYTES:,} bytes",
}

Settings = namedtuple("Settings", "alpha l1_ratio tol rounds flags")
Row = namedtuple("Row", "source target features score")
Refusal = namedtuple("Refusal", "number place why")


class Fault(Exception):
    """What is wrong with an input, with its place in front."""


def fault(where, column, why):
    return Fault(f"{where}:{column}: {why}")


def quoted(text):
    """A text inside a message; short, since a broken file may have one endless line."""
    return repr(text if len(text) <= 40 else text[:37] + "...") if text else "an empty field"


def counted(count, thing):
    return f"{count:,} {thing}" + ("" if count == 1 else "s")


# Cancelled rows.

def remaining(rows):
    """(row in the sheet, row) of each that is not cancelled, in the order of the matrix."""
    return [(i, row) for i, row in enumerate(rows) if row.target != CANCELLED]


def counted_rows(rows):
    cancelled = len(rows) - len(remaining(rows))
    return counted(len(rows), "row") + (f" ({cancelled:,} cancelled)" if cancelled else "")


def all_bits_zero(value):
    """So not -0, which equals 0."""
    return struct.pack(">d", value) == bytes(8)


# Numbers from texts. A ValueError says in words what is wrong.

def any_number(text):
    """float() also takes 1_000 and the digits of other scripts. In a table these are slips, so they are shut out."""
    try:
        return float(text if text.isascii() and "_" not in text else "")
    except ValueError:
        raise ValueError(f"{quoted(text)} is not a decimal number such as 0.5 or 1e-4") from None


def decimal(text):
    value = any_number(text)
    if not math.isfinite(value):
        raise ValueError(f"{quoted(text)} is not a finite 64-bit number")
    return value


def claim(text, also=""):
    """Digits are counted first, since int() refuses very long texts in words of its own."""
    if not re.fullmatch("[0-9]+", text) or not 1 <= len(text.lstrip("0")) <= 3:
        raise ValueError(f"{quoted(text)} is not a claim number, a whole number from 1 to 999{also}")
    return int(text.lstrip("0"))


def family_number(text):
    """Digits are counted first, as of a claim number."""
    digits = text.lstrip("0") or "0"
    if not re.fullmatch("[0-9]+", text) or len(digits) > 10 or int(digits) > FOUR_BYTES:
        raise ValueError(f"{quoted(text)} is not a family number, a whole number from 0 to {FOUR_BYTES:,}")
    return int(digits)


def target_claim(text):
    return CANCELLED if re.fullmatch("0+", text) else claim(text, ", or 0 for a cancelled claim")


def ignored_feature(text):
    """Of a cancelled row. A number that stands there is written as it is, finite or not, though no fit reads it."""
    return any_number(text or "0")


def no_score(text):
    """Of a cancelled row. A text that is no number is told the same as one that is not 0, since another number would not do."""
    try:
        value = any_number(text or "0")
    except ValueError:
        value = math.nan
    if not all_bits_zero(value):
        raise ValueError(f"a cancelled claim (target 0) has no score; leave the field empty or write 0, not {quoted(text)}")
    return value


# Comma files.

def lines_of(path):
    """The lines without their ends. The mark that some spreadsheets put in front and empty lines at the end are skipped."""
    with open(path, "rb") as file:
        data = file.read()
    if data and data[0] in BODY:
        raise fault(f"{path}:1", 1, "this looks like a training sheet; the comma file comes first, then the sheet")
    try:
        lines = data.decode("utf-8-sig").split("\n")
    except UnicodeDecodeError as error:
        good = error.object[:error.start].decode().split("\n")
        raise fault(f"{path}:{len(good)}", len(good[-1]) + 1, "not UTF-8 text; save the file as UTF-8") from None
    while lines and not lines[-1].strip():
        lines.pop()
    if not lines:
        raise fault(f"{path}:1", 1, "the file is empty; its first line must be the header")
    return [line.rstrip("\r") for line in lines]


def fields(line):
    """(column, text) of each field. Blanks around a text are dropped; an empty field's column is that of the comma behind it."""
    found, start = [], 1
    for text in line.split(","):
        found.append((start + len(text) - len(text.lstrip()), text.strip()))
        start += len(text) + 1
    return found


def taken(where, field, read):
    column, text = field
    try:
        return read(text)
    except ValueError as why:
        raise fault(where, column, why) from None


def names_of(path, line):
    """The features' names from the header."""
    found, where = fields(line), f"{path}:1"
    for column, name in found:
        if '"' in name:
            raise fault(where, column, "quotes are not understood; write names without quotes and without commas")
    if len(found) < 4:
        raise fault(where, 1, "the header must be source,target, then at least one feature, then score, with commas between")
    for i, due in [(0, "source"), (1, "target"), (-1, "score")]:
        if found[i][1] != due:
            place = "last" if i < 0 else ["first", "second"][i]
            raise fault(where, found[i][0], f"the {place} column must be named {due}, not {quoted(found[i][1])}")
    for column, name in found[2:-1]:
        if not name:
            raise fault(where, column, "this feature has no name")
    if len(found) - 3 > 65535:
        raise fault(where, found[65537][0], "a sheet holds at most 65,535 features")
    return [name for _, name in found[2:-1]]


def row_of(where, line, count, before):
    """A row of so many fields, whose pair must come after the pair before."""
    found = fields(line)
    if not line.strip():
        raise fault(where, 1, "an empty line among the rows")
    if len(found) != count:
        column = found[count][0] if len(found) > count else len(line) + 1
        raise fault(where, column, f"{counted(len(found), 'field')}, but the header has {count}")
    pair = (taken(where, found[0], claim), taken(where, found[1], target_claim))
    feature, score = (ignored_feature, no_score) if pair[1] == CANCELLED else (decimal, decimal)
    numbers = [taken(where, field, feature) for field in found[2:-1]] + [taken(where, found[-1], score)]
    if pair == before:
        raise fault(where, found[1][0], f"pair {pair[0]},{pair[1]} stands twice")
    if pair < before:
        wrong = found[0] if pair[0] < before[0] else found[1]
        raise fault(where, wrong[0], f"pair {pair[0]},{pair[1]} must come after {before[0]},{before[1]}; sort the rows by source, then by target")
    return Row(*pair, numbers[:-1], numbers[-1])


def rows_of(path, lines, p):
    """All rows. Each bad line has its message, so that a file can be mended in one go."""
    rows, faults, before = [], [], (0, 0)
    if len(lines) == 1:
        raise fault(f"{path}:2", 1, "no rows below the header")
    if len(lines) > 65536:
        raise fault(f"{path}:65537", 1, f"a sheet holds at most 65,535 rows, and here are {len(lines) - 1:,}")
    for i, line in enumerate(lines[1:], 2):
        try:
            rows.append(row_of(f"{path}:{i}", line, p + 3, before))
            before = rows[-1][:2]
        except Fault as found:
            faults.append(str(found))
    if faults:
        more = len(faults) - SHOWN_FAULTS
        raise Fault("\n".join(faults[:SHOWN_FAULTS] + [f"and {counted(more, 'bad line')} more"] * (more > 0)))
    return rows


# Sheets: writing.

def front(size, family=None):
    """What stands before a body of so many bytes: of version 1, or with a family number of version 2."""
    return struct.pack(">BI", 1, size) if family is None else struct.pack(">BII", 2, 4 + size, family)


def sheet_bytes(p, rows, settings, family=None):
    size = HEADER.size + len(rows) * (12 + 8 * p)
    if size + 4 * (family is not None) > FOUR_BYTES:
        raise Fault(f"{counted(len(rows), 'row')} of {counted(p, 'feature')} are more than a sheet's length field can say")
    parts = [front(size, family), HEADER.pack(len(rows), p, *settings)]
    parts += [struct.pack(f">HH{p + 1}d", row.source, row.target, *row.features, row.score) for row in rows]
    return b"".join(parts)


def write(path, data):
    """Whole or not at all: a temporary name first. Links are followed, so that a link stays one."""
    real = os.path.realpath(path)
    if os.path.exists(path) and not os.path.isfile(path):
        raise Fault(f"{path}: not a plain file, so no sheet is written there")
    part = f"{real}.{os.getpid()}.tmp"
    try:
        with open(part, "wb") as file:
            file.write(data)
        os.replace(part, real)
    except OSError as error:
        # The temporary name would puzzle the user.
        raise Fault(f"{path}: {error.strerror}; no sheet is written") from None
    finally:
        if os.path.exists(part):
            os.remove(part)


# Sheets: reading. Each generator yields refusals in their order. Only the first is taken, so a check may rely on those above it.

def wrong_version(data, versions):
    """In words, with what the file may be. Another of the two versions is wrong only in a move."""
    due = "neither 1 nor 2" if len(versions) == 2 else f"not {versions[0]}"
    commas = "; this looks like a comma file, and 'tools/sheet make' makes a sheet of it" if b"source" in data[:9] else ""
    hint = {1: "; the sheet has no family number", 2: "; the sheet has a family number already"}.get(data[0], commas)
    return f"the version byte is {data[0]}, {due}{hint}"


def frame_refusals(data, versions):
    """All before the rows, where these versions are taken."""
    if len(data) < 5:
        yield Refusal(12, 0, f"the file has {counted(len(data), 'byte')}; a sheet begins with a version byte and a length of 4 bytes")
    if data[0] not in versions:
        yield Refusal(11, 0, wrong_version(data, versions))
    length, after = int.from_bytes(data[1:5], "big"), len(data) - 5
    if length != after:
        yield Refusal(12, 0, f"the length field says {length:,}, but {counted(after, 'byte')} follow it")
    start = BODY[data[0]]
    fixed = start - 5 + HEADER.size
    if length < fixed:
        yield Refusal(12, 0, f"the length is {length}, but the fields before the rows take {fixed} bytes")
    n, p, *_, flags = HEADER.unpack_from(data, start)
    due = fixed + n * (12 + 8 * p)
    if length != due:
        yield Refusal(12, 0, f"{counted(n, 'row')} of {counted(p, 'feature')} need a length of {due:,}, but it is {length:,}")
    if flags > NORMALISE + LAZY:
        yield Refusal(13, 0, f"the flags are {flags}; known are 1 (normalise), 2 (lazy) and 3 (both)")


def pair_refusals(rows):
    """Cancelled rows count, and their pairs rise with the others."""
    before = (0, 0)
    for i, row in enumerate(rows):
        pair = (row.source, row.target)
        if not 1 <= row.source <= 999:
            yield Refusal(14, i, f"in row {i} (from 0) the source claim is {row.source}; claim numbers run from 1 to 999")
        if not (1 <= row.target <= 999 or row.target == CANCELLED):
            yield Refusal(14, i, f"in row {i} (from 0) the target claim is {row.target}; claim numbers run from 1 to 999, and 0 means cancelled")
        if row.target == CANCELLED and not all_bits_zero(row.score):
            yield Refusal(14, i, f"row {i} (from 0) is cancelled (target 0), but has the score {row.score}; all bits of it must be 0")
        if pair <= before:
            yield Refusal(15, i, f"the pair {pair[0]},{pair[1]} of row {i} (from 0) does not come after {before[0]},{before[1]} of the row before")
        before = pair


def reader_refusals(data, program, versions=tuple(BODY)):
    """Those of the reader; a program's reader has 16 too, which depends on the program's memory. 16 counts all rows, 1 those that remain."""
    if program and len(data) > PROGRAM_BYTES:
        yield Refusal(16, 0, f"the sheet has {len(data):,} bytes; claimfit takes at most {PROGRAM_BYTES:,}")
    yield from frame_refusals(data, versions)
    n, p, _, rows = parsed(data)
    size = f"the sheet has {counted_rows(rows)} and {counted(p, 'feature')}"
    if program and (n > PROGRAM_ROWS or p > PROGRAM_FEATURES):
        yield Refusal(16, 0, f"{size}; claimfit takes at most {PROGRAM_ROWS} rows (cancelled ones count) and {PROGRAM_FEATURES} features")
    yield from pair_refusals(rows)
    if not (1 <= len(remaining(rows)) <= FIT_ROWS and 1 <= p <= FIT_FEATURES):
        yield Refusal(1, 0, f"{size}; a fit takes 1 to {FIT_ROWS:,} rows that are not cancelled and 1 to {FIT_FEATURES} features")


def move_refusals(data, version):
    """Those of a move that starts from this version: the reader's, with 11 for any other version."""
    yield from reader_refusals(data, False, (version,))


def fit_refusals(data):
    """Those of a fit's start that can be told without arithmetic; 6, a constant column, is left to the fit."""
    _, p, settings, rows = parsed(data)
    left = remaining(rows)

    def at(place):
        row = left[place][0]
        return f"row {row}" + (f" (place {place} in the matrix)" if row != place else "")

    for name, (low, high, words) in RANGES.items():
        value = getattr(settings, name)
        if not low <= value <= high:
            yield Refusal(3, 0, f"{name} is {value}; it must be {words}")
    for i, value in enumerate(value for _, row in left for value in row.features):
        if not math.isfinite(value):
            yield Refusal(5, i, f"feature {i % p} of {at(i // p)} is {value}")
    for i, (_, row) in enumerate(left):
        if not math.isfinite(row.score):
            yield Refusal(5, len(left) * p + i, f"the score of {at(i)} is {row.score}")


def first(refusals):
    return next(iter(refusals), None)


def claimfit_refusal(data):
    return first(itertools.chain(reader_refusals(data, True), fit_refusals(data)))


def said(refusal):
    """In claimfit's own words, then ours."""
    return f"refused {refusal.number} at {refusal.place}: {refusal.why}"


def family_of(data):
    """Of a sheet whose frame is sound; version 1 has none."""
    return int.from_bytes(data[5:9], "big") if data[0] == 2 else None


def parsed(data):
    """n, p, settings and rows of a sheet whose frame is sound."""
    start = BODY[data[0]]
    n, p, *settings = HEADER.unpack_from(data, start)
    form = struct.Struct(f">HH{p + 1}d")
    found = [form.unpack_from(data, start + HEADER.size + i * form.size) for i in range(n)]
    return n, p, Settings(*settings), [Row(source, target, numbers[:-1], numbers[-1]) for source, target, *numbers in found]


# Sheets: moves, of those without a refusal. The body is copied and never read as numbers, so that NaNs keep their bits.

def moved_up(data, family):
    body = data[BODY[1]:]
    return front(len(body), family) + body


def moved_down(data):
    """The sheet in version 1, and the family number that it had."""
    body = data[BODY[2]:]
    return front(len(body)) + body, family_of(data)
