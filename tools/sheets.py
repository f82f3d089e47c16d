"""A second reading of 02's #112: phrase sheets, the phrase of a code in two of them, and a listing with them. tools/capi asks the C functions by tools/sheets.c and holds
their answers to it. What texts a record has is tools/expected's reading; the code of a text is the decoder's own, asked of it once and held to the text that the standard
sheet has under it."""

BEFORE, BEHIND = 0xA5, 8
LONGEST, ROOM = 70000, 1053
EMPTY = bytes([0, 1, 1])  # a sheet without phrases
SHORT, VERSION, LONG, NOT_RISING, SHORT_BUFFER = 26, 27, 28, 29, 11
LISTED, MARKED, REFUSED = 0x56000001, 0x90010010, 0xFC000000  # of 01's marked cases, one with 19 records, one that is refused


def number(value, count):
    return value.to_bytes(count, "big")


def sheet_of(phrases):
    """The bytes of a sheet of codes and texts."""
    body = b"\x01" + b"".join(number(code, 2) + bytes([len(text)]) + text for code, text in phrases)
    return number(len(body), 2) + body


def read(sheet):
    """A sheet's refusal, 0 for none, and where the phrase of each code lies: offset and length."""
    length = int.from_bytes(sheet[:2], "big")
    if len(sheet) < 2 or length == 0 or len(sheet) < 2 + length:
        return SHORT, {}
    if sheet[2] != 1:
        return VERSION, {}
    places, last, at, rest = {}, -1, 3, sheet[3 : 2 + length]
    while rest:
        if len(rest) < 3:
            return SHORT, {}
        code, count = int.from_bytes(rest[:2], "big"), rest[2]
        if len(rest) - 3 < count:
            return LONG, {}
        if code <= last:
            return NOT_RISING, {}
        places[code], last = (at + 3, count), code
        at, rest = at + 3 + count, rest[3 + count :]
    return 0, places


def read_both(workshop, standard):
    """The refusal of two sheets, the workshop's first, and the places of each."""
    (first, ours), (second, theirs) = read(workshop), read(standard)
    return first or second, ours, theirs


def place_answer(workshop, standard, code):
    """What esr_phrase answers, in the form of tools/sheets.c."""
    refusal, ours, theirs = read_both(workshop, standard)
    sheet, place = (1, ours[code]) if code in ours else (2, theirs[code]) if code in theirs else (0, (0, 0))
    if refusal:
        sheet, place = 0, (0, 0)
    return f"{refusal} 0 0 0 {sheet} {place[0]} {place[1]} \n"


def listing(second, esr, codes, workshop, standard):
    """The listing of an accepted value with the texts of two sound sheets; codes are those of its records' texts, 0 where there is none."""
    _, ours, theirs = read_both(workshop, standard)
    lines = []
    for (depth, name, width, value, _), code in zip(second.records(esr), codes):
        indent = b"  " * depth
        lines.append(indent + second.record_line(name, width, value).encode())
        for sheet, places in ((workshop, ours), (standard, theirs)):
            if code and code in places:
                offset, count = places[code]
                lines.append(indent + b"# " + sheet[offset : offset + count])
                break
    return b"".join(line + b"\n" for line in lines)


def filled(refusal, carried, start, width, text, length):
    """An answer with a buffer of so many bytes, in the form of tools/sheets.c."""
    held = (text or b"").ljust(length + BEHIND, bytes([BEFORE]))
    total = 0
    for byte in held:
        total = (total * 31 + byte) % (1 << 64)
    return f"{refusal} {carried} {start} {width} {len(text or b'')} {total} "


def listing_answer(second, esr, codes, workshop, standard, length):
    """What esr_listing_with answers, in the form of tools/sheets.c."""
    why = second.refusal_of(esr)
    if why is not None:
        return filled(*why, None, length) + "\n"
    refusal = read_both(workshop, standard)[0]
    if refusal:
        return filled(refusal, 0, 0, 0, None, length) + "\n"
    text = listing(second, esr, codes, workshop, standard)
    if length < len(text):
        return filled(SHORT_BUFFER, len(text), 0, 0, None, length) + "\n"
    return filled(0, 0, 0, 0, text, length) + "\n"


# ---- `esr sheet`, and `esr --sheet FILE`


def phrases_of(sheet):
    """The codes and texts of a sound sheet."""
    return {code: sheet[offset : offset + count] for code, (offset, count) in read(sheet)[1].items()}


def lines_of(sheet):
    """A sound sheet in lines to translate."""
    return b"".join(b"%d %s\n" % phrase for phrase in phrases_of(sheet).items())


def made(second, given, standard):
    """The sheet that lines make, what is told, and the status, where the standard sheet is this."""
    phrases, least, known = [], 0, phrases_of(standard)
    for place, line in enumerate(second.lines_of(given), 1):
        refusal, code, taken = second.front_number(line)
        text, why = line[taken + 1 :], None
        if refusal:
            why = "it begins with no number"
        elif code not in known:
            why = "no text has this code"
        elif code < least:
            why = "its code is not above the one before it"
        elif len(text) > 255:
            why = "its text has more than 255 bytes"
        if why:
            return b"", f"refused: line {place}: {why}\n".encode(), 1
        phrases.append((code, text))
        least = code + 1
    return sheet_of(phrases), b"", 0


def line_inputs(standard):
    """Lines that make a sheet, and lines of which one is refused, by what they are."""
    known = phrases_of(standard)
    first, second, *_, last = sorted(known)
    return {
        "no line": b"",
        "every text": lines_of(standard),
        "no line feed at the end": b"%d a\n%d b" % (first, last),
        "a text with spaces about it": b"%d  a \n" % first,
        "an empty text": b"%d \n%d\n%d" % (first, second, last),
        "a code in hexadecimal, and a tab": b"0x%x\ta\n" % first,
        "a carriage return": b"%d a\r\n" % first,
        "bytes that are no text": b"%d \x00\xff\n" % first,
        "255 bytes": b"%d %s\n" % (first, b"x" * 255),
        "256 bytes": b"%d %s\n" % (first, b"x" * 256),
        "200,000 bytes": b"%d a\n%d %s\n" % (first, second, b"x" * 200000),
        "an empty line": b"%d a\n\n" % first,
        "no number": b"%d a\nx a\n" % first,
        "a number past 64 bits": b"18446744073709551616 a\n",
        "a code that is no text": b"%d a\n0 a\n" % first,
        "a code past all": b"%d a\n65536 a\n" % last,
        "a code twice": b"%d a\n%d b\n" % (first, first),
        "codes that fall": b"%d a\n%d b\n%d c\n" % (first, last, second),
        "the longest sheet": b"".join(b"%d %s\n" % (code, b"x" * 255) for code in sorted(known)),
    }


def codes_in(second, esr, workshop, standard):
    """A code for each record's text, 0 where there is none: the workshop's own before others that have the same text."""
    known, ours = phrases_of(standard), phrases_of(workshop)
    by_text = {text.decode(): code for code, text in sorted(known.items(), key=lambda phrase: phrase[0] in ours)}
    return [by_text[text] if text else 0 for *_, text in second.records(esr)]


def listed(second, esr, workshop, standard):
    """What `esr --sheet FILE VALUE` writes, and its status."""
    refusal = second.refusal_of(esr)
    if refusal is not None:
        return second.answered(esr).encode(), 1
    bad = read_both(workshop, standard)[0]
    if bad:
        return f"refused {bad}: {second.WORDS[bad]}\n".encode(), 1
    return listing(second, esr, codes_in(second, esr, workshop, standard), workshop, standard), 0


# ---- what is asked


def every_text(second):
    """Accepted values in which every field that has texts has each of them once, and two of 01's marked cases."""
    found = {LISTED, MARKED}
    for value in set(second.sound_values()):
        found.add(value)
        for part in (*second.TOP, *second.CLASSES[second.bits(value, 26, 32)][1](value)):
            for text in part.texts:
                turned = value & ~(((1 << part.high - part.low) - 1) << part.low) | text << part.low
                if second.accepts(turned):
                    found.add(turned)
    for op0, op1, crn, crm, op2 in second.REGISTERS:
        found.add(0x18 << 26 | 1 << 25 | op0 << 20 | op2 << 17 | op1 << 14 | crn << 10 | crm << 1)
    return sorted(found)


def first_requests(values):
    """The standard sheet, and the codes of the texts of these values."""
    return b"t" + number(LONGEST, 3) + b"".join(b"d" + number(value, 8) for value in values)


def first_read(second, values, said):
    """The standard sheet as the C function wrote it, and the codes of each value. What does not hold is told by a ValueError."""
    sheet_line, *code_lines = said
    *members, _ = [int(word) for word in sheet_line.split()[:6]]
    sheet = bytes(int(word) for word in sheet_line.split()[6:])
    if members != [0, 0, 0, 0, len(sheet)]:
        raise ValueError(f"esr_standard_sheet answers {members}")
    refusal, places = read(sheet)
    if refusal or 2 + int.from_bytes(sheet[:2], "big") != len(sheet):
        raise ValueError(f"the standard sheet is refused by {refusal}, or its length is not its own")
    codes = {value: [int(word) for word in line.split()] for value, line in zip(values, code_lines)}
    seen = set()
    for value in values:
        texts = [text for *_, text in second.records(value)]
        if len(texts) != len(codes[value]):
            raise ValueError(f"{value:#x} has {len(codes[value])} records")
        for text, code in zip(texts, codes[value]):
            if (text is None) != (code == 0):
                raise ValueError(f"{value:#x}: a record with the text {text} has the code {code}")
            if code:
                offset, count = places.get(code, (0, 0))
                if sheet[offset : offset + count].decode() != text:
                    raise ValueError(f"the standard sheet has under {code} not '{text}', a text of {value:#x}")
                seen.add(code)
    if seen != set(places):
        raise ValueError(f"the standard sheet has the codes {sorted(set(places) - seen)}, which no record has")
    return sheet, codes


class Asking:
    """Requests in the form of tools/sheets.c, and what must be said of each."""

    def __init__(self, second, codes):
        self.second, self.codes, self.given, self.wanted, self.sheets = second, codes, [], [], (b"", b"")

    def lend(self, workshop, standard):
        for letter, sheet, held in ((b"w", workshop, self.sheets[0]), (b"s", standard, self.sheets[1])):
            if sheet != held[: len(sheet)]:
                self.given.append(letter + number(len(sheet), 3) + sheet)
        keep = [new if new != held[: len(new)] else held for new, held in zip((workshop, standard), self.sheets)]
        self.sheets = keep[0], keep[1]
        return number(len(workshop), 3) + number(len(standard), 3)

    def phrase(self, workshop, standard, code):
        lengths = self.lend(workshop, standard)
        self.given.append(b"p" + number(code, 2) + lengths)
        self.wanted.append(place_answer(workshop, standard, code))

    def list(self, workshop, standard, esr, length=600):
        lengths = self.lend(workshop, standard)
        self.given.append(b"l" + number(esr, 8) + lengths + number(length, 2))
        self.wanted.append(listing_answer(self.second, esr, self.codes.get(esr), workshop, standard, length))

    def standard(self, sheet, length):
        self.given.append(b"t" + number(length, 3))
        fits = len(sheet) <= length
        said = filled(0, 0, 0, 0, sheet, length) if fits else filled(SHORT_BUFFER, len(sheet), 0, 0, None, length)
        self.wanted.append(said + "".join(f"{byte} " for byte in sheet if fits) + "\n")


def asked(second, sheet, codes):
    """Every prefix of the standard sheet; every one-byte change of a small sheet; sheets with bytes behind them; every value with the standard sheet on either side; buffers about
    the length needed; refused values beside refused sheets."""
    asking = Asking(second, codes)
    for length in (0, 1, len(sheet) - 1, len(sheet), len(sheet) + 1, LONGEST):
        asking.standard(sheet, length)
    used = next(code for code in codes[MARKED] if code)
    for length in range(len(sheet) + 1):
        asking.phrase(sheet[:length], sheet, used)
        asking.phrase(EMPTY, sheet[:length], used)
        asking.list(sheet[:length], EMPTY, LISTED)
    for value in codes:
        asking.list(sheet, EMPTY, value, ROOM)
        asking.list(EMPTY, sheet, value, ROOM)
        if asking.wanted[-1] != asking.wanted[-2] or asking.wanted[-1] != filled(0, 0, 0, 0, second.listing(value).encode(), ROOM) + "\n":
            raise ValueError(f"the second reading of the listing of {value:#x} with the standard sheet is not 01's")
    class_text, length_text = (code for code in codes[LISTED] if code)
    small = sheet_of(sorted([(class_text, b"un"), (length_text, b""), (0x0FFF, b"x\ny"), (0xFFFF, b"z")]))
    for at in range(len(small)):
        for byte in range(256):
            changed = small[:at] + bytes([byte]) + small[at + 1 :]
            asking.phrase(changed, sheet, class_text)
            asking.phrase(sheet, changed, length_text)
            asking.list(changed, EMPTY, LISTED)
            asking.list(EMPTY, changed, LISTED)
    for code in (0, 1, class_text, class_text + 1, length_text, 0x0FFE, 0x0FFF, 0x1000, 0xFFFE, 0xFFFF):
        for tail in (b"", b"\x00", b"\xff" * 7, small, sheet):
            asking.phrase(small + tail, EMPTY + tail, code)
            asking.phrase(EMPTY + tail, small + tail, code)
            asking.list(small + tail, sheet + tail, LISTED)
    feeds = sheet_of(sorted([(class_text, b"a\nb\n"), (length_text, b"\n" * 255)]))
    zero = sheet_of([(0, b"no text"), (class_text, b"x" * 255)])
    for workshop in (small, feeds, zero, EMPTY, b"", small[:-1]):
        for standard in (sheet, EMPTY, small, b"\x00", b"\x00\x01\x02"):
            for value in (LISTED, MARKED, REFUSED):
                needed = len(listing(second, value, codes[value], workshop, standard)) if value in codes else 0
                for length in sorted({0, max(needed - 1, 0), needed, needed + 1, 1500}):
                    asking.list(workshop, standard, value, length)
    return asking
