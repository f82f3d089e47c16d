"""02's #114 run: of every set of rows of every class the least and the greatest accepted value, and from each of them every leaf turned: every bit of it, and a
leaf of at most six bits to every other value. tools/capi asks the C functions by tools/records.c, and
`told` holds their answers to what 02 says of two accepted values that differ inside one leaf. What the leaves are, and which values are accepted, is tools/expected's
reading; which fields are named is written here from 02's words."""

# "Named are the class, bit 24 in data aborts, software step and SError, the status, FnV (for the text of FnP) and WnRV": the bits of each, by class.
CLASS, BIT_24, STATUS, FNV, WNRV = (26, 32), (24, 25), (0, 6), (10, 11), (7, 8)
NAMED = {
    0x20: {STATUS}, 0x21: {STATUS},
    0x24: {BIT_24, STATUS, FNV}, 0x25: {BIT_24, STATUS, FNV},
    0x2F: {BIT_24, STATUS, WNRV},
    0x32: {BIT_24}, 0x33: {BIT_24},
}  # fmt: skip
MSR, ISS = 0x18, (0, 25)
START, WIDTH, VALUE, TEXT = 3, 4, 5, 6  # columns of a record's line


def leaves(second, value):
    """The bits of each leaf of an accepted value, from low to high: those of the top records but ISS, and of ISS's own."""
    parts = (*second.TOP, *second.CLASSES[second.bits(value, 26, 32)][1](value))
    return [(part.low, part.high) for index, part in enumerate(parts) if index != len(second.TOP) - 1]


def turns(width):
    """What is turned of a leaf: each bit, and in one of at most six bits, as every named one is, the bits to each other value."""
    return range(1, 1 << width) if width <= 6 else (1 << bit for bit in range(width))


def turned(second):
    """For each value and each turn of a leaf: the value, the leaf, and the value with the leaf turned."""
    for value in sorted(set(second.sound_values())):
        for low, high in leaves(second, value):
            for turn in turns(high - low):
                yield value, (low, high), value ^ turn << low


def blocks(said):
    """What was said of each value: the columns of its records, or None of one that is refused."""
    found = {}
    for line in said.splitlines():
        if line.startswith("> "):
            records = found.setdefault(int(line[2:], 16), [])
        elif line.startswith("refused "):
            found[list(found)[-1]] = None
        else:
            records.append(line.split("|"))
    return found


def rows(records):
    """What a record has of its row."""
    return [record[:VALUE] + record[TEXT + 1 :] for record in records]


def standing(value, leaf, before, after):
    """What of 02's sentence does not hold of two accepted values that differ inside a leaf which no condition names."""
    if rows(before) != rows(after):
        return "the rows differ"
    for first, then in zip(before, after):
        bits = (int(first[START]), int(first[START]) + int(first[WIDTH]))
        if bits == leaf and first[0] == ("1" if leaf[1] <= ISS[1] else "0"):
            continue
        if bits == ISS and first[0] == "0" and leaf[1] <= ISS[1]:
            if first[TEXT] != then[TEXT] and value >> 26 & 0x3F != MSR:
                return "the text of ISS differs"
        elif first != then:
            return f"the record of {first[1]}, bits {bits[0]}..{bits[1]}, differs"
    return None


def told(second, said):
    """Holds what was said of all these values to 02; answers how many pairs were accepted and not named, accepted and named, named with other rows, and refused. What does not
    hold is told by a ValueError."""
    found, shown = blocks(said), set()
    stand = named = refused = 0
    for value, leaf, other in turned(second):
        before, after = found[value], found[other]
        if before is None or (after is None) == second.accepts(other):
            raise ValueError(f"{value:#x} or {other:#x} is accepted or refused otherwise than a second reading has it")
        each = value >> 26 & 0x3F
        if after is None:
            refused += 1
        elif leaf == CLASS or leaf in NAMED.get(each, ()):
            named += 1
            if rows(before) != rows(after) or leaf == FNV and before != after:
                shown.add((CLASS if leaf == CLASS else each, leaf))
        else:
            stand += 1
            why = standing(value, leaf, before, after)
            if why:
                raise ValueError(f"{value:#x} and {other:#x} differ inside {leaf[0]}..{leaf[1]}, which no condition names, and {why}")
    missing = {(each, leaf) for each, fields in NAMED.items() for leaf in fields} - shown
    if missing or (CLASS, CLASS) not in shown:
        raise ValueError(f"no turn of a named field shows other rows: {sorted(missing)}")
    return stand, named, refused
