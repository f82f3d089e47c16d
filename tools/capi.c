/* Holds include/esr.h against the archive: calls every function as C does, with arrays of every length about the needed one and a sentinel
   after, and looks at every member of every answer. The answers themselves are proved; what is not is that C and the archive mean the same
   by a struct and a parameter. It then measures how deep each function's stack goes. tools/capi builds and runs it. */
#include "esr.h"
#include "put.h"

#define SENTINEL 0xA5
#define ROOM (ESR_RECORDS_MAX + 13)
/* Much more than any text. */
#define BYTES (4 * ESR_LISTING_MAX)

static unsigned checks;
static unsigned failures;

static void holds(int fact, unsigned line) {
    checks++;
    if (!fact) {
        failures++;
        say("line ");
        say_number(line, 10);
        say(" of tools/capi.c does not hold\n");
    }
}
#define HOLDS(fact) holds((fact), __LINE__)

static void mark(uint8_t *bytes, size_t length) {
    for (size_t i = 0; i < length; i++) {
        *(volatile uint8_t *)(bytes + i) = SENTINEL;
    }
}

static int marked(const uint8_t *bytes, size_t from, size_t to) {
    for (size_t i = from; i < to; i++) {
        if (bytes[i] != SENTINEL) {
            return 0;
        }
    }
    return 1;
}

static int same(const uint8_t *a, const uint8_t *b, size_t length) {
    for (size_t i = 0; i < length; i++) {
        if (a[i] != b[i]) {
            return 0;
        }
    }
    return 1;
}

/* A refusal in numbers. */
typedef struct {
    uint64_t carried;
    uint8_t refusal;
    uint8_t start;
    uint8_t width;
} refused;

static int is_refused(esr_filled filled, refused by) {
    return filled.refusal == by.refusal && filled.carried == by.carried && filled.start == by.start && filled.width == by.width && filled.count == 0;
}

static int answers(esr_filled filled, uint8_t refusal, uint64_t carried, size_t count) {
    return filled.refusal == refusal && filled.carried == carried && filled.start == 0 && filled.width == 0 && filled.count == count;
}

static refused bare(uint8_t refusal, uint64_t carried) {
    return (refused){carried, refusal, 0, 0};
}

/* The values that 01 marks: the refusal with what it carries and names, or the count of records. */
static const struct {
    uint64_t esr;
    size_t count;
    refused by;
} values[] = {
    {0x0, 6, {0, 0, 0, 0}},           {0x56000001, 7, {0, 0, 0, 0}},    {0x2000000000, 0, {1, 1, 37, 27}}, {0xFC000000, 0, {0x3F, 2, 0, 0}},
    {0x20FC000000, 0, {1, 1, 37, 27}}, {0x54010000, 0, {1, 1, 16, 9}},   {0x90000810, 0, {1, 4, 0, 0}},     {0x90000804, 18, {0, 0, 0, 0}},
    {0x90010010, 19, {0, 0, 0, 0}},   {0xBC001000, 0, {4, 5, 0, 0}},    {0xBC001002, 0, {2, 3, 0, 0}},     {0xBDFFFFFF, 7, {0, 0, 0, 0}},
    {0xBC000051, 0, {1, 1, 6, 1}},    {0x1800000A, 0, {5, 6, 0, 0}},    {0x28000003, 0, {3, 7, 0, 0}},
};

static int gives(esr_filled filled, size_t index) {
    return values[index].by.refusal == ESR_ACCEPTED ? answers(filled, ESR_ACCEPTED, 0, values[index].count) : is_refused(filled, values[index].by);
}

static union {
    esr_record records[ROOM];
    uint8_t bytes[ROOM * sizeof(esr_record)];
} slots, whole;

static void check_lengths(size_t index) {
    uint64_t esr = values[index].esr;
    size_t count = values[index].count;
    refused by = values[index].by;
    mark(whole.bytes, sizeof whole.bytes);
    HOLDS(gives(esr_decode(esr, whole.records, ROOM), index));
    HOLDS(marked(whole.bytes, count * sizeof(esr_record), sizeof whole.bytes));
    for (size_t length = 0; length <= ROOM; length++) {
        mark(slots.bytes, sizeof slots.bytes);
        esr_filled filled = esr_decode(esr, slots.records, length);
        if (by.refusal == ESR_ACCEPTED && length < count) {
            HOLDS(answers(filled, ESR_SHORT_BUFFER, count, 0));
            HOLDS(marked(slots.bytes, 0, sizeof slots.bytes));
        } else {
            HOLDS(gives(filled, index));
            HOLDS(same(slots.bytes, whole.bytes, sizeof slots.bytes));
        }
    }
}

/* Strict reading, by values that the ordinary decoder accepts: what refuses them without nested virtualisation and with it, and the count of records. */
static const struct {
    uint64_t esr;
    size_t count;
    refused without, with;
} strictly[] = {
    {0x56000001, 7, {0, 0, 0, 0}, {0, 0, 0, 0}},     {0x90010010, 19, {0, 24, 0, 0}, {0, 24, 0, 0}},    {0x92002004, 18, {0, 25, 0, 0}, {0, 0, 0, 0}},
    {0x90000804, 18, {1, 1, 11, 2}, {1, 1, 11, 2}},  {0x90003004, 18, {0, 25, 0, 0}, {2, 1, 11, 2}},    {0x90013010, 19, {0, 24, 0, 0}, {0, 24, 0, 0}},
    {0x1800000C, 13, {6, 6, 0, 0}, {6, 6, 0, 0}},    {0x18000008, 13, {4, 6, 0, 0}, {4, 6, 0, 0}},      {0x18000006, 13, {0, 0, 0, 0}, {0, 0, 0, 0}},
    {0xBC010011, 18, {0, 24, 0, 0}, {0, 24, 0, 0}},  {0xD0002022, 13, {0, 25, 0, 0}, {0, 0, 0, 0}},     {0xBDFFFFFF, 7, {0, 0, 0, 0}, {0, 0, 0, 0}},
};

static void check_strict_lengths(uint64_t esr, size_t count, refused by, uint8_t nested) {
    mark(whole.bytes, sizeof whole.bytes);
    HOLDS(answers(esr_decode(esr, whole.records, ROOM), ESR_ACCEPTED, 0, count));
    for (size_t length = 0; length <= ROOM; length++) {
        mark(slots.bytes, sizeof slots.bytes);
        esr_filled filled = esr_decode_strict(esr, nested, slots.records, length);
        if (by.refusal != ESR_ACCEPTED) {
            HOLDS(is_refused(filled, by));
            HOLDS(marked(slots.bytes, 0, sizeof slots.bytes));
        } else if (length < count) {
            HOLDS(answers(filled, ESR_SHORT_BUFFER, count, 0));
            HOLDS(marked(slots.bytes, 0, sizeof slots.bytes));
        } else {
            HOLDS(answers(filled, ESR_ACCEPTED, 0, count));
            HOLDS(same(slots.bytes, whole.bytes, sizeof slots.bytes));
        }
    }
}

/* Any number but 0 says that the core has nested virtualisation. */
static void check_strict(void) {
    for (size_t i = 0; i < sizeof strictly / sizeof strictly[0]; i++) {
        check_strict_lengths(strictly[i].esr, strictly[i].count, strictly[i].without, 0);
        check_strict_lengths(strictly[i].esr, strictly[i].count, strictly[i].with, 1);
        check_strict_lengths(strictly[i].esr, strictly[i].count, strictly[i].with, 0x80);
        check_strict_lengths(strictly[i].esr, strictly[i].count, strictly[i].with, 0xFF);
    }
    for (size_t i = 0; i < sizeof values / sizeof values[0]; i++) {
        if (values[i].by.refusal != ESR_ACCEPTED) {
            HOLDS(gives(esr_decode_strict(values[i].esr, 0, slots.records, ROOM), i));
            HOLDS(gives(esr_decode_strict(values[i].esr, 1, slots.records, ROOM), i));
        }
    }
}

/* The functions that write a text, as one form: those that take one number leave the other. */
typedef esr_filled (*writer)(uint64_t, uint64_t, uint8_t *, size_t);

static esr_filled write_text(uint64_t code, uint64_t none, uint8_t *buffer, size_t length) {
    (void)none;
    return esr_text((uint16_t)code, buffer, length);
}

static esr_filled write_listing(uint64_t esr, uint64_t none, uint8_t *buffer, size_t length) {
    (void)none;
    return esr_listing(esr, buffer, length);
}

static esr_filled write_record_line(uint64_t esr, uint64_t index, uint8_t *buffer, size_t length) {
    return esr_record_line(esr, (size_t)index, buffer, length);
}

/* The bits that a message is asked for. */
static uint64_t message_start, message_width;

static esr_filled write_message(uint64_t number, uint64_t carried, uint8_t *buffer, size_t length) {
    return esr_message(number, carried, message_start, message_width, buffer, length);
}

static uint8_t text[BYTES];
static uint8_t kept[BYTES];

static int says(writer write, uint64_t a, uint64_t b, const char *words) {
    size_t length = length_of(words);
    return answers(write(a, b, text, BYTES), ESR_ACCEPTED, 0, length) && same(text, (const uint8_t *)words, length);
}

static int refuses_text(writer write, uint64_t a, uint64_t b, refused by) {
    int fact = 1;
    for (size_t length = 0; length <= BYTES; length += BYTES / 8) {
        mark(text, BYTES);
        fact = fact && is_refused(write(a, b, text, length), by) && marked(text, 0, BYTES);
    }
    return fact;
}

/* A text in buffers of no bytes, one short, exact, one more and `room`, which is much more; gives the bytes that it needs. */
static size_t check_room(writer write, uint64_t a, uint64_t b, size_t room) {
    mark(text, room);
    esr_filled filled = write(a, b, text, 0);
    size_t needed = filled.refusal == ESR_ACCEPTED ? 0 : (size_t)filled.carried;
    HOLDS(needed < room);
    HOLDS(answers(filled, needed == 0 ? ESR_ACCEPTED : ESR_SHORT_BUFFER, needed, 0));
    HOLDS(marked(text, 0, room));
    if (needed != 0) {
        HOLDS(answers(write(a, b, text, needed - 1), ESR_SHORT_BUFFER, needed, 0));
        HOLDS(marked(text, 0, room));
    }
    mark(kept, room);
    HOLDS(answers(write(a, b, kept, room), ESR_ACCEPTED, 0, needed));
    HOLDS(marked(kept, needed, room));
    HOLDS(answers(write(a, b, text, needed), ESR_ACCEPTED, 0, needed));
    HOLDS(same(text, kept, room));
    mark(text, room);
    HOLDS(answers(write(a, b, text, needed + 1), ESR_ACCEPTED, 0, needed));
    HOLDS(same(text, kept, room));
    return needed;
}

static int named(uint16_t code, const char *words) {
    return says(write_text, code, 0, words);
}

static int is(size_t slot, const char *name, const char *long_name, const char *words, unsigned start, unsigned width, uint64_t value, uint8_t mark) {
    const esr_record *record = &slots.records[slot];
    return record->start == start && record->width == width && record->value == value && record->mark == mark && named(record->name, name) &&
           named(record->long_name, long_name) && named(record->text, words);
}

/* Every member of a record, by the value that 01 lists in full, by one with distinct numbers in most fields, and by an abort with all four marks. */
static void check_members(void) {
    HOLDS(esr_decode(0x56000001, slots.records, ROOM).count == 7);
    HOLDS(is(0, "RES0", "Reserved", "", 37, 27, 0, ESR_MARK_CHECKED));
    HOLDS(is(1, "ISS2", "", "", 32, 5, 0, ESR_MARK_FREE));
    HOLDS(is(2, "EC", "Exception Class", "SVC instruction execution in AArch64 state", 26, 6, 0x15, ESR_MARK_CODED));
    HOLDS(is(3, "IL", "Instruction Length", "32-bit instruction trapped", 25, 1, 1, ESR_MARK_FREE));
    HOLDS(is(4, "ISS", "Instruction Specific Syndrome", "", 0, 25, 1, ESR_MARK_FREE));
    HOLDS(is(5, "RES0", "Reserved", "", 16, 9, 0, ESR_MARK_CHECKED));
    HOLDS(is(6, "imm16", "Value of the immediate field", "", 0, 16, 1, ESR_MARK_FREE));
    HOLDS(esr_decode(0x1F56ABCDEF, slots.records, ROOM).refusal == ESR_INVALID_RES0);
    HOLDS(esr_decode(0x1F5600CDEF, slots.records, ROOM).count == 7);
    HOLDS(is(1, "ISS2", "", "", 32, 5, 0x1F, ESR_MARK_FREE));
    HOLDS(is(6, "imm16", "Value of the immediate field", "", 0, 16, 0xCDEF, ESR_MARK_FREE));
    HOLDS(esr_decode(0x90001804, slots.records, ROOM).count == 18);
    HOLDS(is(11, "RES0", "Reserved", "", 11, 2, 3, ESR_MARK_UNCHECKED));
}

static void check_texts(void) {
    for (unsigned code = 0; code <= 0xFFFF; code++) {
        HOLDS(check_room(write_text, code, 0, ESR_TEXT_MAX + 45) <= ESR_TEXT_MAX);
    }
}

static void check_value_strings(void) {
    HOLDS(says(esr_value_string, 1, 0, "false"));
    HOLDS(says(esr_value_string, 1, 1, "true"));
    HOLDS(says(esr_value_string, 2, 3, "0x3"));
    HOLDS(says(esr_value_string, 5, 0xA, "0x0a"));
    HOLDS(says(esr_value_string, 64, 0x0123456789ABCDEF, "0x0123456789abcdef"));
    HOLDS(says(esr_value_binary_string, 1, 0, "0b0"));
    HOLDS(says(esr_value_binary_string, 1, 1, "0b1"));
    HOLDS(says(esr_value_binary_string, 5, 0xA, "0b01010"));
    static const writer both[] = {esr_value_string, esr_value_binary_string};
    for (size_t i = 0; i < 2; i++) {
        HOLDS(refuses_text(both[i], 0, 0, bare(ESR_BAD_FIELD, 0)));
        HOLDS(refuses_text(both[i], 65, 0, bare(ESR_BAD_FIELD, 0)));
        HOLDS(refuses_text(both[i], 0x100000001, 1, bare(ESR_BAD_FIELD, 0)));
        for (uint64_t width = 1; width <= 64; width++) {
            check_room(both[i], width, 0, BYTES);
            check_room(both[i], width, 0xFFFFFFFFFFFFFFFF >> (64 - width), BYTES);
            if (width < 64) {
                HOLDS(refuses_text(both[i], width, (uint64_t)1 << width, bare(ESR_BAD_FIELD, 0)));
            }
        }
    }
}

static int names(uint64_t carried, uint64_t start, uint64_t width, const char *words) {
    message_start = start;
    message_width = width;
    return words ? says(write_message, 1, carried, words) : refuses_text(write_message, 1, carried, bare(ESR_BAD_FIELD, 0));
}

static void check_messages(void) {
    HOLDS(names(1, 16, 9, "Invalid ESR, res0 is 0x1, bits 16..25"));
    HOLDS(names(0x7FFFFFF, 37, 27, "Invalid ESR, res0 is 0x7ffffff, bits 37..64"));
    HOLDS(names(1, 6, 1, "Invalid ESR, res0 is 0x1, bits 6..7"));
    HOLDS(names(0xFFFFFFFFFFFFFFFF, 0, 64, "Invalid ESR, res0 is 0xffffffffffffffff, bits 0..64"));
    HOLDS(names(0, 0, 0, 0) && names(0, 0, 65, 0) && names(0, 1, 64, 0) && names(2, 6, 1, 0));
    HOLDS(names(0, 64, 1, 0) && names(0, 0xFFFFFFFFFFFFFFFF, 1, 0) && names(0, 0x100, 8, 0) && names(0, 8, 0x108, 0));
    /* 2 to 7 do not look at them, and 1 takes the largest field */
    for (message_start = 0; message_start < 2; message_start++) {
        message_width = message_start ? 0xFFFFFFFFFFFFFFFF : 64;
        HOLDS(says(write_message, 2, 0x3F, "Invalid EC 0x3f"));
        HOLDS(says(write_message, 3, 2, "Invalid DFSC or IFSC 0x2"));
        HOLDS(says(write_message, 4, 1, "Invalid SET 0x1"));
        HOLDS(says(write_message, 5, 4, "Invalid AET 0x4"));
        HOLDS(says(write_message, 6, 0, "Invalid AM 0x0"));
        HOLDS(says(write_message, 7, 0xFFFFFFFFFFFFFFFF, "Invalid ISS 0xffffffffffffffff for trapped LD64B or ST64B*"));
        for (uint64_t number = 1 + message_start; number <= 7; number++) {
            check_room(write_message, number, 0, BYTES);
            check_room(write_message, number, 0x0123456789ABCDEF, BYTES);
        }
        HOLDS(refuses_text(write_message, 0, 0, bare(ESR_BAD_FIELD, 0)));
        HOLDS(refuses_text(write_message, 8, 0, bare(ESR_BAD_FIELD, 0)));
        HOLDS(refuses_text(write_message, 0x100000001, 1, bare(ESR_BAD_FIELD, 0)));
    }
    message_start = 0;
    message_width = 64;
}

/* The value that 01 lists in full, a line to a record and its text's line after it. */
static const struct {
    const char *line;
    const char *rest;
} listed[] = {
    {"RES0: 0x0000000 0b000000000000000000000000000", "\n"},
    {"ISS2: 0x00 0b00000", "\n"},
    {"EC: 0x15 0b010101", "\n# SVC instruction execution in AArch64 state\n"},
    {"IL: true", "\n# 32-bit instruction trapped\n"},
    {"ISS: 0x0000001 0b0000000000000000000000001", "\n  "},
    {"RES0: 0x000 0b000000000", "\n  "},
    {"imm16: 0x0001 0b0000000000000001", "\n"},
};

static void check_listed(void) {
    size_t records = sizeof listed / sizeof listed[0];
    size_t at = 0;
    esr_filled filled = esr_listing(0x56000001, kept, BYTES);
    HOLDS(filled.refusal == ESR_ACCEPTED);
    for (size_t i = 0; i < records; i++) {
        const char *parts[] = {listed[i].line, listed[i].rest};
        HOLDS(says(write_record_line, 0x56000001, i, listed[i].line));
        for (size_t part = 0; part < 2; part++) {
            size_t length = length_of(parts[part]);
            HOLDS(same(kept + at, (const uint8_t *)parts[part], length));
            at += length;
        }
    }
    HOLDS(filled.count == at);
    /* the longest listing that is known */
    HOLDS(answers(esr_listing(0xBC048411, text, 0), ESR_SHORT_BUFFER, 950, 0));
}

static void check_listings(size_t index) {
    uint64_t esr = values[index].esr;
    size_t count = values[index].count;
    refused by = values[index].by;
    if (by.refusal != ESR_ACCEPTED) {
        HOLDS(refuses_text(write_listing, esr, 0, by));
        HOLDS(refuses_text(write_record_line, esr, 0, by));
        HOLDS(refuses_text(write_record_line, esr, ESR_RECORDS_MAX, by));
        return;
    }
    HOLDS(check_room(write_listing, esr, 0, BYTES) <= ESR_LISTING_MAX);
    for (size_t i = 0; i < count; i++) {
        check_room(write_record_line, esr, i, BYTES);
    }
    HOLDS(refuses_text(write_record_line, esr, count, bare(ESR_BAD_INDEX, count)));
    HOLDS(refuses_text(write_record_line, esr, 0x100000000, bare(ESR_BAD_INDEX, count)));
}

static int reads(const char *words, uint8_t refusal, uint64_t value) {
    esr_number number = esr_parse_number((const uint8_t *)words, length_of(words));
    return number.refusal == refusal && number.carried == 0 && number.start == 0 && number.width == 0 && number.value == value;
}

static int takes(const char *words, uint8_t refusal, uint64_t value, size_t taken) {
    esr_number_read number = esr_read_number((const uint8_t *)words, length_of(words));
    return number.refusal == refusal && number.carried == 0 && number.start == 0 && number.width == 0 && number.value == value && number.taken == taken;
}

static void check_numbers(void) {
    HOLDS(reads("0x+f", ESR_ACCEPTED, 15));
    HOLDS(reads("18446744073709551615", ESR_ACCEPTED, 0xFFFFFFFFFFFFFFFF));
    HOLDS(reads("0x0123456789abCDEF", ESR_ACCEPTED, 0x0123456789ABCDEF));
    HOLDS(reads("", ESR_EMPTY, 0));
    HOLDS(reads("0x", ESR_EMPTY, 0));
    HOLDS(reads("0X1f", ESR_INVALID_DIGIT, 0));
    HOLDS(reads("+", ESR_INVALID_DIGIT, 0));
    HOLDS(reads("18446744073709551616x", ESR_POS_OVERFLOW, 0));
    HOLDS(reads("12 \t\r\n", ESR_ACCEPTED, 12));
    HOLDS(reads(" 12", ESR_EMPTY, 0));
    HOLDS(reads("0x 12", ESR_EMPTY, 0));
    HOLDS(reads("12x 3", ESR_INVALID_DIGIT, 0));
    HOLDS(reads("12 3", ESR_BAD_REST, 0));
    HOLDS(takes("0x+f rest", ESR_ACCEPTED, 15, 4));
    HOLDS(takes("12\n", ESR_ACCEPTED, 12, 2));
    HOLDS(takes("12", ESR_ACCEPTED, 12, 2));
    HOLDS(takes("\t12", ESR_EMPTY, 0, 0));
    HOLDS(takes("0x\r", ESR_EMPTY, 0, 0));
    HOLDS(takes("+ 1", ESR_INVALID_DIGIT, 0, 0));
    HOLDS(takes("12\v", ESR_INVALID_DIGIT, 0, 0));
    HOLDS(takes("18446744073709551616 ", ESR_POS_OVERFLOW, 0, 0));
}

static uint8_t block[] = {0x00, 0x0B, 0x01, 0x12, 0x34, 0x01, 0x23, 0x45, 0x67, 0x89, 0xAB, 0xCD, 0xEF, 0x55};

static int refuses(size_t length, uint8_t refusal) {
    esr_entry entry = esr_read_entry(block, length);
    return entry.refusal == refusal && entry.carried == 0 && entry.start == 0 && entry.width == 0 && entry.esr == 0 && entry.sequence == 0 && entry.body == 0 &&
           entry.body_length == 0;
}

static int refuses_with(size_t slot, uint8_t byte, uint8_t refusal) {
    uint8_t was = block[slot];
    block[slot] = byte;
    int fact = refuses(sizeof block, refusal);
    block[slot] = was;
    return fact;
}

/* Three entries, and a place that is erased: after 65,535 comes 0, which then stands twice; the second value is torn. */
static const uint8_t walked_block[] = {
    0x00, 0x0B, 0x01, 0xFF, 0xFF, 0x00, 0x00, 0x00, 0x00, 0x56, 0x00, 0x00, 0x01, 0x00, 0x0B, 0x01, 0x00, 0x00, 0xFF, 0xFF, 0xFF,
    0xFF, 0x56, 0x00, 0x00, 0x01, 0x00, 0x0B, 0x01, 0x00, 0x00, 0x00, 0x00, 0x00, 0x00, 0x00, 0x00, 0x00, 0x00, 0xFF, 0xFF,
};

static void check_entries(void) {
    for (size_t length = 13; length <= sizeof block; length++) {
        esr_entry entry = esr_read_entry(block, length);
        HOLDS(entry.refusal == ESR_ACCEPTED && entry.carried == 0 && entry.start == 0 && entry.width == 0);
        HOLDS(entry.esr == 0x0123456789ABCDEF && entry.sequence == 0x1234);
        HOLDS(entry.body == 2 && entry.body_length == 11);
    }
    for (size_t length = 0; length < 13; length++) {
        HOLDS(refuses(length, ESR_SHORT_ENTRY));
    }
    HOLDS(refuses_with(1, 0, ESR_BAD_LENGTH));
    HOLDS(refuses_with(1, 12, ESR_BAD_LENGTH));
    HOLDS(refuses_with(1, 13, ESR_SHORT_ENTRY));
    HOLDS(refuses_with(0, 0xFF, ESR_SHORT_ENTRY));
    HOLDS(refuses_with(2, 2, ESR_BAD_VERSION));
}

/* A walk over the entry, an erased place behind it or not, into a run of so many places. */
static uint16_t steps[4];

static esr_walked walk(size_t length, size_t places) {
    mark((uint8_t *)steps, sizeof steps);
    return esr_walk(walked_block, length, steps, places);
}

static void check_walks(void) {
    for (size_t places = 0; places <= 3; places++) {
        esr_walked answer = walk(sizeof walked_block, places);
        HOLDS(answer.refusal == (places < 2 ? ESR_SHORT_BUFFER : ESR_ACCEPTED) && answer.carried == (places < 2 ? 2 : 0));
        HOLDS(answer.start == 0 && answer.width == 0 && answer.ended == 0);
        HOLDS(answer.entries == (places < 2 ? 0 : 3) && answer.decoded == (places < 2 ? 0 : 2) && answer.offset == (places < 2 ? 0 : 39));
        HOLDS(places < 2 || (steps[0] == 0 && steps[1] == 65535));
        HOLDS(marked((const uint8_t *)steps, places < 2 ? 0 : 4, sizeof steps));
    }
    esr_walked cut = walk(38, 3);
    HOLDS(cut.refusal == ESR_ACCEPTED && cut.entries == 2 && cut.decoded == 1 && cut.offset == 26 && cut.ended == ESR_SHORT_ENTRY);
    HOLDS(steps[0] == 0 && marked((const uint8_t *)steps, 2, sizeof steps));
}

#define CLASSES 64
#define MARKED (sizeof values / sizeof values[0])
/* More places than a table may have, and one that no call is told of. */
static uint32_t counts[CLASSES + 2];
/* The ISS of every marked value in every class, then the marked values themselves. */
static uint64_t run[(CLASSES + 1) * MARKED];

static void fill_run(void) {
    for (size_t i = 0; i < MARKED; i++) {
        for (size_t class = 0; class < CLASSES; class++) {
            run[i * CLASSES + class] = (uint64_t)class << 26 | (values[i].esr & 0x1FFFFFF);
        }
        run[MARKED * CLASSES + i] = values[i].esr;
    }
}

static int surveys(esr_surveyed answer, uint8_t refusal, const uint32_t *refused_by) {
    int fact = answer.refusal == refusal && answer.carried == 0 && answer.start == 0 && answer.width == 0;
    for (size_t i = 0; i < 7; i++) {
        fact = fact && answer.refused[i] == (refused_by == NULL ? 0 : refused_by[i]);
    }
    return fact;
}

static void mark_counts(void) {
    for (size_t i = 0; i < sizeof counts / sizeof counts[0]; i++) {
        counts[i] = 0xA5A5A5A5;
    }
}

/* Whether the counts from a place on are as `mark_counts` left them. */
static int counts_marked(size_t from) {
    return marked((const uint8_t *)counts, from * sizeof counts[0], sizeof counts);
}

/* What the survey of a run must answer, by esr_decode. */
static void check_survey(size_t length) {
    uint32_t by_class[CLASSES] = {0};
    uint32_t by_refusal[7] = {0};
    for (size_t i = 0; i < length; i++) {
        uint8_t refusal = esr_decode(run[i], slots.records, ROOM).refusal;
        if (refusal == ESR_ACCEPTED) {
            by_class[run[i] >> 26 & 0x3F]++;
        } else {
            by_refusal[refusal - 1]++;
        }
    }
    mark_counts();
    HOLDS(surveys(esr_survey(run, length, counts, CLASSES), ESR_ACCEPTED, by_refusal));
    HOLDS(same((const uint8_t *)counts, (const uint8_t *)by_class, sizeof by_class));
    HOLDS(counts_marked(CLASSES));
}

static void check_surveys(void) {
    size_t length = sizeof run / sizeof run[0];
    fill_run();
    for (size_t part = 0; part <= length; part += 1 + part / 4) {
        check_survey(part);
    }
    check_survey(length);
    /* 18 comes before 19, and no value is read where there are too many: the run that is lent here has not so many. */
    static const size_t too_many = (size_t)1 << 32;
    mark_counts();
    for (size_t places = 0; places <= CLASSES + 1; places++) {
        if (places != CLASSES) {
            HOLDS(surveys(esr_survey(run, length, counts, places), ESR_BAD_TABLE, NULL));
            HOLDS(surveys(esr_survey(run, too_many, counts, places), ESR_BAD_TABLE, NULL));
        }
    }
    HOLDS(surveys(esr_survey(run, too_many, counts, CLASSES), ESR_LONG_RUN, NULL));
    HOLDS(surveys(esr_survey(run, ~(size_t)0 / sizeof run[0], counts, CLASSES), ESR_LONG_RUN, NULL));
    HOLDS(counts_marked(0));
}

static uint64_t leaves[ESR_RECORDS_MAX];

/* The leaves of a value's ISS: its own records, or ISS where there are none; answers how many. */
static size_t take_apart(uint64_t esr) {
    size_t count = esr_decode(esr, slots.records, ROOM).count;
    size_t from = count == 5 ? 4 : 5;
    for (size_t i = from; i < count; i++) {
        leaves[i - from] = slots.records[i].value;
    }
    return count - from;
}

static int makes(esr_number made, uint64_t value, refused by) {
    return made.value == value && made.refusal == by.refusal && made.carried == by.carried && made.start == by.start && made.width == by.width;
}

static void check_made_again(uint64_t esr) {
    static const refused none = {0, 0, 0, 0};
    if (esr_decode(esr, slots.records, ROOM).refusal == ESR_ACCEPTED) {
        size_t count = take_apart(esr);
        uint64_t held[ESR_RECORDS_MAX];
        for (size_t i = 0; i < ESR_RECORDS_MAX; i++) {
            held[i] = leaves[i];
        }
        HOLDS(makes(esr_make(esr >> 26 & 0x3F, esr >> 25 & 1, esr >> 32, leaves, count), esr, none));
        HOLDS(same((const uint8_t *)held, (const uint8_t *)leaves, sizeof held));
    }
}

static void check_makes(void) {
    for (size_t i = 0; i < sizeof run / sizeof run[0]; i++) {
        check_made_again(run[i]);
    }
    for (size_t i = 0; i < MARKED; i++) {
        check_made_again(values[i].esr);
    }
    /* Each member of a refusal, in the order of the refusals: where several hold, the first answers. */
    static const uint64_t two[] = {1, 0x12345}, three[] = {0, 0, 0};
    static const refused no_layout = {0, ESR_NO_LAYOUT, 0, 0}, wide = {0, ESR_WIDE_LEAF, 0, 0}, reserved = {1, ESR_INVALID_RES0, 16, 9};
    HOLDS(makes(esr_make(0x3F, 2, 32, three, 3), 0, (refused){0x3F, ESR_INVALID_EC, 0, 0}));
    HOLDS(makes(esr_make(~(uint64_t)0, 2, 32, three, 0), 0, (refused){~(uint64_t)0, ESR_INVALID_EC, 0, 0}));
    HOLDS(makes(esr_make(0x15, 2, 32, three, 3), 0, no_layout));
    HOLDS(makes(esr_make(0x15, 1, 0, two, 2), 0, wide));
    HOLDS(makes(esr_make(0x15, 2, 0, three, 2), 0, wide));
    HOLDS(makes(esr_make(0x15, 1, 32, three, 2), 0, wide));
    HOLDS(makes(esr_make(0x15, 1, 31, (const uint64_t[]){1, 0x1234}, 2), 0, reserved));
    /* No leaf is read where no layout has so many: the list that is lent here has not so many. */
    HOLDS(makes(esr_make(0x15, 1, 0, three, ~(size_t)0 / sizeof three[0]), 0, no_layout));
}

/* The standard sheet, and more than it needs. */
static uint8_t own_sheet[16 * 1024];
static size_t own_length;

/* The standard sheet in arrays of every length about the needed one; each code in it, whose text is that of esr_text; the listing of each marked value with it, which is its own. */
static void check_sheets(void) {
    static uint8_t listed[BYTES];
    own_length = (size_t)esr_standard_sheet(own_sheet, 0).carried;
    HOLDS(0 < own_length && own_length < sizeof own_sheet);
    for (size_t length = own_length - 1; length <= own_length + 1; length++) {
        mark(own_sheet, sizeof own_sheet);
        esr_filled filled = esr_standard_sheet(own_sheet, length);
        HOLDS(length < own_length ? answers(filled, ESR_SHORT_BUFFER, own_length, 0) : answers(filled, ESR_ACCEPTED, 0, own_length));
        HOLDS(marked(own_sheet, length < own_length ? 0 : own_length, sizeof own_sheet));
    }
    for (uint32_t code = 0; code <= 0xFFFF; code++) {
        esr_phrase_place first = esr_phrase(own_sheet, own_length, own_sheet, own_length + 1, (uint16_t)code);
        esr_phrase_place second = esr_phrase((const uint8_t *)"\0\1\1", 3, own_sheet, own_length, (uint16_t)code);
        HOLDS(first.refusal == ESR_ACCEPTED && first.carried == 0 && first.start == 0 && first.width == 0);
        HOLDS(first.sheet == (second.sheet == ESR_STANDARD_SHEET ? ESR_WORKSHOP_SHEET : ESR_NEITHER_SHEET));
        HOLDS(first.offset == second.offset && first.length == second.length);
        if (first.sheet != ESR_NEITHER_SHEET) {
            HOLDS(answers(esr_text((uint16_t)code, text, BYTES), ESR_ACCEPTED, 0, first.length) && same(text, own_sheet + first.offset, first.length));
        }
    }
    for (size_t i = 0; i < MARKED; i++) {
        for (size_t sides = 0; sides < 2; sides++) {
            size_t first = sides == 0 ? own_length : 3, second = sides == 0 ? 3 : own_length;
            const uint8_t *none = (const uint8_t *)"\0\1\1";
            mark(text, BYTES);
            mark(listed, BYTES);
            esr_filled with = esr_listing_with(values[i].esr, sides == 0 ? own_sheet : none, first, sides == 0 ? none : own_sheet, second, listed, BYTES);
            esr_filled own = esr_listing(values[i].esr, text, BYTES);
            HOLDS(with.refusal == own.refusal && with.carried == own.carried && with.start == own.start && with.width == own.width && with.count == own.count);
            HOLDS(same(text, listed, BYTES));
        }
    }
}

/* The stack below a call is painted, and what is no longer paint afterwards was used; the frame of the small function that makes the call
   counts too. This file is compiled without a red zone, so that nothing of its own lies there. */
#define PAINTED 65536

static void *volatile sink;
static uint64_t asked;
static uint64_t beside;
static writer writing;

static void call_decode(void) {
    static esr_filled filled;
    filled = esr_decode(asked, slots.records, ROOM);
    sink = &filled;
}

static void call_decode_strict(void) {
    static esr_filled filled;
    filled = esr_decode_strict(asked, (uint8_t)beside, slots.records, ROOM);
    sink = &filled;
}

static void call_writer(void) {
    static esr_filled filled;
    filled = writing(asked, beside, text, BYTES);
    sink = &filled;
}

static void call_parse_number(void) {
    static esr_number number;
    number = esr_parse_number((const uint8_t *)"0x0123456789abcdef", (size_t)asked % 19);
    sink = &number;
}

static void call_read_number(void) {
    static esr_number_read number;
    number = esr_read_number((const uint8_t *)"0x0123456789abcdef", (size_t)asked % 19);
    sink = &number;
}

/* Every class, with as many leaves as any layout has, and fewer. */
static void call_make(void) {
    static const uint64_t zeros[15];
    static esr_number made;
    made = esr_make(asked % CLASSES, 0, 0, zeros, (size_t)asked / CLASSES);
    sink = &made;
}

static void call_survey(void) {
    static esr_surveyed surveyed;
    surveyed = esr_survey(run, (size_t)asked, counts, CLASSES);
    sink = &surveyed;
}

static void call_read_entry(void) {
    static esr_entry entry;
    entry = esr_read_entry(block, (size_t)asked % (sizeof block + 1));
    sink = &entry;
}

static void call_walk(void) {
    static esr_walked walked;
    walked = walk((size_t)asked % (sizeof walked_block + 1), 3);
    sink = &walked;
}

static void call_phrase(void) {
    static esr_phrase_place place;
    place = esr_phrase(own_sheet, own_length, own_sheet, own_length, (uint16_t)asked);
    sink = &place;
}

static void call_listing_with(void) {
    static esr_filled filled;
    filled = esr_listing_with(asked, own_sheet, own_length, own_sheet, own_length, text, BYTES);
    sink = &filled;
}

static void call_standard_sheet(void) {
    static esr_filled filled;
    filled = esr_standard_sheet(own_sheet, asked % 2 == 0 ? sizeof own_sheet : 0);
    sink = &filled;
}

__attribute__((noinline)) static size_t stack_of(void (*call)(void)) {
    volatile uint8_t *top;
#if defined(__aarch64__)
    __asm__ volatile("mov %0, sp" : "=r"(top));
#else
    __asm__ volatile("mov %%rsp, %0" : "=r"(top));
#endif
    for (size_t i = 1; i <= PAINTED; i++) {
        top[-(ptrdiff_t)i] = SENTINEL;
    }
    call();
    size_t deepest = PAINTED;
    while (0 < deepest && top[-(ptrdiff_t)deepest] == SENTINEL) {
        deepest--;
    }
    return deepest;
}

static void measure(const char *name, void (*call)(void), uint64_t (*value)(size_t), size_t count) {
    size_t deepest = 0;
    for (size_t i = 0; i < count; i++) {
        asked = value(i);
        beside = i % ESR_RECORDS_MAX;
        size_t used = stack_of(call);
        deepest = deepest < used ? used : deepest;
    }
    say("stack ");
    say(name);
    say(" ");
    say_number(deepest, 10);
    say("\n");
}

static void measure_writer(const char *name, writer write, uint64_t (*value)(size_t), size_t count) {
    writing = write;
    measure(name, call_writer, value, count);
}

/* Every class, with ISS at 0 and at some of the marked values' bits. */
static uint64_t syndrome(size_t i) {
    return (uint64_t)(i % 64) << 26 | (values[i / 64].esr & 0x1FFFFFF);
}

static uint64_t counted(size_t i) {
    return i;
}

int main(void) {
    for (size_t i = 0; i < MARKED; i++) {
        check_lengths(i);
        check_listings(i);
    }
    check_strict();
    check_members();
    check_listed();
    check_texts();
    check_value_strings();
    check_messages();
    check_numbers();
    check_entries();
    check_walks();
    check_surveys();
    check_makes();
    check_sheets();
    if (failures != 0) {
        return 1;
    }
    say("checks ");
    say_number(checks, 10);
    say("\n");
    measure("esr_decode", call_decode, syndrome, CLASSES * MARKED);
    measure("esr_decode_strict", call_decode_strict, syndrome, CLASSES * MARKED);
    measure_writer("esr_text", write_text, counted, 1024);
    measure_writer("esr_listing", write_listing, syndrome, CLASSES * MARKED);
    measure_writer("esr_record_line", write_record_line, syndrome, CLASSES * MARKED);
    measure_writer("esr_value_string", esr_value_string, counted, 66);
    measure_writer("esr_value_binary_string", esr_value_binary_string, counted, 66);
    measure_writer("esr_message", write_message, counted, 9);
    measure("esr_parse_number", call_parse_number, counted, 19);
    measure("esr_read_number", call_read_number, counted, 19);
    measure("esr_read_entry", call_read_entry, counted, sizeof block + 1);
    measure("esr_walk", call_walk, counted, sizeof walked_block + 1);
    measure("esr_survey", call_survey, counted, CLASSES);
    measure("esr_make", call_make, counted, CLASSES * 15);
    measure("esr_phrase", call_phrase, counted, 1024);
    measure("esr_listing_with", call_listing_with, syndrome, CLASSES * MARKED);
    measure("esr_standard_sheet", call_standard_sheet, counted, 2);
    return 0;
}
