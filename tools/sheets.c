/* Asks the functions of phrase sheets what standard input asks for, and prints every member of each answer and what the caller's buffer then holds: tools/capi holds
   it to a second reading of 02 (tools/sheets.py). A request begins with a letter; numbers are big-endian.
   w, s: three bytes of length and a sheet, which is from now on the workshop's, or the standard one.
   t: three bytes of length; the standard sheet is written into a buffer of so many bytes, and what is written is shown.
   d: eight bytes of a value; the codes of the texts of its records.
   p: a code of two bytes, and three bytes for the length of each sheet, of which the front is lent: the phrase.
   l: eight bytes of a value, the same lengths, and two bytes for the length of a buffer: the listing. */
#include "esr.h"
#include "put.h"

enum { LONGEST = 70000, SIZES = 3, VALUE = 8, CODE = 2, ROOM = 8000, BEHIND = 8, BEFORE = 0xA5 };

static uint8_t workshop[LONGEST], standard[LONGEST], buffer[LONGEST + BEHIND];

/* Whether so many bytes came. */
static int took(uint8_t *bytes, size_t length) {
    size_t at = 0, came;
    while (at < length && (came = get(bytes + at, length - at)) != 0) {
        at += came;
    }
    return at == length;
}

/* A number of so many bytes; what does not come is 0. */
static uint64_t number(size_t bytes) {
    uint8_t held[VALUE] = {0};
    uint64_t result = 0;
    took(held, bytes);
    for (size_t i = 0; i < bytes; i++) {
        result = result << 8 | held[i];
    }
    return result;
}

/* A length that a sheet here can have. */
static size_t size(void) {
    uint64_t length = number(SIZES);
    return length <= LONGEST ? (size_t)length : LONGEST;
}

static void say_numbers(const uint64_t *numbers, size_t count) {
    for (size_t i = 0; i < count; i++) {
        say_number(numbers[i], 10);
        say(" ");
    }
}

/* The sum tells what the buffer and the bytes behind it hold. */
static void say_filled(esr_filled answer, size_t length) {
    uint64_t sum = 0;
    for (size_t i = 0; i < length + BEHIND; i++) {
        sum = sum * 31 + buffer[i];
    }
    uint64_t members[] = {answer.refusal, answer.carried, answer.start, answer.width, answer.count, sum};
    say_numbers(members, sizeof members / sizeof members[0]);
}

static void clear(size_t length) {
    for (size_t i = 0; i < length + BEHIND; i++) {
        buffer[i] = BEFORE;
    }
}

static void write_standard(void) {
    size_t length = size();
    clear(length);
    esr_filled answer = esr_standard_sheet(buffer, length);
    say_filled(answer, length);
    for (size_t i = 0; i < answer.count; i++) {
        say_number(buffer[i], 10);
        say(" ");
    }
}

static void say_codes(void) {
    static esr_record records[ESR_RECORDS_MAX];
    esr_filled filled = esr_decode(number(VALUE), records, ESR_RECORDS_MAX);
    for (size_t i = 0; i < filled.count; i++) {
        say_number(records[i].text, 10);
        say(" ");
    }
}

static void look_up(void) {
    uint16_t code = (uint16_t)number(CODE);
    size_t first = size(), second = size();
    esr_phrase_place found = esr_phrase(workshop, first, standard, second, code);
    uint64_t members[] = {found.refusal, found.carried, found.start, found.width, found.sheet, found.offset, found.length};
    say_numbers(members, sizeof members / sizeof members[0]);
}

static void list(void) {
    uint64_t esr = number(VALUE);
    size_t first = size(), second = size(), length = (size_t)number(CODE);
    length = length <= ROOM ? length : ROOM;
    clear(length);
    say_filled(esr_listing_with(esr, workshop, first, standard, second, buffer, length), length);
}

int main(void) {
    uint8_t kind;
    while (took(&kind, 1)) {
        if (kind == 'w' || kind == 's') {
            if (!took(kind == 'w' ? workshop : standard, size())) {
                return 1;
            }
            continue;
        }
        if (kind == 't') {
            write_standard();
        } else if (kind == 'd') {
            say_codes();
        } else if (kind == 'p') {
            look_up();
        } else if (kind == 'l') {
            list();
        } else {
            return 1;
        }
        say("\n");
    }
    return 0;
}
