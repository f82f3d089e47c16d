/* Makes the values that standard input asks for, and prints every member of each answer and whether what is made decodes to just what was asked: tools/capi holds it to a
   second reading of 02. A request: class, IL, ISS2, how many leaves there are, and the leaves, each a number of eight bytes, big-endian. */
#include "esr.h"
#include "put.h"

enum { LONGEST = 65536, HEAD = 4, TOP_RECORDS = 5 };

static uint64_t leaves[LONGEST];

/* Whether so many numbers came. */
static int took(uint64_t *numbers, size_t count) {
    for (size_t i = 0; i < count; i++) {
        uint8_t bytes[8];
        size_t at = 0, came;
        while (at < sizeof bytes && (came = get(bytes + at, sizeof bytes - at)) != 0) {
            at += came;
        }
        if (at != sizeof bytes) {
            return 0;
        }
        numbers[i] = 0;
        for (size_t k = 0; k < sizeof bytes; k++) {
            numbers[i] = numbers[i] << 8 | bytes[k];
        }
    }
    return 1;
}

/* Whether the leaves of the value's records are 0, ISS2, class, IL and the list. */
static int decodes(uint64_t esr, const uint64_t *head) {
    static esr_record records[ESR_RECORDS_MAX];
    esr_filled filled = esr_decode(esr, records, ESR_RECORDS_MAX);
    size_t from = filled.count == TOP_RECORDS ? TOP_RECORDS - 1 : TOP_RECORDS;
    int same = filled.refusal == ESR_ACCEPTED && filled.count == from + head[3];
    same = same && records[0].value == 0 && records[1].value == head[2] && records[2].value == head[0] && records[3].value == head[1];
    for (size_t i = 0; same && i < head[3]; i++) {
        same = records[from + i].value == leaves[i];
    }
    return same;
}

int main(void) {
    uint64_t head[HEAD];
    while (took(head, HEAD)) {
        if (LONGEST < head[3] || !took(leaves, head[3])) {
            return 1;
        }
        esr_number made = esr_make(head[0], head[1], head[2], leaves, head[3]);
        uint64_t members[] = {made.refusal, made.carried, made.start, made.width, made.value};
        for (size_t i = 0; i < sizeof members / sizeof members[0]; i++) {
            say_number(members[i], 10);
            say(" ");
        }
        say(made.refusal != ESR_ACCEPTED ? "refused\n" : decodes(made.value, head) ? "same\n" : "other\n");
    }
    return 0;
}
