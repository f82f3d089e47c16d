/* Every ISS of the classes that strict reading asks something of (#110), read ordinarily, strictly, and strictly with nested virtualisation: each strict answer is held whole to
   the ordinary one and to a second reading of 02, which stands below. With a byte on standard input only values whose register and immediate fields are 0 or all ones. */
#include "esr.h"
#include "put.h"

/* By the class: LDC and STC; instruction aborts; data aborts; SErrors; watchpoints. */
static const uint8_t classes[] = {0x06, 0x20, 0x21, 0x24, 0x25, 0x2F, 0x34, 0x35};

static uint64_t bits(uint64_t value, unsigned start, unsigned end) {
    return value >> start & (((uint64_t)1 << (end - start)) - 1);
}

static int is_external(uint64_t status) {
    return status == 0x10 || (0x12 <= status && status <= 0x17);
}

/* 01: WU is read in a data abort without a valid syndrome and with an external status, and in an SError of status 0x11 that is not implementation defined. */
static int reads_wu(uint64_t class, uint64_t iss) {
    uint64_t status = bits(iss, 0, 6);
    return bits(iss, 24, 25) == 0 && (class == 0x2F ? status == 0x11 : (class == 0x24 || class == 0x25) && is_external(status));
}

static int reads_vncr(uint64_t class) {
    return class == 0x24 || class == 0x25 || class == 0x34 || class == 0x35;
}

/* 01: in instruction and data aborts 11..13 is SET if status is 0x10, else the reserved field that is not checked. */
static int reads_unchecked(uint64_t class, uint64_t iss) {
    return (class == 0x20 || class == 0x21 || class == 0x24 || class == 0x25) && bits(iss, 0, 6) != 0x10;
}

/* What strict alone refuses, "high bits first": WU 16..18, VNCR 13, the reserved field 11..13, AM 1..4. */
static esr_filled strictly(uint64_t class, uint64_t iss, int nested) {
    esr_filled refused = {0, 0, 0, 0, 0};
    if (reads_wu(class, iss) && bits(iss, 16, 18) == 1) {
        refused.refusal = 24;
    } else if (reads_vncr(class) && !nested && bits(iss, 13, 14) != 0) {
        refused.refusal = 25;
    } else if (reads_unchecked(class, iss) && bits(iss, 11, 13) != 0) {
        refused.refusal = 1;
        refused.carried = bits(iss, 11, 13);
        refused.start = 11;
        refused.width = 2;
    } else if (class == 0x06 && (bits(iss, 1, 4) == 4 || bits(iss, 1, 4) == 6)) {
        refused.refusal = 6;
        refused.carried = bits(iss, 1, 4);
    }
    return refused;
}

static int same_answer(esr_filled a, esr_filled b) {
    return a.refusal == b.refusal && a.carried == b.carried && a.start == b.start && a.width == b.width && a.count == b.count;
}

/* Of every member, so that the marks are among them. */
static int same_records(const esr_record *a, const esr_record *b, size_t count) {
    for (size_t i = 0; i < count; i++) {
        if (a[i].value != b[i].value || a[i].name != b[i].name || a[i].text != b[i].text || a[i].long_name != b[i].long_name || a[i].start != b[i].start || a[i].width != b[i].width || a[i].mark != b[i].mark) {
            return 0;
        }
    }
    return 1;
}

static esr_record ordinary[ESR_RECORDS_MAX], strict[ESR_RECORDS_MAX];

/* Whether both choices answer as they have to; counts what strict alone refuses. */
static int is_answered(uint64_t class, uint64_t iss, uint64_t *refused) {
    uint64_t esr = class << 26 | (uint64_t)1 << 25 | iss;
    esr_filled first = esr_decode(esr, ordinary, ESR_RECORDS_MAX);
    for (uint8_t nested = 0; nested < 2; nested++) {
        esr_filled wanted = first.refusal != 0 ? first : strictly(class, iss, nested);
        esr_filled answer = esr_decode_strict(esr, nested, strict, ESR_RECORDS_MAX);
        if (wanted.refusal == 0) {
            wanted = first;
        }
        if (!same_answer(answer, wanted) || !same_records(strict, ordinary, answer.count)) {
            return 0;
        }
        refused[nested] += first.refusal == 0 && answer.refusal != 0;
    }
    return 1;
}

/* 01's fields of several bits of which nothing is asked: COND, imm8, Rn; SRT; those of an SError that is implementation defined. */
static int is_some(uint64_t class, uint64_t iss) {
    uint64_t srt = bits(iss, 16, 21), cond = bits(iss, 20, 24), immediate = bits(iss, 12, 20), rn = bits(iss, 5, 10);
    if (class == 0x06) {
        return (cond == 0 || cond == 15) && (immediate == 0 || immediate == 255) && (rn == 0 || rn == 31);
    }
    if (class == 0x2F) {
        return bits(iss, 24, 25) == 0 ? bits(iss, 19, 24) < 2 : bits(iss, 6, 24) < 2;
    }
    return class == 0x24 || class == 0x25 ? bits(iss, 21, 24) < 2 && (bits(iss, 24, 25) == 0 || srt == 0 || srt == 31) : bits(iss, 15, 25) < 2;
}

int main(void) {
    uint64_t values = 0, refused[2] = {0, 0};
    uint8_t asked;
    int some = get(&asked, 1) != 0;
    for (size_t i = 0; i < sizeof classes; i++) {
        for (uint64_t iss = 0; iss < (uint64_t)1 << 25; iss++) {
            if (some && !is_some(classes[i], iss)) {
                continue;
            }
            if (!is_answered(classes[i], iss, refused)) {
                say("wrong at class 0x");
                say_number(classes[i], 16);
                say(", ISS 0x");
                say_number(iss, 16);
                say("\n");
                return 1;
            }
            values++;
        }
    }
    uint64_t told[] = {values, refused[0], refused[1]};
    for (size_t i = 0; i < sizeof told / sizeof told[0]; i++) {
        say_number(told[i], 10);
        say(i + 1 < sizeof told / sizeof told[0] ? " " : "\n");
    }
    return 0;
}
