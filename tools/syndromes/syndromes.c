/* Makes the core take each exception of cases.h, one after another, says its syndrome and its listing, and holds the fields of esr_decode to what is known of the case.
   It runs at EL3 of the board `virt`; the cases run at the level that each names. */
#include "boot.h"
#include "syndromes.h"

/* The register of the serial line that takes a character (syndromes.ld). */
extern volatile uint32_t serial;

int main(void);

void put(const uint8_t *bytes, size_t length) {
    for (size_t i = 0; i < length; i++) {
        serial = bytes[i];
    }
}

/* What was taken: at which level, and its registers. */
struct taken {
    uint8_t level;
    uint64_t esr;
    uint64_t far;
};

#define READ(name) \
    static uint64_t read_##name(void) { \
        uint64_t value; \
        __asm__ volatile("mrs %0, " #name : "=r"(value)); \
        return value; \
    }
READ(esr_el1)
READ(esr_el2)
READ(esr_el3)
READ(far_el1)
READ(far_el2)
READ(far_el3)
READ(mdcr_el2)

#define WRITE(name, value) __asm__ volatile("msr " name ", %0" : : "r"((uint64_t)(value)))

/* ---- before a case */

static uint64_t mdcr_el2_at_reset;

static uint64_t flipped(const struct known *known, uint8_t reg) {
    uint64_t bits = 0;
    for (size_t i = 0; i < sizeof known->changes / sizeof *known->changes; i++) {
        bits |= known->changes[i].reg == reg ? known->changes[i].flipped : 0;
    }
    return bits;
}

/* A core without FEAT_RAS has no VSESR_EL2, which is named by its numbers. */
static void set_virtual_error(uint64_t syndrome) {
    if (has(RAS)) {
        WRITE("s3_4_c5_c2_3", syndrome);
    }
}

static void set_debug(const struct known *known) {
    WRITE("oslar_el1", 0);
    WRITE("dbgbvr0_el1", known->at);
    WRITE("dbgbcr0_el1", flipped(known, BREAK));
    WRITE("dbgwvr0_el1", known->argument & ~(uint64_t)7);
    WRITE("dbgwcr0_el1", flipped(known, WATCH));
}

/* TTBR1_EL1 is changed as a whole: by a base where there is no table. MAIR_EL1: normal memory, device memory, normal memory with tags. */
static void set_translation(const struct known *known) {
    uint64_t base = flipped(known, TTBR1);
    WRITE("mair_el1", 0xF000FF);
    WRITE("mair_el2", 0xF000FF);
    WRITE("ttbr0_el1", stage1);
    WRITE("ttbr1_el1", base != 0 ? base : (uint64_t)stage1);
    WRITE("ttbr0_el2", stage1);
    WRITE("vttbr_el2", stage2);
}

static void set_vectors(void) {
    WRITE("vbar_el1", vectors_el1);
    WRITE("vbar_el2", vectors_el2);
    WRITE("sp_el0", 0);
    WRITE("sp_el1", 0);
    WRITE("sp_el2", 0);
}

static void set_registers(const struct known *known) {
#define REGISTER(word, name, value) WRITE(name, (value) ^ flipped(known, word));
#include "registers.h"
#undef REGISTER
    WRITE("mdcr_el2", mdcr_el2_at_reset ^ flipped(known, MDCR2));
    set_virtual_error(flipped(known, VSESR));
    set_translation(known);
    set_vectors();
    set_debug(known);
    __asm__ volatile("dsb sy\n tlbi alle1\n tlbi alle2\n dsb sy\n isb");
}

/* What a case set may not reach the next one's preparation: a virtual SError, a step. */
static void unset(void) {
    static const struct known nothing;
    set_registers(&nothing);
}

/* ---- after it */

static uint64_t class_of(uint64_t esr) {
    return esr >> 26 & 63;
}

static int is_handed_on(uint64_t esr, uint64_t from) {
    return class_of(esr) == 0x17 && (esr & 0xFFFF) == from;
}

/* The vectors of EL1 and EL2 hand on by an smc; HCR_EL2.TSC takes that of EL1 to EL2. */
static struct taken what_was_taken(void) {
    struct taken at_el1 = {1, read_esr_el1(), read_far_el1()};
    struct taken at_el2 = {2, read_esr_el2(), read_far_el2()};
    struct taken at_el3 = {3, read_esr_el3(), read_far_el3()};
    if (is_handed_on(at_el3.esr, TAKEN_AT_EL1)) {
        return at_el1;
    }
    if (is_handed_on(at_el3.esr, TAKEN_AT_EL2)) {
        return is_handed_on(at_el2.esr, TAKEN_AT_EL1) ? at_el1 : at_el2;
    }
    return at_el3;
}

/* The instructions of a case end in an svc of A64 or of A32, or, at EL1 in AArch32, in an smc. */
static int is_nothing(struct taken taken) {
    uint64_t class = class_of(taken.esr);
    return ((class == 0x15 || class == 0x11) && (taken.esr & 0xFFFF) == NOTHING_TAKEN) || (class == 0x13 && taken.level == 3);
}

/* ---- what is known, a list of NAME=VALUE */

static int is_space(char character) {
    return character == ' ' || character == 0;
}

static uint64_t digit(char character) {
    return (uint64_t)(character <= '9' ? character - '0' : character - 'a' + 10);
}

static uint64_t number(const char *digits) {
    uint64_t base = digits[0] == '0' && digits[1] == 'x' ? 16 : 10, value = 0;
    for (size_t i = base == 16 ? 2 : 0; !is_space(digits[i]); i++) {
        value = value * base + digit(digits[i]);
    }
    return value;
}

static int starts(const char *words, const uint8_t *name, size_t length) {
    for (size_t i = 0; i < length; i++) {
        if ((uint8_t)words[i] != name[i]) {
            return 0;
        }
    }
    return words[length] == '=';
}

/* The value of a name, 0 where it is not on the list; counts that it was asked for. */
static uint64_t known_value(const char *fields, const uint8_t *name, size_t length, size_t *asked) {
    for (size_t i = 0; fields[i] != 0; i++) {
        if ((i == 0 || fields[i - 1] == ' ') && starts(fields + i, name, length)) {
            (*asked)++;
            return number(fields + i + length + 1);
        }
    }
    return 0;
}

static size_t count_of(const char *fields) {
    size_t count = 0;
    for (size_t i = 0; fields[i] != 0; i++) {
        count += fields[i] == '=';
    }
    return count;
}

/* Whether every record has the value that is known, every name that is known has its record, and strict reading accepts it too. ISS itself is its fields. */
static int has_fields(uint64_t esr, const char *fields) {
    static esr_record records[ESR_RECORDS_MAX];
    uint8_t name[ESR_TEXT_MAX];
    size_t asked = 0;
    esr_filled decoded = esr_decode(esr, records, ESR_RECORDS_MAX);
    for (size_t i = 0; i < decoded.count; i++) {
        size_t length = esr_text(records[i].name, name, sizeof name).count;
        int is_whole = records[i].start == 0 && records[i].width == 25 && i == 4;
        uint64_t wanted = is_whole ? esr & 0x1FFFFFF : known_value(fields, name, length, &asked);
        if (records[i].value != wanted) {
            return 0;
        }
    }
    int is_strict = esr_decode_strict(esr, 0, records, ESR_RECORDS_MAX).refusal == ESR_ACCEPTED;
    return decoded.refusal == ESR_ACCEPTED && is_strict && asked == count_of(fields);
}

static int is_refused(uint64_t esr, const char *fields, uint8_t by) {
    static esr_record records[ESR_RECORDS_MAX];
    size_t asked = 0;
    uint64_t class = known_value(fields, (const uint8_t *)"EC", 2, &asked);
    uint64_t length = known_value(fields, (const uint8_t *)"IL", 2, &asked);
    uint64_t iss = known_value(fields, (const uint8_t *)"ISS", 3, &asked);
    return esr == (class << 26 | length << 25 | iss) && esr_decode(esr, records, ESR_RECORDS_MAX).refusal == by;
}

/* Whether a line of the listing is "# " and the text, after any indent. */
static int says(uint64_t esr, const char *words) {
    size_t count = esr_listing(esr, text, sizeof text).count, length = length_of(words);
    for (size_t i = 2; i + length < count; i++) {
        size_t same = 0;
        while (same < length && text[i + same] == (uint8_t)words[same]) {
            same++;
        }
        if (same == length && text[i - 2] == '#' && text[i - 1] == ' ' && text[i + length] == '\n') {
            return 1;
        }
    }
    return 0;
}

/* Aborts, a misaligned pc and watchpoints have an address; a tag in it is not looked at. */
static int has_address(const struct known *known, struct taken taken) {
    uint64_t class = class_of(taken.esr);
    int asked = class == 0x20 || class == 0x21 || class == 0x22 || class == 0x24 || class == 0x25 || class == 0x34 || class == 0x35;
    return !asked || (taken.far ^ known->argument) << 8 == 0;
}

/* ---- the cases */

enum verdict { AS_KNOWN, REFUSED_BY_01, DEPARTED, NOT_TAKEN, WRONG, ABSENT, VERDICTS };
static const char *const verdict_words[VERDICTS] = {"as known", "refused by 01", "departs from the manual", "not taken", "WRONG", "absent"};

/* Whether the syndrome with any one of its 64 bits changed would not be as known: the fields that are known leave no bit open. */
static int is_pinned(uint64_t esr, const char *fields) {
    for (unsigned place = 0; place < 64; place++) {
        if (has_fields(esr ^ (uint64_t)1 << place, fields)) {
            return 0;
        }
    }
    return 1;
}

static int is_as(struct taken taken, uint8_t level, const char *fields) {
    return taken.level == level && fields != NULL && has_fields(taken.esr, fields) && is_pinned(taken.esr, fields);
}

static enum verdict verdict_of(const struct known *known, struct taken taken) {
    if (is_nothing(taken)) {
        return known->manual != NULL && known->fields == NULL ? NOT_TAKEN : WRONG;
    }
    if (!has_address(known, taken)) {
        return WRONG;
    }
    if (known->refused != 0) {
        return taken.level == known->taken && is_refused(taken.esr, known->fields, known->refused) ? REFUSED_BY_01 : WRONG;
    }
    if (known->manual != NULL && is_as(taken, known->manual_taken, known->manual)) {
        return AS_KNOWN;
    }
    if (!is_as(taken, known->taken, known->fields) || (known->says != NULL && !says(taken.esr, known->says))) {
        return WRONG;
    }
    return known->manual != NULL ? DEPARTED : AS_KNOWN;
}

static void say_words(const char *before, const char *words) {
    if (words != NULL) {
        say(before);
        say(words);
        say("\n");
    }
}

static void say_taken(struct taken taken) {
    if (is_nothing(taken)) {
        say("no exception\n");
        return;
    }
    say("taken at EL");
    say_number(taken.level, 10);
    say(", syndrome 0x");
    say_number(taken.esr, 16);
    say(", FAR 0x");
    say_number(taken.far, 16);
    say("\n");
    say_listing(taken.esr);
}

static void say_known(const char *by, uint8_t level, const char *fields) {
    if (fields != NULL) {
        say(by);
        say(": taken at EL");
        say_number(level, 10);
        say_words(", ", fields);
    }
}

static void say_verdict(const struct known *known, enum verdict verdict) {
    say_words("verdict: ", verdict_words[verdict]);
    if (verdict == WRONG) {
        say_known("known", known->taken, known->fields);
        say_words("known text: ", known->says);
    }
    if (verdict != AS_KNOWN) {
        say_words("why: ", known->why);
        say_known("the manual", known->manual_taken, known->manual);
    }
}

static enum verdict tried(const struct known *known, uint32_t *classes) {
    say_words("> ", known->name);
    say_words("did: ", known->instructions);
    if (!has(known->needs)) {
        say("absent\n");
        return ABSENT;
    }
    set_registers(known);
    run((uint64_t)known->at, known->from ^ flipped(known, SPSR), known->argument);
    struct taken taken = what_was_taken();
    unset();
    enum verdict verdict = verdict_of(known, taken);
    say_taken(taken);
    say_verdict(known, verdict);
    if (!is_nothing(taken)) {
        classes[class_of(taken.esr)]++;
    }
    return verdict;
}

/* How many of the 64 classes there were, and how many exceptions in all. */
static void say_counts(const uint32_t *classes, const uint32_t *verdicts) {
    uint64_t different = 0, exceptions = 0;
    for (size_t i = 0; i < 64; i++) {
        different += classes[i] != 0;
        exceptions += classes[i];
    }
    say("exceptions ");
    say_number(exceptions, 10);
    say(", classes ");
    say_number(different, 10);
    for (size_t i = 0; i < VERDICTS; i++) {
        say(", ");
        say(verdict_words[i]);
        say(" ");
        say_number(verdicts[i], 10);
    }
    say("\n");
}

int main(void) {
    static uint32_t classes[64], verdicts[VERDICTS];
    mdcr_el2_at_reset = read_mdcr_el2();
    make_tables();
    for (size_t i = 0; i < case_count; i++) {
        verdicts[tried(cases + i, classes)]++;
    }
    say_counts(classes, verdicts);
    return 0;
}
