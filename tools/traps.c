/* Every ISS of class 0x18, decoded: each answer is held whole to a second reading of #108, which tools/capi writes as tables (traps.h). With a byte on standard input only
   those whose Rt is 0 or 31 and whose bits 22..25 are 0, 1 or 4, which is every key all the same. */
#include "esr.h"
#include "put.h"
#include "traps.h"

enum { CODES = 1024, KEYS = 1 << 16 };
static const uint64_t BEFORE = (uint64_t)0x18 << 26 | (uint64_t)1 << 25;

static const char *name_of[KEYS];
static uint8_t seen[KEYS];

static uint64_t bits(uint64_t value, unsigned start, unsigned width) {
    return value >> start & (((uint64_t)1 << width) - 1);
}

/* Op0 on top, then Op1, CRn, CRm, Op2. */
static uint64_t key_of(uint64_t iss) {
    uint64_t key = bits(iss, 20, 2);
    key = key << 3 | bits(iss, 14, 3);
    key = key << 4 | bits(iss, 10, 4);
    key = key << 4 | bits(iss, 1, 4);
    return key << 3 | bits(iss, 17, 3);
}

/* Whether a code is that of a text, or 0 where there is none. A text that was found to be a code's is not asked for again. */
static int is_text(uint16_t code, const char *text) {
    static const char *known[CODES];
    static uint8_t found[ESR_TEXT_MAX];
    if (text == NULL || CODES <= code) {
        return text == NULL && code == 0;
    }
    if (known[code] == text) {
        return 1;
    }
    size_t length = esr_text(code, found, sizeof found).count;
    if (length == 0 || length != length_of(text)) {
        return 0;
    }
    for (size_t i = 0; i < length; i++) {
        if (found[i] != (uint8_t)text[i]) {
            return 0;
        }
    }
    known[code] = text;
    return 1;
}

static const char *text_of(const struct trap_field *field, uint64_t value) {
    for (size_t i = 0; i < 2; i++) {
        if (field->texts[i].text != NULL && field->texts[i].value == value) {
            return field->texts[i].text;
        }
    }
    return NULL;
}

static int is_record(const esr_record *record, const struct trap_field *field, uint64_t esr) {
    uint64_t value = bits(esr, field->start, field->width);
    const char *text = field->iss ? name_of[key_of(value)] : text_of(field, value);
    return record->value == value && record->start == field->start && record->width == field->width && record->mark == field->mark
        && is_text(record->name, field->name) && is_text(record->long_name, field->long_name) && is_text(record->text, text);
}

/* The first of the checked fields, from high bits to low, that is not 0; none where all are. */
static const struct trap_field *failing(uint64_t esr) {
    for (size_t i = 0; i < TRAP_FIELDS; i++) {
        if (trap_fields[i].mark == ESR_MARK_CHECKED && bits(esr, trap_fields[i].start, trap_fields[i].width) != 0) {
            return &trap_fields[i];
        }
    }
    return NULL;
}

static int is_answered(uint64_t esr, esr_filled answer, const esr_record *records) {
    const struct trap_field *wrong = failing(esr);
    if (wrong != NULL) {
        return answer.refusal == ESR_INVALID_RES0 && answer.carried == bits(esr, wrong->start, wrong->width) && answer.start == wrong->start
            && answer.width == wrong->width && answer.count == 0;
    }
    if (answer.refusal != ESR_ACCEPTED || answer.carried != 0 || answer.start != 0 || answer.width != 0 || answer.count != TRAP_FIELDS) {
        return 0;
    }
    for (size_t i = 0; i < TRAP_FIELDS; i++) {
        if (!is_record(&records[i], &trap_fields[i], esr)) {
            return 0;
        }
    }
    return 1;
}

static int is_some(uint64_t iss) {
    uint64_t rt = bits(iss, 5, 5), top = bits(iss, 22, 3);
    return (rt == 0 || rt == 31) && (top == 0 || top == 1 || top == 4);
}

int main(void) {
    static esr_record records[ESR_RECORDS_MAX];
    uint64_t values = 0, accepted = 0, named = 0, keys = 0;
    uint8_t asked;
    int some = get(&asked, 1) != 0;
    for (size_t i = 0; i < TRAP_REGISTERS; i++) {
        name_of[trap_registers[i].key] = trap_registers[i].name;
    }
    for (uint64_t iss = 0; iss < (uint64_t)1 << 25; iss++) {
        if (some && !is_some(iss)) {
            continue;
        }
        esr_filled answer = esr_decode(BEFORE | iss, records, ESR_RECORDS_MAX);
        if (!is_answered(BEFORE | iss, answer, records)) {
            say("wrong at 0x");
            say_number(BEFORE | iss, 16);
            say("\n");
            return 1;
        }
        values++;
        accepted += answer.count != 0;
        if (answer.count != 0 && name_of[key_of(iss)] != NULL) {
            named++;
            keys += !seen[key_of(iss)];
            seen[key_of(iss)] = 1;
        }
    }
    uint64_t told[] = {values, accepted, named, keys};
    for (size_t i = 0; i < sizeof told / sizeof told[0]; i++) {
        say_number(told[i], 10);
        say(i + 1 < sizeof told / sizeof told[0] ? " " : "\n");
    }
    return 0;
}
