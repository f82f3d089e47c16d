/* Our side of compare/every in C, so that the archive of another processor can be run under an emulator: the digests of digest.rs. A byte of standard input is a class; a line for each of its
   blocks of 2^20 values has the digest of the answers and how many are accepted. */
#include "esr.h"
#include "put.h"

enum { CODES = 1 << 16, BLOCK = 1 << 20, BLOCKS = 32, TOP_RECORDS = 5, EC = 26 };

static const uint64_t start = 0x9E3779B97F4A7C15u;
static uint64_t text_digest[CODES];

static uint64_t mix(uint64_t state, uint64_t word) {
    uint64_t mixed = (state ^ word) * 0xD6E8FEB86659FD93u;
    return mixed ^ mixed >> 32;
}

static uint64_t eight(const uint8_t *bytes) {
    uint64_t word = 0;
    for (size_t i = 8; i-- > 0;) {
        word = word << 8 | bytes[i];
    }
    return word;
}

/* Its length, then its bytes by eights; the last eight end with it. */
static uint64_t of_string(const uint8_t *bytes, size_t length) {
    uint64_t state = mix(start, length), word = 0;
    if (length < 8) {
        for (size_t i = 0; i < length; i++) {
            word = word << 8 | bytes[i];
        }
        return mix(state, word);
    }
    for (size_t at = 0; at < length - 8; at += 8) {
        state = mix(state, eight(bytes + at));
    }
    return mix(state, eight(bytes + length - 8));
}

static void digest_texts(void) {
    static uint8_t text[ESR_TEXT_MAX];
    for (uint32_t code = 1; code < CODES; code++) {
        text_digest[code] = of_string(text, esr_text((uint16_t)code, text, sizeof text).count);
    }
}

static uint64_t of_record(const esr_record *record, uint64_t depth) {
    uint64_t state = mix(mix(mix(start, depth), text_digest[record->name]), text_digest[record->long_name]);
    state = mix(mix(mix(state, record->start), record->width), record->value);
    return mix(state, text_digest[record->text]);
}

static uint64_t of_value(uint64_t esr, uint64_t *accepted) {
    esr_record records[ESR_RECORDS_MAX];
    esr_filled answer = esr_decode(esr, records, ESR_RECORDS_MAX);
    uint64_t state = mix(mix(start, answer.refusal), answer.carried);
    if (answer.refusal != ESR_ACCEPTED) {
        return state;
    }
    for (size_t i = 0; i < answer.count; i++) {
        state = mix(state, of_record(&records[i], i >= TOP_RECORDS));
    }
    ++*accepted;
    return mix(state, answer.count);
}

static void of_block(uint64_t first) {
    uint64_t state = 0, accepted = 0;
    for (uint64_t esr = first; esr < first + BLOCK; esr++) {
        state = mix(state, of_value(esr, &accepted));
    }
    for (int nibble = 60; nibble >= 0; nibble -= 4) {
        say_number(state >> nibble & 15, 16);
    }
    say(" ");
    say_number(accepted, 10);
    say("\n");
}

int main(void) {
    uint8_t class;
    digest_texts();
    while (get(&class, 1) != 0) {
        for (uint64_t block = 0; block < BLOCKS; block++) {
            of_block(((uint64_t)class << EC) + block * BLOCK);
        }
    }
    return 0;
}
