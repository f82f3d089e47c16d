/* Digests of the answers to 2^20 values of each class, 64 lines. tools/digests.mjs makes the same of the WebAssembly; tools/web-test compares. */
#include "esr.h"
#include "put.h"

enum { VALUES = 1 << 20, RUN = 1 << 12, TOP_RECORDS = 5 };

static uint32_t first, second;

/* Both steps can be undone, so that answers that differ in one word have other digests. */
static void word(uint32_t given) {
    first = (first ^ given) * 0x01000193u;
    second = (second ^ given) * 0x85EBCA6Bu;
    second ^= second >> 13;
}

static void number(uint64_t given) {
    word((uint32_t)given);
    word((uint32_t)(given >> 32));
}

static uint32_t mixed(uint32_t given) {
    given *= 0x9E3779B1u;
    given ^= given >> 15;
    given *= 0x85EBCA77u;
    return given ^ given >> 13;
}

/* Bits 0 to 19 count. Those above are 0 in half of the values, so that reserved fields let some pass, and in the others bit 24 is 1 and the rest as it comes. One in 1,024 has bits above
   ISS2. In one of eight the count has fewer ones, but for its lowest six bits, where a status lies. */
static uint64_t value(uint32_t class, uint32_t count) {
    uint32_t chance = mixed(class << 20 | count);
    uint32_t above = chance & 1 ? 16 | (chance >> 1 & 15) : 0;
    if ((chance & 7) == 0) {
        count &= 63 | chance >> 12;
    }
    uint32_t low = class << 26 | (chance >> 5 & 1) << 25 | above << 20 | count;
    uint32_t high = chance >> 6 & 31;
    if ((chance >> 11 & 1023) == 0) {
        high |= chance >> 21 << 5;
    }
    return (uint64_t)high << 32 | low;
}

static void refusal(uint64_t carried, uint64_t count, uint8_t by, uint8_t start, uint8_t width) {
    number(carried);
    number(count);
    word((uint32_t)by | (uint32_t)start << 8 | (uint32_t)width << 16);
}

static void filled(esr_filled answer) {
    refusal(answer.carried, answer.count, answer.refusal, answer.start, answer.width);
}

static esr_record records[ESR_RECORDS_MAX];

static void decoded(esr_filled answer) {
    filled(answer);
    for (size_t i = 0; i < answer.count; i++) {
        const esr_record *record = &records[i];
        number(record->value);
        word((uint32_t)record->name | (uint32_t)record->text << 16);
        word((uint32_t)record->long_name | (uint32_t)record->start << 8 | (uint32_t)record->width << 16 | (uint32_t)record->mark << 24);
    }
}

/* Of an accepted value also its listing, and what the maker makes of its parts. */
static void listed(uint64_t esr) {
    static uint8_t text[ESR_LISTING_MAX + 3];
    uint64_t leaves[ESR_RECORDS_MAX];
    size_t count = esr_decode(esr, records, ESR_RECORDS_MAX).count;
    esr_filled answer = esr_listing(esr, text, ESR_LISTING_MAX);
    filled(answer);
    for (size_t i = 0; i < answer.count; i++) {
        word(text[i]);
    }
    for (size_t i = TOP_RECORDS; i < count; i++) {
        leaves[i - TOP_RECORDS] = records[i].value;
    }
    esr_number made = esr_make(records[2].value, records[3].value, records[1].value, leaves, count - TOP_RECORDS);
    number(made.value);
    refusal(made.carried, 0, made.refusal, made.start, made.width);
}

static void surveyed(const uint64_t *run) {
    uint32_t counts[64];
    esr_surveyed answer = esr_survey(run, RUN, counts, 64);
    for (size_t i = 0; i < 7; i++) {
        word(answer.refused[i]);
    }
    for (size_t i = 0; i < 64; i++) {
        word(counts[i]);
    }
}

static uint64_t of_class(uint32_t class) {
    static uint64_t run[RUN];
    uint64_t accepted = 0;
    first = second = 0x811C9DC5u;
    for (uint32_t count = 0; count < VALUES; count++) {
        uint64_t esr = value(class, count);
        run[count % RUN] = esr;
        esr_filled answer = esr_decode(esr, records, ESR_RECORDS_MAX);
        decoded(answer);
        accepted += answer.refusal == ESR_ACCEPTED;
        if (answer.refusal == ESR_ACCEPTED && count % 16 == 0) {
            decoded(esr_decode_strict(esr, (uint8_t)(count / 16 % 2), records, ESR_RECORDS_MAX));
            listed(esr);
        }
        if (count % RUN == RUN - 1) {
            surveyed(run);
        }
    }
    return accepted;
}

int main(void) {
    for (uint32_t class = 0; class < 64; class++) {
        uint64_t accepted = of_class(class);
        say_number(class, 10);
        say(" ");
        say_number(accepted, 10);
        say(" ");
        say_number(first, 16);
        say(" ");
        say_number(second, 16);
        say("\n");
    }
    return 0;
}
