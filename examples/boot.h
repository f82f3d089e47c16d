/* What a boot stage says of a flash entry: its numbers, its body and the listing of its ESR, or why it is not believed; and of a block of them. */
#ifndef BOOT_H
#define BOOT_H

#include "esr.h"
#include "put.h"

/* What a unit needs of memory lies here, and is known when it is linked. */
static uint8_t text[ESR_LISTING_MAX];
static uint16_t steps[ESR_STEPS_MAX];

/* The message of the refusal, where it has one; that of a reserved field names its bits. */
static inline void say_refusal(uint8_t refusal, uint64_t carried, uint8_t start, uint8_t width) {
    esr_filled message = esr_message(refusal, carried, start, width, text, sizeof text);
    say("refused ");
    say_number(refusal, 10);
    if (message.refusal == ESR_ACCEPTED) {
        say(": ");
        put(text, message.count);
    }
    say("\n");
}

static inline void say_listing(uint64_t esr) {
    esr_filled listing = esr_listing(esr, text, sizeof text);
    if (listing.refusal != ESR_ACCEPTED) {
        say_refusal(listing.refusal, listing.carried, listing.start, listing.width);
        return;
    }
    put(text, listing.count);
}

static inline void boot(const uint8_t *block, size_t length) {
    esr_entry entry = esr_read_entry(block, length);
    if (entry.refusal != ESR_ACCEPTED) {
        say_refusal(entry.refusal, entry.carried, entry.start, entry.width);
        return;
    }
    say("sequence ");
    say_number(entry.sequence, 10);
    say("\nesr 0x");
    say_number(entry.esr, 16);
    say("\nbody ");
    for (size_t i = 0; i < entry.body_length; i++) {
        say_number(block[entry.body + i] / 16, 16);
        say_number(block[entry.body + i] % 16, 16);
    }
    say("\n");
    say_listing(entry.esr);
}

static inline void say_step(uint16_t skipped) {
    if (skipped == ESR_SAME_SEQUENCE) {
        say("same sequence\n");
    } else if (skipped != 0) {
        say("lost ");
        say_number(skipped, 10);
        say("\n");
    }
}

/* Every entry of a block, what was lost between two, the counts, and where the walk ended. */
static inline void boot_block(const uint8_t *block, size_t length) {
    esr_walked walked = esr_walk(block, length, steps, ESR_STEPS_MAX);
    if (walked.refusal != ESR_ACCEPTED) {
        say_refusal(walked.refusal, walked.carried, walked.start, walked.width);
        return;
    }
    for (size_t i = 0; i < walked.entries; i++) {
        if (i != 0) {
            say_step(steps[i - 1]);
        }
        boot(block + i * ESR_ENTRY_SIZE, ESR_ENTRY_SIZE);
    }
    say("entries ");
    say_number(walked.entries, 10);
    say(", decoded ");
    say_number(walked.decoded, 10);
    say(", end at ");
    say_number(walked.offset, 10);
    say("\n");
    if (walked.ended != ESR_ACCEPTED) {
        say_refusal(walked.ended, 0, 0, 0);
    }
}

#endif
