/* Walks over the blocks that standard input asks for, and prints every member of each answer and what the caller's run then holds: tools/capi holds it to a second
   reading of 02. A request: the length of the block, three bytes, and the places of the run, two, big-endian; then the block. */
#include "esr.h"
#include "put.h"

enum { LONGEST = 65537, BEHIND = 8, SHOWN = 8, HEAD = 5 };
static const uint16_t BEFORE = 0xA5A5;

static uint8_t block[LONGEST];
static uint16_t run[ESR_STEPS_MAX + BEHIND];

/* Whether so many bytes came. */
static int took(uint8_t *bytes, size_t length) {
    size_t at = 0, came;
    while (at < length && (came = get(bytes + at, length - at)) != 0) {
        at += came;
    }
    return at == length;
}

static void say_answer(esr_walked answer) {
    uint64_t members[] = {answer.refusal, answer.carried, answer.start, answer.width, answer.entries, answer.decoded, answer.offset, answer.ended};
    for (size_t i = 0; i < sizeof members / sizeof members[0]; i++) {
        say_number(members[i], 10);
        say(" ");
    }
}

static void say_run(size_t length) {
    uint64_t sum = 0;
    say("|");
    for (size_t i = 0; i < length; i++) {
        sum = sum * 31 + run[i];
        if (i < SHOWN) {
            say(" ");
            say_number(run[i], 10);
        }
    }
    say(" | ");
    say_number(sum, 10);
    say("\n");
}

int main(void) {
    uint8_t head[HEAD];
    while (took(head, HEAD)) {
        size_t length = (size_t)head[0] << 16 | (size_t)head[1] << 8 | head[2];
        size_t places = (size_t)head[3] << 8 | head[4];
        if (LONGEST < length || ESR_STEPS_MAX < places || !took(block, length)) {
            return 1;
        }
        for (size_t i = 0; i < places + BEHIND; i++) {
            run[i] = BEFORE;
        }
        say_answer(esr_walk(block, length, run, places));
        say_run(places + BEHIND);
    }
    return 0;
}
