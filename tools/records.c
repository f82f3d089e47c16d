/* The blocks that `esr records` prints, made with the C functions: tools/capi holds them to the Rust's stored answers. A line of standard input is a number. */
#include "esr.h"
#include "put.h"

/* RES0, ISS2, EC, IL and ISS stand before ISS's own records. */
enum { TOP_RECORDS = 5 };

static uint8_t text[ESR_LISTING_MAX];

/* A name or a text, and "-" where there is none. */
static void say_text(uint16_t code) {
    esr_filled found = esr_text(code, text, sizeof text);
    if (found.count == 0) {
        say("-");
    } else {
        put(text, found.count);
    }
}

/* By the number of the mark. */
static const char *const marks[] = {"|free\n", "|coded\n", "|checked\n", "|unchecked\n"};

static void say_record(const esr_record *record, size_t index) {
    say(index < TOP_RECORDS ? "0|" : "1|");
    say_text(record->name);
    say("|");
    say_text(record->long_name);
    say("|");
    say_number(record->start, 10);
    say("|");
    say_number(record->width, 10);
    say("|0x");
    say_number(record->value, 16);
    say("|");
    say_text(record->text);
    say(record->mark <= ESR_MARK_UNCHECKED ? marks[record->mark] : "|no mark\n");
}

static void say_refusal(esr_filled answer) {
    say("refused ");
    say_number(answer.refusal, 10);
    say(" carried=0x");
    say_number(answer.carried, 16);
    if (answer.refusal == ESR_INVALID_RES0) {
        say(" start=");
        say_number(answer.start, 10);
        say(" width=");
        say_number(answer.width, 10);
    }
    say(" ");
    put(text, esr_message(answer.refusal, answer.carried, answer.start, answer.width, text, sizeof text).count);
    say("\n");
}

static void say_block(uint64_t esr) {
    static esr_record records[ESR_RECORDS_MAX];
    esr_filled answer = esr_decode(esr, records, ESR_RECORDS_MAX);
    say("> 0x");
    say_number(esr, 16);
    say("\n");
    if (answer.refusal != ESR_ACCEPTED) {
        say_refusal(answer);
    }
    for (size_t i = 0; i < answer.count; i++) {
        say_record(&records[i], i);
    }
}

static void say_line(const uint8_t *line, size_t length) {
    esr_number number = esr_parse_number(line, length);
    if (number.refusal == ESR_ACCEPTED) {
        say_block(number.value);
        return;
    }
    say("refused ");
    say_number(number.refusal, 10);
    say("\n");
}

/* The lines of the input lie in memory whole: what is too long for it is refused by the status. */
int main(void) {
    static uint8_t input[1 << 20];
    size_t length = 0, start = 0, came;
    while ((came = get(input + length, sizeof input - length)) != 0) {
        length += came;
    }
    for (size_t i = 0; i < length; i++) {
        if (input[i] == '\n') {
            say_line(input + start, i - start);
            start = i + 1;
        }
    }
    return length == sizeof input || start != length;
}
