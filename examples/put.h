/* Words and numbers by way of put(), which is all that a program here asks of its surroundings. On a unit it is a serial line; here it is
   standard output (freestanding.c). */
#ifndef PUT_H
#define PUT_H

#include <stddef.h>
#include <stdint.h>

void put(const uint8_t *bytes, size_t length);

/* At most so many bytes of what comes in; 0 at its end. A unit has none. */
size_t get(uint8_t *bytes, size_t length);

static inline size_t length_of(const char *words) {
    size_t length = 0;
    while (words[length] != 0) {
        length++;
    }
    return length;
}

static inline void say(const char *words) {
    put((const uint8_t *)words, length_of(words));
}

static inline void say_number(uint64_t number, unsigned base) {
    uint8_t digits[20];
    size_t at = sizeof digits;
    do {
        digits[--at] = (uint8_t)"0123456789abcdef"[number % base];
        number /= base;
    } while (number != 0);
    put(digits + at, sizeof digits - at);
}

#endif
