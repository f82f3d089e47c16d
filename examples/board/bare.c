/* What stands around a program on the board `virt` of an emulator, with no operating system: put() to its serial line, a restart, and what takes an
   exception that the program does not. */
#include "bare.h"
#include "put.h"

/* The register of the serial line that takes a character (board.ld). */
extern volatile uint32_t serial;

int main(void);
void start(void);

void put(const uint8_t *bytes, size_t length) {
    for (size_t i = 0; i < length; i++) {
        serial = bytes[i];
    }
}

/* The board's firmware, by Arm's PSCI. */
static void firmware(uint64_t function) {
    register uint64_t x0 __asm__("x0") = function;
    for (;;) {
        __asm__ volatile("hvc #0" : "+r"(x0) : : "x1", "x2", "x3", "memory");
    }
}

void restart(void) {
    firmware(0x84000009);
}

static void off(void) {
    firmware(0x84000008);
}

__attribute__((weak)) void on_exception(uint64_t esr) {
    say("exception 0x");
    say_number(esr, 16);
    say("\n");
    off();
}

void start(void) {
    main();
    off();
}
