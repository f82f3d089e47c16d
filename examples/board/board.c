/* A boot stage with no operating system, on the board `virt` of an emulator. The handler of exceptions writes the syndrome to flash, as two 32-bit words, and
   restarts the board; the boot stage then reads what is there and lists it. The syndromes are the core's own: nobody wrote them by hand.

   At its first start the board executes a `brk`. At the second it loads from an address where there is nothing, and its supply falls away between
   the two words. At the third it goes off.

   Flash is memory here, which a restart leaves alone. */
#include "bare.h"
#include "boot.h"

enum { BLOCK = 64, ENTRY = 13, LENGTH = 11, VERSION = 1, ERASED = 0xFF };

/* The block's bytes (board.ld). */
extern uint8_t flash[BLOCK];

/* An erased entry is all ones. */
static int is_written(size_t at) {
    return at + ENTRY <= BLOCK && (flash[at] != ERASED || flash[at + 1] != ERASED);
}

static size_t written(void) {
    size_t count = 0;
    while (is_written(count * ENTRY)) {
        count++;
    }
    return count;
}

/* Big-endian, as the entry has it. */
static void store(size_t at, uint64_t value, size_t bytes) {
    for (size_t i = 0; i < bytes; i++) {
        flash[at + i] = (uint8_t)(value >> 8 * (bytes - 1 - i));
    }
}

void on_exception(uint64_t esr) {
    size_t sequence = written();
    size_t at = sequence * ENTRY;
    store(at, LENGTH, 2);
    store(at + 2, VERSION, 1);
    store(at + 3, sequence, 2);
    store(at + 5, esr >> 32, 4);
    if (sequence == 1) {
        restart();
    }
    store(at + 9, esr & 0xFFFFFFFF, 4);
    restart();
}

/* The emulator's memory is zero where flash is all ones. */
static void erase_if_new(void) {
    if (flash[0] == 0 && flash[1] == 0) {
        for (size_t i = 0; i < BLOCK; i++) {
            flash[i] = ERASED;
        }
    }
}

int main(void) {
    erase_if_new();
    size_t count = written();
    say("start, entries ");
    say_number(count, 10);
    say("\n");
    boot_block(flash, BLOCK);
    if (count == 0) {
        __asm__ volatile("brk #0x1234");
    }
    if (count == 1) {
        (void)*(volatile uint32_t *)0x50000000;
    }
    return 0;
}
