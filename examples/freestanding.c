/* What stands around a program here in place of a unit, with no C library: its start and end, put() to standard output and get() from standard input. */
#include "linux.h"
#include "put.h"

LINUX_START;

int main(void);

/* What cannot be written ends the program: nothing is left out silently. */
void put(const uint8_t *bytes, size_t length) {
    while (length != 0) {
        long written = call(WRITE, 1, (long)bytes, (long)length);
        if (written <= 0) {
            end(3);
        }
        bytes += written;
        length -= (size_t)written;
    }
}

size_t get(uint8_t *bytes, size_t length) {
    long came = call(READ, 0, (long)bytes, (long)length);
    if (came < 0) {
        end(4);
    }
    return (size_t)came;
}

void begin(char **stack) {
    (void)stack;
    end(main());
}
