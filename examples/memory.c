/* memcpy and memset, the two functions that the archive asks for, where there is no C library. */
#include <stddef.h>
#include <stdint.h>

void *memcpy(void *restrict to, const void *restrict from, size_t length);
void *memset(void *to, int byte, size_t length);

void *memcpy(void *restrict to, const void *restrict from, size_t length) {
    uint8_t *bytes = to;
    for (size_t i = 0; i < length; i++) {
        bytes[i] = ((const uint8_t *)from)[i];
    }
    return to;
}

void *memset(void *to, int byte, size_t length) {
    uint8_t *bytes = to;
    for (size_t i = 0; i < length; i++) {
        bytes[i] = (uint8_t)byte;
    }
    return to;
}
