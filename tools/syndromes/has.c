/* What the core has, by the manual's ID registers. */
#include "syndromes.h"

#define ID(name) \
    static uint64_t name(void) { \
        uint64_t value; \
        __asm__ volatile("mrs %0, " #name : "=r"(value)); \
        return value; \
    }
ID(id_aa64pfr0_el1)
ID(id_aa64pfr1_el1)
ID(id_aa64isar0_el1)
ID(id_aa64isar1_el1)
ID(id_aa64mmfr0_el1)
ID(id_aa64mmfr1_el1)
/* ID_AA64MMFR2_EL1 and ID_AA64ISAR2_EL1, by their numbers. */
ID(s3_0_c0_c7_2)
ID(s3_0_c0_c6_2)

/* The algorithm of pointer authentication: APA, API or APA3, of which one is not 0; from 4 on a failure is an exception. */
static uint64_t pointer_authentication(void) {
    uint64_t one = id_aa64isar1_el1(), two = s3_0_c0_c6_2();
    return (one >> 4 & 15) | (one >> 8 & 15) | (two >> 12 & 15);
}

static int at_least(uint64_t id, unsigned start, uint64_t least) {
    return least <= (id >> start & 15);
}

int has(uint8_t need) {
    switch (need) {
    case LSE:
        return at_least(id_aa64isar0_el1(), 20, 2);
    case LRCPC:
        return at_least(id_aa64isar1_el1(), 20, 1);
    case PAN:
        return at_least(id_aa64mmfr1_el1(), 20, 1);
    case DPB:
        return at_least(id_aa64isar1_el1(), 0, 1);
    case IDST:
        return at_least(s3_0_c0_c7_2(), 36, 1);
    case NO_IDST:
        return !has(IDST);
    case RAS:
        return at_least(id_aa64pfr0_el1(), 28, 1);
    case E0PD:
        return at_least(s3_0_c0_c7_2(), 60, 1);
    case LPA2: /* TGran4: 15 is no granule of 4 KB at all */
        return (id_aa64mmfr0_el1() >> 28 & 15) == 1;
    case VHE:
        return at_least(id_aa64mmfr1_el1(), 8, 1);
    case PAUTH:
        return pointer_authentication() != 0;
    case FPAC:
        return 4 <= pointer_authentication();
    case BTI:
        return at_least(id_aa64pfr1_el1(), 0, 1);
    case SVE:
        return at_least(id_aa64pfr0_el1(), 32, 1);
    case SME:
        return at_least(id_aa64pfr1_el1(), 24, 1);
    case MTE:
        return at_least(id_aa64pfr1_el1(), 8, 2);
    case A32:
        return at_least(id_aa64pfr0_el1(), 0, 2);
    case A32_EL1:
        return at_least(id_aa64pfr0_el1(), 4, 2);
    default:
        return 1;
    }
}
