/* A case: what is done, and what is known of its syndrome before it is done. */
#ifndef SYNDROMES_H
#define SYNDROMES_H

#include "levels.h"
#include <stddef.h>
#include <stdint.h>

/* A register whose bits a case flips: those of registers.h, and six more. */
enum {
    NO_REGISTER,
#define REGISTER(word, name, value) word,
#include "registers.h"
#undef REGISTER
    MDCR2, /* MDCR_EL2, which holds what it held after the reset */
    SPSR,  /* what PSTATE becomes as the case starts */
    VSESR, /* VSESR_EL2, of a core with FEAT_RAS */
    BREAK, /* DBGBCR0_EL1, with DBGBVR0_EL1 the first instruction of the case */
    WATCH, /* DBGWCR0_EL1, with DBGWVR0_EL1 the case's argument */
    TTBR1  /* TTBR1_EL1, whole */
};

struct change {
    uint8_t reg;
    uint64_t flipped;
};

/* What a core must have, by its ID registers (has.c). */
enum { ANY, LSE, LRCPC, PAN, DPB, IDST, NO_IDST, RAS, E0PD, LPA2, VHE, PAUTH, FPAC, BTI, SVE, SME, MTE, A32, A32_EL1 };

/* Where the instructions run, as SPSR_EL3 has it, with D, A, I and F masked. */
enum { EL0 = 0x3C0, EL1 = 0x3C5, EL2 = 0x3C9, EL3 = 0x3CD, ARM_EL0 = 0x1D0, THUMB_EL0 = 0x1F0, ARM_EL1 = 0x1D3 };

struct known {
    const char *name;
    const char *instructions;
    const char *at;            /* where they are */
    uint64_t argument;         /* x0 as they start */
    struct change changes[3];
    uint16_t from;
    uint8_t needs;
    uint8_t taken;             /* the level that takes it */
    const char *fields;        /* every field that is not 0, by name and value; NULL where nothing is taken */
    const char *says;          /* a text of the listing, or NULL */
    uint8_t refused;           /* where 01 refuses it: the number */
    uint8_t manual_taken;      /* where the emulator departs from the manual: the level and the fields that the manual has */
    const char *manual;
    const char *why;           /* of a refusal, of a departure, or of an exception that need not be taken */
};

extern const struct known cases[];
extern const size_t case_count;

/* Whether the core has what a case needs. */
int has(uint8_t need);

/* Writes the translation tables (tables.c). */
void make_tables(void);
extern uint64_t stage1[512], stage2[512];

/* start.S */
void run(uint64_t at, uint64_t spsr, uint64_t argument);
extern const char vectors_el1[], vectors_el2[];

/* Where the tables have what a case needs: the places of a level 1, 2 or 3 table, and of what stage 2 maps. */
#define UNMAPPED_0 ((uint64_t)2 << 39)
#define WIDE_0 ((uint64_t)1 << 39)
#define NO_TABLE_1 ((uint64_t)3 << 39)
#define NO_FLAG_0 ((uint64_t)5 << 39)
#define READ_ONLY_0 ((uint64_t)6 << 39)
#define AT_1(place) ((uint64_t)4 << 39 | (uint64_t)(place) << 30)
#define AT_2(place) (AT_1(TABLE) | (uint64_t)(place) << 21)
#define AT_3(place) (AT_2(TABLE) | (uint64_t)(place) << 12)
#define UPPER 0xFFFF000000000000
/* TCR_EL1.DS, and T1SZ 12 in place of 16: the table of level 0 is then one of level -1 for the upper half. */
#define WITH_52_BITS (1ull << 59 | (uint64_t)(12 ^ 16) << 16)
#define AT_MINUS_1(place) (0xFFF0000000000000 | (uint64_t)(place) << 48)
enum {
    UNMAPPED,         /* no descriptor */
    NO_FLAG,          /* AF 0 */
    READ_ONLY,
    WIDE,             /* an output address above what TCR_EL1.IPS allows */
    TABLE,            /* the table of the next level */
    NO_TABLE,         /* a table where there is no memory */
    GUESTS,           /* of level 1: RW, of what stage 2 maps from 0x40000000 on */
    GUESTS_UNMAPPED,  /* of level 1: RW, and no descriptor in stage 2 */
    GUESTS_READ_ONLY, /* of level 1: RW, and read-only in stage 2 */
    GUESTS_TABLE,     /* of levels 1 and 2: a table where stage 2 maps nothing */
    PLAIN,            /* of level 3, as all that follow: RW for both, never executed */
    EL1_ONLY,         /* RW for EL1 */
    NOTHING,          /* no memory there */
    WRITABLE,         /* RW for both, and executable by EL0 */
    GUARDED,          /* the instructions `guarded` of cases.c, in a guarded page */
    TAGGED            /* RW for both, of the memory type that has tags */
};
/* HCR_EL2.E2H and TGE; what makes TCR_EL2 of registers.h the TCR_EL1 there. */
#define HOST (1ull << 34 | 1ull << 27)
#define AS_TCR1 (0x80800010 ^ 0x80100010)
/* The same places of stage 2's tables, by way of GUESTS: of level 2, and of the level 3 that stands at TABLE there. */
#define GUEST_2(place) (AT_1(GUESTS) | 0x8000000 | (uint64_t)(place) << 21)
#define GUEST_3(place) (GUEST_2(TABLE) | (uint64_t)(place) << 12)
/* Unmapped at level 3 of stage 2, as an address of stage 2 alone. */
#define GUEST_IPA (0x48000000ull | (uint64_t)TABLE << 21)

#endif
