/* The translation tables: stage 1 of EL1 and EL0, which EL2 uses too, and stage 2, with granules of 4 KB. Each place of the enum in syndromes.h is one way in which a walk
   can end. Names of bits are the manual's, VMSAv8-64 descriptor formats. SH is 0 throughout: there is one core, and with
   TCR_EL1.DS its place is the address's. */
#include "syndromes.h"

#define TABLE_OF_512 __attribute__((aligned(4096))) uint64_t
static TABLE_OF_512 whole[512], level1[512], level2[512], level3[512], guests2[512], guests3[512];
TABLE_OF_512 stage1[512];
TABLE_OF_512 stage2[512];
static __attribute__((aligned(4096))) uint8_t page[4096];
/* cases.c */
extern const char guarded[];

#define MEMORY 0x40000000ull
#define NO_MEMORY 0x0B000000ull /* nothing stands there on the board */
#define STAGE2_UNMAPPED 0x48000000ull /* its level 2 has no descriptor for it */
#define ABOVE_32_BITS (1ull << 32)

enum { BLOCK = 1, NEXT = 3, PAGE = 3, AF = 1 << 10 };
/* AP, bits 6 and 7 of stage 1 */
enum { RW_EL1 = 0 << 6, RW_BOTH = 1 << 6, RO_BOTH = 3 << 6 };
/* S2AP, bits 6 and 7 of stage 2, and MemAttr: normal memory */
enum { S2_READ = 1 << 6, S2_WRITE = 2 << 6, S2_NORMAL = 15 << 2 };
enum { ATTR_TAGGED = 2 << 2 };
#define XN (1ull << 54)
#define PXN (1ull << 53)
#define GP (1ull << 50)

static uint64_t address(const void *of) {
    return (uint64_t)of;
}

/* What is the same in the tables of every level: a descriptor, the bits of a block or page in `kind`. */
static void common(uint64_t *table, unsigned kind) {
    table[NO_FLAG] = MEMORY | kind | RW_BOTH;
    table[READ_ONLY] = MEMORY | kind | AF | RO_BOTH;
    table[WIDE] = ABOVE_32_BITS | kind | AF | RW_BOTH;
}

static void make_level1(void) {
    common(level1, BLOCK);
    level1[TABLE] = address(level2) | NEXT;
    level1[NO_TABLE] = NO_MEMORY | NEXT;
    level1[GUESTS_TABLE] = STAGE2_UNMAPPED | NEXT;
    level1[GUESTS] = MEMORY | BLOCK | AF | RW_BOTH;
    level1[GUESTS_UNMAPPED] = 2 * MEMORY | BLOCK | AF | RW_BOTH;
    level1[GUESTS_READ_ONLY] = 3 * MEMORY | BLOCK | AF | RW_BOTH;
}

static void make_level2(void) {
    common(level2, BLOCK);
    level2[TABLE] = address(level3) | NEXT;
    level2[NO_TABLE] = NO_MEMORY | NEXT;
    level2[GUESTS_TABLE] = STAGE2_UNMAPPED | NEXT;
}

static void make_level3(void) {
    common(level3, PAGE);
    level3[PLAIN] = address(page) | PAGE | AF | RW_BOTH | XN | PXN;
    level3[EL1_ONLY] = address(page) | PAGE | AF | RW_EL1;
    level3[NOTHING] = NO_MEMORY | PAGE | AF | RW_BOTH;
    level3[WRITABLE] = address(page) | PAGE | AF | RW_BOTH;
    level3[GUARDED] = address(guarded) | PAGE | AF | RO_BOTH | GP;
    level3[TAGGED] = address(page) | PAGE | AF | RW_BOTH | ATTR_TAGGED;
}

static void make_stage1(void) {
    whole[1] = MEMORY | BLOCK | AF | RO_BOTH;
    stage1[0] = address(whole) | NEXT;
    stage1[WIDE_0 >> 39] = ABOVE_32_BITS | NEXT;
    stage1[NO_TABLE_1 >> 39] = NO_MEMORY | NEXT;
    stage1[NO_FLAG_0 >> 39] = BLOCK | RW_BOTH;
    stage1[READ_ONLY_0 >> 39] = BLOCK | AF | RO_BOTH;
    stage1[AT_1(0) >> 39] = address(level1) | NEXT;
}

/* Stage 2 starts at level 1, each place 1 GB, and leaves addresses as they are. */
static void make_stage2(void) {
    const uint64_t usual = AF | S2_NORMAL | S2_READ | S2_WRITE;
    uint64_t *at = guests2 + 64;
    for (uint64_t i = 0; i < 512; i++) {
        guests2[i] = (MEMORY + (i << 21)) | BLOCK | usual;
    }
    at[UNMAPPED] = 0;
    at[NO_FLAG] = MEMORY | BLOCK | (usual & ~(uint64_t)AF);
    at[READ_ONLY] = MEMORY | BLOCK | (usual & ~(uint64_t)S2_WRITE);
    at[WIDE] = ABOVE_32_BITS | BLOCK | usual;
    at[TABLE] = address(guests3) | NEXT;
    at[NO_TABLE] = NO_MEMORY | NEXT;
    guests3[NO_FLAG] = address(page) | PAGE | (usual & ~(uint64_t)AF);
    guests3[READ_ONLY] = address(page) | PAGE | (usual & ~(uint64_t)S2_WRITE);
    guests3[WIDE] = ABOVE_32_BITS | PAGE | usual;
    guests3[PLAIN] = address(page) | PAGE | usual | XN;
    guests3[NOTHING] = NO_MEMORY | PAGE | usual;
    stage2[1] = address(guests2) | NEXT;
    stage2[3] = 3 * MEMORY | BLOCK | (usual & ~(uint64_t)S2_WRITE);
}

void make_tables(void) {
    make_level1();
    make_level2();
    make_level3();
    make_stage1();
    make_stage2();
}
