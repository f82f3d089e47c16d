/* The table of the cases, and their instructions: cases.h, read twice. */
#include "syndromes.h"

#define JOINED(a, b) a##b
#define PROBE(line) JOINED(probe_, line)
#define SPELLED(number) #number
#define SPELL(number) SPELLED(number)

#define INSTRUCTIONS(line, instructions) \
    extern const char PROBE(line)[]; \
    __asm__(".pushsection .probes, \"ax\"\n" \
            ".arch armv9-a+sve+sme+memtag\n" \
            ".balign 4\n" \
            "probe_" SPELL(line) ":\n" instructions "\n" \
            "svc #" SPELL(NOTHING_TAKEN) "\n" \
            ".popsection\n");

/* A page that a case branches into: a plain instruction first, and two places on, where a branch may land, a branch back to it. It is guarded where tables.c says so. */
__asm__(".pushsection .probes, \"ax\"\n"
        ".balign 4096\n"
        ".globl guarded\n"
        "guarded: nop\n"
        "svc #" SPELL(NOTHING_TAKEN) "\n"
        "hint #38 // bti jc\n"
        "br x1\n"
        ".popsection\n");

#define NONE {{NO_REGISTER, 0}}
#define ONE(reg, flipped) {{reg, flipped}}
#define TWO(reg, flipped, reg2, flipped2) {{reg, flipped}, {reg2, flipped2}}
#define THREE(reg, flipped, reg2, flipped2, reg3, flipped3) {{reg, flipped}, {reg2, flipped2}, {reg3, flipped3}}
#define BIT(place) (1ull << (place))

#define CASE(needs, from, name, instructions, changes, argument, taken, fields, says) INSTRUCTIONS(__LINE__, instructions)
#define REFUSED(needs, from, name, instructions, changes, argument, taken, fields, number, why) INSTRUCTIONS(__LINE__, instructions)
#define DEPARTS(needs, from, name, instructions, changes, argument, taken, fields, manual_taken, manual, why) INSTRUCTIONS(__LINE__, instructions)
#include "cases.h"
#undef CASE
#undef REFUSED
#undef DEPARTS

#define CASE(needs, from, name, instructions, changes, argument, taken, fields, says) \
    {name, instructions, PROBE(__LINE__), argument, changes, from, needs, taken, fields, says, 0, 0, NULL, NULL},
#define REFUSED(needs, from, name, instructions, changes, argument, taken, fields, number, why) \
    {name, instructions, PROBE(__LINE__), argument, changes, from, needs, taken, fields, NULL, number, 0, NULL, why},
#define DEPARTS(needs, from, name, instructions, changes, argument, taken, fields, manual_taken, manual, why) \
    {name, instructions, PROBE(__LINE__), argument, changes, from, needs, taken, fields, NULL, 0, manual_taken, manual, why},
const struct known cases[] = {
#include "cases.h"
};
const size_t case_count = sizeof cases / sizeof *cases;
