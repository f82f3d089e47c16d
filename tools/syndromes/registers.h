/* The system registers that a case may change, each with what it holds before a case: every level can be reached, the MMU of EL1 and EL0 is on, that of EL2 and stage 2 are off, and
   nothing is trapped. A case flips bits of them. REGISTER(word, name of the assembler, value) */
REGISTER(SCR, "scr_el3", 0x4030531 | 1ull << 41)      /* NS, RES1, HCE, RW, APK, API, ATA, EnTP2 */
REGISTER(CPTR3, "cptr_el3", 0x1100)                   /* EZ, ESM: vector instructions are not trapped to EL3 */
REGISTER(SRE3, "icc_sre_el3", 15)                     /* SRE, DFB, DIB, Enable: the interrupt controller by system registers */
REGISTER(MDCR3, "mdcr_el3", 0)
REGISTER(HCR, "hcr_el2", 1ull << 31 | 3ull << 40 | 1ull << 56) /* RW, APK, API, ATA */
REGISTER(CPTR2, "cptr_el2", 0x22FF)                   /* RES1; TZ and TSM are 0 */
REGISTER(SRE2, "icc_sre_el2", 15)
REGISTER(HSTR, "hstr_el2", 0)
REGISTER(CNTHCTL, "cnthctl_el2", 3)                   /* EL1PCTEN, EL1PCEN */
REGISTER(SCTLR2, "sctlr_el2", 0x30C50838)             /* RES1, SA */
REGISTER(TCR2, "tcr_el2", 0x80800010)                 /* RES1, T0SZ 16, PS 32 bits */
REGISTER(VTCR, "vtcr_el2", 0x80000060)                /* RES1, SL0 1, T0SZ 32, PS 32 bits */
REGISTER(SCTLR1, "sctlr_el1", 0x34D5DA3D)             /* RES1, M, C, SA, SA0, CP15BEN, UMA, I, DZE, UCT, nTWI, nTWE, UCI */
REGISTER(TCR1, "tcr_el1", 0x80100010)                 /* T0SZ 16, T1SZ 16, granules of 4 KB, IPS 32 bits */
REGISTER(SRE1, "icc_sre_el1", 7)
REGISTER(CPACR, "cpacr_el1", 0x3330000)               /* ZEN, FPEN, SMEN */
REGISTER(MDSCR, "mdscr_el1", 0)
REGISTER(CNTKCTL, "cntkctl_el1", 0x303)               /* EL0PCTEN, EL0VCTEN, EL0VTEN, EL0PTEN */
REGISTER(PMUSERENR, "pmuserenr_el0", 1)               /* EN */
