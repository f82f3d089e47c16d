/* The immediates of the smc by which a lower level hands on an exception that it took (start.S), and that of the svc which ends the instructions of a case. */
#define TAKEN_AT_EL1 0xE1E1
#define TAKEN_AT_EL2 0xE2E2
#define NOTHING_TAKEN 0xE0E0
