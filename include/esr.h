/* Arm exception syndromes (ESR_ELx), decoded: the C functions of libesr.a, for AArch64 (bare metal or Linux) and for x86-64.

   Every function takes any value, bytes and lengths. It never allocates, keeps no state, and calls nothing but memcpy and memset.
   Each is proved to answer what its promise says (crates/capi/specs/Promises.antt); what is said here is that promise in words. The layout
   of the structs below is not proved: the assertions at the end and tools/capi hold it against the archive.

   What the caller owes: a pointer that is not null, also where the length is 0, to as many elements as the length says, which nothing else
   writes during the call. C99. Both archives are little-endian. The one for AArch64 uses no floating-point or vector register
   and makes no unaligned access. */
#ifndef ESR_H
#define ESR_H

#include <stddef.h>
#include <stdint.h>

#ifdef __cplusplus
extern "C" {
#endif

/* Why an answer was refused: the member refusal of every answer. What it carries stands in the member carried, 0 where nothing is said. A refusal by
   ESR_INVALID_RES0 names its field too: bits start .. start + width of the 64-bit value, the end not counted. The members start and width are 0 in every other
   answer. */
enum {
    ESR_ACCEPTED = 0,
    ESR_INVALID_RES0 = 1,      /* a checked reserved field isn't 0; that field's value, shifted down */
    ESR_INVALID_EC = 2,        /* class not tabulated; the class */
    ESR_INVALID_FSC = 3,       /* a status that is read isn't on its list; the status */
    ESR_INVALID_SET = 4,       /* status 0x10 in an abort class and SET = 1; SET */
    ESR_INVALID_AET = 5,       /* AET 4, 5 or 7 where AET is read; AET */
    ESR_INVALID_AM = 6,        /* AM 5 or 7, in strict reading 4 and 6 too; AM */
    ESR_INVALID_LD64B_ISS = 7, /* class 0x0A, ISS above 2; ISS */
    ESR_EMPTY = 8,             /* a number without characters after any "0x" */
    ESR_INVALID_DIGIT = 9,     /* a number with a character that is not a digit */
    ESR_POS_OVERFLOW = 10,     /* a number past 2^64-1 */
    ESR_SHORT_BUFFER = 11,     /* what is to be written is longer than the array; the bytes or slots needed */
    ESR_BAD_FIELD = 12,        /* width not 1..64, value not below 2^width, a message asked for outside 1 to 7, or that of 1 for bits past 64 */
    ESR_BAD_INDEX = 13,        /* record index not below the record count; the count */
    ESR_SHORT_ENTRY = 14,      /* fewer bytes than an entry's length takes, or than it says */
    ESR_BAD_LENGTH = 15,       /* an entry's length is not 11 */
    ESR_BAD_VERSION = 16,      /* an entry's version is not 1 */
    /* 17 is unused and is not given again: it stood for SAS or TI above 3, and both are two bits wide. */
    ESR_BAD_TABLE = 18,        /* a table of counts that has not exactly 64 places */
    ESR_LONG_RUN = 19,         /* a run of 2^32 values or more */
    ESR_LONG_BLOCK = 20,       /* a block of more than 65,536 bytes */
    ESR_NO_LAYOUT = 21,        /* no layout of the class has that many leaves and fits its conditions */
    ESR_WIDE_LEAF = 22,        /* a leaf or ISS2 that doesn't fit its width, or an IL that isn't 0 or 1 */
    ESR_BAD_REST = 23,         /* something else than a space, tab, carriage return or line feed stands behind a number */
    ESR_INVALID_WU = 24,       /* strict reading: WU 1 where WU is read */
    ESR_INVALID_VNCR = 25,     /* strict reading: VNCR is not 0, and the core has no nested virtualisation */
    ESR_SHORT_SHEET = 26,      /* a phrase sheet of fewer than two bytes, of length 0 or of fewer bytes than it asks, or a phrase's head of under three */
    ESR_BAD_SHEET_VERSION = 27, /* a sheet's version is not 1 */
    ESR_LONG_PHRASE = 28,      /* a phrase's count runs past the end of its sheet */
    ESR_CODE_NOT_RISING = 29   /* a phrase's code is not above the one before it */
};

/* As many records as any value has: 14 inside ISS, 19 in all. */
#define ESR_RECORDS_MAX 19

/* No name or text has more bytes: proved. */
#define ESR_TEXT_MAX 255

/* An array of so many bytes holds the listing of any value. This is proved. */
#define ESR_LISTING_MAX 1053

/* The same of a listing with the texts of any two phrase sheets. This is proved. */
#define ESR_LISTING_WITH_MAX 5993

/* Whether a field was checked: the member mark of a record. What is said of a checked and of a coded field is proved of every accepted value. */
enum {
    ESR_MARK_FREE = 0,     /* nothing is asked of it */
    ESR_MARK_CODED = 1,    /* on its list, or the value would have been refused by one of 2 to 7 */
    ESR_MARK_CHECKED = 2,  /* reserved, and 0, or the value would have been refused by 1 */
    ESR_MARK_UNCHECKED = 3 /* reserved, and may hold anything: bits 11 and 12 of an abort without SET */
};

/* A field of a value: bits start .. start + width, shifted down. name, text and long_name are codes, for esr_text; the code 0 is none. */
typedef struct esr_record {
    uint64_t value;
    uint16_t name;
    uint16_t text;
    uint8_t long_name;
    uint8_t start;
    uint8_t width;
    uint8_t mark;
} esr_record;

/* How many elements of the caller's array, from its front, now hold the answer; 0 on a refusal. */
typedef struct esr_filled {
    uint64_t carried;
    size_t count;
    uint8_t refusal;
    uint8_t start;
    uint8_t width;
} esr_filled;

/* A number that was read, or a value that was made; 0 on a refusal. */
typedef struct esr_number {
    uint64_t value;
    uint64_t carried;
    uint8_t refusal;
    uint8_t start;
    uint8_t width;
} esr_number;

typedef struct esr_number_read {
    uint64_t value;
    uint64_t carried;
    size_t taken;
    uint8_t refusal;
    uint8_t start;
    uint8_t width;
} esr_number_read;

/* The body is block[body] to block[body + body_length - 1], those same bytes of the caller's block. */
typedef struct esr_entry {
    uint64_t esr;
    uint64_t carried;
    size_t body;
    size_t body_length;
    uint16_t sequence;
    uint8_t refusal;
    uint8_t start;
    uint8_t width;
} esr_entry;

/* Where a walk over a block ended, and the refusal of the bad entry that ended it, 0 where none did. */
typedef struct esr_walked {
    uint64_t carried;
    size_t entries;
    size_t decoded;
    size_t offset;
    uint8_t ended;
    uint8_t refusal;
    uint8_t start;
    uint8_t width;
} esr_walked;

/* How many of the values each refusal refused: refused[0] by ESR_INVALID_RES0, and so on to refused[6] by ESR_INVALID_LD64B_ISS. */
typedef struct esr_surveyed {
    uint64_t carried;
    uint32_t refused[7];
    uint8_t refusal;
    uint8_t start;
    uint8_t width;
} esr_surveyed;

/* Where a phrase lies: bytes offset to offset + length - 1 of one of the caller's sheets. */
typedef struct esr_phrase_place {
    uint64_t carried;
    size_t offset;
    size_t length;
    uint8_t sheet;
    uint8_t refusal;
    uint8_t start;
    uint8_t width;
} esr_phrase_place;

/* The member sheet: which sheet has the phrase. */
enum {
    ESR_NEITHER_SHEET = 0,
    ESR_WORKSHOP_SHEET = 1,
    ESR_STANDARD_SHEET = 2
};

/* Decodes a value into the front of the caller's array: RES0, ISS2, EC, IL and ISS, then ISS's own records, from high bits to low.
   First bits 37 to 63 must be 0, then the class is looked up, then its layout's checks in their order; the first failure answers, by 1 to 7, and
   where that is a reserved field, start and width name it. Then an array that has fewer slots than there are records is refused by 11, which
   carries the slots needed. A refusal leaves the array as it was; accepted, the slots after the records stay as they were. Of a trapped MSR or MRS, class 0x18, the
   text of ISS is the name of the system register, as "SCTLR_EL1" in 0x62300401, if it is one of the 64 that have one. */
esr_filled esr_decode(uint64_t esr, esr_record *slots, size_t length);

/* Decodes a value as esr_decode does, and then asks what the Arm manual asks beyond it, which is meant for a release. What esr_decode refuses is refused by the same number, carrying
   and naming the same. Of what it accepts, the first field from high bits to low answers that is one of these: WU 1, in data aborts and SErrors where WU is read, by 24; VNCR other than 0, in data aborts and
   watchpoints, by 25, unless nested is not 0, which says that the core has nested virtualisation; bits 11 and 12 of an abort without SET other than 0, by 1, naming them; AM 4 or 6, by 6. 24
   and 25 carry 0. A value that is accepted has the records that esr_decode gives, marks included: a mark says what the ordinary decoder asks. Then 11 as above; a refusal leaves the array as it was. */
esr_filled esr_decode_strict(uint64_t esr, uint8_t nested, esr_record *slots, size_t length);

/* Writes the name, long name or text of a code into the front of the buffer, without a 0 after it. 11 where the text is longer than the
   buffer, carrying the bytes needed; the buffer then stays as it was. Accepted, the bytes after the text stay. A code of no text gives
   0 bytes. */
esr_filled esr_text(uint16_t code, uint8_t *buffer, size_t length);

/* The seven functions below write a text, or a sheet, into the front of the buffer, without a 0 after it: count is its bytes, and the bytes after it stay
   as they were. A text longer than the buffer is refused by 11, which carries the bytes needed (so that a length of 0 asks for them); every
   other refusal comes before 11. A refusal leaves the buffer as it was. */

/* The listing of a value: for each record its line, then "# " and its text if it has one, each ended by one line feed; ISS's own are indented
   two spaces, text lines too. A value that esr_decode refuses is refused by the same number, carrying and naming the same. */
esr_filled esr_listing(uint64_t esr, uint8_t *buffer, size_t length);

/* The same listing with the texts of two phrase sheets in place of its own: the text after "# " is the phrase of its code, the workshop's if it has one, otherwise the
   standard one's, byte for byte. A phrase that is empty leaves "# "; a text that neither sheet has is left out with its line. A phrase is not looked into: a line feed
   in it ends the line there, and what follows stands on a line of its own, without "# " and indent. With what esr_standard_sheet writes as either sheet, and no text in the other, it
   is the listing of esr_listing; beside any workshop's sheet no text is missing then. Both are proved. First the refusals of esr_decode, then those of the sheets, 26 to 29 (see esr_phrase), then 11. */
esr_filled esr_listing_with(uint64_t esr, const uint8_t *workshop, size_t workshop_length, const uint8_t *standard, size_t standard_length, uint8_t *buffer, size_t length);

/* The standard phrase sheet: every text that a record can have, in the words of esr_text and under its code, and no other code. The words of messages are not among them, nor names. */
esr_filled esr_standard_sheet(uint8_t *buffer, size_t length);

/* The line of one record of a value, RES0 at index 0 and ISS's own records from 5 on: name, ": " and the value; width 1 prints true or false,
   wider "0x" and ceil(width/4) digits, small letters, a space, "0b" and width digits. No indent, text or line feed. A value that esr_decode
   refuses is refused by the same number; then an index not below the count of records by 13, which carries the count. */
esr_filled esr_record_line(uint64_t esr, size_t index, uint8_t *buffer, size_t length);

/* A field's value: width 1 prints true or false, wider "0x" and ceil(width/4) digits, small letters. 12 where width is not 1 to 64 or value not
   below 2^width. */
esr_filled esr_value_string(uint64_t width, uint64_t value, uint8_t *buffer, size_t length);

/* A field's value as "0b" and width digits, for width 1 too. 12 as above. */
esr_filled esr_value_binary_string(uint64_t width, uint64_t value, uint8_t *buffer, size_t length);

/* The message of a refusal, by its number, what it carries, in unpadded hex, and for 1 the bits of its field: "Invalid ESR, res0 is 0x1, bits 16..25", the end
   not counted. 12 for any number but 1 to 7; for 1, 12 where width is not 1 to 64, start + width is above 64 or carried not below 2^width. For 2 to 7
   start and width do not matter. */
esr_filled esr_message(uint64_t number, uint64_t carried, uint64_t start, uint64_t width, uint8_t *buffer, size_t length);

/* Reads a number: an exact "0x" selects base 16 (letters of either case), else 10. Then one "+" may stand if a character follows. Characters
   go left to right: not a digit is 9; a digit that takes the result past 2^64-1 is 10; the first offender answers. No characters after any
   "0x" is 8. The value of a refused number is 0. The number ends at the first stop: a space, tab, carriage return or line feed. Behind it only stops
   may stand: anything else is 23, after 8 to 10. So "12\r\n" is 12, and "12 3" is refused. */
esr_number esr_parse_number(const uint8_t *characters, size_t length);

/* Reads the number at the front of a line, as above, as far as the first stop or the end: value is the number and taken the bytes that stand before the
   stop, so that characters[taken] is the stop, or taken is length. What stands behind it is not looked at. Input that begins with a stop is 8, as is "0x" followed by
   one. A refused number has the value 0 and takes 0 bytes. */
esr_number_read esr_read_number(const uint8_t *characters, size_t length);

/* Looks the phrase of a code up in two phrase sheets: sheet says which has it, the workshop's if the code is there, otherwise the standard one, and offset and length
   where it lies in that sheet, those same bytes of the caller's. A code that neither has gives ESR_NEITHER_SHEET and 0 bytes; an empty phrase has 0 bytes and a sheet. A sheet: two bytes of length (bytes that follow),
   big-endian, version 1, then phrases, each of a two-byte code, big-endian, a one-byte count and that many bytes, codes strictly rising. Bytes past the length are not read. Refusals, the workshop's sheet first and
   wholly: 26 for fewer than two bytes, length 0 or fewer bytes than it asks, 27 for the version, then phrase by phrase 26 for a head of under three bytes, 28 for a count running past the
   end, 29 for a code not rising. Of a refusal sheet, offset and length are 0. */
esr_phrase_place esr_phrase(const uint8_t *workshop, size_t workshop_length, const uint8_t *standard, size_t standard_length, uint16_t code);

/* Reads the flash entry at the front of a block, big-endian: two bytes of length (bytes that follow), version 1, two of sequence, eight of
   ESR; so length 11, 13 bytes in all. Order: fewer than 2 bytes, 14; length 0, 15; fewer than 2 + length, 14; version, 16; length not 11,
   15. Accepted: sequence, ESR and the body, the 11 bytes after the length. On a refusal they are 0 and the body is empty. The ESR itself
   isn't judged here: esr_decode does that. */
esr_entry esr_read_entry(const uint8_t *block, size_t length);

/* The bytes of an entry, its length's two included; an array of so many places holds the steps of any block, which is proved. */
#define ESR_ENTRY_SIZE 13
#define ESR_STEPS_MAX 5040

/* The step to an entry with an equal number: nothing was lost, and one was written twice. */
#define ESR_SAME_SEQUENCE 65535

/* Walks over a block of entries, which stand one after another from its front, each ESR_ENTRY_SIZE bytes. entries is how many were read, decoded how many of their values
   esr_decode accepts. The walk ends at the end of the block, at two bytes 0xFF 0xFF at an entry's place, or at the first bad entry: offset says where, and
   ended is the refusal of that entry, 14, 15 or 16, or 0 where none is bad. A single byte left at the end is a bad entry. The front of the caller's array gets for each
   step from one entry to the next how many sequence numbers were skipped, where after 65535 comes 0: 0 where none is lost, and ESR_SAME_SEQUENCE where the number is the same.
   The places after the steps, one less than there are entries, stay as they were. A block of more than 65536 bytes is refused by 20; then an array that has fewer places than
   there are steps by 11, which carries the places needed. A refusal leaves the array as it was, and the other members are 0. */
esr_walked esr_walk(const uint8_t *block, size_t length, uint16_t *steps, size_t places);

/* Makes a value of its class, IL, ISS2 and the values of ISS's leaves, which are its fields from high bits to low, RES0 among them, or ISS itself where it is undivided. The
   rows are those of the class's layout that has so many leaves and whose conditions the leaves meet: bit 24 of data aborts, software steps and SErrors, the status, FnV and WnRV. There is at most one
   such set of rows. 2 for a class that is not tabulated, which it carries; then 21 where no layout of the class has that many leaves and fits its conditions; then 22 where a leaf is not below
   2^width of its row, ISS2 not below 32 or IL neither 0 nor 1; then what esr_decode refuses of the value, carrying and naming the same. What is made decodes to exactly these
   leaves, class, IL and ISS2, and those of any value that esr_decode accepts make that value again: both are proved. The value of a refusal is 0. Any number may be passed, and any length. */
esr_number esr_make(uint64_t ec, uint64_t il, uint64_t iss2, const uint64_t *leaves, size_t length);

/* Counts a run of values: each of the 64 counts is set to how many of them esr_decode accepts and are of that class, whatever it held, and the answer has how
   many are refused, by number. All counts together are the number of values, and those of a run of two parts are the sums of those of the parts. 18 where the
   table has not exactly 64 places, then 19 for 2^32 values or more, of which none is read. A refusal leaves the table as it was, and its counts are 0. */
esr_surveyed esr_survey(const uint64_t *values, size_t length, uint32_t *counts, size_t places);

/* What the archive takes for granted of the compiler. A false line does not compile. */
#define ESR_HOLDS(name, fact) typedef char esr_holds_##name[(fact) ? 1 : -1]
ESR_HOLDS(record, sizeof(esr_record) == 16 && offsetof(esr_record, value) == 0);
ESR_HOLDS(record_codes, offsetof(esr_record, name) == 8 && offsetof(esr_record, text) == 10 && offsetof(esr_record, long_name) == 12);
ESR_HOLDS(record_bits, offsetof(esr_record, start) == 13 && offsetof(esr_record, width) == 14 && offsetof(esr_record, mark) == 15);
ESR_HOLDS(filled, sizeof(esr_filled) == 24 && offsetof(esr_filled, count) == 8 && offsetof(esr_filled, refusal) == 16);
ESR_HOLDS(filled_bits, offsetof(esr_filled, start) == 17 && offsetof(esr_filled, width) == 18);
ESR_HOLDS(number, sizeof(esr_number) == 24 && offsetof(esr_number, carried) == 8 && offsetof(esr_number, refusal) == 16);
ESR_HOLDS(number_bits, offsetof(esr_number, start) == 17 && offsetof(esr_number, width) == 18);
ESR_HOLDS(number_read, sizeof(esr_number_read) == 32 && offsetof(esr_number_read, carried) == 8 && offsetof(esr_number_read, taken) == 16);
ESR_HOLDS(number_read_bits, offsetof(esr_number_read, refusal) == 24 && offsetof(esr_number_read, start) == 25 && offsetof(esr_number_read, width) == 26);
ESR_HOLDS(entry, sizeof(esr_entry) == 40 && offsetof(esr_entry, carried) == 8 && offsetof(esr_entry, body) == 16);
ESR_HOLDS(entry_rest, offsetof(esr_entry, body_length) == 24 && offsetof(esr_entry, sequence) == 32 && offsetof(esr_entry, refusal) == 34);
ESR_HOLDS(entry_bits, offsetof(esr_entry, start) == 35 && offsetof(esr_entry, width) == 36);
ESR_HOLDS(walked, sizeof(esr_walked) == 40 && offsetof(esr_walked, entries) == 8 && offsetof(esr_walked, decoded) == 16);
ESR_HOLDS(walked_rest, offsetof(esr_walked, offset) == 24 && offsetof(esr_walked, ended) == 32 && offsetof(esr_walked, refusal) == 33);
ESR_HOLDS(walked_bits, offsetof(esr_walked, start) == 34 && offsetof(esr_walked, width) == 35);
ESR_HOLDS(phrase_place, sizeof(esr_phrase_place) == 32 && offsetof(esr_phrase_place, offset) == 8 && offsetof(esr_phrase_place, length) == 16);
ESR_HOLDS(phrase_place_rest, offsetof(esr_phrase_place, sheet) == 24 && offsetof(esr_phrase_place, refusal) == 25);
ESR_HOLDS(phrase_place_bits, offsetof(esr_phrase_place, start) == 26 && offsetof(esr_phrase_place, width) == 27);
ESR_HOLDS(surveyed, sizeof(esr_surveyed) == 40 && offsetof(esr_surveyed, refused) == 8 && offsetof(esr_surveyed, refusal) == 36);
ESR_HOLDS(surveyed_bits, offsetof(esr_surveyed, start) == 37 && offsetof(esr_surveyed, width) == 38);
#undef ESR_HOLDS
#if defined(__BYTE_ORDER__) && __BYTE_ORDER__ != __ORDER_LITTLE_ENDIAN__
#error "a slot holds name, text, long_name, start, width and mark as one 64-bit word, whose bytes lie in this order on a little-endian machine alone"
#endif

#ifdef __cplusplus
}
#endif

#endif
