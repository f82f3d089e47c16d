/* Sentences for people: help, and no judgement. By the number of a refusal: our own words where the proved functions have no message, and what it means. */

const REFUSALS = {
    1: ["", "Bits that are reserved hold something. Where a whole half of the value is ones, the entry was never written whole: do not order parts because of it."],
    2: ["", "No exception has this class. The value is no syndrome: look whether a digit is missing, or whether it is another register."],
    3: ["", "The fault status is none that this class can have. The value was damaged, or is of another register."],
    4: ["", "An external abort says how bad the error was, in SET, and this number means nothing."],
    5: ["", "An SError says how bad the error was, in AET, and this number means nothing."],
    6: ["", "This addressing mode is reserved: no trapped load or store has it."],
    7: ["", "A trapped LD64B or ST64B has 0, 1 or 2 here, and nothing else."],
    8: ["there is no digit", "Put the number first, as in 0x56000001; spaces may stand behind it."],
    9: ["a character is no digit", "A number is decimal, or hexadecimal after 0x with a small x; a remark goes behind a space."],
    10: ["the number does not fit 64 bits", "A syndrome has at most 16 hexadecimal digits: look whether two values stand together."],
    11: ["the room is too short", "The page lent too little memory: please report this."],
    12: ["the number does not fit its field", "Type a smaller number: the width of the field stands beside it."],
    13: ["there is no such record", "The page asked for a record too many: please report this."],
    14: ["the bytes end before the entry does", "The last entry is torn: its end was never written, or the file was cut."],
    15: ["the entry's length is not 11", "What stands here is no entry. If it is the first, this is another kind of file, or it does not begin at an entry."],
    16: ["the entry's version is not 1", "The entry has a form that is not known here: look for a newer page, or whether the file begins at an entry."],
    18: ["the table has not 64 places", "The page lent a wrong table: please report this."],
    19: ["the run is too long", "The page asked for too many values at once: please report this."],
    20: ["the block is longer than 65,536 bytes", "A fault block has at most 65,536 bytes. A file of values in lines goes to Count."],
    21: ["no layout of the class has these leaves", "With these conditions the class has other fields: see below which bits stand against it."],
    22: ["a number is wider than its field", "Type a smaller number: the width of the field stands beside it."],
    23: ["something else stands behind the number", "Only one number can stand here."],
    24: ["WU is 1, which is reserved", "The Arm manual reserves this value of WU; ordinary reading lets it pass."],
    25: ["VNCR is not 0, and the core has no nested virtualisation", "Switch nested virtualisation on if the core has it."],
    26: ["the sheet ends too early", "This is no whole phrase sheet: choose one that 'esr sheet --from' wrote, or copy it again."],
    27: ["the sheet's version is not 1", "This is no phrase sheet, or one of a form that is not known here."],
    28: ["a phrase runs past the end of its sheet", "The sheet is damaged: make it again with 'esr sheet --from'."],
    29: ["a phrase's code is not above the one before it", "The sheet is damaged: make it again with 'esr sheet --from'."],
};
const UNKNOWN = ["", "This page has no words for this number: include/esr.h lists all."];

export const reason = (number) => (REFUSALS[number] ?? UNKNOWN)[0];
export const meaning = (number) => (REFUSALS[number] ?? UNKNOWN)[1];

/* The marks of records, by number: a sign, a word and what it says. */
export const MARKS = [
    { sign: "○", word: "free", says: "nothing is asked of the field" },
    { sign: "◆", word: "coded", says: "the field is on its list" },
    { sign: "✓", word: "checked", says: "reserved, and 0" },
    { sign: "?", word: "unchecked", says: "reserved, and may hold anything" },
];
