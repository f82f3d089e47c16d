/* A value as the switches and the phrase sheet have it read: which of the proved functions is asked. */
import * as bytes from "./bytes.js";
import * as help from "./help.js";
import * as proved from "./proved.js";

/* What stands before ISS's own records, by include/esr.h: RES0, ISS2, EC, IL and ISS. */
export const TOP = 5;
const [ISS2, EC, IL, ISS] = [1, 2, 3, 4];

export const switches = { strict: false, nested: false, sheet: null };
let standard;

export function start() {
    standard = proved.standardSheet().bytes;
}

/* The answer of the decoder, ordinary or strict. */
export function read(esr) {
    return switches.strict ? proved.decodeStrict(esr, switches.nested ? 1 : 0) : proved.decode(esr);
}

/* The listing of a value that was read without a refusal. */
export function listing(esr) {
    return bytes.text((switches.sheet ? proved.listingWith(esr, switches.sheet, standard) : proved.listing(esr)).bytes);
}

/* A name or long name; each is asked for once. */
const names = new Map();

export function name(code) {
    if (!names.has(code)) names.set(code, bytes.text(proved.text(code).bytes));
    return names.get(code);
}

/* The text of a record, the sheet's where one is taken. */
export function text(code) {
    if (!switches.sheet || code === 0) return name(code);
    const place = proved.phrase(switches.sheet, standard, code);
    const sheet = [null, switches.sheet, standard][place.sheet];
    return sheet ? bytes.text(sheet.subarray(place.offset, place.offset + place.length)) : "";
}

/* Takes a sheet, and answers 0; or leaves it and answers why it is refused. */
export function takeSheet(sheet) {
    const { refusal } = sheet ? proved.phrase(sheet, standard, 0) : { refusal: 0 };
    if (!refusal) switches.sheet = sheet;
    return refusal;
}

/* Why something was refused: the proved message, or for a refusal that has none our own words. */
export function why(answer) {
    const said = proved.message(answer.refusal, answer.carried, answer.start, answer.width);
    return said.refusal ? help.reason(answer.refusal) : bytes.text(said.bytes);
}

export function refused(answer) {
    return `refused ${answer.refusal}: ${why(answer)}`;
}

/* The text of the class of an accepted value. */
export function classText(answer) {
    return text(answer.records[EC].text);
}

export function classString(answer) {
    const { width, value } = answer.records[EC];
    return bytes.text(proved.valueString(width, value).bytes);
}

/* The parts that the maker takes: the records of class, IL and ISS2, and those of ISS's leaves. */
export function parts(answer) {
    const { records } = answer;
    return { ec: records[EC], il: records[IL], iss2: records[ISS2], leaves: records.length > TOP ? records.slice(TOP) : [records[ISS]] };
}

/* The least ISS that makes an accepted value of a class, or null where there is no such class. Where class and ISS lie is what the decoder says of the value 0. */
const TRIES = 4096n;
const INVALID_EC = 2;

export function least(number) {
    const [ec, iss] = [EC, ISS].map((place) => proved.decode(0n).records[place].start);
    for (let tried = 0n; tried < TRIES; tried++) {
        const value = (BigInt(number) << BigInt(ec)) | (tried << BigInt(iss));
        const { refusal } = proved.decode(value);
        if (refusal === 0) return value;
        if (refusal === INVALID_EC) return null;
    }
    return null;
}

/* Every class that there is: its number, and an accepted value of it. */
let found;

export function classes() {
    const places = 1 << proved.decode(0n).records[EC].width;
    found ??= Array.from({ length: places }, (_, number) => ({ number, value: least(number) })).filter(({ value }) => value !== null);
    return found;
}
