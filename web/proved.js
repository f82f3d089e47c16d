/* The proved functions of include/esr.h, one to each. This module alone calls them. It copies bytes in and out and decides nothing: an answer has the members of the header's struct, and
   beside them what stands in the lent array. Numbers of 64 bits are BigInt. */

const ESR_RECORDS_MAX = 19;
const ESR_TEXT_MAX = 255;
const ESR_LISTING_MAX = 1053;
const ESR_LISTING_WITH_MAX = 5993;
export const ESR_ENTRY_SIZE = 13;
const ESR_STEPS_MAX = 5040;
const RECORD_SIZE = 16; /* sizeof(esr_record) */
const CLASSES = 64; /* the places of a survey's table */
const REFUSALS = 7; /* those of its answer */
const SHEET_MAX = 65537; /* the bytes of a sheet that are read */
const WIDTH_MAX = 66; /* "0b" and 64 digits; a message is shorter than two of them */

let functions, memory, view, base, free;

/* Takes the module's bytes. The module asks for nothing. */
export async function load(bytes) {
    const { instance } = await WebAssembly.instantiate(bytes, {});
    functions = instance.exports;
    memory = new Uint8Array(functions.memory.buffer);
    view = new DataView(functions.memory.buffer);
    base = (functions.__heap_base.value + 15) & ~15;
}

/* A call lends memory from its caller's part on: first the answer's place, then each array, aligned for any element. */
function begin() {
    free = base + 64;
}

function room(size) {
    const place = free;
    free = (free + size + 15) & ~15;
    if (free > memory.length) throw new RangeError("more bytes than the module has memory for");
    return place;
}

function lend(bytes) {
    const place = room(bytes.length);
    memory.set(bytes, place);
    return place;
}

const byte = (offset) => view.getUint8(base + offset);
const long = (offset) => view.getBigUint64(base + offset, true);
const size = (offset) => Number(long(offset));
const copied = (place, length) => memory.slice(place, place + length);
const refusedBy = (at) => ({ refusal: byte(at), start: byte(at + 1), width: byte(at + 2) });

/* esr_filled, with the bytes that were written. */
function written(place) {
    const count = size(8);
    return { carried: long(0), count, ...refusedBy(16), bytes: copied(place, count) };
}

function records(place, count) {
    const all = [];
    for (let at = place; at < place + count * RECORD_SIZE; at += RECORD_SIZE) {
        all.push({
            value: view.getBigUint64(at, true),
            name: view.getUint16(at + 8, true),
            text: view.getUint16(at + 10, true),
            long_name: view.getUint8(at + 12),
            start: view.getUint8(at + 13),
            width: view.getUint8(at + 14),
            mark: view.getUint8(at + 15),
        });
    }
    return all;
}

export function decode(esr) {
    begin();
    const slots = room(ESR_RECORDS_MAX * RECORD_SIZE);
    functions.esr_decode(base, esr, slots, BigInt(ESR_RECORDS_MAX));
    return { carried: long(0), count: size(8), ...refusedBy(16), records: records(slots, size(8)) };
}

export function decodeStrict(esr, nested) {
    begin();
    const slots = room(ESR_RECORDS_MAX * RECORD_SIZE);
    functions.esr_decode_strict(base, esr, nested, slots, BigInt(ESR_RECORDS_MAX));
    return { carried: long(0), count: size(8), ...refusedBy(16), records: records(slots, size(8)) };
}

export function text(code) {
    begin();
    const buffer = room(ESR_TEXT_MAX);
    functions.esr_text(base, code, buffer, BigInt(ESR_TEXT_MAX));
    return written(buffer);
}

export function listing(esr) {
    begin();
    const buffer = room(ESR_LISTING_MAX);
    functions.esr_listing(base, esr, buffer, BigInt(ESR_LISTING_MAX));
    return written(buffer);
}

export function listingWith(esr, workshop, standard) {
    begin();
    const [first, second, buffer] = [lend(workshop), lend(standard), room(ESR_LISTING_WITH_MAX)];
    functions.esr_listing_with(base, esr, first, BigInt(workshop.length), second, BigInt(standard.length), buffer, BigInt(ESR_LISTING_WITH_MAX));
    return written(buffer);
}

export function standardSheet() {
    begin();
    const buffer = room(SHEET_MAX);
    functions.esr_standard_sheet(base, buffer, BigInt(SHEET_MAX));
    return written(buffer);
}

export function recordLine(esr, index) {
    begin();
    const buffer = room(ESR_LISTING_MAX);
    functions.esr_record_line(base, esr, BigInt(index), buffer, BigInt(ESR_LISTING_MAX));
    return written(buffer);
}

export function valueString(width, value) {
    begin();
    const buffer = room(WIDTH_MAX);
    functions.esr_value_string(base, BigInt(width), value, buffer, BigInt(WIDTH_MAX));
    return written(buffer);
}

export function valueBinaryString(width, value) {
    begin();
    const buffer = room(WIDTH_MAX);
    functions.esr_value_binary_string(base, BigInt(width), value, buffer, BigInt(WIDTH_MAX));
    return written(buffer);
}

export function message(number, carried, start, width) {
    begin();
    const buffer = room(2 * WIDTH_MAX);
    functions.esr_message(base, BigInt(number), carried, BigInt(start), BigInt(width), buffer, BigInt(2 * WIDTH_MAX));
    return written(buffer);
}

export function parseNumber(characters) {
    begin();
    functions.esr_parse_number(base, lend(characters), BigInt(characters.length));
    return { value: long(0), carried: long(8), ...refusedBy(16) };
}

export function readNumber(characters) {
    begin();
    functions.esr_read_number(base, lend(characters), BigInt(characters.length));
    return { value: long(0), carried: long(8), taken: size(16), ...refusedBy(24) };
}

/* esr_read_number of every line of many bytes, which are lent once: the values, and how many lines hold none. A line ends before a line feed, the last where the bytes end. */
export function readLines(bytes) {
    begin();
    const place = lend(bytes);
    const end = place + bytes.length;
    const values = new Uint32Array(2 * Math.ceil(bytes.length / 2));
    let [count, none] = [0, 0];
    for (let at = place, next; at < end; at = next + 1) {
        next = memory.indexOf(10, at);
        if (next < 0 || next > end) next = end;
        functions.esr_read_number(base, at, BigInt(next - at));
        if (byte(24)) none++;
        else {
            values[count++] = view.getUint32(base, true);
            values[count++] = view.getUint32(base + 4, true);
        }
    }
    return { values: new BigUint64Array(values.buffer, 0, count / 2), none };
}

export function phrase(workshop, standard, code) {
    begin();
    const [first, second] = [lend(workshop), lend(standard)];
    functions.esr_phrase(base, first, BigInt(workshop.length), second, BigInt(standard.length), code);
    return { carried: long(0), offset: size(8), length: size(16), sheet: byte(24), ...refusedBy(25) };
}

export function readEntry(block) {
    begin();
    functions.esr_read_entry(base, lend(block), BigInt(block.length));
    return { esr: long(0), carried: long(8), body: size(16), body_length: size(24), sequence: view.getUint16(base + 32, true), ...refusedBy(34) };
}

export function walk(block) {
    begin();
    const [place, steps] = [lend(block), room(2 * ESR_STEPS_MAX)];
    functions.esr_walk(base, place, BigInt(block.length), steps, BigInt(ESR_STEPS_MAX));
    const entries = size(8);
    const skipped = new Uint16Array(copied(steps, 2 * Math.max(entries - 1, 0)).buffer);
    return { carried: long(0), entries, decoded: size(16), offset: size(24), ended: byte(32), ...refusedBy(33), steps: skipped };
}

export function make(ec, il, iss2, leaves) {
    begin();
    const place = lend(new Uint8Array(BigUint64Array.from(leaves).buffer));
    functions.esr_make(base, ec, il, iss2, place, BigInt(leaves.length));
    return { value: long(0), carried: long(8), ...refusedBy(16) };
}

/* Takes a BigUint64Array. */
export function survey(values) {
    begin();
    const [place, counts] = [lend(new Uint8Array(values.buffer, values.byteOffset, values.byteLength)), room(4 * CLASSES)];
    functions.esr_survey(base, place, BigInt(values.length), counts, BigInt(CLASSES));
    const refused = new Uint32Array(copied(base + 8, 4 * REFUSALS).buffer);
    return { carried: long(0), refused, ...refusedBy(36), counts: new Uint32Array(copied(counts, 4 * CLASSES).buffer) };
}
