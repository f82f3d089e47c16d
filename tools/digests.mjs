/* The digests of tools/digests.c, of the WebAssembly: node digests.mjs FILE FIRST END, for the classes from FIRST to before END. It calls the functions without web/proved.js, which would take longer
   than they do. */
import fs from "node:fs";

const [VALUES, RUN, TOP, RECORDS, LISTING] = [1 << 20, 1 << 12, 5, 19, 1053];
const [path, begin, end] = process.argv.slice(2);
const { instance } = await WebAssembly.instantiate(fs.readFileSync(path), {});
const functions = instance.exports;
const bytes = new Uint8Array(functions.memory.buffer);
const words = new Uint32Array(functions.memory.buffer);
const longs = new BigUint64Array(functions.memory.buffer);
const answer = (functions.__heap_base.value + 15) & ~15;
const [slots, text, leaves, counts, run] = [64, 1024, 4096, 8192, 16384].map((offset) => answer + offset);
const [nineteen, most, sixtyFour, runLength] = [RECORDS, LISTING, 64, RUN].map(BigInt);
let [first, second] = [0, 0];

function word(given) {
    first = Math.imul(first ^ given, 0x01000193);
    second = Math.imul(second ^ given, 0x85ebca6b);
    second ^= second >>> 13;
}

function mixed(given) {
    given = Math.imul(given, 0x9e3779b1);
    given ^= given >>> 15;
    given = Math.imul(given, 0x85ebca77);
    return (given ^ (given >>> 13)) >>> 0;
}

/* Writes a value as two words. */
function value(place, number, count) {
    const chance = mixed((number << 20) | count);
    const above = chance & 1 ? 16 | ((chance >>> 1) & 15) : 0;
    if ((chance & 7) === 0) count &= 63 | (chance >>> 12);
    words[place] = (number << 26) | (((chance >>> 5) & 1) << 25) | (above << 20) | count;
    words[place + 1] = ((chance >>> 6) & 31) | (((chance >>> 11) & 1023) === 0 ? (chance >>> 21) << 5 : 0);
}

/* An answer from its carried on, with its count where it has one and its refusal at an offset. */
function refusal(carried, count, at) {
    word(words[carried / 4]);
    word(words[carried / 4 + 1]);
    word(count === null ? 0 : words[count / 4]);
    word(count === null ? 0 : words[count / 4 + 1]);
    word(bytes[at] | (bytes[at + 1] << 8) | (bytes[at + 2] << 16));
}

const filled = () => refusal(answer, answer + 8, answer + 16);

function decoded() {
    filled();
    const end = (slots + 16 * words[answer / 4 + 2]) / 4;
    for (let at = slots / 4; at < end; at++) word(words[at]);
}

function listed(esr) {
    functions.esr_decode(answer, esr, slots, nineteen);
    const count = words[answer / 4 + 2];
    functions.esr_listing(answer, esr, text, most);
    filled();
    const length = words[answer / 4 + 2];
    for (let at = text; at < text + length; at++) word(bytes[at]);
    const record = (place) => longs[(slots + 16 * place) / 8];
    for (let place = TOP; place < count; place++) longs[leaves / 8 + place - TOP] = record(place);
    functions.esr_make(answer, record(2), record(3), record(1), leaves, BigInt(count - TOP));
    word(words[answer / 4]);
    word(words[answer / 4 + 1]);
    refusal(answer + 8, null, answer + 16);
}

function surveyed() {
    functions.esr_survey(answer, run, runLength, counts, sixtyFour);
    for (let place = 0; place < 7; place++) word(words[answer / 4 + 2 + place]);
    for (let place = 0; place < 64; place++) word(words[counts / 4 + place]);
}

function ofClass(number) {
    let accepted = 0;
    first = second = 0x811c9dc5 | 0;
    for (let count = 0; count < VALUES; count++) {
        const place = run + 8 * (count % RUN);
        value(place / 4, number, count);
        const esr = longs[place / 8];
        functions.esr_decode(answer, esr, slots, nineteen);
        decoded();
        const sound = bytes[answer + 16] === 0;
        accepted += sound;
        if (sound && count % 16 === 0) {
            functions.esr_decode_strict(answer, esr, (count / 16) % 2, slots, nineteen);
            decoded();
            listed(esr);
        }
        if (count % RUN === RUN - 1) surveyed();
    }
    return accepted;
}

for (let number = Number(begin); number < Number(end); number++) {
    const accepted = ofClass(number);
    console.log(number, accepted, ...[first, second].map((each) => (each >>> 0).toString(16)));
}
