/* Asks the proved functions by way of web/proved.js, for tools/web-test, which puts a copy of it beside this file.

     node binding.mjs MODULE records    a number to a line; prints the blocks of tools/records.c
     node binding.mjs MODULE ask        a request to a line, [NAME, ARGUMENT..] in JSON; prints the answer in JSON

   Bytes are {"bytes": HEX}, numbers of 64 bits {"long": DECIMAL}, lists of them {"longs": [DECIMAL..]}; in answers hexadecimal, decimal and lists. */
import fs from "node:fs";
import * as proved from "./proved.mjs";

const TOP = 5;
const MARKS = ["free", "coded", "checked", "unchecked"];
const words = (bytes) => Buffer.from(bytes).toString();
const named = (code) => words(proved.text(code).bytes) || "-";

function record({ value, name, text, long_name, start, width, mark }, place) {
    return [place < TOP ? 0 : 1, named(name), named(long_name), start, width, `0x${value.toString(16)}`, named(text), MARKS[mark]].join("|");
}

function refusal({ refusal, carried, start, width }) {
    const bits = refusal === 1 ? ` start=${start} width=${width}` : "";
    return `refused ${refusal} carried=0x${carried.toString(16)}${bits} ${words(proved.message(refusal, carried, start, width).bytes)}`;
}

function block(line) {
    const number = proved.parseNumber(Buffer.from(line));
    if (number.refusal) return [`refused ${number.refusal}`];
    const answer = proved.decode(number.value);
    return [`> 0x${number.value.toString(16)}`, ...(answer.refusal ? [refusal(answer)] : answer.records.map(record))];
}

function argument(given) {
    if (given.bytes !== undefined) return Uint8Array.from(Buffer.from(given.bytes, "hex"));
    if (given.long !== undefined) return BigInt(given.long);
    if (given.longs !== undefined) return BigUint64Array.from(given.longs, BigInt);
    return given;
}

function plain(_, value) {
    if (typeof value === "bigint") return value.toString();
    if (value instanceof Uint8Array) return Buffer.from(value).toString("hex");
    if (value instanceof BigUint64Array) return Array.from(value, String);
    return ArrayBuffer.isView(value) ? Array.from(value, Number) : value;
}

function asked(line) {
    const [name, ...given] = JSON.parse(line);
    return [JSON.stringify(proved[name](...given.map(argument)), plain)];
}

const [path, mode] = process.argv.slice(2);
await proved.load(fs.readFileSync(path));
const lines = fs.readFileSync(0, "utf8").split("\n").slice(0, -1);
process.stdout.write(lines.flatMap(mode === "records" ? block : asked).map((line) => `${line}\n`).join(""));
