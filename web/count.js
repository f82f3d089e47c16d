/* The panel of a file of values: the survey, as bars by class and refusals by number. */
import * as dom from "./dom.js";
import * as help from "./help.js";
import * as proved from "./proved.js";
import * as reading from "./reading.js";

const CHUNK = 1 << 17; /* bytes that are read at a time, and the most that a line may have */
let bar, stop, said, shownCounts;
let given = null;
let runs = 0;

const FEED = 10;

function joined(first, second) {
    const both = new Uint8Array(first.length + second.length);
    both.set(first);
    both.set(second, first.length);
    return both;
}

/* The counts of some values. Strict reading has no survey of its own: what it refuses is counted by its number, and the rest is surveyed. */
function add(totals, values) {
    const kept = reading.switches.strict ? values.filter((value) => tallied(totals, reading.read(value).refusal)) : values;
    const { refused, counts } = proved.survey(kept);
    counts.forEach((count, number) => (totals.classes[number] += count));
    refused.forEach((count, place) => count && (totals.refused[place + 1] = (totals.refused[place + 1] ?? 0) + count));
}

function tallied(totals, refusal) {
    if (refusal) totals.refused[refusal] = (totals.refused[refusal] ?? 0) + 1;
    return refusal === 0;
}

function addLines(totals, lines) {
    const { values, none } = proved.readLines(lines);
    totals.none += none;
    totals.values += values.length;
    add(totals, values);
}

/* Reads a file part by part. Answers its counts, or null where another run began meanwhile, or a sentence. */
async function surveyed(file, run, progress) {
    const totals = { classes: Array(64).fill(0), refused: {}, none: 0, values: 0 };
    let rest = new Uint8Array(0);
    for (let at = 0; at < file.size; at += CHUNK) {
        const part = joined(rest, new Uint8Array(await file.slice(at, at + CHUNK).arrayBuffer()));
        if (run !== runs) return null;
        const end = part.lastIndexOf(FEED) + 1;
        rest = part.slice(end);
        if (rest.length > CHUNK) return `Line ${(totals.values + totals.none + 1).toLocaleString("en")} has more than ${CHUNK.toLocaleString("en")} bytes: this is no file of values, a number to a line. A fault block goes to Block.`;
        addLines(totals, part.subarray(0, end));
        progress(Math.min(at + CHUNK, file.size) / file.size);
    }
    addLines(totals, rest);
    return totals;
}

function classTexts() {
    return Object.fromEntries(reading.classes().map(({ number, value }) => [number, reading.classText(proved.decode(value))]));
}

function line(name, words, count, most) {
    const filled = dom.element("span", { class: "filled" });
    filled.style.width = `${(100 * count) / most}%`;
    return dom.element(
        "tr",
        {},
        dom.element("th", { scope: "row" }, name),
        dom.element("td", { class: "words" }, words),
        dom.element("td", { class: "count" }, count.toLocaleString("en")),
        dom.element("td", { class: "length", "aria-hidden": "true" }, filled),
    );
}

function table(caption, heads, lines) {
    const head = heads.map((words) => dom.element("th", { scope: "col" }, words));
    head.push(dom.element("td", { "aria-hidden": "true" }));
    return dom.element("table", { class: "counts" }, dom.element("caption", {}, caption), dom.element("thead", {}, dom.element("tr", {}, head)), dom.element("tbody", {}, lines));
}

const named = (number) => `0x${number.toString(16).padStart(2, "0")}`;

function inWords({ classes, refused, none }) {
    const lines = classes.map((count, number) => (count ? `${named(number)} ${count}\n` : ""));
    const refusals = Object.entries(refused).map(([number, count]) => `refused ${number} ${count}\n`);
    return [...lines, ...refusals, `no number: ${none}\n`].join("");
}

function show(totals) {
    const texts = classTexts();
    const most = Math.max(...totals.classes, ...Object.values(totals.refused), totals.none, 1);
    const classes = totals.classes.flatMap((count, number) => (count ? [line(named(number), texts[number] ?? "", count, most)] : []));
    const refusals = Object.entries(totals.refused).map(([number, count]) => line(`refused ${number}`, help.meaning(number), count, most));
    if (totals.none) refusals.push(line("no number", "The line does not begin with a number.", totals.none, most));
    const text = inWords(totals);
    dom.fill(
        shownCounts,
        classes.length ? table("Accepted, by class", ["Class", "Meaning", "Values"], classes) : dom.element("p", { class: "meaning" }, totals.values ? "No value was accepted." : "No line begins with a number. A file of values has a number to a line, as 0x56000001; bytes of flash go to Block."),
        refusals.length ? table("Refused", ["Number", "Meaning", "Values"], refusals) : null,
        dom.element("details", {}, dom.element("summary", {}, "The same in words"), dom.element("pre", { tabindex: "0" }, text), dom.element("p", { class: "tools" }, dom.copyButton("Copy the counts", () => text))),
    );
}

function busy(is) {
    bar.hidden = stop.hidden = !is;
}

async function count(file, name) {
    const run = ++runs;
    const began = performance.now();
    given = { file, name };
    dom.fill(shownCounts);
    said.textContent = `Counting ${name} ..`;
    bar.value = 0;
    busy(true);
    const totals = await surveyed(file, run, (part) => (bar.value = part)).catch(() => "The file could not be read: choose it again.");
    if (totals === null) return;
    busy(false);
    if (typeof totals === "string") return (said.textContent = totals);
    const seconds = ((performance.now() - began) / 1000).toFixed(1);
    said.textContent = `${name}: ${(totals.values + totals.none).toLocaleString("en")} lines in ${seconds} seconds.`;
    show(totals);
}

export const takeFile = (file, name = file.name) => count(file, name);

export function refresh() {
    if (given) count(given.file, given.name);
}

function end() {
    runs++;
    given = null;
    busy(false);
    said.textContent = "Stopped.";
}

export function start() {
    [bar, stop, said, shownCounts] = ["count-bar", "count-stop", "count-status", "counts"].map(dom.byId);
    stop.addEventListener("click", end);
    busy(false);
}
