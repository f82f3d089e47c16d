/* The panel of a flash entry or a fault block: its walk as a strip of entries. */
import * as bytes from "./bytes.js";
import * as dom from "./dom.js";
import * as help from "./help.js";
import * as proved from "./proved.js";
import * as reading from "./reading.js";
import * as shown from "./shown.js";

const SAME_SEQUENCE = 65535; /* ESR_SAME_SEQUENCE */
let pasted, strip, opened, said, fault, report;
let block = null;
let origin = "";
let entries = [];

/* The bytes that pairs of digits stand for, each read by the proved reader of numbers; or a sentence. */
function fromHexadecimal(text) {
    const digits = text.split(/[\s,;:]+/).map((word) => word.replace(/^0[xX]/, "")).join("");
    const wrong = digits.match(/[^0-9a-fA-F]/);
    if (wrong) return `'${wrong[0]}' is no hexadecimal digit. Paste the bytes alone, two digits to a byte, as 'xxd -p' prints them.`;
    if (digits.length % 2) return "There is half a byte at the end: each byte has two digits.";
    return Uint8Array.from(digits.match(/../g) ?? [], (pair) => Number(proved.parseNumber(bytes.of(`0x${pair}`)).value));
}

/* Each entry with its answer and its line, as the command prints it. */
function readEntry(_, place) {
    const at = place * proved.ESR_ENTRY_SIZE;
    const { sequence, esr } = proved.readEntry(block.subarray(at, at + proved.ESR_ENTRY_SIZE));
    const answer = reading.read(esr);
    const judged = answer.refusal ? `refused ${answer.refusal}` : "ok";
    const words = answer.refusal ? reading.why(answer) : reading.classText(answer);
    return { sequence, esr, answer, line: `${judged} at ${at}, sequence ${sequence}, esr ${bytes.hexadecimal(esr)}: ${words}` };
}

function skippedLine(skipped) {
    return skipped === SAME_SEQUENCE ? "same sequence" : `lost ${skipped}`;
}

function endLine({ ended, offset }) {
    if (ended) return `refused ${ended} at ${offset}: ${help.reason(ended)}`;
    return `end at ${offset}: ${offset < block.length ? "erased flash" : "the block's end"}`;
}

/* Plain text, so that thousands are drawn quickly. */
function box({ sequence, answer, line }) {
    const words = answer.refusal ? `✗ ${sequence}\nrefused ${answer.refusal}` : `✓ ${sequence}\n${reading.classString(answer)}`;
    return dom.element("li", {}, dom.element("button", { type: "button", class: answer.refusal ? "bad" : "", "aria-label": line, title: line }, words));
}

function gap(skipped) {
    return skipped ? dom.element("li", { class: "gap" }, skippedLine(skipped)) : null;
}

function open(place) {
    const { esr, answer, line } = entries[place];
    dom.fill(opened, dom.element("p", { class: "origin" }, line), shown.value(esr, answer));
}

function summary(walked) {
    const decoded = reading.switches.strict ? entries.filter(({ answer }) => !answer.refusal).length : walked.decoded;
    return `entries ${walked.entries}, decoded ${decoded}`;
}

function drawStrip(walked) {
    const boxes = entries.flatMap((entry, place) => [box(entry), gap(walked.steps[place] ?? 0)]);
    const end = dom.element("li", { class: walked.ended ? "end torn" : "end" }, walked.ended ? `✗ ${endLine(walked)}` : endLine(walked));
    const list = dom.element("ol", { class: "strip", "aria-label": "Entries" }, boxes, end);
    const choose = dom.walkable(list, open);
    dom.fill(strip, list);
    if (entries.length) choose(0, false);
    else dom.fill(opened);
}

function explained(walked) {
    if (!walked.ended) return null;
    const where = walked.entries ? "" : " No entry stands at the front: a file has to hold the bytes themselves, and hexadecimal text goes into the box above.";
    return dom.element("p", { class: "meaning" }, help.meaning(walked.ended) + where);
}

function reported(walked) {
    const lines = entries.flatMap(({ line }, place) => [line, ...(walked.steps[place] ? [skippedLine(walked.steps[place])] : [])]);
    const text = [...lines, summary(walked), endLine(walked)].join("\n") + "\n";
    report.hidden = false;
    dom.fill(report, dom.element("summary", {}, "The same in words"), dom.element("pre", { tabindex: "0" }, text), dom.element("p", { class: "tools" }, dom.copyButton("Copy the words", () => text)));
}

function clear(...sentence) {
    for (const each of [strip, opened, said]) dom.fill(each);
    report.hidden = true;
    dom.fill(fault, ...sentence);
}

export function refresh() {
    if (!block) return clear();
    const walked = proved.walk(block);
    if (walked.refusal) return clear(shown.refusal(`refused ${walked.refusal}: ${reading.why(walked)}`, walked.refusal));
    entries = Array.from({ length: walked.entries }, readEntry);
    clear(explained(walked) ?? "");
    said.textContent = `${origin}, ${block.length.toLocaleString("en")} bytes: ${summary(walked)}.`;
    drawStrip(walked);
    reported(walked);
}

function take(given, from) {
    [block, origin] = [given, from];
    refresh();
}

function takePasted() {
    const given = fromHexadecimal(pasted.value);
    if (typeof given === "string") {
        block = null;
        return clear(dom.element("p", { class: "meaning" }, given));
    }
    take(pasted.value.trim() === "" ? null : given, "Pasted");
}

/* A longer file is handed over only as far as the proved walk needs to see that it is too long. */
const READ = 70000;

export async function takeFile(file) {
    pasted.value = "";
    take(new Uint8Array(await file.slice(0, READ).arrayBuffer()), file.name);
}

export function start() {
    [pasted, strip, opened, said, fault, report] = ["pasted", "strip", "entry", "block-status", "block-fault", "block-report"].map(dom.byId);
    pasted.addEventListener("input", takePasted);
    clear();
}
