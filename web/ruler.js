/* The 64 bits of a value as a ruler, with its fields and their marks, or the bits that are refused. */
import * as bytes from "./bytes.js";
import * as dom from "./dom.js";
import * as help from "./help.js";
import * as proved from "./proved.js";
import * as reading from "./reading.js";

const BITS = 64;
const NARROW = window.matchMedia("(max-width: 46rem)");
const perRow = () => (NARROW.matches ? 16 : 32);

/* Bits are said from high to low. */
export function bitsOf({ start, width }) {
    return width === 1 ? `${start}` : `${start + width - 1}–${start}`;
}

function inWords({ start, width }) {
    return width === 1 ? `bit ${start}` : `bits ${start + width - 1} to ${start}`;
}

/* A bar over bits start .. start + width, as far as it lies in the row whose lowest bit is low. */
function bar(field, low, line, kind, sign, words) {
    const count = perRow();
    const [from, to] = [Math.max(field.start, low), Math.min(field.start + field.width, low + count)];
    if (from >= to) return null;
    const made = dom.element("div", { class: `bar ${kind}${to - from < 3 ? " thin" : ""}${words.length < 3 ? " short" : ""}`, title: `${words}, ${inWords(field)}` });
    made.append(dom.element("span", { class: "sign" }, sign), dom.element("span", { class: "name" }, words));
    made.style.gridColumn = `${low + count - to + 1} / ${low + count - from + 1}`;
    made.style.gridRow = line;
    return made;
}

function cell(kind, words, place, line) {
    const made = dom.element("div", { class: kind }, words);
    made.style.gridColumn = place + 1;
    made.style.gridRow = line;
    return made;
}

/* The digits, and the number of every fourth bit and of the row's first. */
function digits(binary, low) {
    const count = perRow();
    return Array.from({ length: count }, (_, place) => {
        const bit = low + count - 1 - place;
        const digit = binary[BITS - 1 - bit];
        return [bit % 4 === 0 || place === 0 ? cell("number", `${bit}`, place, 1) : null, cell(digit === "1" ? "digit one" : "digit", digit, place, 2)];
    });
}

/* The records of ISS lie under ISS itself. */
function bars(answer, low) {
    if (answer.refusal) return answer.width ? [bar(answer, low, 3, "refused", "✗", "refused")] : [];
    return answer.records.map((record, place) =>
        bar(record, low, place < reading.TOP ? 3 : 4, help.MARKS[record.mark].word, help.MARKS[record.mark].sign, reading.name(record.name)),
    );
}

/* What the ruler shows, for those who hear it. */
function equivalent(answer, binary) {
    const fields = (answer.records ?? []).map((record) => {
        const value = bytes.text(proved.valueString(record.width, record.value).bytes);
        return `${reading.name(record.name)}, ${inWords(record)}, is ${value}, ${help.MARKS[record.mark].word}`;
    });
    const refused = answer.refusal && answer.width ? [`refused: ${inWords(answer)}`] : [];
    return [`The 64 bits from high to low: ${binary.replace(/(.{8})(?=.)/g, "$1 ")}`, ...refused, ...fields].join(". ") + ".";
}

function legend(answer) {
    const marks = answer.refusal ? [] : help.MARKS.filter((_, number) => answer.records.some(({ mark }) => mark === number));
    return dom.element("ul", { class: "legend", "aria-label": "Marks" }, marks.map(({ sign, word, says }) => dom.element("li", {}, dom.element("b", {}, `${sign} ${word}`), `: ${says}`)));
}

function drawn(answer, binary) {
    const count = perRow();
    return Array.from({ length: BITS / count }, (_, row) => {
        const low = BITS - count * (row + 1);
        const made = dom.element("div", { class: "row" }, digits(binary, low).flat(), bars(answer, low));
        made.style.gridTemplateColumns = `repeat(${count}, minmax(0, 1fr))`;
        return made;
    });
}

export function ruler(esr, answer) {
    const binary = bytes.text(proved.valueBinaryString(BITS, esr).bytes).slice(2);
    const rows = dom.element("div", { class: "rows", role: "img", "aria-label": equivalent(answer, binary) }, drawn(answer, binary));
    rows.redraw = () => dom.fill(rows, drawn(answer, binary));
    return dom.element("figure", { class: "ruler" }, rows, legend(answer));
}

NARROW.addEventListener("change", () => {
    for (const rows of document.querySelectorAll(".ruler .rows")) rows.redraw();
});
