/* The panel of the maker: a class, its fields to set, and the value that they make. */
import * as bytes from "./bytes.js";
import * as dom from "./dom.js";
import * as help from "./help.js";
import * as proved from "./proved.js";
import * as reading from "./reading.js";
import * as ruler from "./ruler.js";
import * as shown from "./shown.js";

const WIDE_LEAF = 22;
const LISTED = 6; /* the greatest width of a field whose values are offered */
let choice, form, fault, changes, made;
let answer; /* of the value that was made last */
let inputs = [];

/* The fields that can be set, in their order: IL, ISS2 and the leaves. */
function settable(of) {
    const { il, iss2, leaves } = reading.parts(of);
    return [il, iss2, ...leaves];
}

const string = (record) => bytes.text(proved.valueString(record.width, record.value).bytes);

/* ---- the form */

function numberOf({ field, input }) {
    return field.width === 1 ? { refusal: 0, value: input.checked ? 1n : 0n } : proved.parseNumber(bytes.of(input.value));
}

/* The values that the decoder accepts in a field with all others as they are, each with its text. */
function offered(field) {
    const others = settable(answer).concat(reading.parts(answer).ec).filter((each) => each !== field);
    return Array.from({ length: 1 << field.width }, (_, value) => ({ ...field, value: BigInt(value) })).flatMap((turned) => {
        const { refusal, records } = proved.decode(composed([...others, turned]));
        if (refusal) return [];
        const same = records.find(({ start, width, value }) => start === field.start && width === field.width && value === turned.value);
        return [dom.element("option", { value: string(turned) }, same ? reading.text(same.text) : "")];
    });
}

function fieldRow(field, place) {
    const id = `field-${place}`;
    const [name, long, mark] = [reading.name(field.name), reading.name(field.long_name), help.MARKS[field.mark]];
    const flag = field.width === 1;
    const input = dom.element("input", flag ? { id, type: "checkbox" } : { id, type: "text", inputmode: "text", autocomplete: "off", spellcheck: "false" });
    if (flag) input.checked = field.value === 1n;
    else {
        input.value = string(field);
        input.size = input.value.length + 1;
    }
    const values = dom.element("datalist", { id: `${id}-values` });
    if (!flag && field.width <= LISTED) {
        input.setAttribute("list", values.id);
        input.addEventListener("focus", () => dom.fill(values, offered(inputs[place].field)));
    }
    input.addEventListener("input", edited);
    inputs[place] = { field, input };
    const about = [`${field.width} ${flag ? "bit" : "bits"} (${ruler.bitsOf(field)})`, `${mark.sign} ${mark.word}`].join(", ");
    input.setAttribute("aria-describedby", `${id}-about ${id}-text`);
    return dom.element(
        "div",
        { class: flag ? "field flag" : "field" },
        dom.element("label", { for: id }, dom.element("span", { class: "name" }, name), long ? dom.element("small", {}, long) : null),
        input,
        values,
        dom.element("span", { class: "about", id: `${id}-about` }, about),
        dom.element("span", { class: "text", id: `${id}-text` }, reading.text(field.text)),
    );
}

const placed = (fields) => fields.map(({ name, long_name, start, width, mark }) => [name, long_name, start, width, mark].join()).join(" ");

/* The form of the fields that there are now; the one that is being typed in keeps its place. */
function drawForm() {
    const fields = settable(answer);
    if (inputs.length && placed(inputs.map(({ field }) => field)) === placed(fields)) {
        fields.forEach((field, place) => {
            inputs[place].field = field;
            dom.byId(`field-${place}-text`).textContent = reading.text(field.text);
        });
        return;
    }
    const typing = inputs.find(({ input }) => input === document.activeElement);
    inputs = [];
    dom.fill(form, fields.map(fieldRow));
    const same = typing && inputs.find(({ field }) => field.start === typing.field.start && field.width === typing.field.width);
    if (same) {
        if (same.field.width > 1) same.input.value = typing.input.value;
        same.input.focus();
    }
}

/* ---- the value */

/* Fields at their places. What it gives is asked of the decoder, never taken for a value. */
function composed(fields) {
    return fields.reduce((all, { start, value }) => all | (value << BigInt(start)), 0n);
}

function makeOf(ec, fields) {
    const [il, iss2, ...leaves] = fields.map(({ value }) => value);
    return proved.make(ec.value, il, iss2, leaves);
}

/* Made of the fields as they are typed. Turning one can give a class other fields: the decoder is asked which the same bits have, and of those the value is made. */
function makeTyped(ec, fields) {
    const wide = fields.find(tooWide);
    if (wide) {
        const first = makeOf(ec, fields);
        return first.refusal === WIDE_LEAF ? first : proved.valueString(wide.width, wide.value);
    }
    const turned = proved.decode(composed([ec, ...fields]));
    return turned.refusal ? turned : makeOf(ec, settable(turned));
}

const tooWide = ({ width, value }) => proved.valueString(width, value).refusal !== 0;

function wrong(place, is) {
    const { input } = inputs[place];
    if (is) input.setAttribute("aria-invalid", "true");
    else input.removeAttribute("aria-invalid");
}

function told(refusal, ...more) {
    dom.fill(fault, shown.refusal(`refused ${refusal.refusal}: ${reading.why(refusal)}`, refusal.refusal), ...more);
}

function edited() {
    const numbers = inputs.map(numberOf);
    numbers.forEach(({ refusal }, place) => wrong(place, refusal !== 0));
    const unread = numbers.find(({ refusal }) => refusal);
    if (unread) return told(unread);
    const { ec } = reading.parts(answer);
    const fields = inputs.map(({ field }, place) => ({ ...field, value: numbers[place].value }));
    const { refusal, value, ...why } = makeTyped(ec, fields);
    fields.forEach((field, place) => wrong(place, tooWide(field)));
    if (fields.some(tooWide)) return told({ refusal, ...why });
    if (refusal) return told({ refusal, ...why }, ruler.ruler(composed([ec, ...fields]), { refusal, ...why }));
    show(value, true);
}

/* ---- what changed */

const key = ({ name, start, width }) => `${name} ${start} ${width}`;

/* A record's value, text and, where it matters, mark. */
function saidOf(record, marked) {
    return [string(record), reading.text(record.text), marked ? help.MARKS[record.mark].word : ""].filter((words) => words).join(", ");
}

function change(record, words) {
    return dom.element("li", {}, dom.element("b", {}, reading.name(record.name)), ` (${ruler.bitsOf(record)}) ${words}`);
}

/* The records that are not as they were, those that are new and those that are gone. */
function changed(before, after) {
    const old = new Map(before.map((record) => [key(record), record]));
    const now = new Set(after.map(key));
    const lines = after.flatMap((record) => {
        const was = old.get(key(record));
        if (!was) return [change(record, `is new: ${saidOf(record, false)}`)];
        const marked = was.mark !== record.mark;
        const same = was.value === record.value && was.text === record.text && !marked;
        return same ? [] : [change(record, `was ${saidOf(was, marked)}; is ${saidOf(record, marked)}`)];
    });
    return [...lines, ...before.filter((record) => !now.has(key(record))).map((record) => change(record, "is gone"))];
}

function show(value, turned) {
    const before = answer;
    answer = proved.decode(value);
    dom.fill(fault);
    drawForm();
    const lines = turned ? changed(before.records, answer.records) : [];
    changes.hidden = !turned;
    dom.fill(changes, dom.element("h3", {}, "What changed"), lines.length ? dom.element("ul", {}, lines) : dom.element("p", {}, "Nothing."));
    dom.fill(made, shown.value(value, reading.read(value)));
}

function choose() {
    inputs = [];
    const least = reading.classes().find(({ number }) => number === Number(choice.value)).value;
    const { ec, ...rest } = reading.parts(proved.decode(least));
    show(makeOf(ec, [rest.il, rest.iss2, ...rest.leaves]).value, false);
}

function options() {
    return reading.classes().map(({ number, value }) => {
        const of = proved.decode(value);
        return dom.element("option", { value: number }, `${reading.classString(of)} ${reading.classText(of)}`);
    });
}

export function refresh() {
    const kept = choice.value;
    dom.fill(choice, options());
    if (kept) choice.value = kept;
    inputs = [];
    if (answer) show(composed(answer.records.slice(0, reading.TOP)), false);
    else choose();
}

export function start() {
    [choice, form, fault, changes, made] = ["class", "fields", "make-fault", "changes", "made"].map(dom.byId);
    choice.addEventListener("change", choose);
}
