/* The panel of typed values: a value to a line, each with a remark behind it if one likes. */
import * as bytes from "./bytes.js";
import * as dom from "./dom.js";
import * as help from "./help.js";
import * as proved from "./proved.js";
import * as reading from "./reading.js";
import * as shown from "./shown.js";

const LISTED = 500; /* lines; more are for counting */
let typed, list, opened, status, more;
let lines = [];
let chosen = 0;
let changed = () => {};

/* The lines that hold something, each with what was read of it. */
function readAll(text) {
    const all = text.split("\n").map((line, place) => ({ line, place: place + 1 }));
    const held = all.filter(({ line }) => line.trim() !== "");
    more(held.length > LISTED ? held.length : 0);
    return held.slice(0, LISTED).map(({ line, place }) => {
        const characters = bytes.of(line);
        const number = proved.readNumber(characters);
        const remark = bytes.text(characters.subarray(number.taken)).trim();
        return number.refusal ? { place, line, number } : { place, line, number, remark, answer: reading.read(number.value) };
    });
}

function summary({ number, answer }) {
    if (number.refusal) return `no number: ${help.reason(number.refusal)}`;
    return answer.refusal ? reading.refused(answer) : reading.classText(answer);
}

function item(each) {
    const { place, line, number, remark, answer } = each;
    const sound = !number.refusal && !answer.refusal;
    return dom.element(
        "li",
        {},
        dom.element(
            "button",
            { type: "button", class: sound ? "" : "bad" },
            dom.element("span", { class: "sign" }, sound ? "✓" : "✗"),
            dom.element("span", { class: "place" }, `line ${place}`),
            dom.element("span", { class: "value" }, number.refusal ? line.slice(0, 40) : bytes.hexadecimal(number.value)),
            dom.element("span", { class: "what" }, summary(each)),
            remark ? dom.element("span", { class: "remark" }, remark) : null,
        ),
    );
}

function open(place) {
    chosen = place;
    const each = lines[place];
    status.textContent = each ? `${lines.length > 1 ? `line ${each.place}: ` : ""}${summary(each)}` : "";
    if (!each) return dom.fill(opened, dom.element("p", { class: "hint" }, "Type a value, as 0x56000001: hexadecimal after 0x, or decimal."));
    if (each.number.refusal) return dom.fill(opened, shown.refusal(`refused ${each.number.refusal}: ${help.reason(each.number.refusal)}`, each.number.refusal));
    dom.fill(opened, shown.value(each.number.value, each.answer));
    changed(each.number.value);
}

/* A line that stays as it was keeps its place in the page, so that many lines are quick to type in. */
let drawn = new Map();

function drawnAgain() {
    const before = drawn;
    drawn = new Map(lines.map((each) => [`${each.place} ${each.line}`, each]));
    return [...drawn].map(([key, each]) => {
        each.element = before.get(key)?.element ?? item(each);
        return each.element;
    });
}

function update() {
    lines = readAll(typed.value);
    typed.rows = Math.min(Math.max(lines.length, 2), 8);
    list.hidden = lines.length < 2;
    const place = Math.min(chosen, Math.max(lines.length - 1, 0));
    if (lines.length < 2) {
        dom.fill(list);
        return open(place);
    }
    const all = dom.element("ul", { class: "lines" }, drawnAgain());
    const choose = dom.walkable(all, open);
    dom.fill(list, all);
    choose(place, false);
}

/* Reads all again, as the switches are now. */
export function refresh() {
    drawn = new Map();
    update();
}

/* Shows a text as if it were typed. */
export function take(text) {
    dom.byId("typed-note").textContent = "";
    typed.value = text;
    chosen = 0;
    refresh();
}

export function start({ countAll, onValue }) {
    [typed, list, opened, status] = ["typed", "typed-lines", "typed-value", "typed-status"].map(dom.byId);
    changed = onValue;
    const note = dom.byId("typed-more");
    more = (held) => {
        note.hidden = held === 0;
        if (held) dom.fill(note, `The first ${LISTED} of ${held.toLocaleString("en")} lines are shown. `, dom.element("button", { type: "button", click: () => countAll(new Blob([typed.value]), "the typed lines") }, "Count them all"));
    };
    typed.addEventListener("input", () => {
        dom.byId("typed-note").textContent = "";
        update();
    });
}
