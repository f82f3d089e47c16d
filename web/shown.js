/* One value, shown: what it is, its ruler, its records and its listing; or why it is refused. */
import * as bytes from "./bytes.js";
import * as dom from "./dom.js";
import * as help from "./help.js";
import * as proved from "./proved.js";
import * as reading from "./reading.js";
import * as ruler from "./ruler.js";

function row(record, place) {
    const mark = help.MARKS[record.mark];
    const long = reading.name(record.long_name);
    return dom.element(
        "tr",
        { class: place < reading.TOP ? "top" : "inner" },
        dom.element("td", { class: "bits" }, ruler.bitsOf(record)),
        dom.element("th", { scope: "row" }, dom.element("span", { class: "name" }, reading.name(record.name)), long ? dom.element("small", {}, long) : null),
        dom.element("td", { class: "value" }, bytes.text(proved.valueString(record.width, record.value).bytes)),
        dom.element("td", { class: "text" }, reading.text(record.text)),
        dom.element("td", { class: "mark", title: mark.says }, `${mark.sign} ${mark.word}`),
    );
}

function table(records) {
    const head = ["Bits", "Field", "Value", "Meaning", "Mark"].map((words) => dom.element("th", { scope: "col" }, words));
    return dom.element(
        "table",
        { class: "records" },
        dom.element("caption", {}, "Fields"),
        dom.element("thead", {}, dom.element("tr", {}, head)),
        dom.element("tbody", {}, records.map(row)),
    );
}

function link(esr) {
    return location.href.split("#")[0] + "#" + bytes.hexadecimal(esr);
}

function listing(esr) {
    const text = reading.listing(esr);
    const print = dom.element("button", { type: "button", click: () => window.print() }, "Print");
    return dom.element(
        "section",
        { class: "listing", "aria-label": "Listing" },
        dom.element("h3", {}, "Listing"),
        dom.element("pre", { tabindex: "0" }, text),
        dom.element("p", { class: "tools" }, dom.copyButton("Copy the listing", () => text), print, dom.copyButton("Copy a link", () => link(esr))),
    );
}

/* A refusal: what was said, and what it means. */
export function refusal(said, number) {
    return dom.element("div", { class: "refusal" }, dom.element("p", { class: "said" }, `✗ ${said}`), dom.element("p", { class: "meaning" }, help.meaning(number)));
}

function heading(esr, words) {
    return dom.element("h2", {}, dom.element("span", { class: "whole" }, bytes.text(proved.valueString(64, esr).bytes)), " ", dom.element("span", { class: "kind" }, words));
}

/* What is shown of a value; the answer is that of `reading.read`. */
export function value(esr, answer) {
    if (answer.refusal) return [heading(esr, "refused"), refusal(reading.refused(answer), answer.refusal), ruler.ruler(esr, answer)];
    return [heading(esr, reading.classText(answer)), ruler.ruler(esr, answer), dom.element("div", { class: "both" }, dom.element("div", { class: "scrolled" }, table(answer.records)), listing(esr))];
}
