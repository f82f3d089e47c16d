/* The page: its tabs and switches, files that are dropped, and the value in its address. */
import * as block from "./block.js";
import * as bytes from "./bytes.js";
import * as count from "./count.js";
import * as dom from "./dom.js";
import * as help from "./help.js";
import * as maker from "./maker.js";
import * as proved from "./proved.js";
import * as reading from "./reading.js";
import * as values from "./values.js";

const FIRST = "0x56000001";
const TYPED = 1 << 16; /* bytes of a file that are shown line by line; a longer one is counted */
const panels = { value: values, block, count, make: maker };
const stale = new Set();
let open = "value";

/* ---- tabs */

function show(name, focus) {
    open = name;
    for (const each of Object.keys(panels)) {
        const [tab, panel] = [dom.byId(`tab-${each}`), dom.byId(`panel-${each}`)];
        tab.setAttribute("aria-selected", `${each === name}`);
        tab.tabIndex = each === name ? 0 : -1;
        panel.hidden = each !== name;
        if (each === name && focus) tab.focus();
    }
    if (stale.delete(name)) panels[name].refresh();
}

function startTabs() {
    const names = Object.keys(panels);
    const moves = { ArrowRight: 1, ArrowLeft: -1 };
    names.forEach((name, place) => {
        const tab = dom.byId(`tab-${name}`);
        tab.addEventListener("click", () => show(name, false));
        tab.addEventListener("keydown", (event) => {
            const to = event.key === "Home" ? 0 : event.key === "End" ? names.length - 1 : event.key in moves ? (place + moves[event.key] + names.length) % names.length : null;
            if (to === null) return;
            event.preventDefault();
            show(names[to], true);
        });
    });
}

/* ---- switches and the phrase sheet */

function refreshAll() {
    for (const name of Object.keys(panels)) stale.add(name);
    show(open, false);
}

function startSwitches() {
    const [strict, nested] = ["strict", "nested"].map(dom.byId);
    const turned = () => {
        nested.disabled = !strict.checked;
        Object.assign(reading.switches, { strict: strict.checked, nested: strict.checked && nested.checked });
        refreshAll();
    };
    strict.addEventListener("change", turned);
    nested.addEventListener("change", turned);
}

async function takeSheet(file) {
    const sheet = file ? new Uint8Array(await file.slice(0, 65537).arrayBuffer()) : null;
    const refusal = reading.takeSheet(sheet);
    const said = dom.byId("sheet-status");
    if (refusal) return (said.textContent = `${file.name} was not taken: refused ${refusal}: ${help.reason(refusal)}. ${help.meaning(refusal)}`);
    said.textContent = sheet ? `Texts of ${file.name}.` : "Standard texts; a sheet in another language can be dropped here.";
    dom.byId("sheet-remove").hidden = !sheet;
    refreshAll();
}

/* ---- files */

async function takeTyped(file) {
    if (file.size > TYPED) {
        show("count", false);
        return count.takeFile(file);
    }
    const given = new Uint8Array(await file.arrayBuffer());
    values.take(bytes.text(given));
    if (given.includes(0)) dom.byId("typed-note").textContent = `${file.name} holds bytes and not lines of text: bytes of flash go to Block.`;
}

function takeFile(file, name = open) {
    if (name === "make") name = "value";
    show(name, false);
    if (name === "value") return takeTyped(file);
    return panels[name].takeFile(file);
}

/* A file input, which can take the same file twice. */
function chooser(id, take) {
    const input = dom.byId(id);
    input.addEventListener("change", () => {
        if (input.files.length) take(input.files[0]);
        input.value = "";
    });
}

function startFiles() {
    chooser("typed-file", (file) => takeFile(file, "value"));
    chooser("block-file", (file) => takeFile(file, "block"));
    chooser("count-file", (file) => takeFile(file, "count"));
    chooser("sheet-file", takeSheet);
    dom.byId("sheet-remove").addEventListener("click", () => takeSheet(null));
    document.addEventListener("dragover", (event) => event.preventDefault());
    document.addEventListener("drop", (event) => {
        if (!event.dataTransfer.files.length) return;
        event.preventDefault();
        if (event.target.closest?.("#sheet")) takeSheet(event.dataTransfer.files[0]);
        else takeFile(event.dataTransfer.files[0]);
    });
}

/* ---- the address */

/* The address follows what is typed, and a value in it is shown. */
function address() {
    try {
        return decodeURIComponent(location.hash.slice(1));
    } catch {
        return location.hash.slice(1);
    }
}

function follow(value) {
    const wanted = "#" + bytes.hexadecimal(value);
    if (location.hash === wanted || open !== "value") return;
    try {
        history.replaceState(null, "", wanted);
    } catch {
        /* A browser that does not allow it keeps the old address. */
    }
}

function moduleBytes() {
    return Uint8Array.from(atob(dom.byId("module").textContent), (character) => character.charCodeAt(0));
}

async function start() {
    await proved.load(moduleBytes());
    reading.start();
    values.start({ countAll: (blob, name) => (show("count", true), count.takeFile(blob, name)), onValue: follow });
    for (const panel of [block, count, maker]) panel.start();
    startTabs();
    startSwitches();
    startFiles();
    stale.add("make");
    values.take(address() || FIRST);
    addEventListener("hashchange", () => {
        show("value", false);
        values.take(address());
    });
    document.body.classList.remove("waiting");
}

start().catch((fault) => {
    const trouble = dom.byId("trouble");
    trouble.hidden = false;
    trouble.textContent = `This page could not start: ${fault.message}. It needs a browser of today that runs WebAssembly modules.`;
});
