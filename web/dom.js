/* Elements of the page, and what people do with them: copy, choose among many, hand over a file. */

/* An element with attributes and children. A listener is an attribute whose value is a function. */
export function element(tag, attributes = {}, ...children) {
    const made = document.createElement(tag);
    for (const [name, value] of Object.entries(attributes)) {
        if (typeof value === "function") made.addEventListener(name, value);
        else if (value === true) made.setAttribute(name, "");
        else if (value !== false && value !== null) made.setAttribute(name, value);
    }
    made.append(...children.flat().filter((child) => child !== null));
    return made;
}

export function fill(host, ...children) {
    host.replaceChildren(...children.flat().filter((child) => child !== null));
}

export const byId = (id) => document.getElementById(id);

/* A page from a file has the clipboard in most browsers; in the others the text is selected and copied as if by hand. */
async function toClipboard(text) {
    try {
        await navigator.clipboard.writeText(text);
    } catch {
        const held = element("textarea", { class: "aside" });
        held.value = text;
        document.body.append(held);
        held.select();
        document.execCommand("copy");
        held.remove();
    }
}

/* A button that copies what a function gives, and says so. */
export function copyButton(words, given) {
    const button = element("button", { type: "button" }, words);
    const said = element("span", { class: "said", role: "status" });
    button.addEventListener("click", async () => {
        await toClipboard(given());
        said.textContent = "Copied.";
        setTimeout(() => (said.textContent = ""), 2000);
    });
    return [button, said];
}

/* Lets the arrow keys move through the buttons of a list, of which one alone is reached by Tab. */
export function walkable(list, open) {
    const buttons = [...list.querySelectorAll("button")];
    const moves = { ArrowRight: 1, ArrowDown: 1, ArrowLeft: -1, ArrowUp: -1, Home: -buttons.length, End: buttons.length };

    function choose(place, focus) {
        for (const other of list.querySelectorAll("[aria-current]")) {
            other.removeAttribute("aria-current");
            other.tabIndex = -1;
        }
        buttons[place].setAttribute("aria-current", "true");
        buttons[place].tabIndex = 0;
        if (focus) buttons[place].focus();
        open(place);
    }

    for (const button of buttons) {
        button.tabIndex = -1;
        button.removeAttribute("aria-current");
    }
    list.addEventListener("click", (event) => {
        const place = buttons.indexOf(event.target.closest("button"));
        if (place >= 0) choose(place, false);
    });
    list.addEventListener("keydown", (event) => {
        const place = buttons.indexOf(document.activeElement);
        if (place < 0 || !(event.key in moves)) return;
        event.preventDefault();
        choose(Math.min(Math.max(place + moves[event.key], 0), buttons.length - 1), true);
    });
    return choose;
}
