// Elements of the page. Texts go in as texts, never as markup.

export const byId = (id) => document.getElementById(id);

// Children in lists of lists, without those that are not there.
const present = (children) => children.flat(Infinity).filter((child) => child !== null && child !== undefined && child !== false && child !== "");

// An element with attributes (an on.. one is a listener, a true one stands without value, a false one not at all) and children.
export function element(name, attributes = {}, ...children) {
    const made = document.createElement(name);
    for (const [key, value] of Object.entries(attributes)) {
        if (typeof value === "function")
            made.addEventListener(key.slice(2), value);
        else if (value === true)
            made.setAttribute(key, "");
        else if (value !== false && value !== undefined && value !== null)
            made.setAttribute(key, value);
    }
    made.append(...present(children));
    return made;
}

export function fill(place, ...children) {
    place.replaceChildren(...present(children));
}

export const button = (words, onclick, attributes = {}) => element("button", { type: "button", onclick, ...attributes }, words);

// Hands bytes or a text to the person as a file.
export function save(name, content) {
    const address = URL.createObjectURL(new Blob([content], { type: typeof content === "string" ? "text/plain" : "application/octet-stream" }));
    element("a", { href: address, download: name }).click();
    setTimeout(() => URL.revokeObjectURL(address), 60000);
}
