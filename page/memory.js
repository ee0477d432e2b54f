// What was typed and lent, kept in this browser so that it survives a reload. Where the browser keeps nothing, the page works without.

const KEY = "heideklonk";

export function recall() {
    try {
        return JSON.parse(localStorage.getItem(KEY)) ?? {};
    } catch {
        return {};
    }
}

export function keep(name, value) {
    try {
        localStorage.setItem(KEY, JSON.stringify({ ...recall(), [name]: value }));
    } catch {
        // no room, or not allowed: nothing is kept
    }
}

export function forget() {
    try {
        localStorage.removeItem(KEY);
    } catch {
        // nothing was kept
    }
}
