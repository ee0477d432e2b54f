// The tree of a set. Nodes below one are made when it is opened first, so that a long set shows at once.
import { element, fill } from "./element.js";

const MOST_OPENED = 400;

const countNodes = (nodes) => nodes.reduce((sum, node) => sum + 1 + countNodes(node.children), 0);

export class Tree {
    constructor(place, { onchoose }) {
        this.place = place;
        this.onchoose = onchoose;
        this.items = new Map(); // node to its item
        place.addEventListener("keydown", (event) => this.key(event));
        place.addEventListener("click", (event) => this.click(event));
    }

    show(nodes) {
        this.items.clear();
        this.nodes = nodes;
        this.chosen = null;
        this.opensAll = countNodes(nodes) <= MOST_OPENED;
        fill(this.place, nodes.map((node) => this.item(node, null, 1)));
        this.place.querySelector("[role=treeitem]")?.setAttribute("tabindex", "0");
    }

    item(node, above, level) {
        const end = Math.max(node.end, node.reach ?? 0), bytes = end - node.start === 1 ? `${node.start}` : `${node.start}–${end - 1}`;
        const swatch = element("span", { class: `swatch ${node.kind}`, "aria-hidden": "true" }), name = `${node.title}, bytes ${bytes}`;
        const label = element("span", { class: "label" }, swatch, element("span", {}, node.title), element("span", { class: "range" }, bytes));
        const item = element("li", { role: "treeitem", tabindex: "-1", "aria-level": level, "aria-selected": "false", "aria-label": name }, label);
        item.node = node;
        item.above = above;
        this.items.set(node, item);
        if (node.children.length > 0)
            this.turn(item, this.opensFirst(node, level));
        return item;
    }

    opensFirst(node, level) {
        return node.kind !== "entry" && (this.opensAll ? node.title !== "strings" || node.children.length <= 12 : level < 2 && node.kind === "configuration");
    }

    // Opens or closes an item.
    turn(item, opened) {
        item.setAttribute("aria-expanded", opened);
        let group = item.querySelector(":scope > [role=group]");
        if (opened && !group) {
            group = element("ul", { role: "group" }, item.node.children.map((node) => this.item(node, item, Number(item.getAttribute("aria-level")) + 1)));
            item.append(group);
        }
        if (group)
            group.hidden = !opened;
    }

    // Chooses the last of a chain of nodes, and opens those above it.
    reveal(chain) {
        for (const node of chain.slice(0, -1))
            if (this.items.has(node))
                this.turn(this.items.get(node), true);
        const item = this.items.get(chain.at(-1));
        if (item)
            this.mark(item);
    }

    mark(item) {
        this.chosen?.setAttribute("aria-selected", "false");
        this.place.querySelector("[tabindex='0']")?.setAttribute("tabindex", "-1");
        item.setAttribute("aria-selected", "true");
        item.setAttribute("tabindex", "0");
        this.chosen = item;
        const row = item.firstChild.getBoundingClientRect(), frame = this.place.getBoundingClientRect();
        if (row.top < frame.top || row.bottom > frame.bottom)
            this.place.scrollTop += row.top - frame.top - frame.height / 3;
    }

    choose(item) {
        this.mark(item);
        this.onchoose(item.node);
    }

    click(event) {
        const item = event.target.closest("[role=treeitem]");
        if (!item)
            return;
        const isOpener = item.hasAttribute("aria-expanded") && event.target.closest(".label") && event.offsetX < 0;
        if (isOpener || (item === this.chosen && item.hasAttribute("aria-expanded")))
            this.turn(item, item.getAttribute("aria-expanded") !== "true");
        this.choose(item);
        item.focus({ preventScroll: true });
    }

    // The items that are to be seen, in their order.
    seen() {
        return [...this.place.querySelectorAll("[role=treeitem]")].filter((item) => !item.closest("[hidden]"));
    }

    key(event) {
        const item = event.target.closest("[role=treeitem]"), seen = this.seen(), at = seen.indexOf(item);
        const expanded = item?.getAttribute("aria-expanded");
        const next = { ArrowDown: seen[at + 1], ArrowUp: seen[at - 1], Home: seen[0], End: seen.at(-1) };
        if (event.key === "ArrowRight" && expanded === "false")
            this.turn(item, true);
        else if (event.key === "ArrowLeft" && expanded === "true")
            this.turn(item, false);
        else if (event.key === "ArrowRight" || event.key === "ArrowLeft")
            this.step(event.key === "ArrowRight" ? (expanded ? seen[at + 1] : null) : item.above);
        else if (event.key === "Enter" || event.key === " ")
            this.choose(item);
        else if (event.key in next)
            this.step(next[event.key]);
        else
            return;
        event.preventDefault();
    }

    step(item) {
        if (item) {
            this.choose(item);
            item.focus({ preventScroll: true });
        }
    }
}
