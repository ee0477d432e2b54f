// The panel of the set: its tree, its bytes and the fields of what is chosen, each leading to the others.
import { byId, button, element, fill } from "./element.js";
import { Hexadecimal } from "./hexadecimal.js";
import { Tree } from "./tree.js";
import { KINDS, SERIAL } from "./board.js";
import { listing, nodesAt, serialNode, treeOf } from "./set.js";
import { countWords, hexadecimal, readHexadecimal } from "./bytes.js";

// The kind of each byte of a block.
function kindsOf(nodes, length) {
    const kinds = new Array(length);
    const paint = (node) => {
        if (node.children.length === 0 || node.fields)
            kinds.fill(node.kind, node.start, Math.min(node.end, length));
        node.children.forEach(paint);
    };
    nodes.forEach(paint);
    return kinds;
}

export class Inspection {
    constructor({ onchange }) {
        this.onchange = onchange;
        this.tree = new Tree(byId("tree"), { onchoose: (node) => this.chooseNode(node) });
        this.bytes = new Hexadecimal(byId("bytes"), { onchoose: (place) => this.choosePlace(place) });
        byId("blocks").addEventListener("change", (event) => this.showBlock(Number(event.target.value)));
    }

    // Shows what is lent: each set, and the serial block.
    show(board, judged) {
        const names = KINDS[board.kind].sets;
        const broken = (wanted) => judged.faults.filter(({ block }) => block === wanted).map(({ place }) => place);
        const serialNodes = board.serial.length > 0 ? [serialNode(board.serial)] : [];
        this.blocks = board.sets.map((bytes, at) => ({ name: names[at], bytes, ...treeOf(bytes, board.kind), broken: broken(at) }));
        this.blocks.push({ name: "serial block", bytes: board.serial, nodes: serialNodes, broken: broken(SERIAL) });
        fill(byId("blocks"), this.blocks.map(({ name, bytes }, at) => element("option", { value: at }, `${name}, ${countWords(bytes.length, "byte")}`)));
        fill(byId("listing"), board.sets.map((set, at) => `${names.length > 1 ? `${names[at]}\n` : ""}${listing(set, board.number).join("\n")}\n`));
        this.showBlock(board.serial.length > 0 && judged.number === 6 ? this.blocks.length - 1 : judged.set);
        const device = this.block.nodes.find(({ kind }) => kind === "device"), place = this.block.broken[0] ?? this.block.remarks?.[0]?.place;
        if (place < this.block.bytes.length && judged.number !== 0)
            this.choosePlace(place);
        else if (device)
            this.tree.choose(this.tree.items.get(device));
    }

    showBlock(at) {
        this.block = this.blocks[at];
        byId("blocks").value = `${at}`;
        this.tree.show(this.block.nodes);
        this.bytes.show(this.block.bytes, kindsOf(this.block.nodes, this.block.bytes.length), this.block.broken);
        this.showFields([]);
    }

    // Leads to a byte of a block: of a set, by its number, or of the serial block.
    lead(block, place) {
        this.showBlock(block === SERIAL ? this.blocks.length - 1 : block);
        this.choosePlace(place);
        byId("bytes").focus();
    }

    chooseNode(node) {
        this.bytes.choose(node.start, Math.max(node.end, node.reach ?? 0));
        this.showFields([node], node.start);
    }

    choosePlace(place) {
        if (place >= this.block.bytes.length)
            return this.showFields([]);
        const chain = nodesAt(this.block.nodes, place), node = chain.at(-1);
        if (node)
            this.tree.reveal(chain);
        const fields = node?.fields?.() ?? [], field = fields.find(({ start, length }) => place >= start && place < start + length);
        this.bytes.choose(field?.start ?? place, field ? field.start + field.length : place + 1);
        this.bytes.stand(place);
        this.showFields(chain, place, field);
        byId("here").textContent = `byte ${place}: ${hexadecimal(this.block.bytes[place])}${field ? `, ${field.name} ${field.figures} ${field.words}` : ""}`;
    }

    // The fields of the last node of a chain; `current` is the one that is stood at.
    showFields(chain, place, current) {
        const node = chain.at(-1), fields = node?.fields?.() ?? [];
        const rows = fields.map((field) => element("tr", { class: field.start === current?.start && "current" },
            element("th", { scope: "row" }, button(field.name, () => this.choosePlace(field.start), { class: "link" })),
            element("td", { class: "figures" }, field.figures.length > 71 ? `${field.figures.slice(0, 71)} …` : field.figures),
            element("td", {}, field.words)));
        const nothing = this.block.bytes.length === 0 ? `The ${this.block.name} is empty.` : "Choose something in the tree, or a byte.";
        fill(byId("fields"),
            element("h3", {}, node ? chain.map(({ title }) => title).join(" › ") : "Nothing is chosen"),
            node ? element("table", {}, element("caption", { class: "unseen" }, "fields"), element("tbody", {}, rows)) : element("p", { class: "quiet" }, nothing),
            place !== undefined && this.changeForm(place));
    }

    // One byte, to be changed where it stands.
    changeForm(place) {
        const value = hexadecimal(this.block.bytes[place]), name = `byte ${place}, in hexadecimal`;
        const input = element("input", { id: "changed", size: 2, maxlength: 2, value, "aria-label": name, autocomplete: "off", spellcheck: "false" });
        const submit = (event) => {
            event.preventDefault();
            const changed = readHexadecimal(input.value);
            if (changed?.length === 1)
                this.onchange(this.blocks.indexOf(this.block), place, changed[0]);
        };
        const label = element("label", { for: "changed" }, `Byte ${place}`);
        return element("form", { class: "change", onsubmit: submit }, label, input, element("button", { type: "submit" }, "Change"));
    }
}
