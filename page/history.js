// States that one can go back to, and forward again.

const MOST = 60;

export class History {
    // `states` and `at` as kept() gave them.
    constructor({ states = [], at = states.length - 1 } = {}) {
        this.states = states.slice();
        this.at = Number.isInteger(at) && at >= 0 && at < states.length ? at : states.length - 1;
    }

    get state() {
        return this.states[this.at];
    }

    get canUndo() {
        return this.at > 0;
    }

    get canRedo() {
        return this.at < this.states.length - 1;
    }

    // A new state: those that were undone go, and the oldest of too many.
    note(state) {
        this.states = [...this.states.slice(0, this.at + 1), state].slice(-MOST);
        this.at = this.states.length - 1;
    }

    undo() {
        this.at -= this.canUndo ? 1 : 0;
        return this.state;
    }

    redo() {
        this.at += this.canRedo ? 1 : 0;
        return this.state;
    }

    // What is kept of it: the last states, of at most so many letters.
    kept(most = 200000) {
        let [first, length] = [this.states.length, 0];
        while (first > 0 && (first > this.at || (length += JSON.stringify(this.states[first - 1]).length) <= most))
            first--;
        return { states: this.states.slice(first), at: this.at - first };
    }
}
