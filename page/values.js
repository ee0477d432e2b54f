// Words for values, as makers/values.py has them: `bulk`, `en-US`, `100mA`. A number may stand wherever a word does.
import { FACTS } from "./facts.js";
import { hexadecimal } from "./bytes.js";

const languageNamed = (number) => Object.entries(FACTS.languages).find(([, known]) => known === number)?.[0];

// A language's number, and its name where it has one.
export const languageName = (number) => `${hexadecimal(number, 4)}${languageNamed(number) ? ` (${languageNamed(number)})` : ""}`;

// A language by its name, or else its number.
export const languageWord = (number) => languageNamed(number) ?? `0x${hexadecimal(number, 4)}`;

// The number of a language that has this name.
export const languageOf = (name) => Object.entries(FACTS.languages).find(([known]) => known.toLowerCase() === name.toLowerCase())?.[1];

// The words for a field's values, by the line's first word; and the unit that it counts, with how many of it.
export const wordsFor = (line, name) => FACTS.values[line]?.[name] ?? {};
export const unitOf = (name) => FACTS.units[name] ?? ["", 1];
export const areBits = (name) => FACTS.bits.includes(name);

// So many of these, in their order.
function* combinations(words, count) {
    if (count === 0)
        yield [];
    for (let at = 0; at < words.length && count > 0; at++)
        for (const rest of combinations(words.slice(at + 1), count - 1))
            yield [words[at], ...rest];
}

// A field's value in words; nothing if there are none for it.
export function valueWord(line, name, value) {
    const [unit, step] = unitOf(name), known = wordsFor(line, name);
    if (unit)
        return `${value * step}${unit}`;
    for (const count of areBits(name) ? [1, 2, 3] : [1])
        for (const words of combinations(Object.keys(known), count))
            if (words.reduce((bits, word) => bits | known[word], 0) === value)
                return words.join("+");
    return "";
}
