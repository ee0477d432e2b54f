// The rules of opening in words, from the one list that docs/MAKERS.md shows, and what a refusal says.
import { FACTS } from "./facts.js";

// A rule as it is asked of a set that goes by these limits.
export function ruleOf(number, limits = "alone") {
    const rule = FACTS.rules.find((one) => one.number === number), [asks, allowed] = FACTS.otherLimits[limits][number] ?? [];
    return asks ? { ...rule, rule: asks, words: allowed } : rule;
}

// The rules of a group that a set by these limits is asked.
export const rulesOfGroup = (group, limits = "alone") =>
    FACTS.rules.filter((rule) => rule.group === group && FACTS.asked[limits].includes(rule.number)).map(({ number }) => ruleOf(number, limits));

export const GROUPS = {
    1: "the frame", 2: "the contents", 3: "the device", 4: "the configurations", 5: "the strings", 6: "the serial block", 24: "what two sets have in common",
};
