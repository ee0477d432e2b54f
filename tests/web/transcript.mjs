// Transcripts compared: what the page's host asks and is answered is among what the bench host asks and is answered, in the same order.

// The events of a transcript, each with its answer and the record that it leaves.
function eventsOf(lines) {
    const events = [];
    let record = "";
    for (const line of lines) {
        if (line === "" || line.startsWith("#"))
            continue;
        if (!line.startsWith("  "))
            events.push({ event: line.replace(/^(a key is pressed): (?:wake not allowed|19: .*)$/, "$1: 19"), answer: "" });
        else if (line.startsWith("  record"))
            record = line.replace(/^ {2}record[^:]*: /, "");
        else
            events.at(-1).answer += ` ${line.trim().replace(/^(-> (?:STALL, )?\d+): .*/, "$1").replace(/\s+/g, " ")}`;
        events.at(-1).record = record;
    }
    return events.map(({ event, answer, record: left }) => `${event}${answer.replaceAll(",", "")} | ${left}`);
}

// How many of the page's events are there in this order, and the first that is not.
export function subsequence(page, host) {
    const events = eventsOf(host);
    let at = 0, found = 0;
    for (const event of eventsOf(page)) {
        const next = events.indexOf(event, at);
        if (next < 0)
            return { found, missing: event };
        at = next + 1;
        found++;
    }
    return { found, missing: null };
}
