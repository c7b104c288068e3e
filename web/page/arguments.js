// The arguments that a message asks for, and what each may be: a number, a text or a date.
import {patternsOf} from "./ftl.js";
import {reached} from "./reached.js";

const CATEGORIES = new Set(["zero", "one", "two", "few", "many"]);
const isNumber = text => /^-?[0-9]+(\.[0-9]+)?$/.test(text);

function kindOf({of, keys}) {
    if (of?.name === "NUMBER" || keys?.some(key => CATEGORIES.has(key) || isNumber(key))) return "number";
    if (of?.name === "DATETIME") return "date";
    return "text";
}

// Adds what a reference to a variable says of it: a number or a date counts before a text.
function note(found, reference) {
    const kind = kindOf(reference), before = found.get(reference.name);
    const keys = kind === "text" && !reference.of && reference.keys || [];
    if (!before) found.set(reference.name, {name: reference.name, kind, keys});
    else if (before.kind === "text") before.kind = kind, before.keys = before.keys.length ? before.keys : keys;
}

// [{name, kind, keys}] of a message with its attributes, and of messages that these refer to; `messages` has those of its
// language by their ids. `keys` are what a text may be that variants are chosen by.
export function argumentsOf(entry, messages) {
    const found = new Map(), entryOf = ({kind, name}) => kind === "message" ? messages.get(name) : undefined;
    const isAsked = ({kind, of}) => kind === "variable" && of?.kind !== "term";
    for (const first of patternsOf(entry).values())
        for (const {pattern} of reached(first, entry.source, entryOf))
            for (const it of pattern.references.filter(isAsked)) note(found, it);
    return [...found.values()];
}

const pad = number => String(number).padStart(2, "0");

export function today() {
    const now = new Date();
    return `${now.getFullYear()}-${pad(now.getMonth() + 1)}-${pad(now.getDate())}T12:00`;
}

// What an argument is where nothing was typed for it.
export function defaultFor({name, kind, keys}) {
    return {kind, text: kind === "number" ? "1" : kind === "date" ? today() : keys[0] ?? name};
}

// A typed argument as a value: {number, decimals}, {date} or {text}.
export function valueOf({kind, text}) {
    if (kind === "number" && isNumber(text.trim())) {
        const digits = text.trim();
        return {number: Number(digits), decimals: digits.split(".")[1]?.length ?? 0};
    }
    const date = kind === "date" ? new Date(text) : null;
    return date && !Number.isNaN(date.getTime()) ? {date} : {text};
}
