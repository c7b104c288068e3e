// What is wrong in the files of a language: today what the engine passed over, and the errors of each text with the arguments
// that were typed. A finding is {key, line, column, length, kind, text}: the file's key, and how much of the line is marked.
import {patternsOf} from "./ftl.js";
import {afterBytes} from "./places.js";
import {reached} from "./reached.js";

const UNREADABLE = "this can’t be read as a message, a term or a comment";

const restOfLine = (source, {line, column}) => Math.max(1, source.lines.line(line).length - column + 1);

function finding(source, start, length, kind, text) {
    const place = source.lines.place(start);
    return {key: source.key, ...place, length: Math.min(length, restOfLine(source, place)), kind, text};
}

// What can't be read, and entries whose ids were taken. Both come in the order of the source.
function* passedOver(source, errors) {
    let bytes = 0, offset = 0;
    for (const error of errors) {
        if (error.isUnreadable) {
            offset = afterBytes(source.text, offset, error.start - bytes), bytes = error.start;
            yield finding(source, offset, source.text.length, "unreadable", UNREADABLE);
        } else {
            const start = source.lines.starts[error.line - 1], named = /^-?[A-Za-z][\w-]*/.exec(source.lines.line(error.line));
            yield finding(source, start, named?.[0].length ?? 1, "id-taken", error.text);
        }
    }
}

const KINDS = [
    [/^Unknown variable/, "unknown-variable", "variable"], [/^Unknown message/, "missing-message", "message"],
    [/^Unknown term/, "missing-term", "term"], [/^Unknown attribute/, "missing-attribute", "attribute"],
    [/^Unknown function/, "missing-function", "function"], [/^No (value|pattern)/, "missing-value", "message"],
    [/^Cycl/, "cycle", ""], [/^Too many/, "too-many-placeables", ""],
];

const nameOf = ({name, attribute}) => attribute ? `${name}.${attribute}` : name;

// What an error names, as `-brand.case` or `$n`, without its sign.
const namedBy = text => /: [$-]?([\w.-]+)(\(\))?$/.exec(text)?.[1];

// The references of a pattern, and of those that it comes to, each with the source in which it stands.
function* referencesFrom(pattern, source, {messages, terms}) {
    const entryOf = ({kind, name}) => kind === "message" ? messages.get(name) : kind === "term" ? terms.get(name) : undefined;
    for (const it of reached(pattern, source, entryOf))
        for (const reference of it.pattern.references) yield {...reference, source: it.source};
}

// Whether an error of a kind that names a name may speak of a reference: a cycle of any that may lead there.
function isOf(reference, kind, name) {
    if (name === undefined) return reference.kind === "message" || reference.kind === "term";
    if (kind === "attribute") return reference.attribute === name.split(".").at(-1);
    return reference.kind === kind && nameOf(reference) === name;
}

function referenceOf(references, kind, name) {
    for (const it of references) if (isOf(it, kind, name)) return it;
    return undefined;
}

// Each error of a text, where the reference stands of which it speaks, or else at the entry's id.
function* ofText(language, entry, attribute, pattern, errors) {
    for (const text of errors) {
        const [, kind, of] = KINDS.find(([words]) => words.test(text)) ?? ["", "error", ""];
        const {source, start, end} = referenceOf(referencesFrom(pattern, entry.source, language), of, namedBy(text)) ?? entry;
        yield finding(source, start, end - start, kind, `${text} (in ‘${nameOf({name: entry.id, attribute})}’)`);
    }
}

const order = (a, b) => a.line - b.line || a.column - b.column;

// Whether a finding is new, and not told of this place before by another text.
function isNew(it, told) {
    const place = `${it.key} ${it.line} ${it.column} ${it.kind}`;
    return !told.has(place) && told.add(place);
}

// All findings of a language, as a generator that gives, message by message, what is found: a caller may stop between two.
// `valuesOf(entry)` gives the arguments of a message.
export function* findings(language, valuesOf) {
    const told = new Set();
    for (const [source, errors] of language.passedOver) yield [...passedOver(source, errors)];
    for (const entry of language.messages.values()) {
        const values = valuesOf(entry), found = [];
        for (const [attribute, pattern] of patternsOf(entry)) {
            const shown = language.text(entry.id, attribute, values);
            if (shown?.errors.length) found.push(...ofText(language, entry, attribute, pattern, shown.errors));
        }
        yield found.filter(it => isNew(it, told));
    }
}

// In the order of a file's lines.
export function sorted(found) {
    return found.sort(order);
}
