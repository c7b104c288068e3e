// Errors in a text, and what is told of a source, as JavaScript has them.
import {decoded} from "./engine.js";

// What an error of each letter is, of an id and the name of an attribute.
const KINDS = {
    f: id => new ReferenceError(`Unknown function: ${id}()`),
    m: id => new ReferenceError(`Unknown message: ${id}`),
    a: (_, name) => new ReferenceError(`Unknown attribute: ${name}`),
    t: id => new ReferenceError(`Unknown term: -${id}`),
    b: (_, name) => new ReferenceError(`Unknown attribute: ${name}`),
    v: id => new ReferenceError(`Unknown variable: $${id}`),
    n: id => new ReferenceError(`No value: ${id}`),
    d: () => new RangeError("No default"),
    c: () => new RangeError("Cyclic reference"),
    p: () => new RangeError("Too many placeables expanded"),
};

/** The errors of records, each of which is a letter, an id and a name, with a zero byte after both. */
export function errorsOf(bytes) {
    if (bytes.length === 0) return [];
    const parts = decoded(bytes).split("\0"), errors = [];
    for (let i = 0; i + 1 < parts.length; i += 2) errors.push(KINDS[parts[i][0]](parts[i].slice(1), parts[i + 1]));
    return errors;
}

/** The error of a line such as "3: unreadable entry at bytes 14..30", with its `line`, and `start` and `end` where it has them. */
export function errorOfReport(text) {
    const [, line, said] = /^(\d+): (.*)$/s.exec(text), bytes = /^unreadable .* (\d+)\.\.(\d+)$/.exec(said);
    const error = bytes ? new SyntaxError(said) : new Error(said.replace(/\.$/, ""));
    error.line = Number(line);
    if (bytes) [error.start, error.end] = bytes.slice(1).map(Number);
    return error;
}
