// Finds in FTL where its entries stand, and what their patterns name. What can be read is for the engine to say: this looks
// for places and arguments, and passes over what it can't make out.

const DEEPEST = 400; // placeables in one another

// Each is tried where the scanner stands.
const NAME = /[A-Za-z][A-Za-z0-9_-]*/y;
const SPACES = / */y;
const BLANKS = /[ \n]*/y;
const TEXT = /[^{}\n]+/y;
const NUMBER = /-?[0-9]+(\.[0-9]+)?/y;
const LITERAL = /"([^"\\\n]|\\.)*"/y;
const LETTER = /[A-Za-z]/;

const broken = new Error("no FTL");

// What is read, or null where it can't be.
function tried(read) {
    try {
        return read();
    } catch (error) {
        if (error === broken) return null;
        throw error;
    }
}

class Scanner {
    constructor(text, at) {
        this.text = text;
        this.at = at;
        this.depth = 0;
        this.references = [];
    }

    get here() {
        return this.text[this.at];
    }

    // Goes behind what is expected here.
    skip(expected) {
        expected.lastIndex = this.at;
        if (!expected.test(this.text)) throw broken;
        this.at = expected.lastIndex;
    }

    spaces() {
        this.skip(SPACES);
    }

    blanks() {
        this.skip(BLANKS);
    }

    name() {
        const from = this.at;
        this.skip(NAME);
        return this.text.slice(from, this.at);
    }

    sign(sign) {
        if (this.here !== sign) throw broken;
        this.at++;
    }

    // From the start of a line: a message or a term.
    entry() {
        const start = this.at, isTerm = this.here === "-";
        if (isTerm) this.at++;
        const id = this.name(), end = this.at;
        this.spaces();
        this.sign("=");
        const value = this.pattern(), attributes = [];
        for (let next = this.attribute(); next; next = this.attribute()) attributes.push(next);
        if (!value && (isTerm || !attributes.length)) throw broken;
        return {id, isTerm, start, end, stop: this.at, value, attributes};
    }

    // The attribute on the next line, or null where there is none that can be read: the entry ends before it.
    attribute() {
        const line = this.at;
        this.blanks();
        const attribute = this.here === "." ? tried(() => this.readAttribute()) : null;
        if (!attribute) this.at = line;
        return attribute;
    }

    readAttribute() {
        this.depth = 0;
        const start = this.at++, name = this.name(), end = this.at;
        this.spaces();
        this.sign("=");
        const value = this.pattern();
        if (!value) throw broken;
        return {name, start, end, value};
    }

    // A pattern up to the line end or the brace behind it, or null where it has nothing.
    pattern() {
        const outer = this.references, start = this.at, references = this.references = [];
        let isEmpty = true;
        this.spaces();
        while (this.at < this.text.length && this.here !== "}") {
            if (this.here === "\n") {
                if (!this.nextLine()) break;
            } else {
                isEmpty = false;
                this.element();
            }
        }
        this.references = outer;
        outer.push(...references);
        return isEmpty ? null : {start, end: this.at, references};
    }

    // Goes to the next line of the pattern, if it goes on there.
    nextLine() {
        const line = this.at;
        this.blanks();
        const first = this.here, isIndented = this.text[this.at - 1] === " ";
        if (first === "{" || (isIndented && first !== undefined && !".[*}".includes(first))) return true;
        this.at = line;
        return false;
    }

    element() {
        if (this.here === "{") this.placeable();
        else this.skip(TEXT);
    }

    placeable() {
        if (++this.depth > DEEPEST) throw broken;
        this.at++;
        const first = this.references.length, calls = [];
        for (this.blanks(); this.here !== "}"; this.blanks()) this.expression(first, calls);
        this.at++;
        this.depth--;
    }

    expression(first, calls) {
        const c = this.here, next = this.text[this.at + 1];
        if (c === "{") this.placeable();
        else if (c === "\"") this.skip(LITERAL);
        else if (c === "(") calls.push(this.references.at(-1)), this.at++;
        else if (c === ")") calls.pop(), this.at++;
        else if (c === "," || c === ":") this.at++;
        else if (c === "-" && next === ">") this.at += 2, this.variants(first);
        else if (c === "$") this.reference("variable", 1, calls);
        else if (c === "-" && LETTER.test(next)) this.reference("term", 1, calls);
        else if (LETTER.test(c)) this.named(calls);
        else this.skip(NUMBER);
    }

    // A function, the name of an argument, or a message.
    named(calls) {
        const from = this.at;
        this.name();
        const end = this.at;
        this.blanks();
        const sign = this.here;
        this.at = from;
        if (sign === ":") this.at = end;
        else this.reference(sign === "(" ? "function" : "message", 0, calls);
    }

    reference(kind, skip, calls) {
        const start = this.at;
        this.at += skip;
        const name = this.name();
        let attribute = "";
        if (this.here === "." && (kind === "message" || kind === "term")) {
            this.at++;
            attribute = this.name();
        }
        this.references.push({kind, name, attribute, start, end: this.at, of: calls.at(-1) ?? null, keys: null});
    }

    // The variants of a select, whose selector named what is in the references from the first on.
    variants(first) {
        const selectors = this.references.slice(first), keys = [];
        for (this.blanks(); this.here !== "}"; this.blanks()) {
            if (this.here === "*") this.at++;
            this.sign("[");
            const end = this.text.indexOf("]", this.at);
            if (end < 0) throw broken;
            keys.push(this.text.slice(this.at, end).trim());
            this.at = end + 1;
            this.pattern();
        }
        for (const it of selectors) it.keys = keys;
    }
}

const START = /\n[A-Za-z-]/g;

// Where the next line begins that may begin an entry, from `at` on.
function nextStart(text, at) {
    if (at === 0 && /^[A-Za-z-]/.test(text)) return 0;
    START.lastIndex = Math.max(0, at - 1);
    return START.test(text) ? START.lastIndex - 1 : text.length;
}

// The messages and terms of a source, in its order:
// {id, isTerm, start, end, stop, value, attributes: [{name, start, end, value}]}, where a pattern is
// {start, end, references: [{kind, name, attribute, start, end, of, keys}]}: `of` is the call around a reference, `keys` are the
// keys that it selects among.
export function outline(text) {
    const entries = [];
    for (let at = nextStart(text, 0); at < text.length;) {
        const entry = tried(() => new Scanner(text, at).entry());
        if (entry) entries.push(entry);
        at = nextStart(text, entry ? entry.stop : at + 1);
    }
    return entries;
}

// What a message gives: its value under the empty name, and its attributes, of which the first of a name counts.
export function patternsOf(entry) {
    return entry.patterns ??= namedPatterns(entry);
}

function namedPatterns({value, attributes}) {
    const patterns = new Map(value ? [["", value]] : []);
    for (const it of attributes) if (!patterns.has(it.name)) patterns.set(it.name, it.value);
    return patterns;
}
