// Values of JavaScript as records of the module, and back.
//
// A record of a number has what chooses its variant: its digits, as many behind the point as are shown at least, and whether it is
// ordinal. What else belongs to a value is kept here. A number is found by its record again; where another value has the
// same one, and for all that is no number of the module, the record has a token.
import {FluentDateTime, FluentNone, FluentNumber, FluentType} from "./types.js";

// The module's numbers are below this, and have so many places at most.
const NUMBERS_END = 2 ** 64, PLACES = 18;

/** A value of messages, or undefined for what is none. */
export function valueOf(value) {
    if (typeof value === "string" || value instanceof FluentType) return value;
    if (typeof value === "number") return new FluentNumber(value);
    return FluentDateTime.supportsValue(value) ? new FluentDateTime(value) : undefined;
}

const placesOf = text => (text.includes(".") ? text.length - text.indexOf(".") - 1 : 0);

// The digits of a number, or undefined where the module has no such number.
function digits(number) {
    if (!Number.isFinite(number) || Math.abs(number) >= NUMBERS_END) return undefined;
    const text = String(number);
    if (!text.includes("e") && placesOf(text) <= PLACES) return text;
    const cut = number.toFixed(PLACES).replace(/\.?0+$/, "");
    return Number(cut) === 0 ? undefined : cut;
}

// The record of a number, or undefined where the module has none.
function written({value, opts}) {
    const text = digits(value), places = opts?.minimumFractionDigits;
    if (text === undefined) return undefined;
    const missing = Number.isInteger(places) ? Math.min(places, PLACES) - placesOf(text) : 0;
    const padded = missing > 0 ? `${text}${text.includes(".") ? "" : "."}${"0".repeat(missing)}` : text;
    return opts?.type === "ordinal" ? `${padded};type=ordinal` : padded;
}

// The record of a number as it is written, from how the module asks about it.
function asked(text) {
    const [padded] = text.split(";");
    return text.includes(";type=ordinal") ? `${padded};type=ordinal` : padded;
}

// A number that stands in a message, such as 1.50, with its places.
function literal(text) {
    const places = placesOf(text);
    return new FluentNumber(Number(text), places > 0 ? {minimumFractionDigits: places} : {});
}

// Whether a value is a number without options.
function isPlain(value) {
    return value.constructor === FluentNumber && Object.keys(value.opts).length === 0;
}

function isSame(a, b) {
    return a === b || (a.constructor === FluentNumber && b.constructor === FluentNumber && Object.is(a.value, b.value) &&
        JSON.stringify(a.opts) === JSON.stringify(b.opts));
}

/** The values of one text. */
export class Values {
    #kept = [];
    #numbers = new Map();

    #token(value) {
        return this.#kept.push(value) - 1;
    }

    /** Kind and text of a value's record. */
    record(value) {
        if (typeof value === "string") return ["t", value];
        const number = value instanceof FluentNumber ? written(value) : undefined;
        if (number === undefined) return ["c", `${this.#token(value)}\n`];
        const other = this.#numbers.get(number);
        if (other && !isSame(other, value)) return ["n", `${number};currency=${this.#token(value)}`];
        this.#numbers.set(number, value);
        return ["n", number];
    }

    /** How the module asks about a value with this record, if all who have it are shown alike. */
    question(value, kind, text) {
        if (kind === "t") return text;
        if (kind !== "n" || !isPlain(value) || text.includes(";")) return undefined;
        const places = placesOf(text);
        return places > 0 ? `${text};minimumFractionDigits=${places}` : text;
    }

    /** The value of a record. */
    value({kind, value}) {
        if (kind === "t") return value;
        if (kind === "c") return this.#kept[value.slice(0, value.indexOf("\n"))];
        if (kind !== "n") return new FluentNone();
        const token = /;currency=(\d+)$/.exec(value)?.[1], number = asked(value);
        return token === undefined ? this.#numbers.get(number) ?? literal(number) : this.#kept[token];
    }
}
