// The values of messages by the names of @fluent/bundle.

/** A value that is shown by its toString, for a scope that has `memoizeIntlObject` and `reportError`. */
export class FluentType {
    constructor(value) {
        this.value = value;
    }

    valueOf() {
        return this.value;
    }

    toString(_scope) {
        throw new TypeError(`${this.constructor.name} has no toString of its own`);
    }
}

/** No value: what it would have been stands in braces. */
export class FluentNone extends FluentType {
    constructor(value = "???") {
        super(value);
    }

    toString(_scope) {
        return `{${this.value}}`;
    }
}

// What a formatter of Intl makes of a value, or undefined, where the error is reported.
function shown(scope, formatter, {value, opts}) {
    try {
        return scope?.memoizeIntlObject(formatter, opts).format(value);
    } catch (error) {
        scope.reportError(error);
        return undefined;
    }
}

/** A number with the options of Intl.NumberFormat. */
export class FluentNumber extends FluentType {
    constructor(value, opts = {}) {
        super(value);
        this.opts = opts;
    }

    toString(scope) {
        return shown(scope, Intl.NumberFormat, this) ?? String(this.value);
    }
}

const TEMPORAL = ["Instant", "PlainDateTime", "PlainDate", "PlainMonthDay", "PlainTime", "PlainYearMonth"];

function isTemporal(value) {
    const {Temporal} = globalThis;
    return Temporal !== undefined && TEMPORAL.some(name => value instanceof Temporal[name]);
}

/** A date or time, or both, with the options of Intl.DateTimeFormat. */
export class FluentDateTime extends FluentType {
    /** Whether a value can be shown as a date. */
    static supportsValue(value) {
        if (value instanceof FluentType) return FluentDateTime.supportsValue(value.valueOf());
        return typeof value === "number" || value instanceof Date || isTemporal(value);
    }

    constructor(value, opts = {}) {
        const inner = value instanceof FluentType ? value.valueOf() : value;
        super(inner);
        this.opts = value instanceof FluentDateTime ? {...value.opts, ...opts} : opts;
        if (inner?.calendarId !== undefined && this.opts.calendar === undefined)
            this.opts = {...this.opts, calendar: inner.calendarId};
    }

    /** Milliseconds since 1970, for those that have them. */
    toNumber() {
        const {value} = this;
        if (typeof value === "number") return value;
        if (value instanceof Date) return value.getTime();
        if (value.epochMilliseconds !== undefined) return value.epochMilliseconds;
        if (value.toZonedDateTime) return value.toZonedDateTime("UTC").epochMilliseconds;
        throw new TypeError("A part of a date is no number");
    }

    [Symbol.toPrimitive](hint) {
        return hint === "string" ? this.toString() : this.toNumber();
    }

    toString(scope) {
        const text = shown(scope, Intl.DateTimeFormat, this);
        if (text !== undefined) return text;
        const {value} = this;
        return typeof value === "number" || value instanceof Date ? new Date(value).toISOString() : String(value);
    }
}
