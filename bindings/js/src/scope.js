/** What the toString of a value is given: the bundle, its formatters, and where errors go. */
export class Scope {
    #intl;

    constructor(bundle, intl, args, errors) {
        this.bundle = bundle;
        this.#intl = intl;
        this.args = args;
        this.errors = errors;
    }

    /** Puts an error into the list, or throws it where there is none. */
    reportError(error) {
        if (!this.errors || !(error instanceof Error)) throw error;
        this.errors.push(error);
    }

    /** A formatter of Intl for the bundle's languages, made once. */
    memoizeIntlObject(formatter, opts) {
        return this.#intl.get(formatter, opts);
    }
}
