/** Formatters of Intl for some languages, each made once. */
export class Formatters {
    #locales;
    #made = new Map();

    constructor(locales) {
        this.#locales = locales;
    }

    get(formatter, opts = {}) {
        let made = this.#made.get(formatter);
        if (!made) this.#made.set(formatter, (made = new Map()));
        const key = JSON.stringify(opts);
        if (!made.has(key)) made.set(key, new formatter(this.#locales, opts));
        return made.get(key);
    }
}
