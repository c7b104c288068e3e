// The module in its memory: calls by name, with texts as UTF-8.
import {FluentFault, FluentTrap, Status} from "./faults.js";

const encoder = new TextEncoder();
const decoder = new TextDecoder("utf-8", {ignoreBOM: true});

/** Bytes of a text. A surrogate that stands alone becomes U+FFFD. */
export function encoded(text) {
    return encoder.encode(text);
}

/** The text of bytes. */
export function decoded(bytes) {
    return decoder.decode(bytes);
}

const LEAST = 4096;

// Memory of the instance that is as long as the longest text so far.
class Room {
    size = 0;
    at = 0;

    fit(engine, size) {
        if (size <= this.size) return;
        const next = Math.max(size, 2 * this.size, LEAST);
        const at = engine.take(next);
        if (this.size > 0) engine.call("give", this.at);
        this.size = next;
        this.at = at;
    }
}

export class Engine {
    #module;
    #exports;
    #bytes = new Uint8Array(0);
    #in = new Room();
    #out = new Room();
    /** Counts the instances: what lies in an earlier one is gone. */
    age = 0;

    constructor(module) {
        this.#module = module;
        this.#start();
    }

    #start() {
        this.#exports = new WebAssembly.Instance(this.#module, {}).exports;
    }

    // Does as little as may be: there may be next to no stack.
    #end() {
        this.#exports = undefined;
        this.age++;
        this.#in.size = this.#out.size = 0;
    }

    /** What a call answers. Where it breaks off, its instance is never called again. */
    call(name, ...words) {
        if (!this.#exports) this.#start();
        try {
            return this.#exports[name](...words) >>> 0;
        } catch (error) {
            this.#end();
            throw new FluentTrap(name, error);
        }
    }

    /** The same of a call that answers a status. */
    status(name, ...words) {
        return this.call(name, ...words) & 255;
    }

    /** New memory. */
    take(size) {
        const at = this.call("take", size);
        if (at === 0) throw new FluentFault(Status.NO_MEMORY);
        return at;
    }

    /** A part of the memory, until it grows. */
    view(at, length) {
        if (!this.#exports) this.#start();
        const {buffer} = this.#exports.memory;
        if (this.#bytes.buffer !== buffer) this.#bytes = new Uint8Array(buffer);
        return this.#bytes.subarray(at, at + length);
    }

    /** Puts bytes side by side: the address and the length of each. */
    lend(...parts) {
        let length = 0;
        for (const part of parts) length += part.length;
        this.#in.fit(this, Math.max(length, LEAST));
        const words = [], view = this.view(this.#in.at, length);
        let at = 0;
        for (const part of parts) {
            view.set(part, at);
            words.push(this.#in.at + at, part.length);
            at += part.length;
        }
        return words;
    }

    /** The status and the text of a call that writes one text. */
    text(name, ...words) {
        this.#out.fit(this, LEAST);
        for (;;) {
            const status = this.status(name, ...words, this.#out.at, this.#out.size);
            const length = this.call("text_length");
            if (status !== Status.TOO_SMALL) return {status, text: decoded(this.view(this.#out.at, length))};
            this.#out.fit(this, length);
        }
    }

    /** The status, the text and the errors, as bytes, of a call that writes both. A question stands in place of the text. */
    texts(name, ...words) {
        this.#out.fit(this, LEAST);
        for (;;) {
            const {at, size} = this.#out, half = size >> 1;
            const status = this.status(name, ...words, at, half, at + half, half);
            const length = this.call("text_length"), errors = this.call("errors_length");
            if (status !== Status.TOO_SMALL && length <= half)
                return {status, text: this.view(at, length), errors: this.view(at + half, errors)};
            this.#out.fit(this, 2 * Math.max(length, errors));
        }
    }
}
