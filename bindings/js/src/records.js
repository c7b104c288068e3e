// Arguments, questions and answers as the module reads and writes them: a kind in a byte, and then a name and a value, each after
// its length in four bytes, the lowest first.
import {decoded} from "./engine.js";

const encoder = new TextEncoder();
const NONE = new Uint8Array(0);

/** Records one after the other. */
export class Records {
    #bytes = NONE;
    #length = 0;

    get bytes() {
        return this.#bytes.subarray(0, this.#length);
    }

    #room(more) {
        if (this.#length + more <= this.#bytes.length) return;
        const bytes = new Uint8Array(Math.max(this.#length + more, 2 * this.#bytes.length, 256));
        bytes.set(this.bytes);
        this.#bytes = bytes;
    }

    #sized(length) {
        for (let shift = 0; shift < 32; shift += 8) this.#bytes[this.#length++] = length >>> shift;
    }

    /** Adds a byte. */
    letter(letter) {
        this.#room(1);
        this.#bytes[this.#length++] = letter.charCodeAt(0);
    }

    /** Adds a text, or bytes, after their length. */
    part(part) {
        const bytes = typeof part === "string" ? encoder.encode(part) : part;
        this.#room(4 + bytes.length);
        this.#sized(bytes.length);
        this.#bytes.set(bytes, this.#length);
        this.#length += bytes.length;
    }

    /** Adds a record. */
    add(kind, name, value) {
        this.letter(kind);
        this.part(name);
        this.part(value);
    }
}

/** Reads a question: its letter, a text or a name behind it, and records. */
export class Question {
    #view;
    #at = 1;

    constructor(bytes) {
        this.bytes = bytes;
        this.letter = String.fromCharCode(bytes[0]);
        this.#view = new DataView(bytes.buffer, bytes.byteOffset, bytes.length);
    }

    text() {
        const from = this.#at + 4;
        this.#at = from + this.#view.getUint32(this.#at, true);
        return decoded(this.bytes.subarray(from, this.#at));
    }

    record() {
        const kind = String.fromCharCode(this.bytes[this.#at++]);
        return {kind, name: this.text(), value: this.text()};
    }

    records() {
        const records = [];
        while (this.#at < this.bytes.length) records.push(this.record());
        return records;
    }
}
