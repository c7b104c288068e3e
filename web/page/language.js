// The files of one language, which count as one source: read by the engine, with places by the outline.
import {Engine} from "./engine.js";
import {outline} from "./ftl.js";
import {Lines} from "./places.js";

// A file as it was typed. Its outline is made once for a text.
export class Source {
    constructor({key, name, language, source}) {
        Object.assign(this, {key, name, language, text: source.toWellFormed()});
        this.lines = new Lines(this.text);
        this.entries = outline(this.text);
        for (const entry of this.entries) entry.source = this;
    }
}

export class Language {
    constructor(tag, sources, isolate) {
        Object.assign(this, {tag, sources, isolate, problem: ""});
        this.messages = new Map();
        this.terms = new Map();
        this.passedOver = new Map();
        try {
            this.#read();
        } catch (error) {
            this.problem = error.message;
        }
    }

    #read() {
        this.engine = new Engine(this.tag, this.isolate);
        for (const source of this.sources) {
            this.passedOver.set(source, this.engine.add(source.text));
            for (const entry of source.entries) this.#keep(entry);
        }
    }

    // The first entry of an id stands.
    #keep(entry) {
        const entries = entry.isTerm ? this.terms : this.messages;
        if (!entries.has(entry.id)) entries.set(entry.id, entry);
    }

    isOf(tag, sources, isolate) {
        return this.tag === tag && this.isolate === isolate && this.sources.length === sources.length &&
            this.sources.every((source, i) => source === sources[i]);
    }

    text(id, attribute, values) {
        return this.problem ? null : this.engine.text(id, attribute, values);
    }

    close() {
        this.engine?.close();
    }
}
