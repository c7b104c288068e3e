// A bundle in the module's memory, which is made anew where a trap ended the instance that it was in.
import {encoded} from "./engine.js";
import {FluentFault, Status} from "./faults.js";

const NONE = encoded("");

// Where a bundle lies: in the engine's instance of an age.
class Place {
    constructor(engine) {
        this.engine = engine;
        this.at = engine.call("new_bundles", 1);
        this.age = engine.age;
        if (this.at === 0) throw new FluentFault(Status.NO_MEMORY);
    }

    get isThere() {
        return this.age === this.engine.age;
    }

    free() {
        if (!this.isThere) return;
        this.engine.call("close", this.at);
        this.engine.call("give", this.at);
    }
}

// What throws here is a trap, after which there is nothing to be freed.
const forgotten = new FinalizationRegistry(place => {
    try {
        place.free();
    } catch {}
});

function must(status) {
    if (status !== Status.OK) throw new FluentFault(status);
}

export class Slot {
    #engine;
    #settings;
    #place;
    #sources = [];
    #asks = false;
    #isClosed = false;

    /** An open bundle of these settings, which is closed once nothing refers to its owner. */
    constructor(engine, owner, settings) {
        this.#engine = engine;
        this.#settings = {...settings, owner: new WeakRef(owner)};
        this.#make();
    }

    #make() {
        const place = new Place(this.#engine);
        try {
            this.#open(place.at);
            for (const {source, overrides} of this.#sources) this.#put(place.at, source, overrides);
        } catch (error) {
            place.free();
            throw error;
        }
        this.#place = place;
        forgotten.register(this.#settings.owner.deref(), place, place);
    }

    #open(at) {
        const {useIsolating, placeableLimit, names, transforms} = this.#settings;
        this.#openByLocale(at, useIsolating ? 1 : 0);
        if (placeableLimit !== undefined) must(this.#engine.status("set_limit", at, placeableLimit));
        for (const name of names) must(this.#engine.status("declare_function", at, ...this.#engine.lend(encoded(name)), 1));
        this.#asks = false;
        if (transforms) must(this.#engine.status("declare_transform", at, 1));
    }

    // The plural rules are those of the first language that has some, or else none.
    #openByLocale(at, isolates) {
        for (const locale of this.#settings.locales) {
            const status = this.#engine.status("open", at, ...this.#engine.lend(encoded(String(locale))), isolates);
            if (status === Status.OK) return;
            if (status !== Status.NO_LANGUAGE) throw new FluentFault(status);
            this.#engine.call("close", at);
        }
        must(this.#engine.status("open_rules", at, ...this.#engine.lend(NONE, NONE), isolates));
    }

    #put(at, source, overrides) {
        must(this.#engine.status(overrides ? "add_overriding" : "add", at, ...this.#engine.lend(source)));
    }

    get #at() {
        if (this.#isClosed) throw new FluentFault(Status.CLOSED_BUNDLE);
        if (!this.#place.isThere) this.#make();
        return this.#place.at;
    }

    /** Adds a source. */
    add(source, overrides) {
        this.#put(this.#at, source, overrides);
        this.#sources.push({source, overrides});
    }

    /** Whether there is what a call looks for. */
    finds(name, ...parts) {
        const at = this.#at, status = this.#engine.status(name, at, ...this.#engine.lend(...parts));
        if (status !== Status.NO_MESSAGE) must(status);
        return status === Status.OK;
    }

    /** The status and the text of a call. */
    text(name, ...parts) {
        const at = this.#at;
        return this.#engine.text(name, at, ...this.#engine.lend(...parts));
    }

    /** The status, the text and the records of errors of a message that is formatted by answers, as bytes: how values are shown is
        asked or not. */
    formats(asks, ...parts) {
        const at = this.#at;
        if (asks !== this.#asks) must(this.#engine.status("declare_formatter", at, asks ? 1 : 0));
        this.#asks = asks;
        return this.#engine.texts("format", at, 1, ...this.#engine.lend(...parts));
    }

    /** Gives the memory back. A closed one can't be asked. */
    close() {
        if (this.#isClosed) return;
        this.#isClosed = true;
        forgotten.unregister(this.#place);
        this.#place.free();
        this.#sources = [];
    }
}
