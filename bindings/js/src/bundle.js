// Messages of one language.
import {DATETIME, NUMBER} from "./builtins.js";
import {Call} from "./call.js";
import {decoded, encoded} from "./engine.js";
import {errorOfReport, errorsOf} from "./errors.js";
import {FluentFault, FluentTrap, Status} from "./faults.js";
import {Formatters} from "./intl.js";
import {Scope} from "./scope.js";
import {Slot} from "./slot.js";
import {FluentNone} from "./types.js";

/** The value of a message or an attribute: what formatPattern of its bundle takes. */
class Pattern {
    constructor(bundle, id, name) {
        this.bundle = bundle;
        this.id = encoded(id);
        this.name = encoded(name);
    }
}

const NONE = encoded("");

// What shows a number that stands in a source, or calls a function, looks so; other texts may do so too.
const VALUES = /[{(,:]\s*-?\d|[A-Z0-9_-]\s*\(/;

const lines = text => text.split("\n").slice(0, -1);

/** A bundle in the module of an engine. */
export class Bundle {
    #slot;
    #intl;
    #functions;
    #transform;
    #showsValues = false;

    constructor(engine, locales, {functions, useIsolating = true, transform, placeableLimit} = {}) {
        this.locales = Array.isArray(locales) ? locales : [locales];
        this.#functions = {NUMBER, DATETIME, ...functions};
        this.#transform = transform;
        this.#intl = new Formatters(this.locales);
        const names = Object.keys(this.#functions), transforms = transform !== undefined;
        this.#slot = new Slot(engine, this, {locales: this.locales, useIsolating, placeableLimit, names, transforms});
    }

    hasMessage(id) {
        return this.#slot.finds("has", encoded(id));
    }

    getMessage(id) {
        const bytes = encoded(id), {status, text} = this.#slot.text("attributes", bytes);
        if (status === Status.NO_MESSAGE) return undefined;
        if (status !== Status.OK) throw new FluentFault(status);
        const attributes = Object.create(null);
        for (const name of lines(text)) attributes[name] = new Pattern(this, id, name);
        return {id, value: this.#slot.finds("find", bytes, NONE) ? new Pattern(this, id, "") : null, attributes};
    }

    addResource(resource, {allowOverrides = false} = {}) {
        this.#slot.add(encoded(resource.source), allowOverrides);
        this.#showsValues ||= VALUES.test(resource.source);
        return lines(this.#slot.text("report").text).map(errorOfReport);
    }

    messageIds() {
        return lines(this.#slot.text("ids").text);
    }

    #own(pattern) {
        if (!(pattern instanceof Pattern) || pattern.bundle !== this) throw new TypeError("No pattern of this bundle");
        return pattern;
    }

    variables(pattern) {
        const {id, name} = this.#own(pattern), {status, text} = this.#slot.text("variables", id, name);
        if (status !== Status.OK) throw new FluentFault(status);
        return lines(text);
    }

    formatPattern(pattern, args = null, errors = null) {
        if (typeof pattern === "string") return this.#transform ? this.#transform(pattern) : pattern;
        this.#own(pattern);
        const scope = new Scope(this, this.#intl, args, errors);
        try {
            return this.#format(pattern, scope);
        } catch (error) {
            if (!errors || !(error instanceof Error) || error instanceof FluentFault || error instanceof FluentTrap) throw error;
            errors.push(error);
            return new FluentNone().toString(scope);
        }
    }

    #format({id, name}, scope) {
        const call = new Call(scope, this.#functions, this.#transform, this.#showsValues);
        for (;;) {
            const {status, text, errors} = this.#slot.formats(call.asks, id, name, call.args, call.answers);
            if (status === Status.ASKS) call.answer(text.slice());
            else if (status !== Status.OK) throw new FluentFault(status);
            else {
                const answer = decoded(text);
                for (const error of errorsOf(errors)) scope.reportError(error);
                return answer;
            }
        }
    }

    close() {
        this.#slot.close();
    }
}
