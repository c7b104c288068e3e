// One text: the questions that the module has, answered by the program's functions and by Intl.
import {Question, Records} from "./records.js";
import {FluentNone} from "./types.js";
import {Values, valueOf} from "./values.js";

// An argument of a type that no message shows.
class Refused extends FluentNone {
    constructor(name, value) {
        super(`$${name}`);
        this.type = typeof value;
    }

    report(scope) {
        scope.reportError(new TypeError(`Variable type not supported: ${this.value}, ${this.type}`));
    }

    toString(scope) {
        this.report(scope);
        return super.toString(scope);
    }
}

/** The arguments and the answers of one text. */
export class Call {
    #scope;
    #functions;
    #transform;
    #values = new Values();
    #args = new Records();
    #answers = new Records();

    /** `showsValues`: whether a message may show a number, or what a function gives, even without arguments. */
    constructor(scope, functions, transform, showsValues) {
        const values = Object.entries(scope.args ?? {}).map(([name, value]) => [name, valueOf(value) ?? new Refused(name, value)]);
        this.#scope = scope;
        this.#functions = functions;
        this.#transform = transform;
        /** Whether the module has to ask how values are shown: texts are shown as they are. */
        this.asks = showsValues || values.some(([, value]) => typeof value !== "string");
        for (const [name, value] of values) this.#send(name, value);
    }

    /** The arguments, as the module reads them. */
    get args() {
        return this.#args.bytes;
    }

    /** All answers so far. */
    get answers() {
        return this.#answers.bytes;
    }

    // How a value is shown is answered here before it is asked, where that can't fail, since each question costs a call.
    #send(name, value) {
        const [kind, text] = this.#values.record(value), asked = this.#values.question(value, kind, text);
        this.#args.add(kind, name, text);
        if (!this.asks || asked === undefined) return;
        const question = new Records();
        question.letter("v");
        question.add(kind, "", asked);
        if (kind === "t") this.#answers.add("o", question.bytes, "");
        else this.#answers.add("t", question.bytes, value.toString(this.#scope));
    }

    /** Answers a question. */
    answer(bytes) {
        const question = new Question(bytes);
        this.#answers.add(...this.#answered(question));
    }

    #answered(question) {
        switch (question.letter) {
        case "v": return this.#shown(question);
        case "x": return ["t", question.bytes, String(this.#transform(question.text()))];
        default: return this.#called(question);
        }
    }

    #shown(question) {
        const value = this.#values.value(question.record());
        if (typeof value === "string") return ["o", question.bytes, ""];
        return ["t", question.bytes, value.toString(this.#scope)];
    }

    #called(question) {
        const name = question.text();
        let value;
        try {
            value = this.#valueBy(name, question.records());
        } catch (error) {
            this.#scope.reportError(error);
            value = new FluentNone(`${name}()`);
        }
        const [kind, text] = this.#values.record(value);
        return [kind, question.bytes, text];
    }

    #valueBy(name, records) {
        const call = this.#functions[name], positional = [], named = Object.create(null);
        if (typeof call !== "function") throw new TypeError(`Function ${name}() is not callable`);
        for (const record of records) {
            const value = this.#values.value(record);
            if (value instanceof Refused) value.report(this.#scope);
            if (record.name === "") positional.push(value);
            else named[record.name] = value;
        }
        const value = valueOf(call(positional, named));
        if (value === undefined) throw new TypeError(`Function ${name}() gives no value of a message`);
        return value;
    }
}
