// Bundles in the module, asked by records: what c/rows.c does from C.
import {decoded, encoded} from "../src/engine.js";
import {Status} from "../src/faults.js";
import {Question, Records} from "../src/records.js";
import {objectsOf} from "./objects.js";

function must(status) {
    if (status !== Status.OK) throw new Error(`a bundle can't be made: status ${status}`);
}

/** Some bundles side by side. */
export class Asker {
    constructor(engine, links) {
        this.engine = engine;
        this.links = links;
        this.at = engine.call("new_bundles", links.length);
        this.objects = links.map(({objects}) => objectsOf(objects));
    }

    get hasObjects() {
        return this.links.some(({objects}) => objects.length > 0);
    }

    bundle(index) {
        return this.engine.call("bundle_at", this.at, index);
    }

    /** A call for one bundle, with texts. */
    status(name, index, parts, ...words) {
        return this.engine.status(name, this.bundle(index), ...this.engine.lend(...parts.map(encoded)), ...words);
    }

    /** Opens all bundles; gives what is told of each source that should be told of otherwise. */
    make() {
        return this.links.flatMap((link, index) => this.#open(link, index));
    }

    #open({language, rules, isolates, limit, sources}, index) {
        const {builtins, last} = this.objects[index], open = builtins && !last ? "open" : "open_bare";
        must(rules ? this.status("open_rules", index, rules, isolates ? 1 : 0) : this.status(open, index, [language], isolates ? 1 : 0));
        if (limit !== 100) must(this.status("set_limit", index, [], limit));
        if (!last) this.#declare(index);
        const wrong = sources.flatMap(source => this.#add(source, index));
        if (last) this.#declare(index);
        return wrong;
    }

    // A function whose name is taken is left, as one of a fixture's is.
    #declare(index) {
        const {functions, formatter, transform, builtins, last} = this.objects[index];
        if (last && builtins) this.status("add_builtins", index, []);
        for (const name of Object.keys(functions)) this.status("declare_function", index, [name], 0);
        if (formatter) must(this.status("declare_formatter", index, [], 1));
        if (transform) must(this.status("declare_transform", index, [], 1));
    }

    #add({text, overrides, report}, index) {
        must(this.status(overrides ? "add_overriding" : "add", index, [text]));
        const told = this.engine.text("report", this.bundle(index)).text;
        return report === null || told === report ? [] : [`of a source is told ${told}, and not ${report}`];
    }

    #arguments(row) {
        const records = new Records();
        for (const [name, kind, value] of row.args) records.add(kind, name, value);
        return records.bytes;
    }

    /** The status, the text and the lines of errors of a row, by one bundle or by the chain. */
    format(row, byChain) {
        const {engine} = this, answers = new Records(), parts = [encoded(row.id), encoded(row.name), this.#arguments(row)];
        const before = byChain ? ["format_chain", this.at, 0, this.links.length] : ["format", this.bundle(0), 0];
        for (;;) {
            const {status, text, errors} = engine.texts(...before, ...engine.lend(...parts, answers.bytes));
            if (status !== Status.ASKS) return {status, text: decoded(text), errors: decoded(errors)};
            answers.add(...this.#answered(new Question(text.slice()), this.objects[this.first(row)]));
        }
    }

    #answered(question, {functions, formatter, transform}) {
        if (question.letter === "x") return ["t", question.bytes, transform(question.text())];
        let answer;
        if (question.letter === "v") answer = formatter(question.record());
        else {
            const call = functions[question.text()], records = question.records();
            const named = Object.fromEntries(records.filter(({name}) => name).map(record => [record.name, record]));
            answer = call(records.filter(({name}) => !name), named);
        }
        return [answer[0], question.bytes, answer[1]];
    }

    /** Which bundle has what a row asks for: the number of bundles where none has. */
    first(row) {
        const found = this.links.findIndex((_, i) => this.status("find", i, [row.id, row.name]) === Status.OK);
        return found < 0 ? this.links.length : found;
    }

    close() {
        this.links.forEach((_, index) => this.engine.call("close", this.bundle(index)));
        this.engine.call("give", this.at);
    }
}
