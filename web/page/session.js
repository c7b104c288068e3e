// What the page works on, as the worker keeps it: the files, their languages, and what is shown and found of them.
import {argumentsOf, defaultFor, valueOf} from "./arguments.js";
import {findings, sorted} from "./findings.js";
import {patternsOf} from "./ftl.js";
import {groupBy} from "./groups.js";
import {Language, Source} from "./language.js";

// What an object has itself under a name, such as `constructor`, which each inherits.
const own = (object, name) => object && Object.hasOwn(object, name) ? object[name] : undefined;

export class Session {
    sources = new Map();
    languages = [];
    view = {values: {}, filter: "", from: 0, count: 50};

    // Takes what the page sends: {files: [{key, name, language, source}], isolate, values, filter, from, count}. A file
    // without a source has that which was sent before.
    take({files, isolate, ...view}) {
        this.view = view;
        const sources = new Map();
        for (const file of files) sources.set(file.key, this.#sourceOf(file));
        this.sources = sources;
        this.#read(isolate);
    }

    #sourceOf(file) {
        const before = this.sources.get(file.key);
        const source = file.source ?? before.text;
        if (before && before.text === source) {
            before.language = file.language, before.name = file.name;
            return before;
        }
        return new Source({...file, source});
    }

    // Opens the languages anew whose files are others than before.
    #read(isolate) {
        const before = this.languages, byTag = groupBy(this.sources.values(), source => source.language);
        this.languages = [...byTag].map(([tag, sources]) =>
            before.find(it => it.isOf(tag, sources, isolate)) ?? new Language(tag, sources, isolate));
        for (const it of before) if (!this.languages.includes(it)) it.close();
    }

    // The ids of all messages, as they come in the files.
    get ids() {
        return [...new Set(this.languages.flatMap(({messages}) => [...messages.keys()]))];
    }

    // The arguments of a message in all languages, each with what was typed for it, or else its default.
    arguments(id) {
        const found = new Map(), typed = own(this.view.values, id);
        for (const {messages} of this.languages) {
            const entry = messages.get(id);
            for (const it of entry ? argumentsOf(entry, messages) : []) if (!found.has(it.name)) found.set(it.name, it);
        }
        return [...found.values()].map(it => ({...it, typed: own(typed, it.name) ?? defaultFor(it)}));
    }

    #valuesOf(id) {
        return this.arguments(id).map(({name, typed}) => [name, valueOf(typed)]);
    }

    // A message with its arguments and texts: {id, key, start, asked, rows: [{attribute, language, text, errors}]}. A text that
    // a language has not is null.
    #message(id) {
        const asked = this.arguments(id), values = asked.map(({name, typed}) => [name, valueOf(typed)]);
        const entries = this.languages.map(language => language.messages.get(id));
        const names = new Set(entries.flatMap(entry => entry ? [...patternsOf(entry).keys()] : []));
        const rows = [...names].flatMap(attribute => this.languages.filter(it => !it.problem).map(language => ({
            attribute, language: language.tag, ...(language.text(id, attribute, values) ?? {text: null, errors: []}),
        })));
        const {source, start} = entries.find(Boolean);
        return {id, key: source.key, start, asked, rows};
    }

    #isWanted(id, words) {
        const has = ({start, stop, source}) => source.text.slice(start, stop).toLowerCase().includes(words);
        return this.languages.some(({messages}) => messages.has(id) && has(messages.get(id)));
    }

    get wanted() {
        const words = this.view.filter.trim().toLowerCase();
        return words ? this.ids.filter(id => this.#isWanted(id, words)) : this.ids;
    }

    // The messages of the page that is looked at: {total, from, messages, problems}.
    shown() {
        const ids = this.wanted, {count} = this.view;
        const from = Math.max(0, Math.min(this.view.from, ids.length - 1));
        const first = from - from % count;
        const messages = ids.slice(first, first + count).map(id => this.#message(id));
        const problems = this.languages.filter(it => it.problem).map(({tag, problem}) => ({language: tag, text: problem}));
        return {total: ids.length, from: first, messages, problems};
    }

    // The message in which an offset of a file stands: {id, index}, by its place among those that are wanted, or null.
    at(key, offset) {
        const entry = this.sources.get(key)?.entries.findLast(it => it.start <= offset);
        if (!entry || entry.isTerm || offset > entry.stop) return null;
        return {id: entry.id, index: this.wanted.indexOf(entry.id)};
    }

    // All findings, a language at a time and message by message: each step gives some, perhaps none.
    *found() {
        for (const language of this.languages) {
            if (!language.problem) yield* findings(language, entry => this.#valuesOf(entry.id));
        }
    }
}

// Findings of all files, sorted: what the page shows and marks.
export function byPlace(found, keys) {
    const of = groupBy(found, it => it.key);
    return keys.flatMap(key => sorted(of.get(key) ?? []));
}
