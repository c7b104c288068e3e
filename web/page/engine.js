// The one module that knows the package @fluent/bundle stands for: a language's bundle, its texts and its errors.
import {FluentBundle, FluentNumber, FluentResource} from "./fluent/src/index.js";

const argumentOf = ({number, decimals, date, text}) =>
    date ?? (number === undefined ? text : decimals ? new FluentNumber(number, {minimumFractionDigits: decimals}) : number);

export class Engine {
    #bundle;

    constructor(tag, isolate) {
        this.#bundle = new FluentBundle([tag], {useIsolating: isolate});
    }

    // Adds a source. What was passed over in it: [{isUnreadable, line, start, end, text}], the two in bytes of UTF-8.
    add(source) {
        return this.#bundle.addResource(new FluentResource(source)).map(error => ({
            isUnreadable: error instanceof SyntaxError, line: error.line, start: error.start, end: error.end, text: error.message,
        }));
    }

    // The text of a message's value (the empty name) or attribute, with its errors: {text, errors: [string]}, or null where it
    // has none. The arguments are values as arguments.js makes them, by their names.
    text(id, attribute, values) {
        const message = this.#bundle.getMessage(id);
        const pattern = attribute ? message?.attributes[attribute] : message?.value;
        if (pattern === undefined || pattern === null) return null;
        const args = Object.fromEntries(values.map(([name, value]) => [name, argumentOf(value)])), errors = [];
        const text = this.#bundle.formatPattern(pattern, args, errors);
        return {text, errors: errors.map(error => error.message)};
    }

    close() {
        this.#bundle.close();
    }
}
