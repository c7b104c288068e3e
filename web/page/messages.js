// The messages of a page of them: each with inputs for its arguments and its texts in all languages. What stays as it was is
// left in the document, so that who types into an input keeps the place.
import {make} from "./elements.js";
import {directionOf, tagOf} from "./directions.js";
import {withSigns} from "./signs.js";

const KINDS = ["number", "text", "date"];

// One argument: its input and its kind.
class Argument {
    constructor(id, {name, kind, keys, typed}, on) {
        const said = `$${name} of ${id}`, kinds = KINDS.map(value => make("option", {value, textContent: value}));
        this.input = make("input", {"data-argument": name, spellcheck: false, autocomplete: "off", "aria-label": said});
        this.kind = make("select", {"aria-label": `Kind of ${said}`}, ...kinds);
        const choices = make("datalist", {id: `keys-${id}-${name}`}, ...keys.map(value => make("option", {value})));
        if (keys.length) this.input.setAttribute("list", choices.id);
        this.element = make("span", {className: "argument"}, make("label", {}, `$${name} `, this.input), this.kind, choices);
        this.input.addEventListener("input", () => on(name, this.typed));
        this.kind.addEventListener("change", () => (this.#setKind(this.kind.value), on(name, this.typed)));
        this.show(typed);
    }

    get typed() {
        return {kind: this.kind.value, text: this.input.value};
    }

    #setKind(kind) {
        this.kind.value = kind;
        this.input.type = kind === "date" ? "datetime-local" : "text";
        this.input.inputMode = kind === "number" ? "decimal" : "text";
    }

    show({kind, text}) {
        if (kind !== this.kind.value || !this.input.type) this.#setKind(kind);
        if (this.input.value !== text && document.activeElement !== this.input) this.input.value = text;
    }
}

function textOf({text, language, errors}, marks) {
    const shown = make("dd", {lang: tagOf(language), dir: directionOf(language)});
    if (text === null) shown.append(make("span", {className: "absent", lang: "en", dir: "ltr"}, "not there"));
    else shown.append(make("span", {className: "text"}, marks ? withSigns(text) : text));
    shown.append(...errors.map(said => make("p", {className: "said", lang: "en", dir: "ltr"}, said)));
    return shown;
}

class Card {
    #asked = ""; #shown = ""; #arguments = new Map();

    constructor(id, on) {
        this.id = id;
        this.on = on;
        this.asked = make("div", {className: "arguments"});
        this.texts = make("dl", {className: "texts"});
        const name = make("button", {type: "button", className: "id", textContent: id, title: "To its place"});
        name.addEventListener("click", () => on.wanted(this.message));
        const bar = make("div", {className: "bar"}, make("h3", {}, name), this.asked);
        this.element = make("li", {className: "message"}, bar, this.texts);
        this.element.dataset.id = id;
    }

    // Arguments are left as they are where what is shown is not the last that was typed.
    show(message, marks, isLast) {
        if (isLast || !this.message) this.#showArguments(message.asked);
        this.message = message;
        const shown = JSON.stringify([message.rows, marks]);
        if (shown === this.#shown) return;
        this.#shown = shown;
        this.texts.replaceChildren(...message.rows.flatMap(row => [this.#label(row), textOf(row, marks)]));
    }

    #label({language, attribute}) {
        const label = make("dt", {}, make("span", {className: "of"}, language));
        if (attribute) label.append(" ", make("code", {}, `.${attribute}`));
        return label;
    }

    #showArguments(asked) {
        const names = JSON.stringify(asked.map(({name, keys}) => [name, keys]));
        if (names !== this.#asked) {
            this.#asked = names;
            const on = (name, typed) => this.on.typed(this.id, name, typed);
            this.#arguments = new Map(asked.map(it => [it.name, new Argument(this.id, it, on)]));
            this.asked.replaceChildren(...[...this.#arguments.values()].map(({element}) => element));
        }
        for (const {name, typed} of asked) this.#arguments.get(name).show(typed);
    }
}

export class Messages {
    #cards = new Map(); #current = "";

    // `on` has what is done: typed (id, name, {kind, text}), wanted (a message whose place is wanted).
    constructor(list, on) {
        this.list = list;
        this.on = on;
    }

    show({messages, isLast}, marks) {
        const before = this.#cards;
        this.#cards = new Map(messages.map(({id}) => [id, before.get(id) ?? new Card(id, this.on)]));
        for (const message of messages) this.#cards.get(message.id).show(message, marks, isLast);
        const cards = [...this.#cards.values()].map(({element}) => element), now = this.list.children;
        if (cards.length !== now.length || cards.some((it, i) => it !== now[i])) this.list.replaceChildren(...cards);
        this.#mark();
    }

    // Shows which message the caret is in, and brings it into view in its list.
    setCurrent(id) {
        if (id === this.#current) return;
        this.#current = id;
        this.#mark();
        const element = this.#cards.get(id)?.element, {list} = this;
        if (!element) return;
        const top = element.offsetTop - list.offsetTop;
        const isSeen = top >= list.scrollTop && top + element.offsetHeight <= list.scrollTop + list.clientHeight;
        if (!isSeen) list.scrollTop = top;
    }

    #mark() {
        for (const [id, {element}] of this.#cards) {
            if (id === this.#current) element.setAttribute("aria-current", "true");
            else element.removeAttribute("aria-current");
        }
    }
}
