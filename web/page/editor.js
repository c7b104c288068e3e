// One file: its name, its language, and a text area with numbers of lines and marks of findings below it. Of both only what is
// in view is made, and of a long file the text area holds a part, since browsers take long over long ones.
import {make} from "./elements.js";
import {groupBy} from "./groups.js";
import {moved} from "./moved.js";
import {Lines} from "./places.js";
import {tagOf} from "./directions.js";

const LONGEST_LINE = 5000;
const PART = 2000; // lines

export class Editor {
    #lines; #findings = []; #byLine = new Map();
    #part = {start: 0, end: 0}; // offsets of what the text area holds

    // `on` has what is done: input (of the text), renamed, closed, saved.
    constructor(file, on) {
        this.file = file;
        this.on = on;
        this.#build();
        this.#lines = new Lines(file.source);
        this.#showPart(1);
        new ResizeObserver(() => this.draw()).observe(this.area);
    }

    #build() {
        this.area = make("textarea", {spellcheck: false, wrap: "off", autocapitalize: "off", autocomplete: "off"});
        this.numbers = make("div", {className: "numbers", "aria-hidden": "true"});
        this.marks = make("div", {className: "marks", "aria-hidden": "true"});
        this.here = make("output", {className: "here"});
        const paper = make("div", {className: "paper"}, this.marks, this.area);
        this.element = make("article", {className: "file"}, this.#bar(), this.#partBar(),
            make("div", {className: "editor"}, this.numbers, paper), this.here);
        this.#label();
        this.#listen();
    }

    // What stands above the text: name, language, and buttons.
    #bar() {
        const {file, on} = this;
        this.name = this.#field("name", "Name of the file", file.name, text => file.name = text);
        const tagged = text => file.language = text.trim().replaceAll("_", "-");
        this.tag = this.#field("tag", "Language of the file", file.language, tagged);
        this.tag.setAttribute("list", "tags");
        this.saver = make("button", {type: "button", textContent: "Save", onclick: () => on.saved(file)});
        this.closer = make("button", {type: "button", textContent: "Close", onclick: () => on.closed(this)});
        return make("div", {className: "bar"}, this.name, this.tag, this.saver, this.closer);
    }

    #field(className, said, value, set) {
        const field = make("input", {className, value, title: said, "aria-label": said, spellcheck: false});
        field.addEventListener("input", () => {
            set(field.value);
            this.#label();
            this.on.renamed();
        });
        return field;
    }

    #label() {
        const {name, language} = this.file, said = `${name || "a file"}, ${language || "no language"}`;
        this.element.setAttribute("aria-label", said);
        this.area.setAttribute("aria-label", `FTL of ${said}`);
        this.closer.setAttribute("aria-label", `Close ${said}`);
        this.saver.setAttribute("aria-label", `Save ${said}`);
        this.area.lang = tagOf(language);
        this.tag.setAttribute("aria-invalid", String(tagOf(language) === ""));
    }

    #listen() {
        this.area.addEventListener("input", () => this.#typed());
        this.area.addEventListener("scroll", () => this.draw());
        this.area.addEventListener("keydown", event => this.#key(event));
    }

    #partBar() {
        const button = (textContent, said, by) =>
            make("button", {type: "button", textContent, "aria-label": said, onclick: () => this.#turn(by)});
        this.before = button("‹", "Lines before these", -1);
        this.after = button("›", "Lines after these", 1);
        this.range = make("span", {role: "status"});
        return this.parts = make("div", {className: "parts bar"}, this.before, this.range, this.after);
    }

    // Puts the lines from the first on into the text area, as many as a part has.
    #showPart(first) {
        const {starts, count} = this.#lines, {source} = this.file, next = starts[first - 1 + PART];
        this.#part = {start: starts[first - 1], end: next === undefined ? source.length : next - 1};
        this.area.value = source.slice(this.#part.start, this.#part.end);
        this.area.scrollTop = 0;
        this.#tellPart(count);
    }

    #tellPart(count) {
        const {first, last} = this.#partLines;
        this.parts.hidden = first === 1 && last === count;
        this.range.textContent = `Lines ${first} to ${last} of ${count}`;
        this.before.disabled = first === 1;
        this.after.disabled = last === count;
    }

    get #partLines() {
        return {first: this.#lines.place(this.#part.start).line, last: this.#lines.place(this.#part.end).line};
    }

    #turn(by) {
        const {first, last} = this.#partLines;
        this.#showPart(by > 0 ? last + 1 : Math.max(1, first - PART));
        this.area.setSelectionRange(0, 0);
        this.draw();
    }

    #typed() {
        const {file} = this, {start, end} = this.#part;
        file.source = file.source.slice(0, start) + this.area.value + file.source.slice(end);
        this.#part.end = start + this.area.value.length;
        const before = this.#lines;
        this.#lines = new Lines(file.source);
        this.#keepFindings(moved(this.#findings, before, this.#lines, this.caret));
        if (this.#isTooLong) this.#cut();
        else this.#tellPart(this.#lines.count);
        this.draw();
        this.on.input();
    }

    // Whether so much was put in that the text area holds too much.
    get #isTooLong() {
        const {first, last} = this.#partLines;
        return last - first > 2 * PART;
    }

    // Leaves in the text area what is around the caret.
    #cut() {
        const {caret} = this, {line} = this.#lines.place(caret), {first} = this.#partLines;
        this.#showPart(Math.max(first, line - PART / 2));
        this.area.setSelectionRange(caret - this.#part.start, caret - this.#part.start);
        this.#scrollTo(line - this.#partLines.first, 1);
    }

    #key(event) {
        if (event.key !== "F8") return;
        event.preventDefault();
        this.step(event.shiftKey ? -1 : 1);
    }

    // Sorted findings of this file.
    setFindings(findings) {
        this.#keepFindings(findings);
        this.area.setAttribute("aria-invalid", String(findings.length > 0));
        this.draw();
        this.caretMoved();
    }

    #keepFindings(findings) {
        this.#findings = findings;
        this.#byLine = groupBy(findings, it => it.line);
    }

    // Draws the numbers and marks of the lines in view.
    draw() {
        const {scrollTop, scrollLeft, clientHeight} = this.area, height = this.lineHeight, part = this.#partLines;
        const first = part.first + Math.floor(scrollTop / height);
        const last = Math.min(part.last, first + Math.ceil(clientHeight / height));
        const numbers = [], marks = [];
        for (let line = first; line <= last; line++) {
            const found = this.#byLine.get(line) ?? [], top = `${(line - part.first) * height - scrollTop}px`;
            numbers.push(place(make("span", {className: found.length ? "found" : "", textContent: line}), {top}));
            if (found.length) marks.push(place(markedLine(this.#lines.line(line), found), {top, left: `${-scrollLeft}px`}));
        }
        this.numbers.style.width = `${String(this.#lines.count).length + 2}ch`;
        this.numbers.replaceChildren(...numbers);
        this.marks.replaceChildren(...marks);
    }

    get lineHeight() {
        return this.height ||= parseFloat(getComputedStyle(this.area).lineHeight);
    }

    // The offset of the caret in the file.
    get caret() {
        return this.#part.start + this.area.selectionStart;
    }

    // Tells the finding in which the caret stands.
    caretMoved() {
        const {line, column} = this.#lines.place(this.caret), found = this.#byLine.get(line) ?? [];
        const it = found.find(({column: from, length}) => from <= column && column <= from + length);
        const said = it ? `${it.line}:${it.column} ${it.text}` : "";
        if (this.here.textContent !== said) this.here.textContent = said;
    }

    // Puts the caret to a place and shows it.
    goTo({line, column, length = 0}) {
        const part = this.#partLines, {area} = this;
        if (line < part.first || line > part.last) this.#showPart(Math.max(1, line - PART / 2));
        const {start} = this.#part, from = this.#lines.offset({line, column});
        const to = this.#lines.offset({line, column: column + length});
        area.focus({preventScroll: true});
        area.setSelectionRange(from - start, to - start);
        this.#scrollTo(line - this.#partLines.first, column);
        this.draw();
        this.caretMoved();
    }

    #scrollTo(row, column) {
        const {area, lineHeight} = this, top = row * lineHeight;
        const isSeen = top >= area.scrollTop && top + lineHeight <= area.scrollTop + area.clientHeight;
        if (!isSeen) area.scrollTop = top - area.clientHeight / 3;
        area.scrollLeft = Math.max(0, (column - 1) * lineHeight * 0.4 - area.clientWidth / 2);
        this.element.scrollIntoView({block: "nearest"});
    }

    goToOffset(offset, length) {
        this.goTo({...this.#lines.place(offset), length});
    }

    // The next finding behind the caret, or the one before it; from the last comes the first.
    step(by) {
        const found = this.#findings, caret = this.caret, offset = it => this.#lines.offset(it);
        if (!found.length) return;
        const next = by > 0 ? found.find(it => offset(it) > caret) : found.findLast(it => offset(it) < caret);
        this.goTo(next ?? found.at(by > 0 ? 0 : -1));
    }
}

function place(element, style) {
    Object.assign(element.style, style);
    return element;
}

// A line whose letters are not seen, with the findings in it underlined.
function markedLine(text, found) {
    const line = make("div");
    if (text.length > LONGEST_LINE) return line;
    let at = 0;
    for (const {column, length} of found) {
        const from = Math.max(at, column - 1), to = Math.min(text.length, column - 1 + length);
        if (from > at) line.append(text.slice(at, from));
        if (to > from) line.append(make("mark", {}, text.slice(from, to)));
        else if (from >= text.length) line.append(make("mark", {}, " "));
        at = Math.max(at, to);
    }
    line.append(text.slice(at));
    return line;
}
