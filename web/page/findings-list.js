// The list of findings: each a button that leads to its place.
import {make} from "./elements.js";

const MOST = 200;

export class FindingsList {
    #shown = "";

    // `nameOf(key)` gives what a file is called; `go(finding)` leads to its place.
    constructor(list, more, {nameOf, go}) {
        Object.assign(this, {list, more, nameOf, go});
    }

    show(findings) {
        const first = findings.slice(0, MOST), shown = JSON.stringify(first.map(it => [this.nameOf(it.key), it]));
        this.more.hidden = findings.length <= MOST;
        this.more.textContent = `and ${(findings.length - MOST).toLocaleString("en")} more`;
        if (shown === this.#shown) return;
        this.#shown = shown;
        this.list.replaceChildren(...first.map(it => this.#item(it)));
    }

    #item(finding) {
        const {key, line, column, kind, text} = finding;
        return make("li", {}, make("button", {type: "button", onclick: () => this.go(finding)},
            make("span", {className: "place"}, `${this.nameOf(key)}:${line}:${column}`), " ",
            make("span", {className: "kind"}, kind), " ", make("span", {}, text)));
    }
}

export function count(findings) {
    if (findings.length === 0) return "No findings";
    return findings.length === 1 ? "1 finding" : `${findings.length.toLocaleString("en")} findings`;
}
