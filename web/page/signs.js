// A text with its marks of direction made visible, which are no letters: each isolated part gets a frame with the names of its
// marks. The marks stay in the text, so that it runs as without frames.
import {make} from "./elements.js";

const OPENERS = {"\u2066": ["LRI", "ltr"], "\u2067": ["RLI", "rtl"], "\u2068": ["FSI", "auto"]};
const END = "\u2069";
const OTHERS = {
    "\u200b": "ZWSP", "\u200c": "ZWNJ", "\u200d": "ZWJ", "\u200e": "LRM", "\u200f": "RLM", "\u061c": "ALM",
    "\u202a": "LRE", "\u202b": "RLE", "\u202c": "PDF", "\u202d": "LRO", "\u202e": "RLO",
    "\u00a0": "NBSP", "\u202f": "NNBSP", "\u00ad": "SHY",
};
const SIGNS = "\\u2066-\\u2069\\u200b-\\u200f\\u061c\\u202a-\\u202f\\u00a0\\u00ad";
const PARTS = new RegExp(`[${SIGNS}]|[^${SIGNS}]+`, "gu");

const sign = (name, text) => make("span", {className: "sign", "data-sign": name}, text);

export function withSigns(text) {
    const top = document.createDocumentFragment(), open = [top];
    for (const part of text.match(PARTS) ?? []) {
        const opener = OPENERS[part], last = open.at(-1);
        if (opener) {
            const frame = make("bdi", {className: "isolated", dir: opener[1]}, sign(opener[0], part));
            last.append(frame);
            open.push(frame);
        } else if (part === END) {
            last.append(sign("PDI", part));
            if (open.length > 1) open.pop();
        } else {
            last.append(OTHERS[part] ? sign(OTHERS[part], part) : part);
        }
    }
    return top;
}
