import assert from "node:assert/strict";
import {test} from "node:test";
import {moved} from "../page/moved.js";
import {Lines} from "../page/places.js";

// The letters that are marked after an edit at which the caret ends, of a text in which the first x's are.
function marked(before, after, caret) {
    const lines = new Lines(before), other = new Lines(after);
    const findings = [...before.matchAll(/x+/g)].map(({index, 0: {length}}) => ({...lines.place(index), length}));
    return moved(findings, lines, other, caret).map(it => {
        const at = other.offset(it);
        return `${at} ${after.slice(at, at + it.length)}`;
    });
}

test("what stands behind new text moves along, also over lines", () => {
    assert.deepEqual(marked("x a\nxx b", "x new\nline a\nxx b", 11), ["0 x", "13 xx"]);
});

test("what stands behind text that was taken out moves back", () => {
    assert.deepEqual(marked("x one\ntwo x\nx", "x o x\nx", 4), ["0 x", "4 x", "6 x"]);
});

test("what was taken out in part or as a whole goes", () => {
    assert.deepEqual(marked("a xx b xx c xx", "a x c xx", 3), ["6 xx"]);
});

test("text at the start of a mark moves it, text in it does not", () => {
    assert.deepEqual(marked("xx", "axx", 1), ["1 xx"]);
    assert.deepEqual(marked("xx", "xax", 2), ["0 xa"]);
});
