import assert from "node:assert/strict";
import {test} from "node:test";
import {afterBytes, Lines} from "../page/places.js";

test("offsets have lines and columns, and back", () => {
    const lines = new Lines("ab\n\ncde");
    assert.equal(lines.count, 3);
    for (const [offset, line, column] of [[0, 1, 1], [2, 1, 3], [3, 2, 1], [4, 3, 1], [7, 3, 4]]) {
        assert.deepEqual(lines.place(offset), {line, column});
        assert.equal(lines.offset({line, column}), offset);
    }
});

test("lines are given without their ends", () => {
    const lines = new Lines("ab\n\ncde\n");
    assert.deepEqual([1, 2, 3, 4].map(line => lines.line(line)), ["ab", "", "cde", ""]);
});

test("a place behind the end is at the end", () => {
    assert.equal(new Lines("ab\nc").offset({line: 9, column: 9}), 4);
    assert.equal(new Lines("ab\nc").offset({line: 1, column: 9}), 2);
});

test("bytes of UTF-8 are counted as units of JavaScript", () => {
    const text = "aż€😀b";
    for (const [bytes, offset] of [[0, 0], [1, 1], [3, 2], [6, 3], [10, 5], [11, 6]]) assert.equal(afterBytes(text, 0, bytes), offset);
    assert.equal(afterBytes(text, 2, 3), 3);
});
