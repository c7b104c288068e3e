import assert from "node:assert/strict";
import {test} from "node:test";
import {argumentsOf, defaultFor, valueOf} from "../page/arguments.js";
import {outline} from "../page/ftl.js";

function asked(text, id) {
    const entries = new Map(outline(text).filter(it => !it.isTerm).map(it => [it.id, it]));
    return argumentsOf(entries.get(id), entries).map(({name, kind, keys}) => [name, kind, ...keys]);
}

test("kinds are found by what a variable does", () => {
    const selects = "{ $p ->\n [one] 1\n *[other] 2\n }{ $q ->\n [3] 3\n *[x] x\n }";
    assert.deepEqual(asked(`a = { $t }{ NUMBER($n) }{ DATETIME($d) }${selects}\n`, "a"),
        [["t", "text"], ["n", "number"], ["d", "date"], ["p", "number"], ["q", "number"]]);
});

test("what a text is chosen among is told", () => {
    const source = "a = { $g ->\n [masculine] he\n [feminine] she\n *[other] they\n }\n";
    assert.deepEqual(asked(source, "a"), [["g", "text", "masculine", "feminine", "other"]]);
});

test("a number counts before a text, whichever comes first", () => {
    assert.deepEqual(asked("a = { $n }{ $n ->\n [one] 1\n *[other] 2\n }\n", "a"), [["n", "number"]]);
    assert.deepEqual(asked("a = { $n ->\n [one] 1\n *[other] 2\n }{ $n }\n", "a"), [["n", "number"]]);
});

test("attributes and messages that are referred to ask too, terms do not", () => {
    const source = "a = { b }\n .x = { $x }\nb = { $y }{ -t }{ -t(k: $z) }\n-t = { $k }\n";
    assert.deepEqual(asked(source, "a"), [["y", "text"], ["x", "text"]]);
});

test("messages in a row ask, as far as a text goes", () => {
    const row = Array.from({length: 20_000}, (_, i) => `m${i} = { m${i + 1} }{ $v${i} }\n`).join("");
    assert.deepEqual(asked(row, "m0").map(([name]) => name), Array.from({length: 101}, (_, i) => `v${i}`));
});

test("of a message the attribute that is referred to asks", () => {
    assert.deepEqual(asked("a = { b.x }\nb = { $y }\n .x = { $z }\n", "a"), [["z", "text"]]);
});

test("cycles end, and what a message asks itself comes first", () => {
    assert.deepEqual(asked("a = { b }{ $x }\nb = { a }{ $y }\n", "a"), [["x", "text"], ["y", "text"]]);
});

test("typed arguments are values of their kinds", () => {
    assert.deepEqual(valueOf({kind: "number", text: " 1.50 "}), {number: 1.5, decimals: 2});
    assert.deepEqual(valueOf({kind: "number", text: "many"}), {text: "many"});
    assert.deepEqual(valueOf({kind: "text", text: "3"}), {text: "3"});
    assert.equal(valueOf({kind: "date", text: "2026-11-29T12:00"}).date.getMonth(), 10);
    assert.deepEqual(valueOf({kind: "date", text: "x"}), {text: "x"});
});

test("each kind has a default", () => {
    assert.deepEqual(defaultFor({name: "n", kind: "number", keys: []}), {kind: "number", text: "1"});
    assert.deepEqual(defaultFor({name: "who", kind: "text", keys: []}), {kind: "text", text: "who"});
    assert.deepEqual(defaultFor({name: "g", kind: "text", keys: ["he", "she"]}), {kind: "text", text: "he"});
    assert.match(defaultFor({name: "d", kind: "date", keys: []}).text, /^\d{4}-\d\d-\d\dT12:00$/);
});
