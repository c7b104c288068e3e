import assert from "node:assert/strict";
import {test} from "node:test";
import {outline, patternsOf} from "../page/ftl.js";

const ids = text => outline(text).map(({id, isTerm}) => (isTerm ? "-" : "") + id);
const named = pattern => pattern.references.map(({kind, name, attribute}) => [kind, name, attribute].join(" ").trim());
const only = text => outline(text)[0];

test("messages and terms are found, comments and junk are not", () => {
    assert.deepEqual(ids("# c = 1\na = A\n-b = B\n\n## d = 2\nc=C\n junk\n9 = x\n"), ["a", "-b", "c"]);
});

test("an entry stands where its id stands", () => {
    const text = "\n# one\nfirst = 1\nother-one = 2\n", [first, other] = outline(text);
    assert.equal(text.slice(first.start, first.end), "first");
    assert.equal(text.slice(other.start, other.end), "other-one");
});

test("what is no entry is passed over", () => {
    assert.deepEqual(ids("a\nb =\n= c\nd = { \ne = E\nf = } x\ng = G"), ["e", "g"]);
});

test("attributes belong to their message, the first of a name counts", () => {
    const entry = only("a = A\n    .x = { $one }\n    .y = Y\n    .x = { $two }\nb = B\n");
    assert.deepEqual(entry.attributes.map(({name}) => name), ["x", "y", "x"]);
    assert.deepEqual(named(patternsOf(entry).get("x")), ["variable one"]);
    assert.deepEqual([...patternsOf(entry).keys()], ["", "x", "y"]);
});

test("a message may have attributes alone", () => {
    assert.deepEqual([...patternsOf(only("a =\n    .x = X\n")).keys()], ["x"]);
});

test("an entry ends before an attribute that can't be read", () => {
    const [first, second] = outline("a = A\n    .x = X\n    .y =\nb =\nc = C\n");
    assert.deepEqual([first.id, ...first.attributes.map(({name}) => name)], ["a", "x"]);
    assert.equal(second.id, "c");
});

test("a pattern goes on in indented lines, and in braces at the start of a line", () => {
    assert.deepEqual(named(only("a = one\n\n  two { $x }\n{ $y } three\nb = { $z }\n").value), ["variable x", "variable y"]);
});

test("references have kinds, and stand where they stand", () => {
    const text = 'a = { $v } { m } { m.at } { -t } { -t.at } { -t(k: "x") } { NUMBER($n, kind: 1) } { "{ no }" } { 5 } { -0.5 }\n';
    const {value} = only(text);
    assert.deepEqual(named(value), [
        "variable v", "message m", "message m at", "term t", "term t at", "term t", "function NUMBER", "variable n",
    ]);
    assert.deepEqual(value.references.map(({start, end}) => text.slice(start, end)), [
        "$v", "m", "m.at", "-t", "-t.at", "-t", "NUMBER", "$n",
    ]);
    assert.equal(value.references[7].of.name, "NUMBER");
});

test("a quote is a letter in text, also in that of a variant", () => {
    assert.deepEqual(named(only('a = "{ $x }\n').value), ["variable x"]);
    const entry = only('a = { $n ->\n    [one] say "{ $x }\n   *[other] no " more\n}\nb = B\n');
    assert.deepEqual(named(entry.value), ["variable n", "variable x"]);
});

test("escaped quotes do not end a literal", () => {
    assert.deepEqual(named(only('a = { "\\"{ $no }\\\\" }{ $x }\n').value), ["variable x"]);
});

test("the keys of a select are told of what it selects by", () => {
    const {references} = only("a = { $n ->\n    [0] none\n    [few] { $m } few\n   *[other] many\n}\n").value;
    assert.deepEqual(references.map(({name, keys}) => [name, keys]), [["n", ["0", "few", "other"]], ["m", null]]);
});

test("selects stand in selects, and in one line", () => {
    const text = "a = { $n ->\n *[x] { $m ->\n  [y] { $k }\n *[z] z\n }\n}\nb = { $n -> *[o] { $p } }\n";
    assert.deepEqual(outline(text).map(({value}) => named(value)), [
        ["variable n", "variable m", "variable k"], ["variable n", "variable p"],
    ]);
});

test("a placeable may go over lines, also to the first column", () => {
    assert.deepEqual(outline("a = {\n$x\n} end { b\n}\nb = B\n").map(({id}) => id), ["a", "b"]);
});

test("braces without an end are left, however many", () => {
    assert.deepEqual(ids(`a = ${"{".repeat(100000)}\nb = B\n`), ["b"]);
});
