// Over the engine of a made page, whose folder the environment names: PAGE=FOLDER.
import assert from "node:assert/strict";
import {readdirSync, readFileSync} from "node:fs";
import {test} from "node:test";

const page = process.env.PAGE, skip = page ? false : "no PAGE";
const load = name => page ? import(`${page}/${name}`) : {};
const {Session, byPlace} = await load("session.js");
const {outline} = await load("ftl.js");
const {Engine} = await load("engine.js");
const {FluentBundle, FluentResource} = await load("fluent/src/index.js");

const FIXTURES = new URL("../../tests/test_fixtures/data/", import.meta.url);

const VIEW = {isolate: false, values: {}, filter: "", from: 0, count: 50};

// A session of files, each [language, source], and what is typed for arguments.
function sessionOf(files, values = {}) {
    const session = new Session();
    session.take({files: files.map(([language, source], key) => ({key, name: `${key}.ftl`, language, source})), ...VIEW, values});
    return session;
}

// The findings of files, each as "key line column length kind".
function found(files) {
    const all = byPlace([...sessionOf(files).found()].flat(), files.map((_, key) => key));
    return all.map(({key, line, column, length, kind}) => [key, line, column, length, kind].join(" "));
}

// What is shown, each as "id|attribute|language|text".
function texts(session) {
    const rowsOf = ({id, rows}) => rows.map(({attribute, language, text}) => [id, attribute, language, text].join("|"));
    return session.shown().messages.flatMap(rowsOf);
}

test("each text is shown in each language", {skip}, () => {
    const polish = "b = be\na = { $n ->\n [few] mało\n *[other] inaczej\n }\n";
    const session = sessionOf([["en", "a = A\n .x = X\nb = B\n"], ["pl", polish]], {a: {n: {kind: "number", text: "3"}}});
    assert.deepEqual(texts(session), ["a||en|A", "a||pl|mało", "a|x|en|X", "a|x|pl|", "b||en|B", "b||pl|be"]);
});

test("names that JavaScript has are names like others", {skip}, () => {
    const source = "constructor = { $toString } { $valueOf }\n", session = sessionOf([["en", source]], {constructor: {valueOf: {kind: "text", text: "typed"}}});
    assert.deepEqual(texts(session), ["constructor||en|toString typed"]);
    assert.deepEqual(texts(sessionOf([["en", source]])), ["constructor||en|toString valueOf"]);
});

test("the files of a language are one source", {skip}, () => {
    assert.deepEqual(texts(sessionOf([["en", "a = A { b }\n"], ["en", "b = B\n"]])), ["a||en|A B", "b||en|B"]);
});

test("a number keeps the digits that were typed", {skip}, () => {
    const source = "a = { $n ->\n [one] { $n } one\n *[other] { $n } other\n }\n";
    assert.deepEqual(texts(sessionOf([["en", source]], {a: {n: {kind: "number", text: "1.0"}}})), ["a||en|1.0 other"]);
});

test("a language that changes alone is read again", {skip}, () => {
    const session = sessionOf([["en", "a = A\n"], ["pl", "a = be\n"]]), [english, polish] = session.languages;
    const files = [{key: 0, name: "0.ftl", language: "en"}, {key: 1, name: "1.ftl", language: "pl", source: "a = ce\n"}];
    session.take({files, ...VIEW});
    assert.equal(session.languages[0] === english, true);
    assert.equal(session.languages[1] === polish, false);
    assert.deepEqual(texts(session), ["a||en|A", "a||pl|ce"]);
});

test("what can't be read is found at its place", {skip}, () => {
    const source = "ż = A\na = A\n\nbroken line here\nb = { \n";
    assert.deepEqual(found([["en", source]]), ["0 1 1 5 unreadable", "0 4 1 16 unreadable", "0 5 1 6 unreadable"]);
});

test("an id that was taken is found where it stands again", {skip}, () => {
    assert.deepEqual(found([["en", "a = A\n-t = T\n"], ["en", "b = B\n-t = T\na = A\n"]]), ["1 2 1 2 id-taken", "1 3 1 1 id-taken"]);
});

test("what is not there is found where it is referred to", {skip}, () => {
    const source = "a = { b } { -t } { c.x } { F() }\nc = C\nd = { e }\ne = { b }\n" +
        "f =\n .x = { -u.y ->\n  *[o] { g }\n }\n-u = U\n";
    assert.deepEqual(found([["en", source]]), [
        "0 1 7 1 missing-message", "0 1 13 2 missing-term", "0 1 20 3 missing-attribute", "0 1 28 1 missing-function",
        "0 4 7 1 missing-message", "0 6 9 4 missing-attribute", "0 7 10 1 missing-message",
    ]);
});

test("cycles and messages without a value are found", {skip}, () => {
    const source = "a = { b }\nb = { a }\nc = { d }\nd =\n .x = X\n";
    assert.deepEqual(found([["en", source]]), ["0 1 7 1 cycle", "0 2 7 1 cycle", "0 3 7 1 missing-value"]);
});

test("too many placeables are found", {skip}, () => {
    const source = `a = ${"{ b }".repeat(10)}\nb = ${"{ c }".repeat(10)}\nc = C\n`;
    assert.deepEqual(found([["en", source]]), ["0 1 7 1 too-many-placeables"]);
});

test("messages in a long row end", {skip}, () => {
    const row = Array.from({length: 3000}, (_, i) => `m${i} = { m${i + 1} }\n`).join("");
    assert.deepEqual(new Set(found([["en", row]]).map(line => line.split(" ").at(-1))), new Set(["missing-message", "too-many-placeables"]));
});

test("a language that is none has no texts, and the others theirs", {skip}, () => {
    const session = sessionOf([["en", "a = A\n"], ["", "a = B\n"]]);
    assert.equal(texts(session).includes("a||en|A"), true);
});

test("a filter looks at ids and at what is written", {skip}, () => {
    const session = sessionOf([["en", "one = First\ntwo = Second\nthree = fIRST\n"]]);
    session.view.filter = "First";
    assert.deepEqual(session.shown().messages.map(({id}) => id), ["one", "three"]);
    session.view.filter = "tw";
    assert.deepEqual(session.shown().messages.map(({id}) => id), ["two"]);
});

test("a place leads to its message, and a page has so many", {skip}, () => {
    const session = sessionOf([["en", Array.from({length: 120}, (_, i) => `m${i} = M\n`).join("") + "-t = T\n"]]);
    session.view.from = 60;
    const {total, from, messages} = session.shown();
    assert.deepEqual([total, from, messages.length, messages[0].id], [120, 50, 50, "m50"]);
    const text = session.sources.get(0).text;
    assert.deepEqual(session.at(0, text.indexOf("m99 = M") + 4), {id: "m99", index: 99});
    assert.equal(session.at(0, text.indexOf("T")), null);
});

test("in the fixtures the outline has the messages that the engine reads, with their attributes", {skip}, () => {
    const names = readdirSync(FIXTURES).filter(name => name.endsWith(".ftl"));
    assert.equal(names.length > 50, true);
    for (const name of names) {
        const source = readFileSync(new URL(name, FIXTURES), "utf8").replaceAll("\r\n", "\n"), bundle = new FluentBundle(["en"]);
        bundle.addResource(new FluentResource(source));
        const entries = new Map();
        for (const it of outline(source)) if (!it.isTerm && !entries.has(it.id)) entries.set(it.id, it);
        const seen = bundle.messageIds().map(id => [id, bundle.getMessage(id)]);
        for (const [id, message] of seen) {
            const entry = entries.get(id);
            assert.equal(entry !== undefined, true, `${name}: ${id} is missed`);
            const names = [...new Set(entry.attributes.map(it => it.name))];
            assert.deepEqual(names.sort(), Object.keys(message.attributes).sort(), `${name}: ${id}`);
            assert.equal(entry.value !== null, message.value !== null, `${name}: ${id}`);
        }
    }
});
