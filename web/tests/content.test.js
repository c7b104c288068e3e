import assert from "node:assert/strict";
import {test} from "node:test";
import {Content, newFile} from "../page/content.js";
import {directionOf, languageOf, tagOf} from "../page/directions.js";
import {fromFragment, toFragment} from "../page/link.js";

test("a link holds all that was typed", async () => {
    const content = new Content([newFile("a.ftl", "pl", "a = Zażółć 😀 \u2068x\u2069\n"), newFile("b.ftl", "ar", "")]);
    content.setArgument("a", "n", {kind: "number", text: "1.50"});
    content.isolate = false;
    const again = Content.from(await fromFragment(await toFragment(content)));
    assert.deepEqual(again.toJSON(), content.toJSON());
});

test("a fragment has no letters that links change", async () => {
    assert.match(await toFragment(new Content([newFile("a.ftl", "en", "a = ???>>>~~~")])), /^#1\.[\w-]+$/);
});

test("what is too long has no link", async () => {
    const bytes = new Uint16Array(100_000);
    for (let at = 0; at < bytes.length; at += 10_000) crypto.getRandomValues(bytes.subarray(at, at + 10_000));
    const letters = Array.from(bytes, number => String.fromCharCode(33 + number % 9000)).join("");
    assert.equal(await toFragment(new Content([newFile("a.ftl", "en", letters)])) === null, true);
});

test("other fragments hold nothing, broken ones are refused", async () => {
    assert.equal(await fromFragment(""), null);
    assert.equal(await fromFragment("#top"), null);
    await assert.rejects(fromFragment("#1.!!!"));
    await assert.rejects(fromFragment("#1.AAAA"));
});

test("a link that unpacks to too much is refused", async () => {
    const plain = new Blob([JSON.stringify({files: [["a", "en", "x".repeat(20_000_000)]]})]);
    const packed = await new Response(plain.stream().pipeThrough(new CompressionStream("deflate-raw"))).arrayBuffer();
    const fragment = `#1.${Buffer.from(packed).toString("base64url")}`;
    await assert.rejects(fromFragment(fragment), RangeError);
});

test("what strangers wrote is taken by its shape alone", () => {
    const values = {a: {n: {kind: "evil", text: "x"}, m: {kind: "text", text: "y"}, k: null}, b: 7};
    const content = Content.from({files: [["a.ftl", "en", "a = A"], ["b", 1, 2], "c", null], values, isolate: "no"});
    assert.deepEqual(content.toJSON().files, [["a.ftl", "en", "a = A"]]);
    assert.deepEqual({...content.values.a}, {m: {kind: "text", text: "y"}});
    assert.equal(content.isolate, true);
    assert.deepEqual(Content.from({files: 3, values: "x"}).files, []);
});

test("a file takes the place of that with its name and language", () => {
    const content = new Content([newFile("a.ftl", "en", "1"), newFile("a.ftl", "pl", "2")]);
    content.put(newFile("a.ftl", "pl", "3"));
    content.put(newFile("b.ftl", "pl", "4"));
    assert.deepEqual(content.toJSON().files, [["a.ftl", "en", "1"], ["a.ftl", "pl", "3"], ["b.ftl", "pl", "4"]]);
});

test("lines of files end as in text areas", () => {
    assert.equal(newFile("a", "en", "a = A\r\nb = B\r\n").source, "a = A\nb = B\n");
});

test("paths name languages", () => {
    const languages = {
        "pl.ftl": "pl", "locales/pt-BR/main.ftl": "pt-BR", "main.uk.ftl": "uk", "zh_TW/app.ftl": "zh-TW", "messages.ftl": "", "locales/app.ftl": "",
    };
    for (const [path, language] of Object.entries(languages)) assert.equal(languageOf(path), language, path);
});

test("languages run to the left or to the right", () => {
    for (const tag of ["ar", "he", "fa", "ur", "az-Arab", "ckb", "dv"]) assert.equal(directionOf(tag), "rtl", tag);
    for (const tag of ["en", "pl", "az", "ja", "", "no tag"]) assert.equal(directionOf(tag), "ltr", tag);
    assert.equal(tagOf("pt-br"), "pt-BR");
    assert.equal(tagOf("no tag"), "");
});
