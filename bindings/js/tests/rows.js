// Each row of the fixtures that JavaScript can ask, by the bundle and by the chain, and each again with memory refused in turn.
import {Status} from "../src/faults.js";
import {Asker} from "./asker.js";

function compare(came, row, {asksWhole}) {
    const {status, text, errors} = came, wanted = asksWhole ? row.whole ?? row.text : row.text;
    if (status === Status.OK && text === wanted && errors === row.errors) return [];
    return [`gives ${JSON.stringify(came)}, and not ${JSON.stringify([wanted, row.errors])}`];
}

// Whether the formatter is asked about the whole of a text too: the library may do so.
function asksWhole(engine) {
    const asker = new Asker(engine, [{language: "en", objects: ["formatter kinds"], limit: 100, sources: [{text: "a = A\n", report: null}]}]);
    asker.make();
    const {text} = asker.format({id: "a", name: "", args: []}, false);
    asker.close();
    return text === "text";
}

// The same with the first request for memory refused, then with the second, .., until there is enough.
function refuse(asker, row, byChain, counts) {
    const {engine} = asker, before = engine.call("blocks"), wrong = [];
    for (let turn = 0; ; turn++) {
        engine.call("refuse_after", turn);
        const came = asker.format(row, byChain);
        engine.call("refuse_after", -1);
        // A bundle with objects keeps the answers of its last call.
        if (!asker.hasObjects && engine.call("blocks") !== before) wrong.push("memory is not given back");
        if (came.status === Status.OK) return [...wrong, ...compare(came, row, counts)];
        counts.refused++;
        if (came.status !== Status.NO_MEMORY) return [...wrong, `refused memory gives status ${came.status}`];
    }
}

function attributes(asker, row) {
    const {engine} = asker, index = asker.links.findIndex((_, i) => asker.status("has", i, [row.id]) === Status.OK);
    const {text} = engine.text("attributes", asker.bundle(index), ...engine.lend(new TextEncoder().encode(row.id)));
    return text === row.text.split(/\s+/).filter(name => name).map(name => `${name}\n`).join("") ? [] : [`has the attributes ${text}`];
}

function absent(asker, row) {
    return asker.links.some((_, i) => asker.status("has", i, [row.id]) !== Status.NO_MESSAGE) ? ["is there"] : [];
}

function formatted(asker, row, counts) {
    const ways = asker.links.length > 1 ? [true] : [false, true];
    return ways.flatMap(byChain => {
        const came = asker.format(row, byChain);
        if (row.sign === "#none") return came.status === Status.NO_MESSAGE ? [] : ["is there"];
        const wrong = compare(came, row, counts);
        return wrong.length > 0 ? wrong : refuse(asker, row, byChain, counts);
    });
}

function asked(asker, row, counts) {
    if (row.sign === "#attributes") return attributes(asker, row);
    if (row.sign === "#absent") return absent(asker, row);
    return formatted(asker, row, counts);
}

// Has the engine take the memory that it keeps.
function begin(engine) {
    const at = engine.call("new_bundles", 1);
    engine.lend(new Uint8Array(1));
    engine.text("ids", at);
    engine.call("give", at);
}

/** Asks all rows: how many, how many requests for memory were refused, and what was wrong. */
export function rows(engine, groups) {
    const counts = {rows: 0, refused: 0, wrong: [], asksWhole: asksWhole(engine)};
    begin(engine);
    for (const {links, rows: each} of groups) {
        const before = engine.call("blocks"), asker = new Asker(engine, links);
        counts.wrong.push(...asker.make());
        for (const row of each) {
            counts.rows++;
            counts.wrong.push(...asked(asker, row, counts).map(what => `${row.where}: ${what}`));
        }
        asker.close();
        if (engine.call("blocks") !== before) counts.wrong.push(`${each[0].where}: memory is not given back in the end`);
    }
    return counts;
}
