// Sources that are hostile, or as deep as the grammar lets them be, and what their message `a` must be shown as.
import {decoded, encoded} from "../src/engine.js";
import {Status} from "../src/faults.js";

const OK = Status.OK, NONE = encoded("");

// The records of a file that tests/data.py wrote: a letter, how many texts follow, and these, each after its length.
function* records(file) {
    const view = new DataView(file.buffer, file.byteOffset, file.byteLength);
    for (let at = 0; at < file.length;) {
        const kind = String.fromCharCode(file[at]), texts = [], count = file[at + 1];
        at += 2;
        for (let i = 0; i < count; i++) {
            const from = at + 4;
            at = from + view.getUint32(at, true);
            texts.push(file.subarray(from, at));
        }
        yield {kind, texts};
    }
}

const same = (a, b) => a.length === b.length && a.every((byte, i) => byte === b[i]);

function asked(engine, source, {kind, texts: [, limit, args, text, errors]}) {
    const bundle = engine.call("new_bundles", 1), status = (name, ...words) => engine.status(name, bundle, ...words);
    if (status("open", ...engine.lend(encoded("en")), 1) !== OK || status("set_limit", Number(decoded(limit))) !== OK) return "no bundle";
    if (status("add", ...engine.lend(source)) !== OK) return "the source is not taken";
    const came = engine.texts("format", bundle, 0, ...engine.lend(encoded("a"), NONE, args, NONE));
    const is = kind === "m" ? came.status === Status.NO_MESSAGE : came.status === OK && same(came.text, text) && same(came.errors, errors);
    engine.call("close", bundle);
    engine.call("give", bundle);
    return is ? undefined : `status ${came.status} and ${came.text.length} bytes, not ${text.length}`;
}

/** Asks all of a file: how many there are, which were wrong, and which took longest. */
export function sources(engine, file) {
    const counts = {cases: 0, wrong: [], slowest: 0};
    let source;
    for (const record of records(file)) {
        if (record.kind === "s") {
            [source] = record.texts;
            continue;
        }
        const name = decoded(record.texts[0]), from = performance.now();
        counts.cases++;
        let wrong;
        try {
            wrong = asked(engine, source, record);
        } catch (error) {
            wrong = String(error);
        }
        if (wrong) counts.wrong.push(`${name}: ${wrong}`);
        counts.slowest = Math.max(counts.slowest, performance.now() - from);
    }
    return counts;
}
