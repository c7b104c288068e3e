// All tests over a module of so many bits, for Node and for browsers.
import {Bundle} from "../src/bundle.js";
import {newEngine} from "../src/load.js";
import {edges} from "./edges.js";
import {rows} from "./rows.js";
import {sources} from "./sources.js";
import {surfaceRows} from "./surface-rows.js";
import {surface} from "./surface.js";

const WORKERS = 8;

class Suite {
    passed = 0;
    failed = [];
    notes = [];

    async test(name, call) {
        try {
            const note = await call();
            if (note) this.notes.push(`${name}: ${note}`);
            this.passed++;
        } catch (error) {
            this.failed.push(`${name}: ${error.stack ?? error}`.slice(0, 1000));
        }
    }

    // Counts cases of which some are wrong.
    count(name, cases, wrong, note = "") {
        this.passed += Math.max(cases - wrong.length, 0);
        this.failed.push(...wrong.map(what => `${name}: ${what}`.slice(0, 1000)));
        this.notes.push(`${name}: ${cases} cases, ${wrong.length} wrong${note}`);
    }
}

/** What a run found. `read` gives the bytes of a file that tests/data.py wrote, `work` sends a message to a new worker. */
export async function suite(width, {read, work}) {
    const found = new Suite(), engine = await newEngine(width);
    class FluentBundle extends Bundle {
        constructor(locales, options) {
            super(engine, locales, options);
        }
    }
    const groups = JSON.parse(new TextDecoder().decode(await read("rows.json"))), asked = rows(engine, groups);
    found.count("rows of the fixtures", asked.rows, asked.wrong, `, and ${asked.refused} refused requests for memory`);
    const shown = surfaceRows(FluentBundle, groups);
    found.count("rows by FluentBundle", shown.cases, shown.wrong);
    for (const name of ["hostile", "deep"]) {
        const {cases, wrong, slowest} = sources(await newEngine(width), await read(`${name}.bin`));
        found.count(`${name} sources`, cases, wrong, `, the slowest took ${Math.round(slowest)} ms`);
    }
    for (const [name, call] of Object.entries({...surface(FluentBundle), ...edges(engine)})) await found.test(name, call);
    const names = Array.from({length: WORKERS}, (_, i) => `worker${i}`);
    const wrong = await Promise.all(names.map(name => work({name, width})));
    found.count("workers side by side", WORKERS, wrong.flat());
    const {passed, failed, notes} = found;
    return {passed, failed, notes};
}
