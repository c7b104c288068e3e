// The module at its edges: traps, memory, many bundles.
import {Bundle} from "../src/bundle.js";
import {FluentFault, FluentTrap} from "../src/faults.js";
import {FluentResource} from "../src/resource.js";
import {same, throws} from "./check.js";

const OPENS = 100_000;
// An address at which no memory is.
const BEYOND = 0xffff_fff0;

// Numbers that look random, and are the same in each run.
function* numbers(seed) {
    for (let n = seed; ; n = (Math.imul(n, 1664525) + 1013904223) >>> 0) yield n >>> 8;
}

/** Tests of an engine, by their names. */
export function edges(engine) {
    const made = source => {
        const bundle = new Bundle(engine, "en", {useIsolating: false});
        bundle.addResource(new FluentResource(source));
        return bundle;
    };
    const shown = (bundle, args, errors) => bundle.formatPattern(bundle.getMessage("a").value, args, errors);

    return {
        "a trap is an error, and all bundles go on"() {
            const bundle = made("a = { $x } of { b }\nb = 1\n"), other = made("a = other { $x }\n"), closed = made("a = A\n");
            bundle.addResource(new FluentResource("b = 2\n"), {allowOverrides: true});
            const {value} = bundle.getMessage("a"), {age} = engine;
            throws(() => engine.call("has", BEYOND, BEYOND, 0), FluentTrap);
            same([engine.age, bundle.formatPattern(value, {x: 1}), shown(other, {x: 5})], [age + 1, "1 of 2", "other 5"]);
            closed.close();
        },
        "where the stack ends there is an error, and all bundles go on"() {
            const bundle = made("a = { $x }\n"), {value} = bundle.getMessage("a");
            const fall = () => {
                bundle.formatPattern(value, {x: 1}, []);
                fall();
            };
            // Engines have errors of different kinds for it.
            throws(fall, Error);
            same(bundle.formatPattern(value, {x: 1}), "1");
        },
        "refused memory is an error, and the bundle stays"() {
            const bundle = made("a = A { $x }\n");
            for (let turn = 0; ; turn++) {
                engine.call("refuse_after", turn);
                let text;
                try {
                    text = shown(bundle, {x: "x"}, []);
                } catch (error) {
                    if (!(error instanceof FluentFault)) throw error;
                }
                engine.call("refuse_after", -1);
                if (text !== undefined) return same(text, "A x");
                if (turn > 10_000) throw new Error("memory is refused without end");
            }
        },
        "a source that is refused memory is not added"() {
            const bundle = made("a = A\n"), more = new FluentResource("b = B\nc = C\n");
            let refused = 0;
            for (;; refused++) {
                engine.call("refuse_after", refused);
                let isAdded = false;
                try {
                    isAdded = bundle.addResource(more).length === 0;
                } catch (error) {
                    if (!(error instanceof FluentFault)) throw error;
                }
                engine.call("refuse_after", -1);
                if (isAdded || bundle.hasMessage("b")) break;
                same(shown(bundle), "A");
            }
            same([refused > 0, bundle.messageIds()], [true, ["a", "b", "c"]]);
        },
        "blocks of memory don't touch"() {
            const before = engine.call("blocks"), kept = [], random = numbers(7), next = () => random.next().value;
            const give = index => {
                const [{at, size, sign}] = kept.splice(index, 1), bytes = engine.view(at, size);
                if (at % 16 !== 0 || bytes[0] !== sign || bytes[size - 1] !== sign) throw new Error("a block was written");
                engine.call("give", at);
            };
            for (let i = 0; i < 50_000; i++) {
                if (kept.length > 200 || (kept.length > 0 && next() % 2)) give(next() % kept.length);
                else {
                    const size = 1 + (next() % (next() % 50 ? 500 : 100_000)), at = engine.take(size), sign = i & 255;
                    engine.view(at, size).fill(sign);
                    kept.push({at, size, sign});
                }
            }
            while (kept.length > 0) give(0);
            same(engine.call("blocks"), before);
        },
        [`${OPENS} bundles one after the other take no more memory`]() {
            const size = () => engine.view(0, 0).buffer.byteLength;
            let before;
            for (let i = 0; i < OPENS; i++) {
                const bundle = made(`a = { $x } ${i}\n`);
                same(shown(bundle, {x: "x"}), `x ${i}`);
                bundle.close();
                if (i === 1000) before = size();
            }
            same(size(), before);
        },
        async "a bundle that nobody refers to is closed"() {
            if (!globalThis.gc) return "not tried: there is no gc()";
            for (let i = 0; i < 100; i++) made("a = A\n");
            const most = engine.call("blocks");
            for (let i = 0; i < 20 && engine.call("blocks") >= most; i++) {
                globalThis.gc();
                await new Promise(done => setTimeout(done, 20));
            }
            same(engine.call("blocks") < most, true);
        },
    };
}
