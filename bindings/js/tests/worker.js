// A worker with a module of its own: it shows many texts, and tells what was wrong.
import {Bundle} from "../src/bundle.js";
import {newEngine} from "../src/load.js";
import {FluentResource} from "../src/resource.js";

const port = globalThis.WorkerGlobalScope ? globalThis : (await import("node:worker_threads")).parentPort;

function wrongs(engine, name) {
    const bundle = new Bundle(engine, "en", {useIsolating: false});
    bundle.addResource(new FluentResource(`a = ${name} { $n ->\n    [one] one\n   *[other] { $n }\n } { UP($x) }\n`));
    const {value} = bundle.getMessage("a"), wrong = [];
    for (let n = 0; n < 3000; n++) {
        const wanted = `${name} ${n === 1 ? "one" : n.toLocaleString("en")} {UP()}`, text = bundle.formatPattern(value, {n, x: "x"}, []);
        if (text !== wanted) wrong.push(`${text} is not ${wanted}`);
    }
    bundle.close();
    return wrong;
}

async function answer({name, width}) {
    try {
        const wrong = wrongs(await newEngine(width), name);
        port.postMessage(wrong.slice(0, 3));
    } catch (error) {
        port.postMessage([String(error.stack ?? error)]);
    }
}

if (globalThis.WorkerGlobalScope) port.onmessage = ({data}) => answer(data);
else port.on("message", answer);
port.postMessage("ready");
