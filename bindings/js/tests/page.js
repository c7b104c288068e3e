// The tests in a browser: page.html?WIDTH posts what it found.
import {bits} from "../src/load.js";
import {suite} from "./suite.js";

const width = Number(location.search.slice(1));

async function read(name) {
    return new Uint8Array(await (await fetch(`/data/${name}`)).arrayBuffer());
}

function work(message) {
    return new Promise((done, fail) => {
        const worker = new Worker(new URL("worker.js", import.meta.url), {type: "module"});
        worker.onerror = ({message}) => fail(new Error(message));
        worker.onmessage = ({data}) => {
            if (data === "ready") return worker.postMessage(message);
            worker.terminate();
            done(data);
        };
    });
}

let found;
try {
    found = bits() < width ? {none: "it has no memories of 64 bits"} : await suite(width, {read, work});
} catch (error) {
    found = {passed: 0, failed: [String(error.stack ?? error)], notes: []};
}
await fetch("/result", {method: "POST", body: JSON.stringify(found)});
