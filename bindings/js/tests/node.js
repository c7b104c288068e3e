// The tests in Node: node tests/node.js FOLDER WIDTH, where tests/data.py has written the FOLDER.
import {readFile} from "node:fs/promises";
import {Worker} from "node:worker_threads";
import {suite} from "./suite.js";

const [folder, width] = process.argv.slice(2);

async function read(name) {
    return new Uint8Array(await readFile(`${folder}/${name}`));
}

function work(message) {
    return new Promise((done, fail) => {
        const worker = new Worker(new URL("worker.js", import.meta.url));
        worker.on("error", fail);
        worker.on("message", answer => {
            if (answer === "ready") return worker.postMessage(message);
            worker.terminate();
            done(answer);
        });
    });
}

console.log(JSON.stringify(await suite(Number(width), {read, work})));
