// Runs beside the page, so that typing never waits: takes what the page sends, and answers what is shown, and then what is found.
import {byPlace, Session} from "./session.js";

const SLICE = 30;

const session = new Session();
let waiting = null, isBusy = false, asked = null;

// Lets messages in that wait.
function pause() {
    return new Promise(resolve => {
        const {port1, port2} = new MessageChannel();
        port1.onmessage = () => {
            port1.close();
            resolve();
        };
        port2.postMessage(null);
    });
}

// Looks for findings until there is news. In pieces, between which messages come in.
async function find(version) {
    const found = [];
    let from = performance.now();
    for (const some of session.found()) {
        found.push(...some);
        if (performance.now() - from < SLICE) continue;
        await pause();
        if (waiting) return;
        from = performance.now();
    }
    postMessage({type: "found", version, findings: byPlace(found, [...session.sources.keys()])});
}

async function answer({version, ...change}) {
    const from = performance.now();
    try {
        session.take(change);
        postMessage({type: "shown", version, ...session.shown(), time: performance.now() - from});
        tellWhere();
        await find(version);
    } catch (error) {
        postMessage({type: "fault", version, text: String(error.message ?? error)});
    }
}

// Of changes that came while one was answered, the last is answered, with the texts of all.
function merged(before, next) {
    if (!before) return next;
    const texts = new Map(before.files.map(({key, source}) => [key, source]));
    return {...next, files: next.files.map(file => ({...file, source: file.source ?? texts.get(file.key)}))};
}

async function work() {
    if (isBusy) return;
    isBusy = true;
    while (waiting) {
        const change = waiting;
        waiting = null;
        await answer(change);
    }
    isBusy = false;
}

// Answers in which message a place is, once no change waits that may move it.
function tellWhere() {
    if (!asked || waiting) return;
    postMessage({type: "here", message: session.at(asked.key, asked.offset)});
    asked = null;
}

addEventListener("message", ({data}) => {
    if (data.type === "where") {
        asked = data;
        tellWhere();
    } else {
        waiting = merged(waiting, data);
        work();
    }
});

postMessage({type: "ready"});
