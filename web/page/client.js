// The page's end of the worker: sends what changed, and hands on what the worker answers. Findings are handed on where nothing
// changed since; what is shown also where something did, with `isLast` false.

export class Client {
    #worker; #isReady = false; #sent = new Map(); #last = null;
    version = 0;

    // `on` has what is done of each type of answer: ready, shown, found, here, fault.
    constructor(on) {
        this.on = on;
        this.#worker = new Worker(new URL("worker.js", import.meta.url), {type: "module"});
        this.#worker.addEventListener("message", ({data}) => this.#take(data));
        this.#worker.addEventListener("error", event => on.fault({text: event.message || "it could not be loaded"}));
    }

    #take(data) {
        if (data.type === "ready") {
            this.#isReady = true;
            this.#post();
        }
        const isLast = data.version === undefined || data.version === this.version;
        if (isLast || data.type === "shown") this.on[data.type]({...data, isLast});
    }

    // Sends the files and what else is looked at, once the worker listens.
    send(files, view) {
        this.version++;
        this.#last = {files, view};
        if (this.#isReady) this.#post();
    }

    // Of files whose text the worker has, the text is left out.
    #post() {
        if (!this.#last) return;
        const {files, view} = this.#last;
        const needed = files.map(file => this.#sent.get(file.key) === file.source ? {...file, source: undefined} : file);
        this.#sent = new Map(files.map(({key, source}) => [key, source]));
        this.#worker.postMessage({version: this.version, files: needed, ...view});
    }

    // Asks in which message an offset of a file stands.
    where(key, offset) {
        if (this.#isReady) this.#worker.postMessage({type: "where", key, offset});
    }
}
