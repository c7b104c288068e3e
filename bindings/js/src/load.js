// Finds the module beside this folder, and compiles it: the one of 64 bits where the engine knows such memories.
import {Engine} from "./engine.js";

// A module that has a memory of 64 bits, and nothing else.
const PROBE = Uint8Array.of(0, 97, 115, 109, 1, 0, 0, 0, 5, 3, 1, 4, 1);

/** Which of the two modules this engine runs. */
export function bits() {
    return WebAssembly.validate(PROBE) ? 64 : 32;
}

// Each is named whole, so that bundlers find it.
const URLS = {64: new URL("../wasm/fluent64.wasm", import.meta.url), 32: new URL("../wasm/fluent32.wasm", import.meta.url)};

async function bytesOf(url) {
    if (url.protocol === "file:" && globalThis.process?.versions?.node) {
        const {readFile} = await import(/* webpackIgnore: true */ "node:fs/promises");
        return readFile(url);
    }
    const response = await fetch(url);
    if (!response.ok) throw new Error(`${url} is not there (${response.status}): bindings/js/build makes it`);
    return response.arrayBuffer();
}

/** The module of so many bits, compiled. */
export async function compiled(width = bits()) {
    return WebAssembly.compile(await bytesOf(URLS[width]));
}

/** An engine of its own. */
export async function newEngine(width) {
    return new Engine(await compiled(width));
}
