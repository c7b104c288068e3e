// Files that are dropped or chosen, read as UTF-8; and a file that is saved.
import {newFile} from "./content.js";
import {languageOf} from "./directions.js";
import {make} from "./elements.js";

const MOST_BYTES = 8_000_000;

// A file as a file of the page, or a line that says why not. `path` is where it lies, as far as that is known.
async function read(file, path) {
    if (file.size > MOST_BYTES) return `${path}: longer than ${MOST_BYTES.toLocaleString("en")} bytes`;
    try {
        const text = new TextDecoder("utf-8", {fatal: true}).decode(await file.arrayBuffer());
        return newFile(path, languageOf(path) || "en", text);
    } catch (error) {
        return `${path}: ${error instanceof TypeError ? "not UTF-8" : error.message}`;
    }
}

const entriesOf = reader => new Promise((done, fail) => reader.readEntries(done, fail));
const fileOf = entry => new Promise((done, fail) => entry.file(done, fail));

// The files below what was dropped: of a folder those that end with .ftl.
async function* below(entry, isTop = true) {
    const path = entry.fullPath.replace(/^\//, "");
    if (entry.isFile) {
        if (isTop || path.endsWith(".ftl")) yield [await fileOf(entry), path];
        return;
    }
    for (const reader = entry.createReader();;) {
        const some = await entriesOf(reader);
        if (!some.length) return;
        for (const it of some) yield* below(it, false);
    }
}

async function* dropped(transfer) {
    const items = [...transfer.items].map(item => item.webkitGetAsEntry?.()), files = [...transfer.files];
    if (items.length && items.every(Boolean)) for (const entry of items) yield* below(entry);
    else for (const file of files) yield [file, file.name];
}

async function all(pairs) {
    const files = [], faults = [];
    for await (const [file, path] of pairs) {
        const got = await read(file, path);
        (typeof got === "string" ? faults : files).push(got);
    }
    return {files: files.sort((a, b) => a.name < b.name ? -1 : 1), faults};
}

// Takes what is dropped onto the page: `take({files, faults})`.
export function onDrop(take) {
    const isOfFiles = event => event.dataTransfer?.types.includes("Files");
    addEventListener("dragover", event => {
        if (!isOfFiles(event)) return;
        event.preventDefault();
        document.body.classList.add("dropping");
    });
    addEventListener("dragleave", event => {
        if (!event.relatedTarget) document.body.classList.remove("dropping");
    });
    addEventListener("drop", async event => {
        document.body.classList.remove("dropping");
        if (!isOfFiles(event)) return;
        event.preventDefault();
        take(await all(dropped(event.dataTransfer)));
    });
}

export async function chosen(list) {
    return all([...list].map(file => [file, file.webkitRelativePath || file.name]));
}

export function save({name, source}) {
    const url = URL.createObjectURL(new Blob([source], {type: "text/plain"}));
    make("a", {href: url, download: name.split("/").pop() || "messages.ftl"}).click();
    setTimeout(() => URL.revokeObjectURL(url), 10_000);
}
