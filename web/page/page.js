// The page: what is typed goes to the worker at each change, and what it answers is shown.
import {Client} from "./client.js";
import {Content, example, newFile} from "./content.js";
import {Editor} from "./editor.js";
import {byId, make} from "./elements.js";
import {chosen, onDrop, save} from "./files.js";
import {count, FindingsList} from "./findings-list.js";
import {groupBy} from "./groups.js";
import {fromFragment, toFragment} from "./link.js";
import {Messages} from "./messages.js";

const AT_ONCE = 50; // messages
const FEW = 3; // files

let content, isExample = false, isUnsaved = false, findings = [];
const editors = new Map();
const view = {filter: "", from: 0, count: AT_ONCE};

const client = new Client({
    ready: () => document.documentElement.dataset.ready = "yes",
    shown: showMessages,
    found: showFindings,
    here: showHere,
    fault: ({text}) => say("engine", `The engine stopped: ${text}`),
});
const messages = new Messages(byId("messages"), {
    typed: typeArgument,
    wanted: ({key, start, id}) => editors.get(key)?.goToOffset(start, id.length),
});
const list = new FindingsList(byId("findings"), byId("more"), {nameOf, go: it => editors.get(it.key)?.goTo(it)});

function say(id, text) {
    if (byId(id).textContent !== text) byId(id).textContent = text;
}

// A file's name, with its language where another has the same name.
function nameOf(key) {
    const file = content.file(key), name = file?.name || "file";
    return content.files.some(it => it !== file && it.name === file?.name) ? `${file.language}/${name}` : name;
}

function update() {
    client.send(content.files, {values: content.values, isolate: content.isolate, ...view});
    document.documentElement.dataset.sent = client.version;
    keepLink();
}

function showMessages(answer) {
    if (answer.isLast) view.from = answer.from;
    messages.show(answer, content.marks);
    const last = answer.from + answer.messages.length;
    say("range", answer.total ? `${answer.from + 1} to ${last} of ${answer.total.toLocaleString("en")}` : "none");
    byId("before").disabled = answer.from === 0;
    byId("after").disabled = last >= answer.total;
    byId("pages").classList.toggle("one", answer.total <= AT_ONCE);
    say("problems", answer.problems.map(({language, text}) => `${language || "no language"}: ${text}`).join("\n"));
    say("engine", "");
    say("state", `Read and shown in ${Math.ceil(answer.time)} ms`);
    document.documentElement.dataset.shown = answer.version;
}

function showFindings(answer) {
    findings = answer.findings;
    const of = groupBy(findings, it => it.key);
    for (const [key, editor] of editors) editor.setFindings(of.get(key) ?? []);
    list.show(findings);
    say("count", count(findings));
    announce();
    document.documentElement.dataset.found = answer.version;
}

// Runs after the last of many calls.
function late(wait, run) {
    let timer;
    return () => {
        clearTimeout(timer);
        timer = setTimeout(run, wait);
    };
}

// What a screen reader says, once typing rests.
const announce = late(1200, () => say("spoken", count(findings)));

const keepLink = late(400, async () => {
    const fragment = isExample ? "" : await toFragment(content);
    isUnsaved = fragment === null;
    say("link-state", isUnsaved ? "Too long for a link: save the files" : "");
    history.replaceState(null, "", fragment || location.pathname + location.search);
    document.documentElement.dataset.linked = client.version;
});

const askWhere = late(60, () => {
    const editor = [...editors.values()].find(({area}) => area === document.activeElement);
    if (editor) client.where(editor.file.key, editor.caret);
});

function showHere({message}) {
    if (!message || message.index < 0) return;
    const from = message.index - message.index % AT_ONCE;
    if (from !== view.from) turn(from);
    messages.setCurrent(message.id);
}

function turn(from) {
    view.from = from;
    update();
}

function typeArgument(id, name, typed) {
    isExample = false;
    content.setArgument(id, name, typed);
    update();
}

function changed() {
    isExample = false;
    update();
    askWhere();
}

const on = {
    input: changed,
    renamed: () => {
        showNames();
        changed();
    },
    saved: file => {
        save(file);
        isUnsaved = false;
    },
    closed: ({file}) => {
        content.files = content.files.filter(it => it !== file);
        showFiles();
        changed();
        byId("add").focus();
    },
};

// The editors of the files, those that are there already as they are.
function showFiles() {
    const kept = new Map(editors);
    editors.clear();
    for (const file of content.files) editors.set(file.key, kept.get(file.key) ?? new Editor(file, on));
    for (const [key, {element}] of kept) if (!editors.has(key)) element.remove();
    placeIn(byId("files"), [...editors.values()].map(({element}) => element));
    showNames();
}

// Puts elements into a list in their order. Those that are at their place are not touched, and stay scrolled as they are.
function placeIn(list, elements) {
    elements.forEach((it, i) => {
        if (list.children[i] !== it) list.insertBefore(it, list.children[i] ?? null);
    });
}

// The names of the files to choose one from, where there are so many that not all are seen.
function showNames() {
    byId("go").hidden = editors.size <= FEW;
    byId("file").replaceChildren(...content.files.map(({key}) => make("option", {value: key, textContent: nameOf(key)})));
}

function goToFile(key) {
    const editor = editors.get(key);
    editor.element.scrollIntoView({block: "nearest", inline: "nearest"});
    editor.area.focus();
}

function open(next) {
    content = next;
    byId("isolate").checked = content.isolate;
    byId("marks").checked = content.marks;
    view.from = 0;
    showFiles();
    update();
}

function take({files, faults}) {
    say("faults", faults.join("\n"));
    if (!files.length) return;
    if (isExample) content.files = [];
    isExample = false;
    for (const file of files) content.put(file);
    showFiles();
    update();
    say("spoken", `Opened ${files.map(({name}) => name).join(", ")}`);
}

async function openLink(fragment) {
    try {
        const held = await fromFragment(fragment);
        isExample = !held;
        open(held ? Content.from(held) : example());
    } catch {
        isExample = true;
        open(example());
        say("faults", "The link can’t be read.");
    }
}

async function copyLink() {
    const fragment = await toFragment(content);
    if (fragment === null) return;
    const link = new URL(fragment, location.href).href;
    try {
        await navigator.clipboard.writeText(link);
        say("link-state", "Copied");
    } catch {
        prompt("The link:", link);
    }
}

function addFile() {
    const file = newFile(content.files.at(-1)?.name ?? "main.ftl", "", "");
    content.files.push(file);
    showFiles();
    changed();
    editors.get(file.key).tag.focus();
}

function listen() {
    byId("isolate").addEventListener("change", event => (content.isolate = event.target.checked, changed()));
    byId("marks").addEventListener("change", event => (content.marks = event.target.checked, changed()));
    byId("filter").addEventListener("input", event => (view.filter = event.target.value, turn(0)));
    byId("before").addEventListener("click", () => turn(view.from - AT_ONCE));
    byId("after").addEventListener("click", () => turn(view.from + AT_ONCE));
    byId("file").addEventListener("change", event => goToFile(Number(event.target.value)));
    byId("add").addEventListener("click", addFile);
    byId("open").addEventListener("click", () => byId("chosen").click());
    byId("chosen").addEventListener("change", async event => (take(await chosen(event.target.files)), event.target.value = ""));
    byId("link").addEventListener("click", copyLink);
    document.addEventListener("selectionchange", caretMoved);
    addEventListener("hashchange", event => openLink(new URL(event.newURL).hash));
    addEventListener("beforeunload", event => isUnsaved && event.preventDefault());
    onDrop(take);
}

function caretMoved() {
    askWhere();
    [...editors.values()].find(({area}) => area === document.activeElement)?.caretMoved();
}

listen();
await openLink(location.hash);
if (navigator.serviceWorker) navigator.serviceWorker.register(new URL("offline.js", import.meta.url)).catch(() => {});
