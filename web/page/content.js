// What was typed: files, the arguments of messages, and how texts are shown.

const KINDS = new Set(["number", "text", "date"]);
const MOST_FILES = 200;

let keys = 0;

// A file, whose lines end as those of text areas.
export function newFile(name, language, source) {
    return {key: ++keys, name, language, source: source.replace(/\r\n?/g, "\n")};
}

export class Content {
    constructor(files) {
        this.files = files;
        this.values = Object.create(null);
        this.isolate = true;
        this.marks = false;
    }

    file(key) {
        return this.files.find(file => file.key === key);
    }

    setArgument(id, name, typed) {
        (this.values[id] ??= Object.create(null))[name] = typed;
    }

    // Adds a file, or puts it in the place of that with the same name and language.
    put(file) {
        const at = this.files.findIndex(({name, language}) => name === file.name && language === file.language);
        if (at < 0) this.files.push(file);
        else this.files[at] = file;
    }

    toJSON() {
        const {values, isolate, marks} = this;
        return {files: this.files.map(({name, language, source}) => [name, language, source]), values, isolate, marks};
    }

    // Of JSON that a stranger may have written: what has another shape is left out.
    static from({files, values, isolate, marks}) {
        const isFile = it => Array.isArray(it) && it.length === 3 && it.every(part => typeof part === "string");
        const taken = (Array.isArray(files) ? files : []).filter(isFile).slice(0, MOST_FILES);
        const content = new Content(taken.map(it => newFile(...it)));
        for (const [id, of] of Object.entries(values ?? {})) content.#takeArguments(id, of);
        content.isolate = isolate !== false;
        content.marks = marks === true;
        return content;
    }

    #takeArguments(id, of) {
        for (const [name, typed] of Object.entries(of ?? {})) {
            const {kind, text} = typed ?? {};
            if (KINDS.has(kind) && typeof text === "string") this.setArgument(id, name, {kind, text});
        }
    }
}

const ENGLISH = `# Change anything: all is read again at each key.
welcome = Welcome, { $name }!
mails = { $n ->
    [one] You have one mail.
   *[other] You have { $n } mails.
}
    .title = Mailbox of { -brand }
share = { $name } shared { $gender ->
    [feminine] her
    [masculine] his
   *[other] their
} photos.
seen = Last seen on { DATETIME($when, dateStyle: "long") }
-brand = Postman
about = About { -brand }
`;

const POLISH = `welcome = Witaj, { $name }!
mails = { $n ->
    [one] Masz jeden list.
    [few] Masz { $n } listy.
   *[many] Masz { $n } listów.
}
    .title = Skrzynka: { -brand }
-brand = Listonosz
about = O programie { -brnd }
this can't be read
`;

export function example() {
    return new Content([newFile("main.ftl", "en", ENGLISH), newFile("main.ftl", "pl", POLISH)]);
}
