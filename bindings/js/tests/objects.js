// The functions, formatters and transforms that fixtures name: each takes records, and answers the kind and the text of one.
const ERROR = ["e", ""];

const given = record => (record ? [record.kind, record.value] : ERROR);

const FUNCTIONS = {
    none: () => ["o", ""],
    error: () => ERROR,
    star: () => ["c", "star\n*"],
    one: () => ["n", "1"],
    first: ([first]) => given(first),
    second: ([, second]) => given(second),
    named: (_, named) => given(named.x),
    length: records => (records.length === 1 && records[0].kind === "t" ? ["n", String(new TextEncoder().encode(records[0].value).length)] : ERROR),
};

function functionOf(kind) {
    return kind.startsWith('"') ? () => ["t", kind.slice(1, -1)] : FUNCTIONS[kind];
}

const NAMES = {t: "text", n: "number", c: "custom", o: "nothing", e: "error"};

const FORMATTERS = {
    kinds: ({kind}) => ["t", NAMES[kind]],
    brackets: ({kind, value}) => (kind === "t" ? ["t", `[${value}]`] : ["o", ""]),
};

const upper = text => text.replace(/[a-z]+/g, letters => letters.toUpperCase());

/** What the objects of a bundle are: of two functions with one name the first. */
export function objectsOf(lines) {
    const found = {functions: {}, builtins: true, last: false};
    for (const line of lines) {
        const [kind, name, , answer] = line.split(/ (?=[^"]|"[^"]*"$)/);
        if (kind === "function") found.functions[name] ??= functionOf(answer);
        else if (kind === "formatter") found.formatter = FORMATTERS[name];
        else if (kind === "transform") found.transform = upper;
        else if (kind === "builtins") found.builtins = false;
        else if (kind === "objects") found.last = true;
    }
    return found;
}
