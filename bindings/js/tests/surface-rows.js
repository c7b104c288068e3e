// The rows of the fixtures that FluentBundle itself can be asked: those without objects that answer otherwise in JavaScript, and
// without numbers that Intl shows otherwise than with the digits they have.
import {FluentNumber, FluentResource} from "../src/index.js";

const FUNCTION = /^function (\S+) = (.*)$/, TRANSFORM = "transform upper";
const SHOWN_ALIKE = /^(?:0|-?[1-9]\d{0,2})(?:\.\d{0,2}[1-9])?$/;

// With fewer, some would be passed over that were asked before.
const LEAST = 470;

const answersAlike = answer => answer === "one" || answer.startsWith('"');

function canAskGroup({links: [link, ...more]}) {
    return more.length === 0 && !link.rules && link.objects.every(object => object === TRANSFORM || FUNCTION.test(object));
}

function canAsk(row, {objects}) {
    const others = objects.map(object => FUNCTION.exec(object) ?? []).filter(([, , answer]) => answer && !answersAlike(answer));
    const isAlike = row.args.every(([, kind, value]) => kind === "t" || (kind === "n" && (SHOWN_ALIKE.test(value) || !/^[-+.\d]/.test(value))));
    return isAlike && !/\d{4}/.test(row.text) && ["NUMBER", ...others.map(([, name]) => name)].every(name => !row.functions.includes(name));
}

function made(FluentBundle, link) {
    const functions = {};
    for (const object of link.objects) {
        const [, name, answer] = FUNCTION.exec(object) ?? [];
        if (name) functions[name] ??= () => (answer === "one" ? new FluentNumber(1) : answer.slice(1, -1));
    }
    const transform = link.objects.includes(TRANSFORM) ? text => text.replace(/[a-z]+/g, letters => letters.toUpperCase()) : undefined;
    return new FluentBundle(link.language, {useIsolating: link.isolates, placeableLimit: link.limit, functions, transform});
}

// What an error of a row is called in JavaScript.
function called(line) {
    return line.replace("Resolver error: ", "").replace(/^(Unknown attribute): .*\./, "$1: ").replace("No value: -", "No value: ")
        .replace("Cyclical dependency detected", "Cyclic reference").replace("Too many placeables", "Too many placeables expanded");
}

function came(bundle, row) {
    const message = bundle.getMessage(row.id);
    if (row.sign === "#absent") return message;
    if (row.sign === "#attributes") return Object.keys(message.attributes).join(" ");
    const pattern = message && (row.name ? message.attributes[row.name] : message.value);
    if (row.sign === "#none") return pattern ?? undefined;
    const errors = [], args = Object.fromEntries(row.args.map(([name, kind, value]) => [name, kind === "n" && SHOWN_ALIKE.test(value) ? Number(value) : value]));
    return [bundle.formatPattern(pattern, args, errors), ...errors.map(error => error.message)];
}

function wanted(row) {
    if (row.sign === "#absent" || row.sign === "#none") return undefined;
    // Of two attributes with one name there is one.
    if (row.sign === "#attributes") return [...new Set(row.text.split(/\s+/).filter(name => name))].join(" ");
    return [row.text, ...row.errors.split("\n").slice(0, -1).map(called)];
}

/** Asks these rows: how many, and what was wrong. */
export function surfaceRows(FluentBundle, groups) {
    const counts = {cases: 0, wrong: []};
    for (const group of groups.filter(canAskGroup)) {
        const bundle = made(FluentBundle, group.links[0]);
        for (const {text, overrides, report} of group.links[0].sources) {
            const errors = bundle.addResource(new FluentResource(text), {allowOverrides: overrides});
            const told = errors.map(({line, message, start}) => `${line}: ${message}${start === undefined ? "." : ""}\n`).join("");
            if (report !== null && told !== report) counts.wrong.push(`of a source is told ${told}, and not ${report}`);
        }
        for (const row of group.rows.filter(each => canAsk(each, group.links[0]))) {
            const [is, should] = [came(bundle, row), wanted(row)].map(value => JSON.stringify(value));
            counts.cases++;
            if (is !== should) counts.wrong.push(`${row.where}: gives ${is}, and not ${should}`);
        }
        bundle.close();
    }
    if (counts.cases < LEAST) counts.wrong.push(`${counts.cases} rows are fewer than before`);
    return counts;
}
