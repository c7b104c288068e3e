// A program that the compiler of TypeScript must take.
import {FluentBundle, FluentDateTime, FluentFunction, FluentNone, FluentNumber, FluentResource, FluentType, FluentVariable, Scope} from "../index.js";

class Shout extends FluentType<string> {
    toString(scope?: Scope): string {
        return scope ? scope.memoizeIntlObject(Intl.NumberFormat, {style: "percent"}).format(1) : this.value;
    }
}

const UP: FluentFunction = ([text], {by}) => (text instanceof FluentNone ? text : `${text}${by}`);
const bundle = new FluentBundle(["pl", "en"], {functions: {UP}, useIsolating: false, transform: text => text.trim(), placeableLimit: 10});
for (const error of bundle.addResource(new FluentResource("a = A"), {allowOverrides: true})) console.log(error.line, error.message);
const args: Record<string, FluentVariable> = {
    n: 1, t: "x", d: new Date(), m: new FluentNumber(3, {style: "unit", unit: "meter"}), s: new Shout("x"),
    e: new FluentDateTime(new Date(), {dateStyle: "long"}),
};
const message = bundle.getMessage("a");
const errors: Array<Error> = [];
if (message?.value) console.log(bundle.formatPattern(message.value, args, errors));
for (const [name, pattern] of Object.entries(message?.attributes ?? {})) console.log(name, bundle.formatPattern(pattern));
const names: Array<string> = message?.value ? bundle.variables(message.value) : [];
const ids: Array<string> = bundle.messageIds();
console.log(names.length, ids.length, bundle.hasMessage("a"));
bundle.close();
