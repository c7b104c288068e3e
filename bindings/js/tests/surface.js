// FluentBundle and its values, as programs that were written for @fluent/bundle call them.
import {FluentDateTime, FluentFault, FluentNone, FluentNumber, FluentResource, FluentType} from "../src/index.js";
import {same, throws} from "./check.js";

/** Tests of a class of bundles, by their names. */
export function surface(FluentBundle) {
    const made = (source, options, locales = "en") => {
        const bundle = new FluentBundle(locales, {useIsolating: false, ...options});
        same(bundle.addResource(new FluentResource(source)), []);
        return bundle;
    };
    const shown = (bundle, id, args, wanted = []) => {
        const errors = [], text = bundle.formatPattern(bundle.getMessage(id).value, args, errors);
        same(errors.map(String), wanted);
        return text;
    };
    const of = (source, args, options, locales) => shown(made(source, options, locales), "a", args);

    class Custom extends FluentType {
        toString(scope) {
            return `${this.value} for ${scope.bundle.locales}`;
        }
    }

    return {
        "a message has an id, a value and attributes"() {
            const bundle = made("a = A { $x }\n    .t = T\n    .u = U { $x }\nb =\n    .u = U\n-c = C\n"), a = bundle.getMessage("a");
            same([a.id, Object.keys(a.attributes)], ["a", ["t", "u"]]);
            same(bundle.formatPattern(a.value, {x: "ü€😀\u0000"}), "A ü€😀\u0000");
            same(Object.values(a.attributes).map(each => bundle.formatPattern(each, {x: "y"})), ["T", "U y"]);
            same([bundle.getMessage("b").value, bundle.getMessage("c"), bundle.getMessage("-c")], [null, undefined, undefined]);
            same(["a", "b", "c", "-c"].map(id => bundle.hasMessage(id)), [true, true, false, false]);
            same(bundle.messageIds(), ["a", "b"]);
        },
        "a pattern tells what it asks for"() {
            const bundle = made("-t = { $t }\na = { $x }{ -t($m, u: 1) }{ F($n) }{ b.u }{ $x }\nb =\n    .u = { $b }{ a }\nc = C\n");
            const {value} = bundle.getMessage("a"), {u} = bundle.getMessage("b").attributes;
            same([bundle.variables(value), bundle.variables(u)], [["b", "m", "n", "x"], ["b", "m", "n", "x"]]);
            same(bundle.variables(bundle.getMessage("c").value), []);
            for (const other of [null, "a", made("a = A\n").getMessage("a").value]) throws(() => bundle.variables(other), TypeError);
            bundle.addResource(new FluentResource("a = { $y }\n"), {allowOverrides: true});
            same(bundle.variables(value), ["y"]);
        },
        "what is added twice is told, and overrides where that is allowed"() {
            const bundle = made("a = 1\n-t = 1\n"), again = new FluentResource("a = 2\n-t = 2\nb = { $\n");
            same(bundle.addResource(again).map(error => [error.name, error.message, error.line]), [
                ["SyntaxError", "unreadable entry at bytes 13..21", 3],
                ["Error", 'Attempt to override an existing message: "a"', 1],
                ["Error", 'Attempt to override an existing term: "t"', 2],
            ]);
            same(shown(bundle, "a"), "1");
            same(bundle.addResource(again, {allowOverrides: true}).length, 1);
            same(shown(bundle, "a"), "2");
        },
        "without an array the first error is thrown"() {
            const bundle = made("a = { $x }\n"), {value} = bundle.getMessage("a");
            same(throws(() => bundle.formatPattern(value), ReferenceError).message, "Unknown variable: $x");
        },
        "errors have kinds and texts"() {
            same(shown(made("a = { $x } { b } { -t } { a.b } { F() } { a }\n    .c = C\n"), "a", {}, [
                "ReferenceError: Unknown variable: $x", "ReferenceError: Unknown message: b", "ReferenceError: Unknown term: -t",
                "ReferenceError: Unknown attribute: b", "ReferenceError: Unknown function: F()", "RangeError: Cyclic reference",
            ]), "{$x} {b} {-t} {a.b} {F()} {a}");
            same(shown(made("a = { b }\nb =\n    .c = C\n"), "a", {}, ["ReferenceError: No value: b"]), "{b}");
        },
        "isolation stands around placeables, unless it is turned off"() {
            same(of("a = { $x }.\n", {x: "y"}, {useIsolating: undefined}), "\u2068y\u2069.");
            same(of("a = { $x }.\n", {x: "y"}), "y.");
        },
        "numbers are shown by Intl for the bundle's languages"() {
            for (const locale of ["en", "de", "hi", "ar-EG", "fr-CA"]) {
                for (const number of [0, 1, -1.5, 1234.5678, 1e21, 1e-7, -0, NaN, Infinity, 2 ** 64, 0.1 + 0.2])
                    same(of("a = { $n }\n", {n: number}, {}, locale), new Intl.NumberFormat(locale).format(number));
            }
            same(of("a = { 1234567.50 }\n", {}, {}, "de"), "1.234.567,50");
        },
        "numbers have options"() {
            const euro = {style: "currency", currency: "EUR"}, meter = {style: "unit", unit: "meter", unitDisplay: "long"};
            for (const opts of [euro, meter, {notation: "compact"}, {minimumFractionDigits: 3}, {style: "percent"}])
                same(of("a = { $n }\n", {n: new FluentNumber(1234.5, opts)}, {}, "de"), new Intl.NumberFormat("de", opts).format(1234.5));
            const digits = {...euro, minimumFractionDigits: 0, currencyDisplay: "name"};
            same(of('a = { NUMBER($n, minimumFractionDigits: 0, currencyDisplay: "name", unit: "x") }\n', {n: new FluentNumber(3, euro)}),
                new Intl.NumberFormat("en", digits).format(3));
        },
        "options that Intl refuses are told"() {
            const wanted = throws(() => new Intl.NumberFormat("en", {minimumFractionDigits: 1000}), RangeError);
            same(shown(made("a = { $n }\n"), "a", {n: new FluentNumber(3, {minimumFractionDigits: 1000})}, [String(wanted)]), "3");
        },
        "variants are chosen by number, by plural form and by text"() {
            const source = "a = { $n ->\n    [0] none\n    [one] one\n    [few] few\n    [x] x\n   *[many] many\n }\n";
            const forms = {0: "none", 1: "one", 3: "few", 5: "many", 22: "few"};
            for (const [number, form] of Object.entries(forms)) same(of(source, {n: Number(number)}, {}, "pl"), form);
            same([of(source, {n: "x"}), of(source, {n: "y"}), of(source, {n: NaN}), of(source, {n: 1e21})], ["x", "many", "many", "many"]);
            const one = "a = { $n ->\n    [one] one\n   *[other] other\n }\n";
            same(of(one, {n: new FluentNumber(1, {minimumFractionDigits: 1})}), "other");
            same(of("a = { NUMBER($n, minimumFractionDigits: 1) ->\n    [one] one\n   *[other] other\n }\n", {n: 1}), "other");
            same(of("a = { $n ->\n    [two] 2nd\n   *[other] other\n }\n", {n: new FluentNumber(22, {type: "ordinal"})}), "2nd");
        },
        "a key that is a number takes the numbers of its value and places"() {
            const source = "a = { $n ->\n    [0] none { $n }\n    [0.5] half { $n }\n    [1.0] one { $n }\n   *[other] other { $n }\n }\n";
            const percent = n => new FluentNumber(n, {style: "percent"});
            same([0, 0.5, percent(0), percent(0.5), 1, percent(2)].map(n => of(source, {n})),
                ["none 0", "half 0.5", "none 0%", "half 50%", "other 1", "other 200%"]);
            same(of(source, {n: new FluentNumber(1, {minimumFractionDigits: 1})}), "one 1.0");
        },
        "numbers with the same digits stay apart"() {
            const args = {a: 5, b: new FluentNumber(5, {style: "percent"}), c: new FluentNumber(5, {style: "percent"}), d: -5, e: new FluentNumber(5, {type: "ordinal"})};
            same(of("a = { $a } { $b } { $c } { $d } { $e } { NUMBER($a, minimumFractionDigits: 1) } { $a }\n", args), "5 500% 500% -5 5 5.0 5");
            same(of("a = { 0.12345 } { $n } { 0.5 } { 1.10 }\n", {n: 0.123456}), "0.12345 0.123 0.5 1.10");
        },
        "numbers that stand in a message are shown by Intl too"() {
            const number = new Intl.NumberFormat("de").format(12345), date = new FluentDateTime(0, {year: "numeric", timeZone: "UTC"});
            const functions = {D: () => date, N: () => new FluentNumber(12345)};
            for (const source of ["a = {12345}\n", "a = {\n 12345 }\n", "a = { -t(n: 12345) }\n-t = { $n }\n", "a = { NUMBER(12345) }\n", "a = { N( ) }\n",
                "a = { b }\nb = { { 12345 } }\n", "a = { $t ->\n   *[x] { 12345 }\n }\n"])
                same(of(source, {t: "x"}, {functions}, "de"), number);
            const bundle = made("a = A { $x }\n", {functions}, "de");
            same([shown(bundle, "a", {x: "x"}), shown(bundle, "a", {x: 12345}), shown(bundle, "a", {x: date})], ["A x", `A ${number}`, "A 1970"]);
            bundle.addResource(new FluentResource("b = { D() } { $x }\n"));
            same([shown(bundle, "a", {x: "x"}), shown(bundle, "b", {x: "x"}), shown(bundle, "a", {x: "x"})], ["A x", "1970 x", "A x"]);
        },
        "dates are shown by Intl"() {
            const date = new Date(Date.UTC(2026, 10, 29, 12, 30)), opts = {dateStyle: "long", timeZone: "Asia/Tokyo"};
            same(of("a = { $d }\n", {d: date}, {}, "de"), new Intl.DateTimeFormat("de").format(date));
            same(of("a = { $d }\n", {d: new FluentDateTime(date, opts)}, {}, "ja"), new Intl.DateTimeFormat("ja", opts).format(date));
            same(of('a = { DATETIME($d, month: "long", year: "numeric", timeZone: "x") }\n', {d: date}, {}, "pl"),
                new Intl.DateTimeFormat("pl", {month: "long", year: "numeric"}).format(date));
            same(of('a = { DATETIME($d, weekday: "long") }\n', {d: date.getTime()}), new Intl.DateTimeFormat("en", {weekday: "long"}).format(date));
            same(of("a = { NUMBER($d, useGrouping: 0) }\n", {d: date}), new Intl.NumberFormat("en", {useGrouping: 0}).format(date));
            same(new FluentDateTime(date).toNumber(), date.getTime());
        },
        "functions get values, and give them"() {
            const seen = [], functions = {
                F: (positional, named) => (seen.push([positional.map(String), Object.entries(named).map(String)]), new FluentNumber(1, {minimumFractionDigits: 2})),
                T: ([text]) => text.toUpperCase(),
                D: () => new FluentDateTime(0, {year: "numeric", timeZone: "UTC"}),
                C: () => new Custom("c"),
            };
            same(of('a = { F($x, 2.50, y: "z", n: 3) } { T("abc") } { T($x) } { D() } { C() }\n', {x: "x"}, {functions}), "1.00 ABC X 1970 c for en");
            same(seen, [[["x", "2.5"], ["n,3", "y,z"]]]);
            same(of("a = { F() ->\n    [one] one\n   *[other] other\n }\n", {}, {functions}), "other");
        },
        "functions that fail are told, and shown by their names"() {
            const functions = {F() { throw new RangeError("no"); }, G: 3, H: () => ({})};
            same(shown(made("a = { F() } { G() } { H() } { NUMBER(\"x\") } { DATETIME() }\n", {functions}), "a", {}, [
                "RangeError: no", "TypeError: Function G() is not callable", "TypeError: Function H() gives no value of a message",
                "TypeError: Invalid argument to NUMBER", "TypeError: Invalid argument to DATETIME",
            ]), "{F()} {G()} {H()} {NUMBER()} {DATETIME()}");
        },
        "NUMBER and DATETIME can be others"() {
            const functions = {NUMBER: ([number]) => `n${number.value}`, DATETIME: () => new FluentNone("date")};
            same(of("a = { NUMBER(5) } { DATETIME($d) }\n", {d: new Date(0)}, {functions}), "n5 {date}");
        },
        "a function may show messages itself"() {
            const other = made("b = B { $x }\n"), functions = {MESSAGE: ([x]) => other.formatPattern(other.getMessage("b").value, {x})};
            const bundle = made('a = { MESSAGE("1") } { MESSAGE("2") } { c }\nc = C\n', {functions});
            same(shown(bundle, "a"), "B 1 B 2 C");
        },
        "a transform is given each text, but no value"() {
            same(of("a = b { $x } { 5 } { t }\nt = c\n", {x: "d"}, {transform: text => text.toUpperCase()}), "B d 5 C");
            same(made("a = b\n", {transform: text => `<${text}>`}).formatPattern("x"), "<x>");
        },
        "values of no known type are told"() {
            for (const value of [undefined, null, true, {}, 5n, Symbol.iterator])
                same(shown(made("a = { $x }\n"), "a", {x: value, y: value}, [`TypeError: Variable type not supported: $x, ${typeof value}`]), "{$x}");
        },
        "what a value's toString throws becomes the text's error"() {
            class Bad extends FluentType {
                toString() { throw new EvalError("bad"); }
            }
            same(shown(made("a = x { $x }\n"), "a", {x: new Bad(1)}, ["EvalError: bad"]), "{???}");
        },
        "a value of the program's own is shown by its toString"() {
            same(of("a = { $x ->\n   *[x] { $x }\n }\n", {x: new Custom("own")}, {}, ["pl", "en"]), "own for pl,en");
        },
        "the first language that has plural rules has them"() {
            const source = "a = { $n ->\n    [few] few\n   *[other] other\n }\n";
            same([["xx", "pl"], ["pl-PL"], ["pl-u-nu-latn"], ["xx"], []].map(locales => shown(made(source, {}, locales), "a", {n: 3})),
                ["few", "few", "few", "other", "other"]);
        },
        "a surrogate that stands alone is replaced"() {
            same(of("a = \ud800 { $x }\n", {x: "\udfff"}), "\ufffd \ufffd");
        },
        "a hundred placeables are shown, or as many as the limit says"() {
            const bundle = made(`a = ${"{ $x }".repeat(101)}\n`), limited = made("a = { $x }{ $x }\n", {placeableLimit: 1});
            same(shown(bundle, "a", {x: "y"}, ["RangeError: Too many placeables expanded"]), "y".repeat(100));
            same(shown(limited, "a", {x: "y"}, ["RangeError: Too many placeables expanded"]), "y");
            throws(() => made("", {placeableLimit: 0}), FluentFault);
        },
        "texts may be long"() {
            const long = "ü".repeat(1 << 20), bundle = made(`a = { $x }{ $x }\nb = ${"y".repeat(4 << 20)}\n`);
            same([shown(bundle, "a", {x: long}).length, shown(bundle, "b").length], [2 << 20, 4 << 20]);
            bundle.close();
        },
        "many names and values"() {
            const names = Array.from({length: 50}, (_, i) => `n${i}`), args = Object.fromEntries(names.map((name, i) => [name, i % 2 ? i : new Date(i)]));
            const text = names.map(name => `{ $${name} }`).join(" ");
            same(of(`a = ${text}\n`, args), names.map((_, i) => (i % 2 ? String(i) : new Intl.DateTimeFormat("en").format(i))).join(" "));
        },
        "a pattern belongs to its bundle"() {
            const bundle = made("a = A\n"), other = made("a = B\n");
            throws(() => other.formatPattern(bundle.getMessage("a").value), TypeError);
            throws(() => other.formatPattern(null), TypeError);
        },
        "a closed bundle can't be asked"() {
            const bundle = made("a = A\n"), {value} = bundle.getMessage("a");
            bundle.close();
            bundle.close();
            throws(() => bundle.formatPattern(value, {}, []), FluentFault);
            throws(() => bundle.hasMessage("a"), FluentFault);
            throws(() => bundle.addResource(new FluentResource("")), FluentFault);
        },
    };
}
