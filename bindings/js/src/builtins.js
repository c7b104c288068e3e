// The functions that each bundle has, unless its caller has others by their names.
import {FluentDateTime, FluentNone, FluentNumber} from "./types.js";

const OF_NUMBERS = [
    "unitDisplay", "currencyDisplay", "useGrouping", "minimumIntegerDigits", "minimumFractionDigits",
    "maximumFractionDigits", "minimumSignificantDigits", "maximumSignificantDigits", "type",
];

const OF_DATES = [
    "dateStyle", "timeStyle", "fractionalSecondDigits", "dayPeriod", "hour12", "weekday", "era", "year", "month", "day", "hour",
    "minute", "second", "timeZoneName",
];

// The options of a message, of which the others belong to the program.
function chosen(named, names) {
    return Object.fromEntries(names.filter(name => name in named).map(name => [name, named[name].valueOf()]));
}

/** Shows a number by the options that a message names. */
export function NUMBER([value], named) {
    const opts = chosen(named, OF_NUMBERS);
    if (value instanceof FluentNone) return new FluentNone(`NUMBER(${value.valueOf()})`);
    if (value instanceof FluentNumber) return new FluentNumber(value.valueOf(), {...value.opts, ...opts});
    if (value instanceof FluentDateTime) return new FluentNumber(value.toNumber(), opts);
    throw new TypeError("Invalid argument to NUMBER");
}

/** Shows a date by the options that a message names. */
export function DATETIME([value], named) {
    if (value instanceof FluentNone) return new FluentNone(`DATETIME(${value.valueOf()})`);
    if (value instanceof FluentDateTime || value instanceof FluentNumber)
        return new FluentDateTime(value, chosen(named, OF_DATES));
    throw new TypeError("Invalid argument to DATETIME");
}
