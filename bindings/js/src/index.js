// Fluent by the names of @fluent/bundle. Importing it waits until the module is there.
import {Bundle} from "./bundle.js";
import {newEngine} from "./load.js";

const engine = await newEngine();

/** Messages of one language. */
export class FluentBundle extends Bundle {
    constructor(locales, options) {
        super(engine, locales, options);
    }
}

export {FluentFault, FluentTrap} from "./faults.js";
export {FluentResource} from "./resource.js";
export {FluentDateTime, FluentNone, FluentNumber, FluentType} from "./types.js";
