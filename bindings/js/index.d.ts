/** What a program hands over as an argument. */
export type FluentVariable = FluentValue | TemporalObject | string | number | Date;

/** What functions get and give. */
export type FluentValue = FluentType<unknown> | string;

/** A function that messages call by its name. */
export type FluentFunction = (positional: Array<FluentValue>, named: Record<string, FluentValue>) => FluentValue;

/** Given each text of a message, but no value. */
export type TextTransform = (text: string) => string;

/** An object of Temporal that Intl.DateTimeFormat shows. */
export interface TemporalObject {
    readonly calendarId?: string;
    readonly epochMilliseconds?: number;
    toString(): string;
}

/** The value of a message or an attribute, for formatPattern of the bundle that gave it. */
export interface Pattern {
    readonly bundle: FluentBundle;
}

export interface Message {
    id: string;
    value: Pattern | null;
    attributes: Record<string, Pattern>;
}

/** What the toString of a value is given. */
export interface Scope {
    bundle: FluentBundle;
    args: Record<string, FluentVariable> | null;
    errors: Array<Error> | null;
    reportError(error: unknown): void;
    memoizeIntlObject<Formatter, Options>(formatter: new (locales: Array<string>, opts: Options) => Formatter, opts: Options): Formatter;
}

export abstract class FluentType<T> {
    value: T;
    constructor(value: T);
    valueOf(): T;
    abstract toString(scope?: Scope): string;
}

export class FluentNone extends FluentType<string> {
    constructor(value?: string);
    toString(scope?: Scope): string;
}

export class FluentNumber extends FluentType<number> {
    opts: Intl.NumberFormatOptions;
    constructor(value: number, opts?: Intl.NumberFormatOptions);
    toString(scope?: Scope): string;
}

export class FluentDateTime extends FluentType<number | Date | TemporalObject> {
    opts: Intl.DateTimeFormatOptions;
    static supportsValue(value: unknown): boolean;
    constructor(value: number | Date | TemporalObject | FluentDateTime | FluentType<number>, opts?: Intl.DateTimeFormatOptions);
    toNumber(): number;
    toString(scope?: Scope): string;
}

export class FluentResource {
    readonly source: string;
    constructor(source: string);
}

/** Told of a part of a source: the number of its line, and for what can't be read its bytes in the source. */
export interface ResourceError extends Error {
    line: number;
    start?: number;
    end?: number;
}

export interface BundleOptions {
    functions?: Record<string, FluentFunction>;
    useIsolating?: boolean;
    transform?: TextTransform;
    /** How many placeables a text may have before it ends, from 1 to 10000; else 100. */
    placeableLimit?: number;
}

export class FluentBundle {
    readonly locales: Array<string>;
    constructor(locales: string | Array<string>, options?: BundleOptions);
    hasMessage(id: string): boolean;
    getMessage(id: string): Message | undefined;
    addResource(resource: FluentResource, options?: {allowOverrides?: boolean}): Array<ResourceError>;
    formatPattern(pattern: Pattern | string, args?: Record<string, FluentVariable> | null, errors?: Array<Error> | null): string;
    /** The ids of all messages, in the order of their bytes. */
    messageIds(): Array<string>;
    /** The names of the arguments that a pattern may need: those of variables in it, and in messages that it refers to, in order. */
    variables(pattern: Pattern): Array<string>;
    /** Gives the memory back. The bundle can't be asked any more. */
    close(): void;
}

/** The module could not do what it was called for, and the bundle stays as it was. */
export class FluentFault extends Error {}

/** A call of the module broke off. The next call has a new instance of it, in which each bundle is made anew. */
export class FluentTrap extends Error {}
