/** What a call of the module answers: c/fluent.h says when. */
export const Status = Object.freeze({
    OK: 0, TOO_SMALL: 1, NO_MEMORY: 2, NO_LANGUAGE: 5, NO_MESSAGE: 8, CLOSED_BUNDLE: 11, OUT_OF_RANGE: 13, ASKS: 14,
});

const TEXTS = {
    [Status.NO_MEMORY]: "Fluent's module got no memory",
    [Status.NO_MESSAGE]: "The bundle has no such pattern",
    [Status.CLOSED_BUNDLE]: "The bundle is closed",
    [Status.OUT_OF_RANGE]: "The limit of placeables is from 1 to 10000",
};

/** The module could not do what it was called for, and the bundle stays as it was. */
export class FluentFault extends Error {
    constructor(status) {
        super(TEXTS[status] ?? `Fluent's module answers status ${status}`);
        this.name = "FluentFault";
    }
}

/** A call of the module broke off. The next call has a new instance of it, in which each bundle is made anew. */
export class FluentTrap extends Error {
    constructor(call, cause) {
        super(`${call} broke off: ${cause instanceof Error ? cause.message : cause}`, {cause});
        this.name = "FluentTrap";
    }
}
