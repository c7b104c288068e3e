/** The text of an FTL source. */
export class FluentResource {
    constructor(source) {
        this.source = String(source);
    }
}
