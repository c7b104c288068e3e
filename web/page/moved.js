// Findings of a text as they stand after an edit, until they are looked for again: those behind it move along, those of which
// something was taken out go. `before` and `after` are the lines of both texts, `caret` is where the edit ended.
export function moved(findings, before, after, caret) {
    const more = after.text.length - before.text.length, from = caret - Math.max(more, 0), to = from + Math.max(-more, 0);
    return findings.flatMap(it => {
        const at = before.offset(it);
        if (at >= to) return [{...it, ...after.place(at + more)}];
        return to > from && at + it.length > from ? [] : [it];
    });
}
