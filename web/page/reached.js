// The patterns that a pattern comes to by its references, itself first.
import {patternsOf} from "./ftl.js";

// So many placeables a text opens, and so many references in a row it follows.
const DEEPEST = 100;

// Each as {pattern, source}, nearer ones first, each once. `entryOf(reference)` gives the entry of a reference that is followed.
export function* reached(pattern, source, entryOf) {
    const found = [{pattern, source, depth: 0}], seen = new Set([pattern]);
    for (const it of found) {
        yield it;
        for (const reference of it.depth < DEEPEST ? it.pattern.references : []) {
            const entry = entryOf(reference), next = entry && patternsOf(entry).get(reference.attribute);
            if (!next || seen.has(next)) continue;
            seen.add(next);
            found.push({pattern: next, source: entry.source, depth: it.depth + 1});
        }
    }
}
