// Items by what a function gives of each: a Map of lists.
export function groupBy(items, keyOf) {
    const groups = new Map();
    for (const it of items) {
        const key = keyOf(it), group = groups.get(key);
        if (group) group.push(it);
        else groups.set(key, [it]);
    }
    return groups;
}
