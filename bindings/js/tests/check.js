// What tests say is wrong.

export function same(came, wanted) {
    const [a, b] = [came, wanted].map(value => JSON.stringify(value));
    if (a !== b) throw new Error(`${a} is not ${b}`);
}

export function throws(call, kind) {
    try {
        call();
    } catch (error) {
        if (error instanceof kind) return error;
        throw new Error(`${error} is no ${kind.name}`);
    }
    throw new Error(`no ${kind.name} was thrown`);
}
