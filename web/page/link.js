// What was typed, in the part of a link behind #: JSON, deflated, in the letters of base64 for links. It never leaves the browser.

const LONGEST = 100_000; // letters of a link
const MOST = 8_000_000; // bytes of what it holds

async function through(bytes, stream) {
    return new Response(new Blob([bytes]).stream().pipeThrough(stream));
}

// The bytes of a stream, unless there are more than MOST.
async function bytesOf(response) {
    const parts = [];
    let length = 0;
    for (const reader = response.body.getReader();;) {
        const {done, value} = await reader.read();
        if (done) return new Blob(parts).arrayBuffer();
        length += value.length;
        if (length > MOST) throw new RangeError("The link holds too much.");
        parts.push(value);
    }
}

function toLetters(bytes) {
    let all = "";
    for (let at = 0; at < bytes.length; at += 8192) all += String.fromCharCode(...bytes.subarray(at, at + 8192));
    return btoa(all).replaceAll("+", "-").replaceAll("/", "_").replace(/=+$/, "");
}

const fromLetters = letters => Uint8Array.from(atob(letters.replaceAll("-", "+").replaceAll("_", "/")), c => c.charCodeAt(0));

// The fragment, or null where it would be too long.
export async function toFragment(content) {
    const plain = new TextEncoder().encode(JSON.stringify(content));
    if (plain.length > 8 * LONGEST) return null;
    const packed = await through(plain, new CompressionStream("deflate-raw"));
    const fragment = `#1.${toLetters(new Uint8Array(await packed.arrayBuffer()))}`;
    return fragment.length > LONGEST ? null : fragment;
}

// What a fragment holds, or null where it is none of ours. It was perhaps written by others: the caller looks at each part.
export async function fromFragment(fragment) {
    if (!fragment.startsWith("#1.")) return null;
    const packed = fromLetters(fragment.slice(3));
    const plain = await bytesOf(await through(packed, new DecompressionStream("deflate-raw")));
    return JSON.parse(new TextDecoder().decode(plain));
}
