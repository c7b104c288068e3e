// Lines and columns of a text, both counted from 1; columns are JavaScript's units, as a text area counts.

export class Lines {
    constructor(text) {
        this.text = text;
        this.starts = [0];
        for (let at = text.indexOf("\n"); at >= 0; at = text.indexOf("\n", at + 1)) this.starts.push(at + 1);
    }

    get count() {
        return this.starts.length;
    }

    // The text of a line, without its end.
    line(number) {
        const next = this.starts[number];
        return this.text.slice(this.starts[number - 1], next === undefined ? this.text.length : next - 1);
    }

    // The place of an offset.
    place(offset) {
        let low = 0, high = this.starts.length - 1;
        while (low < high) {
            const middle = (low + high + 1) >> 1;
            if (this.starts[middle] <= offset) low = middle;
            else high = middle - 1;
        }
        return {line: low + 1, column: offset - this.starts[low] + 1};
    }

    // The offset of a place: at most the end of its line.
    offset({line, column}) {
        const number = Math.min(line, this.count);
        return this.starts[number - 1] + Math.min(column - 1, this.line(number).length);
    }
}

const bytesOf = c => c < 0x80 ? 1 : c < 0x800 ? 2 : 3;

// The offset of what stands `bytes` bytes of UTF-8 behind the offset `from`.
export function afterBytes(text, from, bytes) {
    let at = from, left = bytes;
    while (left > 0 && at < text.length) {
        const point = text.codePointAt(at);
        left -= point > 0xffff ? 4 : bytesOf(point);
        at += point > 0xffff ? 2 : 1;
    }
    return at;
}
