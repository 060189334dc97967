/* A reader of line protocol in plain JavaScript, to compare speeds with: it makes the objects that the package makes, but looks for no fault. */

const unescaped = (text, pattern) => (text.includes("\\") ? text.replace(pattern, "$1") : text);
const name = text => unescaped(text, /\\([,= \\])/g);

// Where the first of two bare characters is from a place on.
function endOf(text, from, one, other) {
    for (let at = from; at < text.length; at++) {
        const unit = text.charCodeAt(at);
        if (unit === 92) at += 1;
        else if (unit === one || unit === other) return at;
    }
    return text.length;
}

function valueOf(text) {
    const first = text.charCodeAt(0), last = text.charCodeAt(text.length - 1);
    if (last === 105) return BigInt(text.slice(0, -1));
    if (last === 117) return { unsigned: BigInt(text.slice(0, -1)) };
    return last >= 48 && last <= 57 ? Number(text) : first === 116 || first === 84;
}

/* The lines of a text, one after another. */
export function* plainLines(text) {
    for (let at = 0; at < text.length; at++) {
        let end = endOf(text, at, 44, 32);
        const measurement = name(text.slice(at, end)), tags = [], fields = [];
        while (text.charCodeAt(end) === 44) {
            const key = endOf(text, end + 1, 61, 61), value = endOf(text, key + 1, 44, 32);
            tags.push([name(text.slice(end + 1, key)), name(text.slice(key + 1, value))]);
            end = value;
        }
        do {
            const key = endOf(text, end + 1, 61, 61), isString = text.charCodeAt(key + 1) === 34;
            let after = isString ? endOf(text, key + 2, 34, 34) + 1 : key + 1;
            for (let unit = text.charCodeAt(after); unit !== 44 && unit !== 32 && unit !== 10 && after < text.length; unit = text.charCodeAt(after)) after += 1;
            const value = isString ? unescaped(text.slice(key + 2, after - 1), /\\(["\\])/g) : valueOf(text.slice(key + 1, after));
            fields.push([name(text.slice(end + 1, key)), value]);
            end = after;
        } while (text.charCodeAt(end) === 44);
        const newline = text.indexOf("\n", end), last = newline < 0 ? text.length : newline;
        yield { measurement, tags, fields, timestamp: last > end + 1 ? BigInt(text.slice(end + 1, last)) : null };
        at = last;
    }
}
