/* The reader of the page, in a worker of its own. It holds the text as bytes, and of each dialect where its pieces are. */
let calls = null, text = new Uint8Array(0), indexes = new Map();

// The most characters of a piece that a card shows.
const SHOWN = 4000;

function indexOf(dialect) {
    if (!indexes.has(dialect)) indexes.set(dialect, calls.index(text, { dialect }));
    return indexes.get(dialect);
}

function countsOf({ kind, names }) {
    const counts = {};
    for (const one of kind) counts[names[one] || "line"] = (counts[names[one] || "line"] ?? 0) + 1;
    return counts;
}

// How many characters so many bytes of a piece are.
const charactersIn = bytes => new TextDecoder("utf-8", { ignoreBOM: true }).decode(bytes).length;

// What a card shows of an item.
function cardOf(dialect, n) {
    const index = indexOf(dialect), at = index.at[n], bytes = text.subarray(at, at + index.len[n]);
    const { item, out, key, clauses } = calls.look(bytes, { dialect });
    const whole = new TextDecoder("utf-8", { ignoreBOM: true }).decode(bytes);
    const stop = item.fault ? charactersIn(bytes.subarray(0, item.stopOffset)) : -1;
    const from = stop > SHOWN / 2 && whole.length > SHOWN ? Math.max(0, Math.min(stop - SHOWN / 2, whole.length - SHOWN)) : 0;
    const card = {
        n, at, bytes: bytes.length, line: index.line[n], text: whole.slice(from, from + SHOWN), from, length: whole.length, start: charactersIn(bytes.subarray(0, item.offset)),
    };
    if (item.fault) {
        return {
            ...card, stop, fault: item.fault, message: item.message.length > SHOWN ? `${item.message.slice(0, SHOWN)}..` : item.message, named: item.text.slice(0, 80), side: item.side, stopAt: at + item.stopOffset,
            stopLine: index.line[n] + item.stopLine - 1, stopColumn: item.stopColumn,
        };
    }
    const { measurement, tags, fields, timestamp } = item;
    return { ...card, measurement, tags, fields, timestamp, source: item.text, out, key, clauses };
}

const tasks = {
    async connect({ module }) {
        calls = await connect(module);
    },
    clauses: () => CLAUSES,
    open({ bytes }) {
        text = bytes;
        indexes = new Map();
    },
    index({ dialect }) {
        const { line, kind, at, names } = indexOf(dialect);
        return { count: at.length, kind, names, counts: countsOf(indexOf(dialect)), lines: line.length };
    },
    cards({ dialect, from, to }) {
        const cards = [];
        for (let n = from; n < Math.min(to, indexOf(dialect).at.length); n++) cards.push(cardOf(dialect, n));
        return cards;
    },
    window({ from, to }) {
        return new TextDecoder("utf-8", { ignoreBOM: true }).decode(text.subarray(from, to));
    },
    // For the check of this page: what is asked of the calls themselves.
    call({ name, args }) {
        const result = name === "seriesKey" ? seriesKey(...args) : calls[name](...args);
        return result && typeof result.next === "function" ? [...result] : result;
    },
};

onmessage = async ({ data: { id, task, ...what } }) => {
    try {
        postMessage({ id, result: await tasks[task](what) });
    } catch (error) {
        postMessage({ id, error: String(error?.message ?? error) });
    }
};
