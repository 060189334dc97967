/* Compares what a Reader gives of texts that come in parts with a model of docs/FORMAT.md: the pieces of sections 3 and 17, what section 4
 * trims, and the limit of section 19. The model uses nothing of the package. Half of a surrogate pair is compared too.
 *
 *     streams.mjs FOLDER [COUNT [SEED]]
 *
 * FOLDER has the package, with its module. COUNT random texts are read in each dialect, with limits of 1 to 100 bytes. */
import { deepStrictEqual } from "node:assert";
import { pathToFileURL } from "node:url";

const [folder, count = "10000", seed = "1"] = process.argv.slice(2);
const { ItemStream, NotAdmitted, Reader, brokenClauses, isPortable, parse, rebuild, seriesKey, write } = await import(pathToFileURL(`${folder}/node.js`));
const DIALECTS = ["crate", "strict", "newline-delimited"];
const [TAB, NEWLINE, SPACE, QUOTE, HASH, COMMA, EQUALS, BACKSLASH] = Buffer.from('\t\n "#,=\\');

let state = Number(seed);
const dice = n => (state = (state * 1103515245 + 12345) % 2147483648) % n;

async function gathered(source, options) {
    const items = [];
    for await (const item of new Reader(source, options)) items.push(item);
    return items;
}

function throws(call, kind, message) {
    try {
        call();
    } catch (error) {
        deepStrictEqual([error instanceof kind, error.message], [true, message]);
        return;
    }
    throw new Error(`nothing is thrown where this is wanted: ${message}`);
}

// Where the newline is that ends the piece which begins at a place, or the end of the text.
function endOf(bytes, from, dialect) {
    const newline = bytes.indexOf(NEWLINE, from), last = newline < 0 ? bytes.length : newline;
    if (dialect === "newline-delimited") return last;
    let at = from;
    while (bytes[at] === SPACE || bytes[at] === TAB) at += 1;
    if (dialect === "strict" && bytes[at] === HASH) return last;
    let place = "head", equals = 0, commas = 0;
    for (at = from; at < bytes.length; at++) {
        const byte = bytes[at];
        if (byte === BACKSLASH) at += 1;
        else if (byte === NEWLINE && place !== "quoted") return at;
        else if (place === "head") place = byte === SPACE ? "plain" : "head";
        else if (byte === QUOTE) place = place === "plain" && equals > commas ? "quoted" : "plain";
        else if (place === "plain" && byte === EQUALS) equals += 1;
        else if (place === "plain" && byte === COMMA) commas += 1;
    }
    return bytes.length;
}

// How many bytes at the start of a piece are trimmed.
function trimmed(piece) {
    let at = 0;
    for (;;) {
        while ([SPACE, TAB, NEWLINE].includes(piece[at])) at += 1;
        if (piece[at] !== HASH) return at;
        const newline = piece.indexOf(NEWLINE, at);
        at = newline < 0 ? piece.length : newline;
    }
}

function isUtf8(bytes) {
    try {
        new TextDecoder("utf-8", { fatal: true }).decode(bytes);
        return true;
    } catch {
        return false;
    }
}

const newlinesIn = bytes => bytes.filter(byte => byte === NEWLINE).length;

// The place of each item, and of one that is too long all that is told.
function wantedOf(bytes, dialect, limit) {
    const items = [];
    for (let at = 0, end; at <= bytes.length; at = end + 1) {
        end = endOf(bytes, at, dialect);
        const piece = bytes.subarray(at, end), pieceLine = 1 + newlinesIn(bytes.subarray(0, at)), item = items.length + 1;
        const passed = isUtf8(piece) && piece.length <= limit ? trimmed(piece) : 0;
        if (piece.length > limit) {
            items.push({
                fault: "too_long", message: "the line is too long", text: "", side: "", item, line: pieceLine, offset: at, length: limit, pieceLine,
                pieceOffset: at, pieceLength: limit, stopOffset: at, stopLine: pieceLine, stopColumn: 1, refused: new Uint8Array(piece.subarray(0, limit)),
                longerThan: limit,
            });
        } else if (passed < piece.length) {
            const line = pieceLine + newlinesIn(piece.subarray(0, passed));
            items.push({ item, line, offset: at + passed, length: piece.length - passed, pieceLine, pieceOffset: at, pieceLength: piece.length });
        }
    }
    return items;
}

// The same of a Reader. Of an item that is not too long all but its number must be as `parse` gives it of the whole text.
async function compare(bytes, parts, dialect, limit) {
    const whole = new Map([...parse(bytes, { dialect, places: true })].map(item => [item.pieceOffset, item]));
    const got = (await gathered(parts, { dialect, places: true, maxLine: limit })).map(it => {
        if (it.fault === "too_long") return { ...it };
        const { item, line, offset, length, pieceLine, pieceOffset, pieceLength } = it;
        deepStrictEqual({ ...it }, { ...whole.get(pieceOffset), item });
        return { item, line, offset, length, pieceLine, pieceOffset, pieceLength };
    });
    const wanted = wantedOf(bytes, dialect, limit);
    deepStrictEqual(got, wanted, `${JSON.stringify(Buffer.from(bytes).toString("latin1").slice(0, 2000))}, ${dialect}, a limit of ${limit}`);
    return wanted.filter(it => it.fault).length;
}

function* cut(bytes) {
    for (let at = 0, size; at < bytes.length; at += size) {
        size = 1 + dice(dice(4) === 0 ? bytes.length : 20);
        yield bytes.subarray(at, at + size);
    }
}

// Random texts in random cuts.
const words = ["m", "cpu", ",", "=", " ", "\\", '"', "\n", "\n", "f=1i", ",a=b", "é", "😀", "\t", "#", " f=", ' s="', '"\n', " 5", "=1", "x".repeat(20)]
    .map(word => Buffer.from(word)).concat([Buffer.from([0xff]), Buffer.from([0xed, 0xa0, 0x80])]);
let long = 0;
for (let n = 0; n < Number(count); n++) {
    const bytes = new Uint8Array(Buffer.concat(Array.from({ length: 1 + dice(40) }, () => words[dice(words.length)])));
    for (const dialect of DIALECTS) long += await compare(bytes, [...cut(bytes)], dialect, 1 + dice(100));
}
// Pieces and limits about the window in which a text is read, which has 65,536 bytes.
for (let n = 0; n < 30; n++) {
    const texts = Array.from({ length: 3 }, () => `m s="${"a\n".repeat(dice(8))}${"b".repeat(65_500 + dice(60) + 65_536 * dice(2))}"\nn f=1i\n# c\n`);
    const bytes = new TextEncoder().encode(texts.join(""));
    const parts = n % 2 ? [...cut(bytes)] : [bytes.subarray(0, 65_536 + n), bytes.subarray(65_536 + n)];
    for (const dialect of DIALECTS) long += await compare(bytes, parts, dialect, 65_530 + dice(20) + 65_536 * dice(2));
}
console.log(`page: items of ${count} random texts and 30 long ones, in parts, are as a model has them; ${long} are too long`);

// Only the piece counts, whatever else has come; and it counts also if it comes in one part.
const measurementsOf = items => items.map(item => item.fault ?? item.measurement);
const goesOn = ['m s="' + "a".repeat(2000) + "\n", 'b"\n' + "n f=1\n".repeat(130)];
deepStrictEqual(measurementsOf(await gathered(goesOn, { maxLine: 2500 })), ["m", ...Array(130).fill("n")]);
deepStrictEqual(measurementsOf(await gathered(goesOn, { maxLine: 2008 })), ["m", ...Array(130).fill("n")]);
deepStrictEqual(measurementsOf(await gathered(goesOn, { maxLine: 2007 })), ["too_long", ...Array(130).fill("n")]);
deepStrictEqual(measurementsOf(await gathered(["m f=123456789\nm f=1\n"], { maxLine: 5 })), ["too_long", "m"]);
deepStrictEqual(measurementsOf(await gathered(["m f=1\nm f=123456789"], { maxLine: 5 })), ["m", "too_long"]);
deepStrictEqual(measurementsOf(await gathered(["m f=1\n", "# ", "comment\nm f=2"], { maxLine: 5 })), ["m", "too_long", "m"]);
deepStrictEqual(measurementsOf(await gathered(["m f=1\n\n", "x"], { maxLine: 0 })), ["too_long", "too_long"]);
deepStrictEqual(measurementsOf(await gathered(["m f=1"], { maxLine: Infinity })), ["m"]);
// The limit is 16 MiB if none is given.
const most = " ".repeat((1 << 24) - 5);
deepStrictEqual(measurementsOf(await gathered([most, "m f=1\n", most, "m f=12\nn f=1\n"])), ["m", "too_long", "n"]);
// A piece that goes on without an end is told once, before it ends.
const endless = new Reader((function* () { for (;;) yield "x".repeat(100); })(), { maxLine: 1000 })[Symbol.asyncIterator]();
deepStrictEqual((await endless.next()).value.fault, "too_long");
for (const [maxLine, kind, message] of [
    ["5", TypeError, "maxLine is a number"], [-1, RangeError, "maxLine is -1: it is a whole number from 0 on, or Infinity"],
    [NaN, RangeError, "maxLine is NaN: it is a whole number from 0 on, or Infinity"], [1.5, RangeError, "maxLine is 1.5: it is a whole number from 0 on, or Infinity"],
]) {
    const error = await gathered(["m f=1"], { maxLine }).then(() => null, thrown => thrown);
    deepStrictEqual([error instanceof kind, error?.message], [true, message]);
}
console.log("page: a limit is one of the piece, and the items after a piece that is too long come");

// A TransformStream gives the items that a Reader gives, also of a pair that two strings share, and fails where a Reader throws.
const piped = parts => gathered_(new ReadableStream({ start(to) { for (const part of parts) to.enqueue(part); to.close(); } }).pipeThrough(new ItemStream({ places: true, maxLine: 30 })));
const gathered_ = async stream => { const items = []; for await (const item of stream) items.push(item); return items; };
for (let n = 0; n < 300; n++) {
    const parts = [...cut(new Uint8Array(Buffer.concat(Array.from({ length: 1 + dice(40) }, () => words[dice(words.length)]))))];
    deepStrictEqual(await piped(parts), await gathered(parts, { places: true, maxLine: 30 }));
}
deepStrictEqual((await piped(["m,a=\ud83d", "\ude00 f=1\nm f=\ud800"])).map(item => item.fault ?? item.tags[0][1]), ["😀", "not_utf8"]);
deepStrictEqual(await piped([5]).then(() => null, error => error.constructor), TypeError);

console.log("page: a TransformStream gives what a Reader gives");

// A ReadableStream that is left in the middle is canceled, also in an engine that cannot go over one.
for (const over of [stream => stream, stream => ({ getReader: () => stream.getReader() })]) {
    let isCanceled = false;
    const lines = new ReadableStream({ pull: to => to.enqueue("m f=1\n"), cancel: () => { isCanceled = true; } });
    for await (const { measurement } of new Reader(over(lines))) if (measurement === "m") break;
    deepStrictEqual(isCanceled, true);
}
// The bytes of a long piece are not moved with each part.
const typed = Object.getPrototypeOf(Uint8Array.prototype), { set } = typed;
let moved = 0;
typed.set = function (from, at) { moved += from.length; set.call(this, from, at); };
await gathered(Array(2000).fill("x".repeat(64)));
typed.set = set;
if (moved > 10 * 2000 * 64) throw new Error(`of a piece of 128,000 bytes ${moved} are moved`);

// Half of a surrogate pair is never replaced: what writes refuses it, and what reads refuses its line.
for (const half of ["\ud800", "\udbff", "\udc00", "\udfff"]) {
    const kept = "is 😀 é", reason = "holds half of a surrogate pair", escaped = JSON.stringify(half).slice(1, -1), shown = before => `"${before}${escaped}"`;
    throws(() => write({ measurement: half, fields: { f: 1 } }), NotAdmitted, `the measurement of line 1 ${reason}: ${shown("")}`);
    throws(() => write([{ measurement: kept, fields: { f: 1 } }, { measurement: "m", tags: { a: kept, b: `x${half}` }, fields: { f: 1 } }]),
        NotAdmitted, `the value of tag 2 of line 2 ${reason}: ${shown("x")}, of the key "b"`);
    throws(() => write({ measurement: "m", tags: [[`${half}x`, "v"]], fields: { f: 1 } }), NotAdmitted, `the key of tag 1 of line 1 ${reason}: "${escaped}x"`);
    throws(() => write({ measurement: "m", fields: [["f", 1], [half, 1]] }), NotAdmitted, `the key of field 2 of line 1 ${reason}: ${shown("")}`);
    throws(() => write({ measurement: "m", fields: { f: `${half}😀` } }), NotAdmitted, `the value of field 1 of line 1 ${reason}: "${escaped}😀", of the key "f"`);
    throws(() => seriesKey({ measurement: half }), NotAdmitted, `the measurement of line 1 ${reason}: ${shown("")}`);
    throws(() => seriesKey({ measurement: "m", tags: { a: half } }), NotAdmitted, `the value of tag 1 of line 1 ${reason}: ${shown("")}, of the key "a"`);
    const text = `m f=1\nm,a=x${half}é f=2\nm f=3 😀\n`, wanted = [1, "not_utf8 2:6", "cannot_parse_entire_line 3:6"];
    const told = item => (item.fault ? `${item.fault} ${item.stopLine}:${item.stopColumn}` : item.fields[0][1]);
    deepStrictEqual([...parse(text)].map(told), wanted);
    deepStrictEqual(Buffer.from([...parse(text)][1].refused).toString("hex"), `6d2c613d78${half < "\udc00" ? half === "\ud800" ? "eda080" : "edafbf" : half === "\udc00" ? "edb080" : "edbfbf"}c3a920663d32`);
    for (let at = 0; at <= text.length; at++) deepStrictEqual((await gathered([text.slice(0, at), text.slice(at)])).map(told), wanted);
    deepStrictEqual(rebuild(text).faults, "item 2: the line is not UTF-8\nitem 3: Could not parse entire line. Found trailing content: ' 😀'\n");
    deepStrictEqual([brokenClauses(`m,a=${half} f=1`), isPortable(`m,a=${half} f=1`)], [["NotALine"], false]);
    deepStrictEqual((await gathered([`m,a=${half}`, Buffer.from("b f=1\n"), "m f=2"])).map(told), ["not_utf8 1:5", 2]);
}
deepStrictEqual(seriesKey({ measurement: "\ufffd" }), "\ufffd");
// A pair that two parts share is joined, also if a part has half of it alone.
for (const parts of [["m,a=\ud83d", "\ude00 f=1"], ["m,a=", "\ud83d", "\ude00", " f=1"], ["m,a=\ud83d", "", "\ude00 f=1"]]) {
    deepStrictEqual((await gathered(parts))[0].tags, [["a", "😀"]]);
}
console.log("page: no call replaces half of a surrogate pair");

// Reading bytes that are not UTF-8 stops after the longest front that is.
const bytesOfUtf8 = [0x61, 0x7f, 0x80, 0x8f, 0x90, 0x9f, 0xa0, 0xbf, 0xc1, 0xc2, 0xe0, 0xed, 0xf0, 0xf4, 0xff];
let bad = 0;
for (let n = 0; n < 3000; n++) {
    const bytes = Uint8Array.from({ length: 1 + dice(12) }, () => bytesOfUtf8[dice(bytesOfUtf8.length)]), [item] = parse(bytes);
    if (isUtf8(bytes)) continue;
    let front = bytes.length - 1;
    while (!isUtf8(bytes.subarray(0, front))) front -= 1;
    deepStrictEqual([item.fault, item.offset, item.stopOffset, item.stopColumn], ["not_utf8", 0, front, front + 1], Buffer.from(bytes).toString("hex"));
    bad += 1;
}
console.log(`page: reading ${bad} texts that are not UTF-8 stops at the first byte that rules that out`);

// A buffer that was detached holds no empty text.
const detached = view => {
    structuredClone(view.buffer ?? view, { transfer: [view.buffer ?? view] });
    return view;
};
const text = new TextEncoder().encode("m f=1\n".repeat(20_000));
for (const make of [bytes => bytes, bytes => new DataView(bytes.buffer), bytes => new Int8Array(bytes.buffer), bytes => bytes.buffer, bytes => bytes.subarray(6)]) {
    for (const call of [parse, rebuild, brokenClauses, isPortable]) {
        deepStrictEqual([(() => { try { call(detached(make(text.slice()))); } catch (error) { return error.constructor; } })(), call], [TypeError, call]);
    }
    deepStrictEqual((await gathered(["m f=1\n", detached(make(text.slice()))]).catch(error => error)).constructor, TypeError);
}
deepStrictEqual([...parse(new Uint8Array(0)), ...parse(new DataView(new ArrayBuffer(3), 3))], []);
const taken = text.slice(), items = parse(taken);
items.next();
detached(taken);
throws(() => [...items], TypeError, "the buffer of the text was detached or resized while the text was read");
console.log("page: a detached buffer throws");
