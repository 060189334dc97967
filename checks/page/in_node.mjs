/* The package of bindings/js in Node:
 *
 *     in_node.mjs FOLDER TABLE [RELAY]   compares its calls with the rows of a table, with one another, and with the faults that the program RELAY tells
 *     in_node.mjs FOLDER --bits          of each text of standard input, a line of hexadecimal digits: the clauses that it breaks, as one number
 *
 * FOLDER has the package, with its module. */
import { spawnSync } from "node:child_process";
import { readFileSync, writeFileSync } from "node:fs";
import { pathToFileURL } from "node:url";
import { inspect } from "node:util";
import { answered, countsOf, rowsOf } from "./answers.mjs";

const [folder, what, relay] = process.argv.slice(2);
const package_ = await import(pathToFileURL(`${folder}/node.js`));
const { CLAUSES, NotAdmitted, Reader, brokenClauses, isPortable, parse, rebuild, seriesKey, write } = package_;

function same(got, wanted, of) {
    const text = it => JSON.stringify(it, (_, value) => (typeof value === "bigint" ? `${value}n` : value));
    if (text(got) === text(wanted)) return;
    console.error(`page: ${of}: ${text(got)}, where ${text(wanted)} is wanted`);
    process.exit(1);
}

function throws(call, kind, message, of) {
    try {
        call();
    } catch (error) {
        same([error instanceof kind, error.message], [true, message], of);
        return;
    }
    same("nothing is thrown", message, of);
}

if (what === "--bits") {
    const bits = new Map(CLAUSES.map(({ name }, number) => [name, 1n << BigInt(number)]));
    const told = line => `${brokenClauses(Buffer.from(line, "hex")).reduce((sum, name) => sum + bits.get(name), 0n)}\n`;
    writeFileSync(1, readFileSync(0, "latin1").split("\n").slice(0, -1).map(told).join(""));
    process.exit(0);
}

// The table.
const rows = rowsOf(readFileSync(what, "utf8"));
const call = async (name, ...args) => {
    const result = package_[name](...args);
    return result && typeof result.next === "function" ? [...result] : result;
};
for (const { row, kind, text, dialect, wanted } of rows) same(await answered(call, kind, text, dialect), wanted, `row ${row}, ${dialect}`);
if (rows.length < 400) same(rows.length, "400 answers or more", "the table");
console.log(`page: Node ${process.version}: ${countsOf(rows)} are as the table has them`);

// Texts in parts give what they give as a whole: cut into parts of each length, as strings and as bytes.
const texts = [...new Set(rows.map(({ text }) => text))];
const all = `${texts.join("\n")}\n${"x".repeat(70_000)} f=1i\nm s="${`${"y".repeat(60)}\n`.repeat(1500)}" 5\nGröße,k=流量 f="débit 😀"\n`;
const inParts = function* (text, size) { for (let at = 0; at < text.length; at += size) yield text.slice(at, at + size); };
const gathered = async (source, options) => {
    const items = [];
    for await (const item of new Reader(source, options)) items.push(item);
    return items;
};
let streams = 0;
for (const dialect of ["crate", "strict", "newline-delimited"]) {
    const options = { dialect, places: true }, whole = [...parse(all, options)], bytes = new TextEncoder().encode(all);
    for (const size of [1, 2, 3, 7, 1000, 65_536]) {
        if (size === 1 && dialect !== "strict") continue;
        same(await gathered(inParts(all, size), options), whole, `a text in parts of ${size}, ${dialect}`);
        same(await gathered(inParts(bytes, size), options), whole, `bytes in parts of ${size}, ${dialect}`);
        streams += 2;
    }
    same(await gathered(new ReadableStream({ start(to) { to.enqueue(bytes); to.close(); } }), options), whole, `a ReadableStream, ${dialect}`);
}

// A key that stands in the text is the one that is made of the parts.
let keys = 0;
for (const dialect of ["crate", "strict", "newline-delimited"]) {
    for (const item of parse(all, { dialect, keys: true })) {
        if (item.fault) continue;
        same(item.key, seriesKey(item), "a key of a series");
        keys += 1;
    }
}

// A float is the number that JavaScript makes of its literal, whatever its digits.
let seed = 64;
const dice = n => (seed = (seed * 1103515245 + 12345) % 2147483648) % n, digits = n => Array.from({ length: n }, () => dice(10)).join("");
const literals = ["0", "-0", "-0.0", "9007199254740991", "9007199254740993", "0.9007199254740993", "9007199254740993.0", `1.${"0".repeat(30)}`, `0.${"0".repeat(25)}1`];
for (let n = 0; n < 20_000; n++) literals.push(`${dice(2) ? "-" : ""}${digits(1 + dice(18))}${dice(3) ? `.${digits(1 + dice(18))}` : ""}${dice(9) ? "" : `e${dice(40) - 20}`}`);
[...parse(literals.map(literal => `m f=${literal}\n`).join(""))].forEach((item, n) => same(Object.is(item.fields[0][1], Number(literals[n])), true, literals[n]));

// Texts in a window that is not ASCII, or not UTF-8 in some line, are those of the line alone.
const mixed = Array.from({ length: 3000 }, (_, n) => ["m,é=😀\\ x f=1,流量=\"a\\\"é\"", "m,a=\ufffd\\,\ufffd f=2", "n,a=b,c=é f=\"😀\"", "plain f=1", `x,${"é".repeat(40)}=1 f=1`][(7 * n) % 5]);
const wrong = Buffer.from([0x6d, 0x20, 0xf0, 0x9f, 0x3d, 0x31, 0x0a]), options_ = { keys: true, places: true, literals: true };
for (const bytes of [Buffer.from(mixed.join("\n")), Buffer.concat([Buffer.from(`${mixed.slice(0, 2000).join("\n")}\n`), wrong, Buffer.from(mixed.join("\n"))])]) {
    for (const item of parse(bytes, options_)) {
        if (item.fault) same([item.fault, item.line], ["not_utf8", 2001], "the line that is not UTF-8");
        else same({ ...item, item: 0, line: 0, offset: 0, pieceLine: 0, pieceOffset: 0 }, { ...[...parse(bytes.subarray(item.offset, item.offset + item.length), options_)][0], item: 0, line: 0, offset: 0, pieceLine: 0, pieceOffset: 0 }, "a line among others");
    }
}

// What is written is what was meant, and what may not be written is refused.
const line = { measurement: "m x", tags: { b: "1,2", a: "=" }, fields: [["i", -5n], ["u", { unsigned: 2n ** 64n - 1n }], ["f", -0], ["s", 'q"\\\n'], ["t", true]], timestamp: new Date(5) };
same(write(line), 'm\\ x,b=1\\,2,a=\\= i=-5i,u=18446744073709551615u,f=-0,s="q\\"\\\\\n",t=true 5000000\n', "a line that is written");
same(seriesKey(line), "m\\ x,a=\\=,b=1\\,2", "its key");
same([...parse(write([line, line]))].length, 2, "two lines");
same(write({ measurement: "m", fields: { f: 2 ** 60, g: 1e21 } }), "m f=1152921504606847000,g=1e+21\n", "large floats");
same(seriesKey({ measurement: "m", tags: { "😀": "a", "\uff5e": "b" } }), "m,\uff5e=b,😀=a", "tags by their bytes");
const ofWindows = "m f=1\n".repeat(20_000);
same(rebuild(`${ofWindows}m f`).faults, "item 20001: No fields were provided\n", "a fault of several windows");
same([...parse(new DataView(new TextEncoder().encode("m f=1\nn f=2").buffer, 6))][0].measurement, "n", "a view");
same([...parse(`m f=1 ${"x".repeat(2000)}`)][0].text.length, 2001, "a long rest");
same([isPortable("m,a=b f=1 2000000"), isPortable("m,a=b f=1", "all", { tags: 0 }), isPortable("m f=1 2000000", "all", { latest: 1_000_000n })], [true, false, false], "limits");
same(await gathered((function* () { yield "m f=1\n"; throw new Error("gone"); })()).catch(error => error.message), "gone", "the error of a source");
// Over the proved module too, if this engine has its memory, or else says that it has not.
const { connect, hasWideMemory } = await import(pathToFileURL(`${folder}/core.js`)), ofModule = name => connect(readFileSync(`${folder}/${name}`));
same((await ofModule("lp_page_32.wasm")).index(`${ofWindows.repeat(3)}n f=2`).at.length, 60_001, "an index of several windows");
const proved = await ofModule("lp_page.wasm").catch(error => error);
if (hasWideMemory()) same([...proved.parse("m f=1")].length, 1, "a line, by the proved module");
else same(proved.message.slice(0, 34), "this engine has no 64-bit memory f", "an engine without wide memory");
same((await connect(new Uint8Array(9)).catch(error => error)) instanceof Error, true, "bytes that are no module");
throws(() => write(line, { dialect: "newline-delimited" }), NotAdmitted, `the value of field 4 of line 1 would not read back: ${JSON.stringify('q"\\\n')}, of the key "s"`, "a string with a newline");
throws(() => write([line, { measurement: "m", tags: { k: "v\\" }, fields: { f: 1 } }]), NotAdmitted, String.raw`the value of tag 1 of line 2 would not read back: "v\\", of the key "k"`, "a backslash");
throws(() => write({ measurement: "#m", fields: { f: 1 } }), NotAdmitted, `the measurement of line 1 would not read back: "#m"`, "a comment");
throws(() => write({ measurement: "m", fields: { [`${"k".repeat(99)}\t`]: 1 } }), NotAdmitted, `the key of field 1 of line 1 would not read back: "${"k".repeat(60)}.."`, "a long key");
throws(() => write({ measurement: "m", tags: { "": "v" }, fields: { f: 1 } }), NotAdmitted, 'the key of tag 1 of line 1 would not read back: ""', "an empty key");
const told = call => { try { return call(); } catch ({ part, key, value, index, what }) { return [part, key, value, index, what]; } };
same(told(() => write([line, { measurement: "m", tags: { k: "v\\" }, fields: { f: 1 } }])), ["tag value", "k", "v\\", 1, "the value of tag 1"], "which part, with key and value");
same(told(() => write({ measurement: "m", fields: { "a\n": 1 } })), ["field key", null, "a\n", 0, "the key of field 1"], "a key that is not admitted");
same(told(() => write(line, { dialect: "newline-delimited" })), ["field value", "s", 'q"\\\n', 0, "the value of field 4"], "a string that is not admitted");
same(told(() => seriesKey({ measurement: "\ud800" })), ["measurement", null, "\ud800", 0, "the measurement"], "half of a pair");
throws(() => write({ measurement: "m", fields: {} }), TypeError, "a line has a field", "no field");
throws(() => write({ measurement: "m", fields: { f: 2n ** 63n } }), RangeError, "9223372036854775808 is no integer of 64 bits", "a large integer");
throws(() => write({ measurement: "m", fields: { f: NaN } }), RangeError, "NaN is no float that can be written", "no number");
throws(() => [...parse("m", { dialect: "loose" })], RangeError, "loose is no dialect: it is one of crate, strict, newline-delimited", "a dialect");
same([...parse("m f=1e999,g=1.50")][0].fields, [["f", { float: "1e999" }], ["g", 1.5]], "floats");
same(rebuild("m  f=t\nm f"), { batch: "m f=true\n", faults: "item 2: No fields were provided\n", carried: 1, refused: 1 }, "a rebuild");
same([isPortable("m f=1u"), isPortable("m f=1u", "victoria"), isPortable("m f=1i 1590488773254420000")], [false, true, true], "what is portable");
const bad = [...parse(Uint8Array.from([109, 32, 102, 61, 49, 10, 109, 32, 0xc3, 0x28, 61, 49, 10, 110, 32, 102, 61, 50]))];
same(bad.map(it => it.measurement ?? [it.fault, it.line, it.stopColumn]), ["m", ["not_utf8", 2, 3], "n"], "bytes that are not UTF-8");
throws(() => seriesKey({ measurement: "m", tags: { a: 1 } }), TypeError, "the value of the tag a is no string", "a key of a number");
console.log(`page: ${texts.length} texts as one stream, in ${streams} cuts, ${keys} keys, and what is written and refused`);

// JSON keeps all of a line: what JSON.parse gives is written as the line was.
const told64 = 'm,a=b i=-9223372036854775808i,u=18446744073709551615u,f=-0,g=1.5,h=1e+400,s="\ud83d\ude00\n",t=true 9223372036854775807\n';
const [ofJson] = parse(told64, { keys: true, places: true });
same(JSON.stringify(ofJson).slice(0, 150), '{"measurement":"m","tags":[["a","b"]],"fields":[["i",{"integer":"-9223372036854775808"}],["u",{"unsigned":"18446744073709551615"}],["f",{"float":"-0"}', "a line in JSON");
same([write(JSON.parse(JSON.stringify(ofJson))), JSON.parse(JSON.stringify(ofJson)).timestamp, JSON.parse(JSON.stringify(ofJson)).key], [told64, "9223372036854775807", "m,a=b"], "a line of JSON");
same(write(JSON.parse(JSON.stringify([...parse("m f=1\nn f=2i")]))), "m f=1\nn f=2i\n", "lines of JSON");
const [badText, badBytes] = JSON.parse(JSON.stringify([...parse("m é\n"), ...parse(Uint8Array.of(109, 0xff))]));
same([badText.fault, badText.refused, badBytes.fault, badBytes.refused], ["field_set_missing", "m é", "not_utf8", [109, 255]], "faults in JSON");
throws(() => write({ measurement: "m", fields: { f: { integer: "1.5" } } }), TypeError, "a value is a bigint, a number, a string, a boolean, { integer }, { unsigned } or { float }", "digits of a float");
throws(() => write({ measurement: "m", fields: { f: { integer: "9223372036854775808" } } }), RangeError, "9223372036854775808 is no integer of 64 bits", "digits of a large integer");
throws(() => write({ measurement: "m", fields: { f: 1 }, timestamp: "soon" }), TypeError, "a timestamp is a bigint of nanoseconds, its digits, or a Date", "a time that is no number");

// Each program of the page of the package that says what it prints prints it.
const programs = [...readFileSync(`${folder}/README.md`, "utf8").matchAll(/```js\n([^`]*(?:`[^`]+`[^`]*)*?)```\n\nprints\n\n```text\n(.*?)```/gs)];
same(programs.length, 3, "programs of the page that say what they print");
for (const [, program, printed] of programs) {
    const lines = [], asPrinted = it => (typeof it === "string" ? it : inspect(it)), log = (...words) => lines.push(`${words.map(asPrinted).join(" ")}\n`);
    await new (async () => {}).constructor(...Object.keys(package_), "console", program.replace(/^import .*\n/gm, ""))(...Object.values(package_), { log });
    same(lines.join(""), printed, "what a program of the page prints");
}

// Faults are those that lp_relay tells, at the same places: of the texts of the table, and of hostile ones.
if (relay) {
    let faults = 0;
    const parts = ["m", ",", " ", "=", '"', "\\", "\n", "\n", "f=1i", "t=v", "#", "\t", "9".repeat(25), "é", "f=", " 5", "x"].map(part => Buffer.from(part)).concat(Buffer.from([0xff]));
    const hostile = Array.from({ length: 60 }, () => Buffer.concat(Array.from({ length: 60 }, () => parts[dice(parts.length)])));
    for (const text of [Buffer.from(texts.join("\n")), ...hostile]) {
        for (const [dialect, ...flags] of [["crate"], ["strict", "--strict"], ["newline-delimited", "--newline-delimited"]]) {
            for (const maxLine of [1 << 24, 20]) {
                const told = spawnSync(relay, [...flags, "--faults", "json", "--verbatim", "--check", `--max-line=${maxLine}`], { input: text, maxBuffer: 1 << 28 }).stderr;
                const wanted = told.toString().split("\n").filter(Boolean).map(JSON.parse)
                    .map(it => [it.item, it.line, it.offset, it.piece_line, it.piece_offset, it.kind, it.longer_than ?? [it.length, it.stop_line, it.stop_column]]);
                const got = (await gathered([text], { dialect, maxLine })).filter(it => it.fault)
                    .map(it => [it.item, it.line, it.offset, it.pieceLine, it.pieceOffset, it.fault, it.longerThan ?? [it.pieceLength, it.stopLine, it.stopColumn]]);
                same(got, wanted, `the faults of ${JSON.stringify(text.toString())}, ${dialect}, of lines of up to ${maxLine} bytes`);
                faults += got.length;
            }
        }
    }
    console.log(`page: ${faults} faults are those that lp_relay tells, at the same places`);
}

// What the types declare is there, and the other way round.
const declared = [...readFileSync(`${folder}/index.d.ts`, "utf8").matchAll(/^export (?:function|class|const) (\w+)/gm)].map(found => found[1]);
same([...new Set(declared)].sort(), Object.keys(package_).sort(), "what index.d.ts declares");
