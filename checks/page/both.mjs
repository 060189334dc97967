/* Compares what the package gives over its two modules, the proved one with 64-bit memory and the one with 32-bit memory that wasm-opt made of it:
 *
 *     both.mjs FOLDER [COUNT [SEED [CORPUS..]]]
 *
 * FOLDER has the package. COUNT random texts are read in each dialect, rebuilt, and written again. Of the files CORPUS it prints how fast objects
 * are made of them over each module, in turns. */
import { readFileSync } from "node:fs";
import { pathToFileURL } from "node:url";

const [folder, count = "60000", seed = "1", ...corpora] = process.argv.slice(2);
const { connect } = await import(pathToFileURL(`${folder}/core.js`));
const narrow = await connect(readFileSync(`${folder}/lp_page_32.wasm`)), wide = await connect(readFileSync(`${folder}/lp_page.wasm`));

let state = Number(seed);
const dice = n => (state = (state * 1103515245 + 12345) % 2147483648) % n;
const words = ["m", "cpu", ",", "=", " ", "\\", '"', "\n", "\n", "f=1i", ",a=b", "é", "😀", "\t", "#", " f=", ' s="', '"\n', " 5", "=1", "f=2u", "f=t", "1e3",
    "-9223372036854775809i", " 9223372036854775807", "x".repeat(20)].map(word => Buffer.from(word)).concat([Buffer.from([0xff]), Buffer.from([0xed, 0xa0])]);

// All that a text gives, as a text.
const shown = it => JSON.stringify(it, (_, value) => (typeof value === "bigint" ? `${value}n` : value));
const answers = (calls, bytes, dialect) => shown([[...calls.parse(bytes, { dialect, places: true, literals: true, keys: true })], calls.rebuild(bytes, { dialect })]);

let texts = 0;
for (let n = 0; n < Number(count); n++) {
    const bytes = Buffer.concat(Array.from({ length: 1 + dice(40) }, () => words[dice(words.length)]));
    for (const dialect of ["crate", "strict", "newline-delimited"]) {
        const got = answers(narrow, bytes, dialect), wanted = answers(wide, bytes, dialect);
        if (got !== wanted) throw new Error(`${JSON.stringify(bytes.toString("latin1"))}, ${dialect}: ${got}, where the proved module gives ${wanted}`);
        texts += 1;
    }
}
// Texts for which the memory of a module grows.
for (const size of [100_000, 1_000_000, 10_000_000]) {
    const bytes = Buffer.from(`m s="${"x\n".repeat(size / 2)}",f=1 5\nm f`);
    if (answers(narrow, bytes, "crate") !== answers(wide, bytes, "crate")) throw new Error(`a line of ${size} bytes`);
}
console.log(`page: both modules give the same of ${texts} random texts, and of lines of up to 10 MB`);

for (const file of corpora) {
    const bytes = readFileSync(file), best = { narrow: Infinity, wide: Infinity };
    for (let round = 0; round < 9; round++) {
        for (const [name, calls] of Object.entries({ narrow, wide })) {
            const from = process.cpuUsage();
            let items = 0;
            for (const item of calls.parse(bytes)) items += item.fault ? 0 : 1;
            const { user, system } = process.cpuUsage(from);
            best[name] = Math.min(best[name], user + system);
            if (items === 0) throw new Error("no line was read");
        }
    }
    const speed = time => `${(bytes.length / time).toFixed(1)} MB/s`;
    console.log(`page: ${file.split("/").pop()}: ${speed(best.narrow)} with 32-bit memory, ${speed(best.wide)} with 64-bit memory, of processor time, best of 9 in turns`);
}
