/* How fast the package of a folder reads and writes the lines of files, beside a reader in plain JavaScript that makes the same objects:
 *
 *     speed.mjs FOLDER FILE..          prints a line for each file
 *     speed.mjs --way WAY FOLDER FILE  prints the microseconds that one way takes a line
 *
 * It takes processor time, the best of 15 runs of the first megabyte. Each way runs in a process of its own. */
import { execFileSync } from "node:child_process";
import { readFileSync } from "node:fs";
import { fileURLToPath, pathToFileURL } from "node:url";
import { plainLines } from "./plain.mjs";

const count = items => { let n = 0; for (const { fields } of items) n += fields.length > 0; return n; };
const WAYS = {
    "plain JavaScript": ({ bytes }) => count(plainLines(new TextDecoder().decode(bytes))),
    parse: ({ bytes, parse }) => count(parse(bytes)),
    "parse a line": ({ texts, parse }) => texts.reduce((sum, text) => sum + count(parse(text)), 0),
    write: ({ lines, write }) => count(lines) * (write(lines) !== ""),
    "write a line": ({ lines, write }) => lines.reduce((sum, line) => sum + (write(line) !== ""), 0),
};

async function time(way, folder, file) {
    const { parse, write } = await import(pathToFileURL(`${folder}/node.js`)), all = readFileSync(file).subarray(0, 1 << 20);
    const given = { bytes: new Uint8Array(all.subarray(0, all.lastIndexOf(10) + 1)), parse, write };
    const wanted = count(parse(given.bytes));
    if (way !== "parse" && way !== "plain JavaScript") given.lines = [...parse(given.bytes)];
    if (way === "parse a line") given.texts = given.lines.map(line => write(line));
    let best = Infinity;
    for (let run = 0; run < 15; run++) {
        const from = process.cpuUsage(), got = WAYS[way](given), { user, system } = process.cpuUsage(from);
        if (got !== wanted) throw new Error(`${way}: ${got} lines of ${wanted}`);
        best = Math.min(best, user + system);
    }
    return best / wanted;
}

const [first, ...others] = process.argv.slice(2);
if (first === "--way") {
    console.log(await time(...others));
} else {
    for (const file of others) {
        const took = Object.keys(WAYS).map(way => [way, Number(execFileSync(process.execPath, [fileURLToPath(import.meta.url), "--way", way, first, file]))]);
        console.log(`page: ${file.split("/").pop()}, microseconds a line: ${took.map(([way, time]) => `${way} ${time.toFixed(2)}`).join(", ")}`);
    }
}
