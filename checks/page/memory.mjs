/* Sees that the package lets go of the memory that a line of 30 MB takes, in the module and in a stream, while the stream goes on:
 *
 *     memory.mjs FOLDER
 *
 * FOLDER has the package, with its module. */
import { pathToFileURL } from "node:url";
import { setFlagsFromString } from "node:v8";
import { runInNewContext } from "node:vm";

setFlagsFromString("--expose-gc");
const collect = runInNewContext("gc"), { Reader } = await import(pathToFileURL(`${process.argv[2]}/node.js`));

// The megabytes in use after garbage was collected.
async function inUse() {
    for (let n = 0; n < 4; n++) {
        await new Promise(resolve => setTimeout(resolve, 20));
        collect();
    }
    const { arrayBuffers, external, heapUsed } = process.memoryUsage();
    return (arrayBuffers + external + heapUsed) / 1e6;
}

function* parts() {
    yield 'm s="';
    for (let n = 0; n < 600; n++) yield "y".repeat(50_000);
    yield '" 5\nn f=1\nn f=2\n';
}

const before = await inUse(), items = new Reader(parts(), { maxLine: Infinity })[Symbol.asyncIterator]();
const measurement = async () => (await items.next()).value.measurement;
const names = [await measurement(), await measurement()], after = await inUse(), text = await measurement();
if (`${names} ${text}` !== "m,n n") throw new Error(`the lines are ${names} ${text}`);
if (after > before + 10) throw new Error(`after a line of 30 MB ${after.toFixed(0)} MB are in use, where ${before.toFixed(0)} were before`);
console.log(`page: after a line of 30 MB ${(after - before).toFixed(1)} MB more are in use than before`);
