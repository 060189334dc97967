/* What the types of the package let a program say. It is not run: checks/page.sh asks TypeScript whether it is right. */
import {
    CLAUSES, Item, ItemStream, Line, LineJson, NotAdmitted, Reader, brokenClauses, connect, hasWideMemory, isPortable, parse, rebuild, seriesKey, write,
} from "influxdb-line-protocol";
import * as core from "influxdb-line-protocol/core.js";

export async function times(stream: ReadableStream<Uint8Array>): Promise<bigint[]> {
    const found: bigint[] = [];
    for await (const item of new Reader(stream, { dialect: "strict", maxLine: 100 })) {
        if (!("fault" in item) && item.timestamp !== null) found.push(item.timestamp);
        if ("fault" in item && item.fault === "too_long") console.log(item.line, item.longerThan);
    }
    return found;
}

for (const item of parse("m f=1i", { dialect: "newline-delimited", places: true })) {
    const at: number = "fault" in item ? item.stopColumn : item.offset;
    if ("fault" in item) console.log(item.fault, at, item.refused.length);
    else console.log(item.measurement, item.fields[0][1], at);
}

export const items: ReadableStream<Item> = new ReadableStream<string>().pipeThrough(new ItemStream({ maxLine: 5 }));
const line: Line = { measurement: "m", tags: [["a", "b"]], fields: [["f", 1n], ["u", { unsigned: 1n }], ["x", { float: "1e400" }]], timestamp: null };
try {
    const text: string = write([line, { measurement: "m", fields: { f: true }, timestamp: new Date() }], { dialect: "crate" });
    const { batch, refused } = rebuild(text), items: Item[] = [...parse(new Uint8Array(3), { keys: true })];
    console.log(batch, refused, items, seriesKey({ measurement: "m", tags: { a: "b" } }));
    console.log(brokenClauses(text, { tags: 3 }), isPortable(text, "victoria"), CLAUSES[0].means, hasWideMemory());
} catch (error) {
    write(JSON.parse(JSON.stringify(line)) as LineJson);
    if (error instanceof NotAdmitted) console.log(error.what, error.index, error.part === "tag value", error.key, error.value);
}
const calls = core.hasWideMemory() ? await core.connect(new Uint8Array(8)) : await connect(new Uint8Array(8));
for (const item of calls.parse("x")) console.log(item);
