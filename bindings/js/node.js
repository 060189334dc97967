/* InfluxDB line protocol for Node: the calls of core.js over the module beside this file, which is read. */
import { readFileSync } from "node:fs";
import { connectNow, exportsOf } from "./core.js";

export { CLAUSES, LineProtocol, NotAdmitted, connect, hasWideMemory, seriesKey } from "./core.js";

const bytes = readFileSync(new URL("./lp_page_32.wasm", import.meta.url));

export const { ItemStream, Reader, brokenClauses, isPortable, parse, rebuild, write } = exportsOf(connectNow(bytes));
