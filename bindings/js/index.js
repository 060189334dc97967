/* InfluxDB line protocol for browsers and bundles: the calls of core.js over the module beside this file, which is fetched. */
import { connect, exportsOf } from "./core.js";

export { CLAUSES, LineProtocol, NotAdmitted, connect, hasWideMemory, seriesKey } from "./core.js";

const place = new URL("./lp_page_32.wasm", import.meta.url), answer = await fetch(place);
if (!answer.ok) throw new Error(`${place} was not fetched: ${answer.status}`);

export const { ItemStream, Reader, brokenClauses, isPortable, parse, rebuild, write } = exportsOf(await connect(await answer.arrayBuffer()));
