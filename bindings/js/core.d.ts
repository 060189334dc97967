export { CLAUSES, LineProtocol, NotAdmitted, connect, hasWideMemory, seriesKey } from "./index.js";
