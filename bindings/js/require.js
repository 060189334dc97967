// For `require`. packaging/page/build.sh puts core.js before this, without the word `export`: both are index.cjs.
const bytes = require("node:fs").readFileSync(`${__dirname}/lp_page_32.wasm`);

module.exports = { CLAUSES, LineProtocol, NotAdmitted, connect, hasWideMemory, seriesKey, ...exportsOf(connectNow(bytes)) };
