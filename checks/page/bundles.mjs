/* The package in bundles for browsers, and in Node by `import` and by `require`:
 *
 *     bundles.mjs FOLDER WORK [CHROMIUM]
 *
 * FOLDER has the package. In the folder WORK it lays out the example of the page of the package, makes bundles by the commands of that page, and
 * runs each in CHROMIUM, to which the files are handed without a port. */
import { execFileSync } from "node:child_process";
import { mkdirSync, readFileSync, readdirSync, symlinkSync, writeFileSync } from "node:fs";
import { join } from "node:path";
import { openedPage } from "./chromium.mjs";

const [folder, work, chromium] = process.argv.slice(2);
const page = readFileSync(join(folder, "README.md"), "utf8");
// The block of a language after a line of the page that ends with these words.
const block = (words, language) => page.slice(page.indexOf(words)).split(`\`\`\`${language}\n`)[1].split("```")[0];

mkdirSync(join(work, "node_modules"), { recursive: true });
symlinkSync(folder, join(work, "node_modules", "influxdb-line-protocol"));
writeFileSync(join(work, "package.json"), '{ "type": "module" }');
const run = (...words) => execFileSync(words[0], words.slice(1), { cwd: work, encoding: "utf8", stdio: ["ignore", "pipe", "pipe"] });
function same(got, wanted, of) {
    if (got === wanted) return;
    console.error(`page: ${of} gives ${JSON.stringify(got)}, where ${JSON.stringify(wanted)} is wanted`);
    process.exit(1);
}

writeFileSync(join(work, "app.js"), block("In a bundle", "js"));
writeFileSync(join(work, "app.cjs"), block("In CommonJS", "js"));
const wanted = "cpu,host=A usage=64i 5\n";
same(run("node", "app.cjs"), wanted, "`require`");
same(run("node", "app.js"), wanted, "`import`");
// Debian 12 cannot install the plugin by which rollup finds packages: this one finds the file that the package has for browsers.
const place = JSON.parse(readFileSync(join(folder, "package.json"))).exports["."].default;
const plugin = `{ resolveId: name => (name === "influxdb-line-protocol" ? ${JSON.stringify(join(folder, place))} : null) }`;
for (const command of block("In a bundle", "sh").split("\n").filter(Boolean)) run("sh", "-c", command.replace("node-resolve", `'${plugin}'`));
const bundles = readdirSync(join(work, "public")).filter(name => name.endsWith(".js"));
same(bundles.join(), "esbuild.js,rollup.js", "the bundles");
if (chromium) {
    const { send, evaluate, close, said, handlers } = await openedPage(chromium);
    const types = { html: "text/html", js: "text/javascript", wasm: "application/wasm" };
    handlers["Fetch.requestPaused"] = ({ requestId, request: { url } }) => {
        const name = new URL(url).pathname.slice(1), bundle = name.replace(/\.html$/, ".js");
        const body = name.endsWith(".html") ? Buffer.from(`<link rel="icon" href="data:,"><script type="module" src="${bundle}"></script>`) : readFileSync(join(work, "public", name));
        send("Fetch.fulfillRequest", { requestId, responseCode: 200, responseHeaders: [{ name: "Content-Type", value: types[name.split(".").pop()] }], body: body.toString("base64") });
    };
    await send("Fetch.enable", { patterns: [{ urlPattern: "http://bundle.test/*" }] });
    for (const bundle of bundles) {
        await send("Page.navigate", { url: `http://bundle.test/${bundle.replace(".js", ".html")}` });
        for (let n = 0; n < 200 && !said.length; n++) await new Promise(resolve => setTimeout(resolve, 50));
        same(said.splice(0).join("|"), wanted.trim(), `the bundle ${bundle} in Chromium`);
    }
    same(await evaluate("typeof process"), "undefined", "the browser");
    await close();
}
console.log(`page: \`import\` and \`require\` in Node, and bundles by esbuild and rollup${chromium ? ", in Chromium," : ""} give the line that was meant`);
process.exit(0);
