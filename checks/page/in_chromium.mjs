/* The page in Chromium:
 *
 *     in_chromium.mjs CHROMIUM PAGE TABLE PICTURES [CORPUS]
 *
 * Compares what its calls give with the rows of a table, and what its cards show; clicks each control; uses it by the keyboard alone; takes 10
 * MB; makes pictures of each example at two widths into the folder PICTURES; tells how fast a worker makes objects of the file CORPUS; and sees
 * that its console says nothing, and that nothing is fetched. */
import { readFileSync, writeFileSync, mkdtempSync, rmSync } from "node:fs";
import { tmpdir } from "node:os";
import { join } from "node:path";
import { pathToFileURL } from "node:url";
import { answered, countsOf, rowsOf } from "./answers.mjs";
import { openedPage } from "./chromium.mjs";

const [chromium, page, table, pictures, corpus] = process.argv.slice(2);
const rows = rowsOf(readFileSync(table, "utf8")), url = String(pathToFileURL(page));
const { send, evaluate, key, close, said, asked } = await openedPage(chromium);
const work = mkdtempSync(join(tmpdir(), "lp-page-"));

function same(got, wanted, of) {
    if (JSON.stringify(got) === JSON.stringify(wanted)) return;
    throw new Error(`${of}: ${JSON.stringify(got)}, where ${JSON.stringify(wanted)} is wanted`);
}

// What runs in the page: it waits until a text is read, and tells what cards show.
const HELP = `
window.seen = () => document.documentElement.dataset.ready ?? null;
window.ready = async was => {
    for (let n = 0; n < 1000; n++) {
        if (seen() !== was || document.getElementById("failed")) break;
        await new Promise(resolve => setTimeout(resolve, 10));
    }
    for (let n = 0; n < 200 && lineProtocol.state.count > 0 && !document.querySelector("article"); n++) await new Promise(resolve => setTimeout(resolve, 10));
};
window.acted = async act => {
    const was = seen();
    await act();
    await ready(was);
};
window.cards = () => [...document.querySelectorAll("article")].map(it => it.innerText.split("\\n").map(line => line.trim()).filter(Boolean).join(" | "));
window.unsigned = text => text.replace(/⏎\\n/g, "\\n").replace(/⇥\\t/g, "\\t").replace(/␍/g, "\\r").replace(/␀/g, "\\0");
// Cards in the words of the table of answers, but for which side of its range a number is on.
window.rendered = () => [...document.querySelectorAll("article")].map(article => {
    const badge = article.querySelector(".badge").textContent;
    if (badge.startsWith("refused: ")) return badge.slice(9);
    let text = "";
    for (const row of article.querySelectorAll("tr")) {
        const name = row.querySelector("th"), cell = row.querySelector("td"), what = name.firstChild.textContent.trim();
        const key = name.querySelector(".mono") && unsigned(name.querySelector(".mono").textContent);
        if (what === "measurement") text += "S<" + unsigned(cell.textContent) + ">";
        if (what === "tag") text += ",S<" + key + ">=S<" + unsigned(cell.textContent) + ">";
        if (what === "field") {
            const value = unsigned(cell.querySelector(".mono").textContent), kind = cell.querySelector(".kind").textContent;
            text += " S<" + key + ">=" + { integer: value + "i", "unsigned integer": value + "u", float: "f<" + value + ">", string: "S<" + value + ">", Boolean: value }[kind];
        }
        if (what === "time" && !cell.classList.contains("gone")) text += " at " + cell.querySelector(".kind").textContent;
    }
    return text;
}).join("|");
`;

async function opened(address) {
    await send("Page.navigate", { url: "about:blank" });
    await send("Page.navigate", { url: address });
    for (let n = 0; n < 100 && !(await evaluate("Boolean(window.lineProtocol)")); n++) await new Promise(resolve => setTimeout(resolve, 50));
    await evaluate(HELP);
    await evaluate("ready(null)");
    same(await evaluate("document.getElementById('failed')?.textContent ?? null"), null, "a page that is opened");
}

const acted = what => evaluate(`acted(() => { ${what} })`);
const click = selector => acted(`document.querySelector(${JSON.stringify(selector)}).click()`);
const press = selector => evaluate(`document.querySelector(${JSON.stringify(selector)}).click()`);
const put = (text, dialect) => evaluate(`acted(() => {
    lineProtocol.state.dialect = ${JSON.stringify(dialect)};
    document.querySelector("[value=${dialect}]").checked = true;
    return lineProtocol.take(${JSON.stringify(text)});
})`);
const cards = () => evaluate("cards()");
const pause = ms => new Promise(resolve => setTimeout(resolve, ms));

async function table_() {
    const source = `(async () => {
        ${answered.toString().replace(/^export /, "")}
        const call = (name, ...args) => lineProtocol.ask("call", { name, args }), wrong = [];
        for (const { row, kind, text, dialect, wanted } of ${JSON.stringify(rows)}) {
            const got = await answered(call, kind, text, dialect);
            if (got !== wanted) wrong.push([row, dialect, got, wanted]);
        }
        return wrong;
    })()`;
    same(await evaluate(source), [], "rows of the table, by the calls of the page");
    console.log(`page: Chromium: ${countsOf(rows)} are as the table has them`);
    const faults = {
        MeasurementValueInvalid: "measurement_value_invalid",
        FieldSetMissing: "field_set_missing",
        IntegerValueInvalid: "integer_value_invalid",
        UIntegerValueInvalid: "uinteger_value_invalid",
        TimestampValueInvalid: "timestamp_value_invalid",
        EndsWithBackslash: "ends_with_backslash",
        rest: "cannot_parse_entire_line",
        TagSetMalformed: "tag_set_malformed",
        TakeWhile1: "generic_parsing_error",
    };
    let shown = 0;
    for (const { row, kind, text, dialect, wanted } of rows) {
        if (kind !== "items") continue;
        await put(text, dialect);
        // A fault comes last in its cell, or its text has no bar.
        const inCards = wanted.split("|").map(item => faults[/^\w+/.exec(item)?.[0]] ?? item).join("|");
        const got = await evaluate("rendered()");
        if (!/rest <[^>]*\|/.test(wanted)) same(got, inCards, `the cards of row ${row}, ${dialect}`);
        shown += 1;
    }
    console.log(`page: Chromium: the cards of ${shown} texts show these items`);
}

// The three examples: what each card says, in the dialect that the page begins with.
const EXAMPLES = JSON.parse(readFileSync(new URL("./examples.json", import.meta.url)));

async function examples() {
    await opened(url);
    same(await cards(), EXAMPLES.batch, "the cards that the page begins with");
    for (const name of ["batch", "quote", "escapes"]) {
        await click(`[data-example=${name}]`);
        same(await cards(), EXAMPLES[name], `the cards of the example ${name}`);
    }
    // In which line and at which byte it goes wrong, told in the text too.
    await click("[data-example=batch]");
    same(await evaluate("[...document.querySelectorAll('#marks mark')].map(it => [it.previousSibling.textContent, it.textContent])"),
        [["cpu,host=web2 usage=39.1", ","]], "the mark in the text");
    await click("[data-example=quote]");
    const costs = () => evaluate("[...document.querySelectorAll('fieldset output')].map(it => it.textContent)");
    same(await costs(), ["3 lines, 1 refused", "1 line, 1 refused", "1 line, 1 refused"], "what an open quote costs");
    await click("[value=strict]");
    same((await cards()).length, 2, "the cards of an open quote by the strict rules");
    same(await evaluate("document.querySelector('article.refused .why b').textContent"), EXAMPLES.strictStop, "where reading stops by the strict rules");
    await click("[value=crate]");
    same(await evaluate("document.getElementById('summary').textContent"), "1 line is read, 1 piece is refused.", "the summary");
    await click("[value=newline-delimited]");
}

async function controls() {
    await press("#next");
    await pause(100);
    const current = () => evaluate("document.activeElement.dataset?.n ?? document.activeElement.id");
    same(await current(), "1", "the next fault");
    await press("#previous");
    await pause(100);
    same(await current(), "1", "the fault before it, around the end");
    await press("[data-kind=line]");
    await pause(100);
    same(await current(), "2", "the next line");
    await press("[data-kind=field_set_missing]");
    await pause(100);
    same(await current(), "1", "the next fault of a kind");
    await press('article[data-n="1"] .head');
    same(await evaluate("document.querySelector('article[data-n=\"1\"]').classList.contains('open')"), false, "a card that is closed");
    await press('article[data-n="1"] .head');
    same(await evaluate("document.querySelector('article[data-n=\"1\"]').classList.contains('open')"), true, "a card that is opened");
    await press("#copy");
    await pause(100);
    same(await evaluate("/^The link (was copied|is in the address of this page)\\.$/.test(document.getElementById('text-note').textContent)"), true, "a link that is copied");
    await click("#clear");
    same(await evaluate("[document.getElementById('summary').textContent, document.querySelectorAll('article').length, document.getElementById('next').disabled]"),
        ["The text has no line.", 0, true], "a text that is cleared");
    const file = join(work, "crlf.lp");
    writeFileSync(file, Buffer.from("m f=1\r\nn f=\xff\n", "latin1"));
    const { root } = await send("DOM.getDocument"), { nodeId } = await send("DOM.querySelector", { nodeId: root.nodeId, selector: "#file" });
    const was = await evaluate("seen()");
    await send("DOM.setFileInputFiles", { files: [file], nodeId });
    await evaluate(`ready(${JSON.stringify(was)})`);
    same(await evaluate("[...document.querySelectorAll('.badge')].map(it => it.textContent)"), ["refused: cannot_parse_entire_line", "refused: not_utf8"], "a file");
    same(await evaluate("[...document.querySelectorAll('.why b')].map(it => it.textContent)"), ["Line 1, byte 6", "Line 2, byte 5"], "where reading it stops");
    console.log("page: Chromium: each control does what it says");
}

async function keyboard() {
    await opened(url);
    await click("[data-example=batch]");
    await evaluate("document.getElementById('text').focus()");
    await evaluate("document.getElementById('text').setSelectionRange(0, 0)");
    let was = await evaluate("seen()");
    await send("Input.insertText", { text: "x\n" });
    await evaluate(`ready(${JSON.stringify(was)})`);
    same(await evaluate("[...document.querySelectorAll('.badge')].map(it => it.textContent.split(':')[0])"),
        ["refused", "goes out as it came", "refused", "goes out rebuilt"], "a line that was typed");
    const places = [];
    for (let n = 0; n < 12; n++) {
        await key("Tab");
        places.push(await evaluate("document.activeElement.id || document.activeElement.dataset.kind || document.activeElement.dataset.n || document.activeElement.tagName"));
        if (places[places.length - 1] === "0") break;
    }
    same(places, ["file", "clear", "copy", "cannot_parse_entire_line", "generic_parsing_error", "line", "next", "previous", "0"], "where Tab goes from the text");
    const current = () => evaluate("document.activeElement.dataset.n");
    for (const [name, wanted] of [["ArrowDown", "1"], ["ArrowDown", "2"], ["ArrowUp", "1"], ["End", "3"], ["Home", "0"], ["n", "2"], ["n", "0"], ["p", "2"]]) {
        await key(name, name.length === 1 ? name : "");
        await pause(80);
        same(await current(), wanted, `the card after ${name}`);
    }
    const isOpen = () => evaluate("document.activeElement.classList.contains('open')");
    await key("Enter", "\r");
    await pause(50);
    same(await isOpen(), false, "a card that Enter closes");
    await key("Enter", "\r");
    await pause(50);
    same(await isOpen(), true, "a card that Enter opens");
    await key("e", "e");
    await pause(150);
    same(await evaluate("(t => [document.activeElement === t, t.value.slice(t.selectionStart - 4, t.selectionEnd)])(document.getElementById('text'))"), [true, "39.1,"], "the text of a card");
    // What a screen reader is told.
    same(await evaluate("(a => [a.getAttribute('aria-posinset'), a.getAttribute('aria-setsize'), document.getElementById(a.getAttribute('aria-labelledby')).innerText.includes('line 3'), document.getElementById('summary').getAttribute('aria-live')])(document.querySelector('article[data-n=\"2\"]'))"),
        ["3", "4", true, "polite"], "what a card is called");
    // The address has the text.
    await pause(400);
    const address = await evaluate("location.href"), text = await evaluate("document.getElementById('text').value");
    await opened(address);
    same(await evaluate("document.getElementById('text').value"), text, "the text of an address");
    was = await evaluate("seen()");
    await evaluate("location.hash = '#d=strict&t=m%20f%3D1i%0Am'");
    await evaluate(`ready(${JSON.stringify(was)})`);
    same(await evaluate("[document.querySelector('[name=dialect]:checked').value, document.getElementById('summary').textContent]"),
        ["strict", "1 line is read, 1 piece is refused."], "an address that changes");
    console.log("page: Chromium: all is reached by the keyboard, and the address keeps the text");
}

async function large() {
    await opened(url);
    const told = JSON.parse(await evaluate(`(async () => {
        const lines = [];
        for (let n = 0, size = 0; size < 10_000_000; n++) {
            const line = n % 1000 === 499 ? "cpu,host=web" + n + " usage=\\"open 1590488773254420000" : "cpu,host=web" + n + ",region=eu\\\\ west usage_user=" + (n % 100) + ".5,usage_system=" + n + "i,note=\\"n " + n + "\\" " + (1590488773254420000n + BigInt(n));
            size += line.length + 1;
            lines.push(line);
        }
        const text = lines.join("\\n") + "\\n", long = [];
        new PerformanceObserver(list => { for (const entry of list.getEntries()) long.push(entry.duration); }).observe({ type: "longtask" });
        await new Promise(resolve => setTimeout(resolve, 100));
        long.length = 0;
        const start = performance.now(), data = new DataTransfer();
        data.setData("text/plain", text);
        const area = document.getElementById("text");
        area.select();
        const was = seen();
        area.dispatchEvent(new ClipboardEvent("paste", { clipboardData: data, bubbles: true, cancelable: true }));
        await ready(was);
        const read = performance.now() - start, jump = performance.now();
        const lastCard = () => document.querySelector('article[data-n="' + (lineProtocol.state.count - 1) + '"]');
        scrollTo(0, document.documentElement.scrollHeight);
        for (let n = 0; n < 300 && !lastCard(); n++) { scrollTo(0, document.documentElement.scrollHeight); await new Promise(resolve => setTimeout(resolve, 10)); }
        const end = performance.now() - jump;
        document.getElementById("next").click();
        await new Promise(resolve => setTimeout(resolve, 400));
        const focused = document.activeElement;
        return JSON.stringify({ lines: lines.length, size: text.length, count: lineProtocol.state.count, summary: document.getElementById("summary").textContent, read, end, long, atEnd: Boolean(lastCard()) || end < 2900,
            focused: focused.dataset.n, badge: focused.querySelector(".badge")?.textContent, articles: document.querySelectorAll("article").length, mark: document.querySelector("#marks mark")?.previousSibling.textContent ?? null });
    })()`));
    const bad = Math.floor((told.lines + 500) / 1000);
    same([told.count, told.summary, told.focused, told.badge, told.atEnd], [told.lines, `${(told.lines - bad).toLocaleString("en")} lines are read, ${bad} pieces are refused.`, "499", "refused: field_set_missing", true], "10 MB that are pasted");
    same(told.mark, "cpu,host=web499 usage=", "the mark in a large text");
    if (told.articles > 1000) same(told.articles, "1,000 cards or fewer", "cards that are made of 10 MB");
    console.log(`page: Chromium: ${(told.size / 1e6).toFixed(1)} MB are read in ${(told.read / 1000).toFixed(2)} s, in all dialects, and the last card is there ${Math.round(told.end)} ms after`
        + ` it is scrolled to; the page stood still for at most ${Math.round(Math.max(0, ...told.long))} ms; ${told.articles} cards are made`);
}

// A worker of its own, which does nothing else.
async function speed() {
    await opened(url);
    const speeds = await evaluate(`(async () => {
        const source = document.getElementById("core").textContent + \`
            onmessage = async ({ data: { module, text } }) => {
                const calls = await connect(module), bytes = new TextEncoder().encode(text), speeds = [];
                for (let run = 0; run < 7; run++) {
                    const start = performance.now();
                    let fields = 0;
                    for (const item of calls.parse(bytes, { dialect: "newline-delimited" })) fields += item.fields.length;
                    speeds.push(bytes.length / 1000 / (performance.now() - start));
                }
                postMessage(speeds.sort((a, b) => a - b));
            };\`;
        const worker = new Worker(URL.createObjectURL(new Blob([source], { type: "text/javascript" })));
        const module = Uint8Array.from(atob(document.getElementById("module").textContent.trim()), c => c.charCodeAt(0));
        return new Promise((resolve, reject) => {
            worker.onmessage = ({ data }) => resolve(data);
            worker.onerror = ({ message }) => reject(new Error(message));
            worker.postMessage({ module, text: ${JSON.stringify(readFileSync(corpus, "utf8"))} });
        });
    })()`);
    console.log(`page: Chromium: a worker makes objects of ${corpus.split("/").pop()}: ${speeds[3].toFixed(0)} MB/s in the middle of 7 runs, ${speeds[0].toFixed(0)} to ${speeds[6].toFixed(0)}`);
}

async function picture(name, width, height, scheme) {
    await send("Emulation.setDeviceMetricsOverride", { width, height, deviceScaleFactor: 1, mobile: width < 500 });
    await send("Emulation.setEmulatedMedia", { features: [{ name: "prefers-color-scheme", value: scheme }] });
    await click(`[data-example=${name}]`);
    await evaluate("document.activeElement.blur(), scrollTo(0, 0)");
    await pause(200);
    if ((await evaluate("document.documentElement.scrollWidth")) > width) same("wider", "no wider than the window", `${name} at ${width}`);
    const { data } = await send("Page.captureScreenshot", { format: "png" });
    writeFileSync(join(pictures, `${name}-${width}-${scheme}.png`), Buffer.from(data, "base64"));
}

let status = 0;
try {
    await examples();
    await controls();
    await keyboard();
    await opened(url);
    await table_();
    await large();
    if (corpus) await speed();
    await opened(url);
    for (const name of ["batch", "quote", "escapes"]) {
        for (const [width, height, scheme] of [[1280, 900, "light"], [1280, 900, "dark"], [390, 1700, "light"], [390, 1700, "dark"]]) await picture(name, width, height, scheme);
    }
    same(said, [], "what the console says");
    same(asked.filter(it => !/^(about:|blob:|data:)/.test(it) && !it.startsWith(url)), [], "what is fetched");
    console.log(`page: Chromium: the console says nothing, and nothing is fetched; 12 pictures are in ${pictures}`);
} catch (error) {
    console.error(`page: ${error.message}`);
    if (said.length) console.error(`page: the console says ${JSON.stringify(said.slice(0, 5))}`);
    status = 1;
}
await close();
rmSync(work, { recursive: true, force: true });
process.exit(status);
