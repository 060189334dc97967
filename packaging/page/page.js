"use strict";
/* The page: it shows what the worker tells of the text. Texts go into the page as texts alone, never as markup. */
(() => {
const find = id => document.getElementById(id);
const EXAMPLES = {
    batch: "cpu,host=web1 usage=42.5,procs=312i 1590488773254420000\ncpu,host=web2 usage=39.1,procs=abc 1590488773254420000\nmem,host=web1 free=1073741824i,swap=t 1590488773254420000\n",
    quote: "log,host=web1 msg=\"started\" 1590488773254420000\nlog,host=web2 msg=\"disk full 1590488774254420000\nlog,host=web3 msg=\"stopped\" 1590488775254420000\ncpu,host=web1 usage=42.5 1590488776254420000\n",
    escapes: "# The user is guest,role=admin. One line escapes it.\nlogin,user=guest,role=admin ok=t 1590488773254420000\nlogin,user=guest\\,role\\=admin ok=t 1590488773254420000\ndisk\\ usage,path=/srv/a\\,b  free=012i\naudit note=\"he said \\\"no\\\"\",path=\"C:\\temp\" 1590488773254420000\n",
};
// What each fault means to someone who never saw the format.
const MEANINGS = {
    measurement_value_invalid: "A line begins with its measurement, as in cpu,host=a usage=1. Here is none.",
    field_set_missing: "The first field was to be read here: a name, an equals sign and a value, as in usage=1.5.",
    integer_value_invalid: "An integer is from -9223372036854775808 to 9223372036854775807, and this one is not.",
    uinteger_value_invalid: "An unsigned integer is from 0 to 18446744073709551615, and this one is not.",
    timestamp_value_invalid: "A time is from -9223372036854775808 to 9223372036854775807 nanoseconds, and this one is not.",
    ends_with_backslash: "This name would end in a backslash, which no name may do.",
    cannot_parse_entire_line: "The line is read up to here. What follows is neither another field nor a time with nothing after it.",
    tag_set_malformed: "After the comma a tag was to be read: a name, an equals sign and a value, as in host=a.",
    generic_parsing_error: "After the measurement and its tags a space was to come here, and then a field.",
    not_utf8: "This byte is not UTF-8.",
};
const VALUE = "A value is a number (1.5), an integer (1i, or 1u), true or false, or a string in quotes.";
const LARGE = 400_000, SHARED = 12_000, CHUNK = 40, ROW_HEIGHT = 46, MARKED = 300, LISTED = 500_000;
const encoder = new TextEncoder();
const state = {
    version: 0, dialect: "newline-delimited", bytes: new Uint8Array(0), source: "", large: false, count: 0, kinds: new Uint8Array(0), names: [],
    clauses: [], opened: new Map(), current: 0, chunks: [],
};

// The worker.

let worker = null;
const waiting = new Map();
function ask(task, what = {}) {
    return new Promise((resolve, reject) => {
        const id = waiting.size ? Math.max(...waiting.keys()) + 1 : 1;
        waiting.set(id, { resolve, reject });
        worker.postMessage({ id, task, ...what });
    });
}

async function begin() {
    const source = `${find("core").textContent}\n${find("worker").textContent}`;
    worker = new Worker(URL.createObjectURL(new Blob([source], { type: "text/javascript" })));
    worker.onmessage = ({ data: { id, result, error } }) => {
        const { resolve, reject } = waiting.get(id);
        waiting.delete(id);
        if (error === undefined) resolve(result);
        else reject(new Error(error));
    };
    const module = Uint8Array.from(atob(find("module").textContent.trim()), c => c.charCodeAt(0));
    await ask("connect", { module });
}

function failed(error) {
    const note = make("p", { id: "failed", role: "alert" }, `The reader does not run here: ${error.message}`);
    find("failed")?.remove();
    document.querySelector("main").before(note);
    find("summary").textContent = "Nothing is read.";
}

// Elements.

function make(name, attributes = {}, ...inner) {
    const element = document.createElement(name);
    for (const [key, value] of Object.entries(attributes)) if (value !== null && value !== undefined) element.setAttribute(key, value);
    element.append(...inner.filter(it => it !== null && it !== undefined));
    return element;
}

const plural = (n, one, many) => `${n.toLocaleString("en")} ${n === 1 ? one : many}`;

// A text whose newlines and tabs are seen.
function shown(text) {
    const parts = [];
    for (const part of text.split(/([\n\t\r\0])/)) {
        const sign = { "\n": "⏎\n", "\t": "⇥\t", "\r": "␍", "\0": "␀" }[part];
        if (sign) parts.push(make("span", { class: "sign" }, sign));
        else if (part) parts.push(part);
    }
    return parts;
}

// The character at a place, which may be of two units.
const characterAt = (text, at) => (at < text.length ? String.fromCodePoint(text.codePointAt(at)) : "");

function dateOf(time) {
    const second = 1_000_000_000n, rest = ((time % second) + second) % second, seconds = (time - rest) / second;
    const date = new Date(Number(seconds) * 1000);
    return `${date.toISOString().replace(/\.\d+Z$/, "")}.${String(rest).padStart(9, "0")}Z`;
}

// What changes from one text to another, token by token: pieces of both with a sign.
function changes(before, after) {
    const cut = text => text.match(/[,= "\\]|[^,= "\\]+/g) ?? [];
    const one = cut(before), other = cut(after);
    if (one.length * other.length > 250_000) return [["-", before], ["+", after]];
    const common = Array.from({ length: one.length + 1 }, () => new Uint16Array(other.length + 1));
    for (let i = one.length - 1; i >= 0; i--) {
        for (let j = other.length - 1; j >= 0; j--) {
            common[i][j] = one[i] === other[j] ? common[i + 1][j + 1] + 1 : Math.max(common[i + 1][j], common[i][j + 1]);
        }
    }
    const found = [];
    const add = (sign, text) => {
        if (found.length && found[found.length - 1][0] === sign) found[found.length - 1][1] += text;
        else found.push([sign, text]);
    };
    let i = 0, j = 0;
    while (i < one.length || j < other.length) {
        if (i < one.length && j < other.length && one[i] === other[j]) { add(" ", one[i]); i += 1; j += 1; }
        else if (j === other.length || (i < one.length && common[i + 1][j] >= common[i][j + 1])) { add("-", one[i]); i += 1; }
        else { add("+", other[j]); j += 1; }
    }
    return found;
}

// Cards.

function kindOf(value) {
    if (typeof value === "bigint") return ["integer", String(value)];
    if (typeof value === "string") return ["string", value];
    if (typeof value === "boolean") return ["Boolean", String(value)];
    return value.unsigned !== undefined ? ["unsigned integer", String(value.unsigned)] : ["float", value.float];
}

function valueCell(value) {
    const [kind, text] = kindOf(value);
    return make("td", {}, make("span", { class: "mono" }, ...shown(text)), " ", make("span", { class: "kind" }, kind));
}

const isAsItCame = card => card.out === card.source;

function stateOf(card) {
    if (card.fault) return ["refused", "refused"];
    if (card.out === null) return ["refused", "read, but not written again"];
    return isAsItCame(card) ? ["verbatim", "goes out as it came"] : ["again", "goes out rebuilt"];
}

function markedText(card) {
    const stop = card.stop - card.from, at = characterAt(card.text, stop);
    const shownAt = at ? make("mark", { title: "Reading stopped here" }, ...shown(at)) : make("mark", { class: "end", title: "Reading stopped at the end" });
    return make("pre", {}, ...(card.from > 0 ? ["…"] : []), ...shown(card.text.slice(0, stop)), shownAt, ...shown(card.text.slice(stop + at.length)),
        ...(card.from + card.text.length < card.length ? ["…"] : []));
}

function faultBody(card) {
    const stop = card.stop - card.from, at = characterAt(card.text, stop), before = card.text[stop - 1];
    const where = at ? `at ${at === "\n" ? "a newline" : at === " " ? "a space" : at === "\t" ? "a tab" : `“${at}”`}` : "at its end";
    const hints = [MEANINGS[card.fault]], next = /^,((?:[^=\\ ,]|\\.)+)=([^, ]*)/s.exec(card.text.slice(stop));
    const word = /^[^, \n]*/.exec(card.text.slice(stop))[0];
    if (before === '"' && card.text.slice(0, stop).includes("\n")) hints.push(`Look at line ${card.line} first: a quote that is left open there is closed only here, so all between is one string.`);
    else if (at === '"') hints.push("This quote is not closed in its piece, so it opens no string.");
    else if (next && card.fault === "cannot_parse_entire_line" && next[2].startsWith('"')) hints.push(`The quote after ${next[1]}= is not closed in its piece, so it opens no string.`);
    else if (next && card.fault === "cannot_parse_entire_line") hints.push(`Look at ${next[1]}: ${next[2] ? `“${next[2]}” is no value` : "it has no value"}. ${VALUE}`);
    else if (before === "=" && card.fault === "field_set_missing") hints.splice(0, 1, `${word ? `“${word}” is no value.` : "After the equals sign there is no value."} ${VALUE}`);
    else if (before === "=" && /_line/.test(card.fault)) hints.push(VALUE);
    return [
        markedText(card),
        make("p", { class: "why" }, make("b", {}, `Line ${card.stopLine}, byte ${card.stopColumn}`), `: reading stopped ${where}. `, ...hints.join(" ")),
        make("p", { class: "note" }, `${card.fault}: ${card.message} — offset ${card.stopAt.toLocaleString("en")} in the text. Nothing goes out for this piece.`),
    ];
}

function serverItem(name, broken) {
    const isGood = broken.length === 0;
    return make("li", {}, make("span", { class: isGood ? "yes" : "no" }, isGood ? "✓ " : "✗ "), `${name} `,
        isGood ? "reads this line so." : `does not read this line so: ${broken.map(clause => clause.means).join("; ")}.`);
}

function lineBody(card) {
    const rows = [make("tr", {}, make("th", { scope: "row" }, "measurement"), make("td", { class: "mono" }, ...shown(card.measurement)))];
    for (const [key, value] of card.tags) {
        rows.push(make("tr", {}, make("th", { scope: "row" }, "tag ", make("span", { class: "mono" }, ...shown(key))), make("td", { class: "mono" }, ...shown(value))));
    }
    for (const [key, value] of card.fields) rows.push(make("tr", {}, make("th", { scope: "row" }, "field ", make("span", { class: "mono" }, ...shown(key))), valueCell(value)));
    rows.push(make("tr", {}, make("th", { scope: "row" }, "time"), card.timestamp === null ? make("td", { class: "gone" }, "none: a server takes its own")
        : make("td", {}, make("span", { class: "mono" }, dateOf(card.timestamp)), " ", make("span", { class: "kind" }, String(card.timestamp)))));
    const body = [make("pre", {}, ...shown(card.text), ...(card.text.length < card.length ? ["…"] : [])), make("table", {}, make("tbody", {}, ...rows))];
    if (card.out === null) {
        body.push(make("h3", {}, "What goes out"), make("p", { class: "why" }, "Nothing: a name of this line cannot be written so that it reads back."));
    } else if (!isAsItCame(card)) {
        const parts = changes(card.source, card.out).map(([sign, text]) => (sign === " " ? text : make(sign === "-" ? "del" : "ins", {}, ...shown(text))));
        body.push(make("h3", {}, "What goes out, with what changes"), make("pre", { class: "out" }, ...parts));
    }
    const clauses = card.clauses.map(name => state.clauses.find(clause => clause.name === name));
    body.push(make("h3", {}, "Which servers read it so"), make("ul", { class: "servers" },
        serverItem("InfluxDB 1.x", clauses.filter(clause => clause.influx1)), serverItem("VictoriaMetrics", clauses.filter(clause => clause.victoria))));
    body.push(make("p", { class: "note" }, "Key of its series: ", make("span", { class: "mono key" }, ...shown(card.key))));
    return body;
}

function isOpen(card) {
    return state.opened.get(card.n) ?? (state.count <= 200 || (Boolean(card.fault) && state.count <= 5000));
}

function articleOf(card) {
    const [kind, words] = stateOf(card), open = isOpen(card), title = `item-${card.n}`;
    const article = make("article", {
        class: `${kind}${open ? " open" : ""}`, tabindex: card.n === state.current ? "0" : "-1", "data-n": String(card.n), "aria-posinset": String(card.n + 1),
        "aria-setsize": String(state.count), "aria-labelledby": title,
    });
    const head = make("div", { class: "head", id: title },
        make("span", { class: "number" }, `Item ${(card.n + 1).toLocaleString("en")}, line ${card.line.toLocaleString("en")}`),
        make("span", { class: "badge" }, card.fault ? `refused: ${card.fault}` : words),
        card.fault || card.clauses.length === 0 ? null : make("span", { class: "caution" }, "not every server reads it so"),
        make("span", { class: "brief", "aria-hidden": "true" }, card.text.slice(0, 200).replace(/\s+/g, " ")));
    head.addEventListener("click", () => toggle(card.n));
    article.append(head);
    if (open) article.append(...(card.fault ? faultBody(card) : lineBody(card)));
    return article;
}

// The list: chunks of cards, each filled while it is near the window.

const seen = new IntersectionObserver(entries => {
    for (const entry of entries) {
        const chunk = state.chunks[Number(entry.target.dataset.chunk)];
        if (!chunk || chunk.element !== entry.target) continue;
        if (entry.isIntersecting) fill(chunk);
        else empty(chunk);
    }
}, { rootMargin: "900px 0px" });

async function fill(chunk) {
    chunk.wanted = true;
    if (chunk.filling) return chunk.filling;
    if (chunk.cards) return undefined;
    const version = state.version;
    chunk.filling = ask("cards", { dialect: state.dialect, from: chunk.from, to: chunk.to });
    const cards = await chunk.filling;
    chunk.filling = null;
    if (version !== state.version || !chunk.wanted) return undefined;
    chunk.cards = cards;
    draw(chunk);
    return undefined;
}

function draw(chunk) {
    const hadFocus = chunk.element.contains(document.activeElement);
    chunk.element.replaceChildren(...chunk.cards.map(articleOf));
    chunk.element.style.minHeight = "";
    if (hadFocus) articleAt(state.current)?.focus({ preventScroll: true });
}

function empty(chunk) {
    chunk.wanted = false;
    if (!chunk.cards || chunk.element.contains(document.activeElement)) return;
    chunk.element.style.minHeight = `${chunk.element.offsetHeight}px`;
    chunk.element.replaceChildren();
    chunk.cards = null;
}

const articleAt = n => find("list").querySelector(`article[data-n="${n}"]`);
const chunkOf = n => state.chunks[Math.floor(n / CHUNK)];

function list() {
    seen.disconnect();
    state.chunks = [];
    const height = state.count <= 200 ? 260 : ROW_HEIGHT;
    for (let from = 0; from < state.count; from += CHUNK) {
        const to = Math.min(from + CHUNK, state.count), element = make("div", { class: "chunk", "data-chunk": String(state.chunks.length) });
        element.style.minHeight = `${height * (to - from)}px`;
        state.chunks.push({ from, to, element, cards: null, filling: null, wanted: false });
    }
    find("list").replaceChildren(...state.chunks.map(chunk => chunk.element));
    for (const chunk of state.chunks) seen.observe(chunk.element);
}

// Goes to the card of an item, and shows its text.
async function go(n, options = {}) {
    if (n < 0 || n >= state.count) return;
    const chunk = chunkOf(n), version = state.version;
    if (options.open) state.opened.set(n, true);
    if (!chunk.cards) {
        chunk.element.scrollIntoView({ block: "start" });
        await fill(chunk);
        if (version !== state.version) return;
    }
    articleAt(state.current)?.setAttribute("tabindex", "-1");
    state.current = n;
    if (options.open) draw(chunk);
    const article = articleAt(n);
    article?.setAttribute("tabindex", "0");
    article?.focus({ preventScroll: true });
    article?.scrollIntoView({ block: "nearest" });
    showInText(n, false);
}

function toggle(n) {
    const chunk = chunkOf(n), card = chunk.cards?.[n - chunk.from];
    if (!card) return;
    state.opened.set(n, !isOpen(card));
    state.current = n;
    draw(chunk);
    articleAt(n)?.focus({ preventScroll: true });
}

// The next item of a kind, or of any fault, after this one or before it, around the end.
function nextOf(kind, step) {
    const isWanted = n => (kind === null ? state.kinds[n] !== 0 : (state.names[state.kinds[n]] || "line") === kind);
    for (let away = 1; away <= state.count; away++) {
        const n = (((state.current + step * away) % state.count) + state.count) % state.count;
        if (isWanted(n)) return n;
    }
    return -1;
}

// The text and its marks.

// A text area has one character for each end of a line, also where the text has two.
const inArea = text => text.replace(/\r\n?/g, "\n");
const placeInArea = at => inArea(state.source.slice(0, at)).length;

// Of a large text the part around an item is shown.
async function showInText(n, focus) {
    const chunk = chunkOf(n), card = chunk?.cards?.[n - chunk.from], text = find("text");
    if (!card) return;
    if (state.large) {
        const version = state.version, from = Math.max(0, card.at - 4000), to = card.at + Math.min(card.bytes, 40_000) + 4000;
        const [before, own, after] = await Promise.all([
            ask("window", { from, to: card.at }), ask("window", { from: card.at, to: card.at + Math.min(card.bytes, 40_000) }),
            ask("window", { from: card.at + Math.min(card.bytes, 40_000), to })]);
        if (version !== state.version) return;
        const cut = before.indexOf("\n") >= 0 && from > 0 ? before.indexOf("\n") + 1 : 0, front = before.slice(cut);
        text.value = front + own + after;
        find("text-note").textContent = `The text around item ${(n + 1).toLocaleString("en")}, of ${(state.bytes.length / 1e6).toFixed(1)} MB. It cannot be edited here.`;
        const stop = card.fault ? front.length + Math.min(card.stop, own.length) : -1;
        drawMarks(text.value, [{ start: front.length, end: front.length + own.length, stop }]);
        scrollToEnd(front);
        if (focus) text.focus();
        return;
    }
    const place = await ask("window", { from: 0, to: card.at });
    const start = place.length, at = placeInArea(card.fault ? start + card.stop : start + card.start);
    if (focus) {
        text.focus();
        text.setSelectionRange(at, card.fault ? at + characterAt(text.value, at).length : placeInArea(start + card.length));
    }
    scrollToEnd(text.value.slice(0, at));
}

// Scrolls the text so that the line after this front of it is seen.
function scrollToEnd(before) {
    const text = find("text"), height = parseFloat(getComputedStyle(text).lineHeight), lines = before.split("\n").length - 1;
    const top = lines * height;
    if (top < text.scrollTop || top > text.scrollTop + text.clientHeight - 3 * height) text.scrollTop = Math.max(0, top - text.clientHeight / 3);
    find("marks").scrollTop = text.scrollTop;
}

function drawMarks(text, places) {
    const parts = [];
    let done = 0;
    for (const { start, end, stop } of places) {
        if (start < done) continue;
        const piece = make("span", { class: stop >= 0 ? "piece" : "" });
        if (stop < 0) {
            piece.append(text.slice(start, end));
        } else {
            const at = characterAt(text.slice(0, end), stop);
            piece.append(text.slice(start, stop), at && at !== "\n" ? make("mark", {}, at) : make("mark", { class: "end" }), text.slice(stop + (at === "\n" ? 0 : at.length), end));
        }
        parts.push(text.slice(done, start), piece);
        done = end;
    }
    parts.push(`${text.slice(done)}\n\n`);
    find("marks").replaceChildren(...parts);
    find("marks").scrollTop = find("text").scrollTop;
    find("marks").scrollLeft = find("text").scrollLeft;
}

async function markFaults(version) {
    if (state.large) return;
    const faults = [];
    for (let n = 0; n < state.count && faults.length < MARKED; n++) if (state.kinds[n] !== 0) faults.push(n);
    const places = [];
    for (const n of faults) {
        const [card] = await ask("cards", { dialect: state.dialect, from: n, to: n + 1 });
        const before = await ask("window", { from: 0, to: card.at });
        if (version !== state.version) return;
        const [start, end, stop] = [0, card.length, card.stop].map(at => placeInArea(before.length + at));
        places.push({ start, end, stop });
    }
    drawMarks(find("text").value, places);
}

// Reading.

function counted(counts) {
    const lines = counts.line ?? 0, refused = Object.values(counts).reduce((sum, n) => sum + n, 0) - lines;
    return { lines, refused };
}

function summarize(count, counts) {
    const { lines, refused } = counted(counts);
    find("summary").textContent = count === 0 ? "The text has no line."
        : `${plural(lines, "line is", "lines are")} read, ${plural(refused, "piece is", "pieces are")} refused.${count > LISTED ? ` The first ${LISTED.toLocaleString("en")} are listed.` : ""}`;
    const chips = Object.entries(counts).sort().map(([kind, n]) => {
        const chip = make("button", { type: "button", "data-kind": kind, title: kind === "line" ? "Go to the next line that is read" : "Go to the next one" }, `${kind === "line" ? "lines read" : kind}: ${n.toLocaleString("en")}`);
        chip.addEventListener("click", () => go(nextOf(kind, 1), { open: true }));
        return chip;
    });
    find("kinds").replaceChildren(...chips);
    for (const id of ["next", "previous"]) find(id).disabled = refused === 0;
}

async function costs(version) {
    for (const input of document.querySelectorAll("[name=dialect]")) {
        const told = await ask("index", { dialect: input.value });
        if (version !== state.version) return;
        const { lines, refused } = counted(told.counts);
        input.parentElement.querySelector("output").textContent = `${plural(lines, "line", "lines")}, ${refused.toLocaleString("en")} refused`;
    }
}

// Reads the text anew, of which the bytes are in the state.
async function read(isNew) {
    const version = ++state.version;
    try {
        if (isNew) await ask("open", { bytes: state.bytes });
        const told = await ask("index", { dialect: state.dialect });
        if (version !== state.version) return;
        Object.assign(state, { count: Math.min(told.count, LISTED), kinds: told.kind, names: told.names, current: 0, opened: new Map() });
        summarize(told.count, told.counts);
        list();
        drawMarks(find("text").value, []);
        await Promise.all([markFaults(version), costs(version)]);
        if (version === state.version) document.documentElement.dataset.ready = String(version);
    } catch (error) {
        failed(error);
    }
}

const isShared = () => !state.large && state.source.length <= SHARED;

// Puts the text into the address. A browser allows only so many changes of it in a second.
let addressTimer = 0;
function address() {
    clearTimeout(addressTimer);
    const fragment = isShared() ? `#d=${state.dialect}&t=${encodeURIComponent(state.source)}` : `#d=${state.dialect}`;
    try {
        history.replaceState(null, "", fragment);
    } catch {
        location.replace(fragment);
    }
}

function remember() {
    const isShort = isShared();
    clearTimeout(addressTimer);
    addressTimer = setTimeout(address, 250);
    find("copy").disabled = !isShort;
    if (!state.large) find("text-note").textContent = isShort ? "The text is kept in the address of this page, and goes nowhere else." : "The text is too long for an address.";
}

// Takes a text: one that is large is held as bytes, and shown in parts.
function take(source) {
    const text = find("text"), bytes = typeof source === "string" ? encoder.encode(source.toWellFormed?.() ?? source) : source;
    state.bytes = bytes;
    state.large = bytes.length > LARGE;
    text.readOnly = state.large;
    if (state.large) {
        state.source = "";
        text.value = new TextDecoder().decode(bytes.subarray(0, 20_000));
        find("text-note").textContent = `The start of a text of ${(bytes.length / 1e6).toFixed(1)} MB. It cannot be edited here.`;
    } else {
        state.source = new TextDecoder("utf-8", { ignoreBOM: true }).decode(bytes);
        if (text.value !== inArea(state.source)) text.value = state.source;
    }
    remember();
    return read(true);
}

let timer = 0;
function edited() {
    clearTimeout(timer);
    timer = setTimeout(() => take(find("text").value), 80);
}

function fromAddress() {
    const words = new URLSearchParams(location.hash.slice(1));
    const dialect = words.get("d"), input = document.querySelector(`[name=dialect][value="${CSS.escape(dialect ?? "")}"]`);
    if (input) {
        input.checked = true;
        state.dialect = dialect;
    }
    return words.has("t") ? /(?:^#|&)t=([^&]*)/.exec(location.hash)[1] : null;
}

function wire() {
    const text = find("text");
    text.addEventListener("input", edited);
    text.addEventListener("scroll", () => {
        find("marks").scrollTop = text.scrollTop;
        find("marks").scrollLeft = text.scrollLeft;
    });
    text.addEventListener("paste", event => {
        const pasted = event.clipboardData?.getData("text/plain") ?? "";
        if (pasted.length <= LARGE / 4 && !pasted.includes("\r")) return;
        event.preventDefault();
        take(text.value.slice(0, text.selectionStart) + pasted + text.value.slice(text.selectionEnd));
    });
    const open = async file => { if (file) take(new Uint8Array(await file.arrayBuffer())); };
    find("file").addEventListener("change", event => open(event.target.files[0]).then(() => { event.target.value = ""; }));
    text.addEventListener("dragover", event => event.preventDefault());
    text.addEventListener("drop", event => {
        if (!event.dataTransfer?.files.length) return;
        event.preventDefault();
        open(event.dataTransfer.files[0]);
    });
    find("clear").addEventListener("click", () => { take(""); text.focus(); });
    find("copy").addEventListener("click", async () => {
        let said = "The link is in the address of this page.";
        address();
        try {
            await navigator.clipboard.writeText(location.href);
            said = "The link was copied.";
        } catch { /* a page of a disk may not write there: the address has it */ }
        find("text-note").textContent = said;
    });
    for (const button of document.querySelectorAll("[data-example]")) button.addEventListener("click", () => take(EXAMPLES[button.dataset.example]));
    for (const input of document.querySelectorAll("[name=dialect]")) {
        input.addEventListener("change", () => {
            state.dialect = input.value;
            remember();
            read(false);
        });
    }
    find("next").addEventListener("click", () => go(nextOf(null, 1), { open: true }));
    find("previous").addEventListener("click", () => go(nextOf(null, -1), { open: true }));
    find("list").addEventListener("focusin", event => {
        const article = event.target.closest("article");
        if (article && Number(article.dataset.n) !== state.current) {
            articleAt(state.current)?.setAttribute("tabindex", "-1");
            state.current = Number(article.dataset.n);
            article.setAttribute("tabindex", "0");
        }
    });
    find("list").addEventListener("keydown", event => {
        if (event.ctrlKey || event.metaKey || event.altKey) return;
        const moves = {
            ArrowDown: () => go(Math.min(state.current + 1, state.count - 1)), ArrowUp: () => go(Math.max(state.current - 1, 0)),
            Home: () => go(0), End: () => go(state.count - 1), Enter: () => toggle(state.current), e: () => showInText(state.current, true),
            n: () => { const at = nextOf(null, 1); if (at >= 0) go(at, { open: true }); }, p: () => { const at = nextOf(null, -1); if (at >= 0) go(at, { open: true }); },
        };
        if (!moves[event.key]) return;
        event.preventDefault();
        moves[event.key]();
    });
    addEventListener("hashchange", () => {
        const held = fromAddress();
        if (held !== null && decodeURIComponent(held) !== state.source) take(decodeURIComponent(held));
    });
}

wire();
window.lineProtocol = { ask, state, take };
begin().then(async () => {
    state.clauses = await ask("clauses");
    const held = fromAddress();
    let text = EXAMPLES.batch;
    try {
        if (held !== null) text = decodeURIComponent(held);
    } catch { /* an address that was cut */ }
    await take(text);
}).catch(failed);
})();
