/* A headless Chromium, spoken to by a pipe: no port is opened, and nothing is fetched. */
import { spawn } from "node:child_process";
import { mkdtempSync, rmSync } from "node:fs";
import { tmpdir } from "node:os";
import { join } from "node:path";

/* Begins a browser with one page. Gives what evaluates in it, what sends it a command, all that its console said and what it asked of the
 * network, its handlers of other events, and what ends it. */
export async function openedPage(program) {
    const profile = mkdtempSync(join(tmpdir(), "lp-page-"));
    const words = ["--headless=new", "--no-sandbox", "--disable-gpu", "--disable-dev-shm-usage", "--no-first-run", "--disable-extensions",
        "--disable-background-networking", "--disable-component-update", "--remote-debugging-pipe", `--user-data-dir=${profile}`, "about:blank"];
    const child = spawn(program, words, { stdio: ["ignore", "ignore", "ignore", "pipe", "pipe"] });
    const waiting = new Map(), said = [], asked = [], handlers = {};
    let buffer = "", last = 0, session;
    child.stdio[4].setEncoding("utf8").on("data", part => {
        buffer += part;
        for (let end; (end = buffer.indexOf("\0")) >= 0; buffer = buffer.slice(end + 1)) heard(JSON.parse(buffer.slice(0, end)));
    });
    function heard({ id, result, error, method, params }) {
        if (id) {
            const { resolve, reject } = waiting.get(id);
            waiting.delete(id);
            if (error) reject(new Error(error.message));
            else resolve(result);
        } else if (method === "Runtime.consoleAPICalled") {
            said.push(params.args.map(it => it.value ?? it.description).join(" "));
        } else if (method === "Runtime.exceptionThrown") {
            said.push(params.exceptionDetails.exception?.description ?? params.exceptionDetails.text);
        } else if (method === "Log.entryAdded") {
            said.push(params.entry.text);
        } else if (method === "Network.requestWillBeSent") {
            asked.push(params.request.url);
        } else {
            handlers[method]?.(params);
        }
    }
    const tell = (method, params, sessionId) => new Promise((resolve, reject) => {
        waiting.set(++last, { resolve, reject });
        child.stdio[3].write(`${JSON.stringify({ id: last, method, params, sessionId })}\0`);
    });
    const send = (method, params = {}) => tell(method, params, session);
    const { targetId } = await tell("Target.createTarget", { url: "about:blank" });
    ({ sessionId: session } = await tell("Target.attachToTarget", { targetId, flatten: true }));
    for (const domain of ["Page", "Runtime", "Log", "Network", "DOM"]) await send(`${domain}.enable`);
    const evaluate = async expression => {
        const { result, exceptionDetails } = await send("Runtime.evaluate", { expression, awaitPromise: true, returnByValue: true, userGesture: true });
        if (exceptionDetails) throw new Error(exceptionDetails.exception?.description ?? exceptionDetails.text);
        return result.value;
    };
    const key = async (name, text = "") => {
        for (const type of ["keyDown", "keyUp"]) await send("Input.dispatchKeyEvent", { type, key: name, code: name.length === 1 ? `Key${name.toUpperCase()}` : name, text: type === "keyDown" ? text : "", windowsVirtualKeyCode: { Enter: 13, Tab: 9, ArrowDown: 40, ArrowUp: 38, Home: 36, End: 35 }[name] ?? name.toUpperCase().charCodeAt(0) });
    };
    const close = async () => {
        const ended = new Promise(resolve => child.once("exit", resolve));
        await tell("Browser.close").catch(() => {});
        await ended;
        rmSync(profile, { recursive: true, force: true, maxRetries: 5 });
    };
    return { send, evaluate, key, close, said, asked, handlers };
}
