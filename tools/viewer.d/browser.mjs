// Opens docs/viewer.html in a browser without a window, from the disk, and does with it what a technician does: drops files, chooses them, steps, saves.
//
//   node browser.mjs BROWSER VIEWER WORK [SHOTS]
//
// Standard input has a line for each thing to be dropped, its parts with a tab between: what it is called; the page that tools/day makes of it, or ! and the line that refuses
// it; and the files. Saved pages and the browser's profile go to WORK, and pictures of three widths to SHOTS. The last line is 'N passed, M failed'.
import { spawn } from "node:child_process";
import { existsSync, mkdirSync, readFileSync, rmSync, statSync, writeFileSync } from "node:fs";
import { resolve } from "node:path";
import { pathToFileURL } from "node:url";

const [program, viewer, work, shots] = process.argv.slice(2);
const saved = resolve(work, "saved"), url = pathToFileURL(resolve(viewer)).href;
let passed = 0, failed = 0;
function check(what, good, more) {
  if (good) passed += 1;
  else failed += 1;
  if (!good) console.log("FAILED: " + what + (more === undefined ? "" : "\n" + String(more).slice(0, 400)));
}

// The browser's own protocol, by two pipes: a message ends with a zero.
const words = ["--headless", "--disable-gpu", "--remote-debugging-pipe", "--no-first-run", "--disable-background-networking", "--user-data-dir=" + resolve(work, "profile")];
if (process.getuid() === 0) words.push("--no-sandbox");
const browser = spawn(program, [...words, "about:blank"], { stdio: ["ignore", "ignore", "ignore", "pipe", "pipe"] });
const waiting = new Map(), heard = [];
let number = 0, rest = "", session;
browser.stdio[4].setEncoding("utf8").on("data", (part) => {
  const messages = (rest + part).split("\0");
  rest = messages.pop();
  for (const message of messages.map((text) => JSON.parse(text))) {
    if (message.id === undefined) heard.push(message);
    else if (message.error) waiting.get(message.id).failed(new Error(message.error.message));
    else waiting.get(message.id).done(message.result);
  }
});
function ask(method, params) {
  number += 1;
  browser.stdio[3].write(JSON.stringify({ id: number, method: method, params: params || {}, sessionId: session }) + "\0");
  return new Promise((done, failed) => waiting.set(number, { done: done, failed: failed }));
}
const pause = (time) => new Promise((done) => setTimeout(done, time));

// What an expression is in the page.
async function told(expression) {
  const { result, exceptionDetails } = await ask("Runtime.evaluate", { expression: expression, awaitPromise: true, returnByValue: true });
  if (exceptionDetails) throw new Error(exceptionDetails.text + " in " + expression);
  return result.value;
}
async function until(expression, what) {
  for (let tries = 0; tries < 200; tries++) {
    if (await told(expression)) return true;
    await pause(100);
  }
  check(what, false, "it did not come to pass: " + expression + "\n" + (await told("document.body.innerText")));
  return false;
}
const SAID = "document.getElementById('said').textContent", OPEN = "!document.getElementById('day').hidden";

async function fresh(width, height, dark) {
  await ask("Emulation.setDeviceMetricsOverride", { width: width, height: height, deviceScaleFactor: 1, mobile: false });
  await ask("Emulation.setEmulatedMedia", { features: [{ name: "prefers-color-scheme", value: dark ? "dark" : "light" }] });
  await ask("Page.navigate", { url: url });
  await until("document.readyState === 'complete' && /^No day/.test(" + SAID + ")", "the viewer starts");
}
async function drop(files) {
  const data = { items: [], files: files.map((file) => resolve(file)), dragOperationsMask: 1 };
  for (const type of ["dragEnter", "dragOver", "drop"]) await ask("Input.dispatchDragEvent", { type: type, x: 150, y: 150, data: data });
}
async function choose(id, files) {
  const { result } = await ask("Runtime.evaluate", { expression: "document.getElementById('" + id + "')" });
  await ask("DOM.setFileInputFiles", { files: files.map((file) => resolve(file)), objectId: result.objectId });
}
async function key(name) {
  const code = { ArrowRight: 39, ArrowLeft: 37, PageDown: 34, PageUp: 33, Home: 36, End: 35 }[name];
  for (const type of ["keyDown", "keyUp"]) await ask("Input.dispatchKeyEvent", { type: type, key: name, code: name, windowsVirtualKeyCode: code });
}
async function picture(name) {
  if (!shots) return;
  await pause(300);
  const { data } = await ask("Page.captureScreenshot", { format: "png" });
  writeFileSync(resolve(shots, name + ".png"), Buffer.from(data, "base64"));
}

// The page that is shown is the page of tools/day, and it works in there: its script runs, and its sheet is laid out.
async function shown(name, page) {
  check(name + ": it is the page of tools/day", (await told("document.getElementById('page').srcdoc")) === page);
  const inner = "document.getElementById('page').contentDocument";
  if (!(await until(inner + " && " + inner + ".getElementById('sheet') !== null && " + inner + ".readyState === 'complete'", name + ": the page is shown"))) return;
  const wanted = [...page.matchAll(/<t[dh](?: [^>]*)?>/g)].length;
  check(name + ": with all cells of its tables", (await told(inner + ".querySelectorAll('td, th').length")) === wanted);
  check(name + ": and as wide as there is room", await told(inner + ".getElementById('sheet').getBoundingClientRect().width > 100"));
  await told(inner + ".querySelector('.lanes').dispatchEvent(new KeyboardEvent('keydown', { key: 'ArrowRight', bubbles: true }))");
  check(name + ": its script runs", /^Record \d/.test(await told(inner + ".getElementById('tip').textContent")));
}

async function saves(name, page) {
  rmSync(saved, { recursive: true, force: true });
  mkdirSync(saved, { recursive: true });
  await ask("Browser.setDownloadBehavior", { behavior: "allow", downloadPath: saved });
  await told("document.getElementById('save').click()");
  const file = resolve(saved, (await told(SAID)).replace(/: [\d,]+ records?\.$/, "").replace(/[^\w.-]+/g, "-") + ".html");
  for (let tries = 0; tries < 100 && !(existsSync(file) && statSync(file).size === Buffer.byteLength(page)); tries++) await pause(100);
  check(name + ": the page is saved, byte by byte", existsSync(file) && readFileSync(file, "utf8") === page);
}

// By keys, buttons, slider and number, and not past either end.
async function steps(name) {
  await told("document.getElementById('to-step').click()");
  const record = () => told("[document.getElementById('number').value, document.getElementById('slider').value].join()");
  const set = (id, value, event) => told("{ const it = document.getElementById('" + id + "'); it.value = '" + value + "'; it.dispatchEvent(new Event('" + event + "', { bubbles: true })) }");
  const last = Number(await told("document.getElementById('slider').max")), at = (number) => [number, number].join();
  const within = (number) => at(Math.min(Math.max(number, 0), last));
  const tries = [[() => key("ArrowRight"), within(1)], [() => key("PageDown"), within(Math.min(1, last) + 100)], [() => key("End"), at(last)], [() => key("ArrowRight"), at(last)], [() => key("ArrowLeft"), within(last - 1)],
    [() => key("Home"), at(0)], [() => key("ArrowLeft"), at(0)], [() => told("document.querySelector('[data-by=\"1\"]').click()"), within(1)], [() => set("slider", Math.trunc(last / 2), "input"), at(Math.trunc(last / 2))],
    [() => set("number", last, "change"), at(last)], [() => set("number", 1e9, "change"), at(last)], [() => set("number", "", "change"), at(last)], [() => set("number", -5, "change"), at(0)]];
  for (const [index, [step, wanted]] of tries.entries()) {
    await step();
    const got = await record();
    check(name + ": step " + index + " leads to " + wanted, got === wanted, got);
  }
  check(name + ": a record is told", /asked/.test(await told("document.getElementById('state').innerText")));
  await told("document.getElementById('to-page').click()");
}

async function good(name, file, files, index) {
  const page = readFileSync(file, "utf8"), folder = statSync(files[0]).isDirectory();
  await fresh(1280, 900, false);
  // Every other day is chosen and not dropped; a folder cannot be chosen together with a file.
  if (index % 2 === 0 || (folder && files.length > 1)) await drop(files);
  else await choose(folder ? "folder" : "files", files);
  if (!(await until(OPEN, name + ": the day is opened"))) return;
  await shown(name, page);
  await steps(name);
  await saves(name, page);
}
async function bad(name, line, files) {
  await told("document.getElementById('said').className = ''");
  await drop(files);
  await until("document.getElementById('said').classList.contains('bad')", name + ": it is refused");
  check(name + ": in one line", (await told(SAID)) === line, await told(SAID));
  check(name + ": and no day is shown", !(await told(OPEN)));
}
// Of two days that are dropped right behind each other the second one is shown.
async function twice(first, second) {
  await fresh(1280, 900, false);
  await drop(first);
  await drop(second);
  await until(OPEN, "two at once: a day is opened");
  await pause(1000);
  check("two at once: the second one is shown", (await told(SAID)).startsWith("quiet.trace: "), await told(SAID));
}
// Nothing is wider than the window, in three widths and in the dark.
async function looked(name, files) {
  for (const [width, height, dark] of [[1440, 1000, false], [1000, 800, false], [390, 844, false], [1280, 900, true]]) {
    const what = name + "-" + width + (dark ? "-dark" : "");
    await fresh(width, height, dark);
    await picture("empty-" + what);
    await drop(files);
    if (!(await until(OPEN, what + ": the day is opened"))) continue;
    const fits = () => told("document.documentElement.scrollWidth <= innerWidth");
    check(what + ": the page fits", await fits());
    await picture("page-" + what);
    await told("document.getElementById('to-step').click(); { const it = document.getElementById('number'); it.value = 560; it.dispatchEvent(new Event('change')) }");
    check(what + ": the steps fit", await fits());
    await picture("step-" + what);
  }
}

async function all() {
  const { targetId } = await ask("Target.createTarget", { url: "about:blank" });
  session = (await ask("Target.attachToTarget", { targetId: targetId, flatten: true })).sessionId;
  for (const domain of ["Page", "Runtime", "Network", "Log", "DOM"]) await ask(domain + ".enable");
  const lines = readFileSync(0, "utf8").split("\n").filter(Boolean).map((line) => line.split("\t"));
  let index = 0;
  for (const [name, wanted, ...files] of lines) {
    if (wanted.startsWith("!")) await bad(name, wanted.slice(1), files);
    else await good(name, wanted, files, index++);
  }
  const files = (name) => lines.find(([known]) => known === name).slice(2);
  await twice(files("rough"), files("quiet"));
  await looked("rough", files("rough"));
  // What the browser was asked for: this file, and what was made in it. And nothing was refused or thrown on the way.
  const asked = heard.filter((one) => one.method === "Network.requestWillBeSent").map((one) => one.params.request.url);
  const outside = asked.filter((address) => address !== url && !/^(blob:|about:|data:)/.test(address));
  check("the viewer asks for nothing", asked.includes(url) && outside.length === 0, outside.join("\n"));
  const wrong = heard.filter((one) => one.method === "Runtime.exceptionThrown" || (one.method === "Log.entryAdded" && one.params.entry.level === "error"));
  check("nothing is thrown or refused", wrong.length === 0, JSON.stringify(wrong[0]));
  // What is asked for all the same does not go out: the page's own policy stands before it.
  const refusal = "fetch('http://127.0.0.1:9/').then(() => 'sent', (why) => 'refused')";
  heard.length = 0;
  check("a request is refused", (await told(refusal)) === "refused");
  await pause(200);
  check("by the page's policy", heard.some((one) => JSON.stringify(one).includes("Content Security Policy")), JSON.stringify(heard).slice(0, 300));
}
try {
  await all();
} catch (why) {
  check("the browser: " + why.stack, false);
}
console.log(passed + " passed, " + failed + " failed");
browser.kill();
process.exitCode = failed === 0 ? 0 : 1;
