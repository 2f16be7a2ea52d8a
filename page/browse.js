"use strict";
// Loads the page in Chromium at two widths, with some jobs and forms, and says what is cut off, overlaps, or is not as it should be.
// With a folder it leaves a picture of each there. usage: node --experimental-websocket page/browse.js MT.html [FOLDER]

const fs = require("fs");
const os = require("os");
const path = require("path");
const { spawn } = require("child_process");

const [page, folder] = process.argv.slice(2);
const WIDTHS = [1280, 800];
const HEIGHT = 1000;
const SCENES = [
  { job: "first.job", form: "run", said: "Exit number 0", last: "end ok 5", note: false },
  { job: "urgent.job", form: "run", said: "Exit number 0", last: "end ok 15", note: false },
  { job: "cut-budget.job", form: "cut", said: "Exit number 0", last: "largest", note: false },
  { job: "refused-address.job", form: "run", said: "Exit number 4", last: "bad line 3 3 7", note: true },
  { job: "refused-configuration.job", form: "run", said: "Exit number 3", last: "bad config", note: true },
  { job: "differs.verify", form: "verify", said: "Exit number 8", last: "differs 4", note: true },
  { job: "located-one.locate", form: "locate", said: "Exit number 0", last: "found 1", note: false },
];

// What the page looks like: run in the page, so that it names nothing outside.
function look(scene) {
  const $ = (id) => document.getElementById(id);
  $("example").value = scene.job;
  $("example").dispatchEvent(new Event("change"));
  $("form").value = scene.form;
  $("form").dispatchEvent(new Event("change"));
  const boxOf = (id) => Object.assign($(id).getBoundingClientRect().toJSON(), { id });
  const seen = ["example", "file", "form", "editor", "trace", "said"].map(boxOf);
  const wrong = [];
  if (document.scrollingElement.scrollWidth > innerWidth) wrong.push("the page is wider than the window");
  for (const box of seen) {
    if (box.left < 0 || box.right > innerWidth || box.width < 1 || box.height < 1) wrong.push(`${box.id} is cut off`);
    for (const other of seen) {
      const apart = box.right <= other.left || other.right <= box.left || box.bottom <= other.top || other.bottom <= box.top;
      if (box.id < other.id && !apart) wrong.push(`${box.id} and ${other.id} overlap`);
    }
  }
  const last = $("trace").lastElementChild?.textContent ?? "";
  if (!$("said").textContent.startsWith(scene.said)) wrong.push(`it says: ${$("said").textContent}`);
  if (!last.startsWith(scene.last)) wrong.push(`the last line is: ${last}`);
  if ($("note").hidden === scene.note) wrong.push(scene.note ? "no reason is shown" : `a reason is shown: ${$("note").textContent}`);
  if (scene.note) {
    const note = boxOf("note"), editor = boxOf("editor");
    if (note.top < editor.top || note.bottom > editor.bottom || note.right > editor.right) wrong.push("the reason is cut off");
  }
  return wrong;
}

// A connection to the browser's page: each message has a number, under which its answer comes.
async function connect(port) {
  const [{ webSocketDebuggerUrl }] = (await (await fetch(`http://127.0.0.1:${port}/json`)).json()).filter((it) => it.type === "page");
  const socket = new WebSocket(webSocketDebuggerUrl);
  const waiting = new Map();
  let count = 0;
  socket.addEventListener("message", ({ data }) => {
    const { id, result } = JSON.parse(data);
    waiting.get(id)?.(result);
  });
  await new Promise((done) => socket.addEventListener("open", done));
  return (method, params = {}) =>
    new Promise((done) => {
      count += 1;
      waiting.set(count, done);
      socket.send(JSON.stringify({ id: count, method, params }));
    });
}

async function until(made) {
  for (let tries = 0; tries < 300; tries += 1) {
    const found = made();
    if (found) return found;
    await new Promise((done) => setTimeout(done, 100));
  }
  throw new Error("chromium does not begin");
}

async function browse(call) {
  let wrong = 0;
  for (const width of WIDTHS) {
    await call("Emulation.setDeviceMetricsOverride", { width, height: HEIGHT, deviceScaleFactor: 1, mobile: false });
    for (const scene of SCENES) {
      const { result } = await call("Runtime.evaluate", { expression: `(${look})(${JSON.stringify(scene)})`, returnByValue: true });
      for (const it of result.value ?? [result.description]) {
        wrong += 1;
        console.log(`page: ${scene.job} at ${width}: ${it}`);
      }
      if (!folder) continue;
      const { data } = await call("Page.captureScreenshot");
      fs.writeFileSync(path.join(folder, `${width}-${scene.job}.png`), Buffer.from(data, "base64"));
    }
  }
  return wrong;
}

async function main() {
  const profile = fs.mkdtempSync(path.join(os.tmpdir(), "mt-page-"));
  const words = ["--headless", "--no-sandbox", "--disable-gpu", "--remote-debugging-port=0", `--user-data-dir=${profile}`];
  const browser = spawn("chromium", [...words, `file://${path.resolve(page)}`], { stdio: "ignore" });
  try {
    const told = path.join(profile, "DevToolsActivePort");
    const port = await until(() => fs.existsSync(told) && fs.readFileSync(told, "utf8").split("\n")[0]);
    const call = await connect(port);
    const ready = '!!document.querySelector("#trace span")';
    for (let tries = 0; tries < 100; tries += 1) {
      const { result } = await call("Runtime.evaluate", { expression: ready, returnByValue: true });
      if (result.value) break;
      await new Promise((done) => setTimeout(done, 100));
    }
    process.exitCode = (await browse(call)) ? 1 : 0;
  } finally {
    browser.kill();
    await new Promise((done) => browser.on("exit", done));
    fs.rmSync(profile, { recursive: true, force: true, maxRetries: 5 });
  }
  process.exit();
}

main();
