"use strict";
// The page: a job on the left, and on the right what a form writes of it, anew after each change.

const LINE_HEIGHT = 18;
const MOST_LINES = 2000;
const FORMS = ["run", "check", "fmt", "migrate", "cut", "locate", "verify", "soak"];
const ENDS = {
  0: "accepted",
  2: "these words are no form",
  3: "the configuration is refused",
  4: "a script line is refused",
  6: "the text is too long for this page: its beginning follows",
  7: "no memory was found",
  8: "the trace is another one",
};

const $ = (id) => document.getElementById(id);
const jobs = JSON.parse($("jobs").textContent);
let replay = null;
let pending = 0;

// The numbers that stand after a form.
function numbersOf(form) {
  if (form === "cut") return [$("set"), $("budget"), $("wait")].map((it) => Number(it.value));
  return form === "soak" ? [Number($("soak").value)] : [];
}

// The sliders of `cut` reach as far as a pass that is tested in one tick.
function reachOfSliders(job) {
  const text = textOfBytes(replay.run("cut", [Number($("set").value), 0xffffffff, 0], job).text);
  const found = /^tick 1 slices \d+ accesses (\d+)$/m.exec(text);
  for (const name of ["budget", "wait"]) {
    $(name).max = found ? found[1] : 100;
    $(`${name}Said`).value = $(name).value;
  }
}

function element(name, text, of = {}) {
  const made = document.createElement(name);
  made.textContent = text;
  Object.assign(made.dataset, of);
  return made;
}

// The lines of what was written; a line of a trace leads to its script line.
function showText(form, answer) {
  const lines = textOfBytes(answer.text).split("\n");
  if (lines[lines.length - 1] === "") lines.pop();
  const shown = lines.slice(0, MOST_LINES).map((line) => {
    const number = form === "run" && /^(\d+) /.exec(line);
    return element("span", line || " ", number ? { line: number[1] } : {});
  });
  if ([3, 4, 8].includes(answer.status) && shown.length === lines.length) shown[shown.length - 1].className = "refusal";
  if (lines.length > MOST_LINES) shown.push(element("span", `and ${lines.length - MOST_LINES} further lines`));
  $("trace").replaceChildren(...shown);
}

// The place of the mark and of its note moves with the text.
function placeMark() {
  const line = Number($("mark").dataset.line);
  const top = 4 + (line - 1) * LINE_HEIGHT - $("job").scrollTop;
  $("mark").style.top = `${top}px`;
  const above = top + LINE_HEIGHT + $("note").offsetHeight > $("editor").clientHeight;
  $("note").style.top = `${above ? top - $("note").offsetHeight - 2 : top + LINE_HEIGHT + 2}px`;
}

// Marks where a job is refused, with the reason in words.
function showRefusal(form, job, status) {
  const isRefused = [3, 4, 8].includes(status);
  const said = isRefused ? textOfBytes(replay.explain(form, job).text) : "";
  const place = /^ *--> job:(\d+):(\d+)$/m.exec(said);
  const reason = /^error: (.*)$/m.exec(said), found = /^ *\| *\^+ (.*)$/m.exec(said) ?? /= found: (.*)$/m.exec(said);
  const help = /= help: ([^]*)$/.exec(said);
  const words = [reason, found, help].filter((it) => it && it[1].trim()).map((it) => it[1].trim());
  $("note").hidden = words.length === 0;
  $("note").textContent = words.join("\n");
  $("mark").hidden = !place;
  $("mark").dataset.line = place ? place[1] : 1;
  placeMark();
}

function update() {
  const form = $("form").value, job = bytesOfText($("job").value);
  for (const it of document.querySelectorAll(".ofCut")) it.hidden = form !== "cut";
  $("ofSoak").hidden = form !== "soak";
  try {
    if (form === "cut") reachOfSliders(job);
    const begun = performance.now();
    const answer = replay.run(form, numbersOf(form), job);
    const took = (performance.now() - begun).toFixed(1);
    $("said").textContent = `Exit number ${answer.status}: ${ENDS[answer.status]} (${took} ms).`;
    showText(form, answer);
    showRefusal(form, job, answer.status);
  } catch (error) {
    $("said").textContent = `The module stopped, and was begun anew: ${error.message}`;
  }
}

function updateSoon() {
  clearTimeout(pending);
  pending = setTimeout(update, 120);
}

// Takes a text as the job.
function take(text, form) {
  $("job").value = text;
  $("job").scrollTop = 0;
  $("form").value = form;
  update();
  if (!$("mark").hidden) showLine(Number($("mark").dataset.line));
}

function takeExample() {
  const job = jobs.find((it) => it.name === $("example").value) ?? jobs[0];
  take(job.text, job.form);
}

// Brings a line of the job into view.
function showLine(number) {
  $("job").scrollTop = Math.max(0, (number - 8) * LINE_HEIGHT);
  placeMark();
}

// Selects a script line of the job: the lines of a script stand after the separator.
function selectScriptLine(number) {
  const lines = $("job").value.split("\n"), head = lines.indexOf("=====") + 1;
  const start = lines.slice(0, head + number - 1).reduce((sum, line) => sum + line.length + 1, 0);
  $("job").focus();
  $("job").setSelectionRange(start, start + (lines[head + number - 1] ?? "").length);
  showLine(head + number);
}

function listen() {
  $("example").addEventListener("change", takeExample);
  $("file").addEventListener("change", async () => {
    const [file] = $("file").files;
    if (file) take(await file.text(), $("form").value);
  });
  $("form").addEventListener("change", update);
  $("job").addEventListener("input", updateSoon);
  $("job").addEventListener("scroll", placeMark);
  for (const name of ["set", "budget", "wait", "soak"]) $(name).addEventListener("input", update);
  $("trace").addEventListener("click", (event) => {
    if (event.target.dataset.line) selectScriptLine(Number(event.target.dataset.line));
  });
}

function begin() {
  if (!hasMemory64()) {
    $("said").textContent = "This browser has no WebAssembly memories with 64-bit addresses (memory64), which the replay needs. " +
      "Chrome and Edge have them from version 133 on, and Firefox from 134 on.";
    return;
  }
  replay = new Replay(bytesOfBase64($("wasm").textContent.trim()));
  $("form").replaceChildren(...FORMS.map((it) => new Option(it)));
  $("example").replaceChildren(...jobs.map((it) => new Option(it.name)));
  const wanted = decodeURIComponent(location.hash.slice(1));
  $("example").value = jobs.some((it) => it.name === wanted) ? wanted : jobs[0].name;
  listen();
  takeExample();
}

begin();
