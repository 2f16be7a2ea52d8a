"use strict";
// Whether the page, run by node, writes what the program writes: of each example job in each form, of generated jobs, and of a text
// that needs more room; and whether it says why a job is refused. Its last line has what failed, or how much was compared.
// usage: node --experimental-wasm-memory64 page/check.js MT.html JOBS PROGRAM [EXPLAINER]

const fs = require("fs");
const path = require("path");
const vm = require("vm");
const { spawnSync } = require("child_process");

const [page, folder, program, explainer] = process.argv.slice(2);
const html = fs.readFileSync(page, "utf8");
const FORMS = [["run"], ["check"], ["fmt"], ["migrate"], ["cut", 0, 96, 47], ["cut", 1, 100, 48], ["locate"], ["verify"]];
const GENERATED = 50;
const wrong = [];
let compared = 0;

// The page's first script makes the calls; the module stands in an element of its own.
function replayOf(html) {
  const script = /<script>([^]*?)<\/script>/.exec(html)[1];
  const module = /<script id="wasm" type="text\/plain">([^<]*)</.exec(html)[1];
  const made = vm.runInThisContext(`${script}\n({ Replay, bytesOfBase64, hasMemory64 })`);
  if (!made.hasMemory64()) throw new Error("this node has no memory64");
  return new made.Replay(made.bytesOfBase64(module.trim()));
}

function judge(name, is) {
  compared += 1;
  if (!is) wrong.push(name);
}

// Compares a call of the page with the program over the same input.
function compare(replay, name, [form, ...numbers], job) {
  const got = replay.run(form, numbers, job);
  const want = spawnSync(program, [form, ...numbers.map(String)], { input: job, maxBuffer: 1 << 28 });
  judge(`${form} ${name}`, got.status === want.status && Buffer.compare(Buffer.from(got.text), want.stdout) === 0);
  return got.status;
}

// Compares the reason of a refusal, in which the file has another name.
function compareReason(replay, name, form, job, status) {
  const got = replay.explain(form, job);
  judge(`the number of the refusal of ${name}`, got.status === status);
  if (!explainer) return;
  const want = spawnSync(explainer, ["explain", form, path.join(folder, name)]).stdout.toString();
  judge(`the reason of ${form} ${name}`, Buffer.from(got.text).toString() === want.replace(`--> ${path.join(folder, name)}`, "--> job"));
}

const replay = replayOf(html);
for (const name of fs.readdirSync(folder).filter((it) => /\.(job|locate|verify)$/.test(it)).sort()) {
  const job = fs.readFileSync(path.join(folder, name));
  for (const words of FORMS) {
    const status = compare(replay, name, words, job);
    if ([3, 4, 8].includes(status) && words[0] !== "cut") compareReason(replay, name, words[0], job, status);
  }
}
for (let number = 0; number < GENERATED; number += 1) compare(replay, number, ["soak", number], Buffer.from(""));
const head = fs.readFileSync(path.join(folder, "first.job"), "utf8").split("=====\n")[0];
compare(replay, "of many lines", ["run"], Buffer.from(`${head}=====\n${"app r 0\n".repeat(300000)}`));
compare(replay, "of no words", ["replay"], Buffer.from(head));

for (const name of wrong) console.log(`differs: ${name}`);
console.log(wrong.length ? `${wrong.length} of ${compared} differ` : `${compared} compared`);
process.exitCode = wrong.length ? 1 : 0;
