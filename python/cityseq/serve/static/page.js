"use strict";
// Sends files to the server that the page came from, one after another, and shows what comes of
// them. All texts of the answers are set as texts: none of them is read as HTML.

const form = document.getElementById("form");
const drop = document.getElementById("drop");
const input = document.getElementById("file");
const start = document.getElementById("start");
const stop = document.getElementById("stop");
const running = document.getElementById("running");
const progress = document.getElementById("progress");
const sent = document.getElementById("sent");
const verdict = document.getElementById("verdict");
const report = document.getElementById("report");
const SHOWN = 200; // reports of a file on the page; the download has all that the server told
const TOLD = 10000; // reports that the server is asked for
let files = [];
let request = null; // the one that is open
let isRunning = false;
let isStopped = false;
let downloadUrls = [];

/** Makes an element with a text and children. */
function make(name, options = {}, ...children) {
  const made = document.createElement(name);
  if (options.text !== undefined) made.textContent = options.text;
  if (options.kind) made.className = options.kind;
  made.append(...children);
  return made;
}

/** A count of bytes, as people read it. */
function bytes(count) {
  const units = ["bytes", "KB", "MB", "GB", "TB"];
  let unit = 0;
  for (; count >= 1000 && unit < units.length - 1; unit += 1) count /= 1000;
  return `${unit ? count.toFixed(1) : count} ${units[unit]}`;
}

function count(number, one, many) {
  return `${number.toLocaleString("en")} ${number === 1 ? one : many}`;
}

function choose(chosen) {
  files = [...chosen];
  const size = files.reduce((sum, file) => sum + file.size, 0);
  const name = files.length === 1 ? files[0].name : count(files.length, "file", "files");
  document.getElementById("name").textContent =
    files.length ? `${name}, ${bytes(size)}` : "or drop them anywhere on this page";
  start.disabled = files.length === 0 || isRunning;
}

/** The box that has a verdict: its kind, its title and some lines. */
function fill(box, { kind, title, lines }) {
  box.className = `verdict ${kind}`;
  box.replaceChildren(make("strong", { text: title }), ...lines.map((text) => make("p", { text })));
}

function show(told) {
  fill(verdict, told);
  verdict.focus();
}

function clear() {
  verdict.className = "verdict";
  verdict.replaceChildren();
  report.replaceChildren();
  downloadUrls.forEach((url) => URL.revokeObjectURL(url));
  downloadUrls = [];
}

/** How often each reason comes, of all lines. */
function summary(reasons) {
  const head = make("tr", {}, make("th", { text: "Reason" }), make("th", { text: "Lines" }));
  const rows = [...reasons].sort((a, b) => b.lines - a.lines).map((each) => {
    const cell = make("td", { text: each.lines.toLocaleString("en") });
    cell.dataset.name = "Lines";
    return make("tr", {}, make("th", { text: `${each.code} ${each.text}` }), cell);
  });
  return make("table", {}, make("caption", { text: "Invalid lines by their reasons" }),
    make("thead", {}, head), make("tbody", {}, ...rows));
}

/** A text in which names stand between backquotes. */
function coded(text) {
  return text.split("`").map((piece, at) => (at % 2 ? make("code", { text: piece }) : piece));
}

function reported(each) {
  const place = `Line ${each.line.toLocaleString("en")}, byte ${each.byte.toLocaleString("en")}`;
  const item = make("li", {},
    make("p", {}, make("span", { text: `${place}: `, kind: "place" }),
      make("span", { text: `${each.code} ${each.text}`, kind: "why" })));
  if (each.id !== null) item.append(make("p", {}, "Feature ", make("bdi", { text: each.id.slice(0, 200) })));
  if (each.excerpt) item.append(make("pre", { text: `${each.excerpt}\n${" ".repeat(each.column)}^` }));
  if (each.hint) item.append(make("p", { text: `Hint: ${each.hint}.` }));
  item.append(make("p", {}, "Fix: ", ...coded(each.fix)));
  return item;
}

/** A link that saves the reports that the server told, of all that there are. */
function download(name, reports, whole) {
  const lines = reports.map((each) => `${JSON.stringify(each)}\n`);
  const url = URL.createObjectURL(new Blob(lines, { type: "application/x-ndjson" }));
  downloadUrls.push(url);
  const all = count(whole, "report", "reports");
  const text = reports.length < whole
    ? `Download the first ${reports.length.toLocaleString("en")} of ${all}` : `Download ${all}`;
  const link = make("a", { text, kind: "button" });
  link.href = url;
  link.download = `${name}.reports.jsonl`;
  return make("p", {}, link);
}

/** What the page says of the answer for a file, which has a line for each object. */
function answered(file, text) {
  const objects = text.split("\n").filter(Boolean).map((line) => JSON.parse(line));
  const reports = objects.filter((each) => each.kind === "report");
  const result = objects.find((each) => each.kind === "result");
  const { reasons } = objects.find((each) => each.kind === "reasons");
  const counts = `${count(result.lines, "line", "lines")}, ${count(result.features, "valid feature", "valid features")}`;
  if (result.verdict === "valid") {
    return { kind: "valid", title: "Valid", lines: [`${file.name}: ${counts}`], parts: [] };
  }
  const ends = result.fault !== null ? result.fault : result.ended_at === null ? count(result.refused, "invalid line", "invalid lines")
    : `the run ended at line ${result.ended_at.toLocaleString("en")}`;
  const told = { kind: "invalid", title: "Invalid", lines: [`${file.name}: ${counts}, ${ends}`, ...result.hints], parts: [] };
  if (reports.length) {
    const whole = reasons.reduce((sum, each) => sum + each.lines, 0);
    const list = reports.slice(0, SHOWN).map(reported);
    told.parts = [summary(reasons), download(file.name, reports, whole),
      make("h3", { text: "Invalid lines" }), make("ol", { kind: "reports" }, ...list)];
    const more = whole - list.length;
    if (more > 0) told.parts.push(make("p", { text: `${count(more, "more line is", "more lines are")} invalid.` }));
  }
  return told;
}

/** Why there is no verdict on a file. */
function unchecked(file, why) {
  return { kind: "fault", title: "Not checked", lines: [`${file.name}: ${why}`], parts: [] };
}

function failed(file, status, text) {
  let detail = "the server did not answer";
  try {
    detail = JSON.parse(text).detail;
  } catch (_) {
    if (status) detail = `the server answered ${status}`;
  }
  return unchecked(file, detail);
}

/** Shows how much of a file is sent. */
function advance(name, event) {
  const share = event.total ? event.loaded / event.total : 1;
  progress.value = share;
  const told = share < 1 ? `${bytes(event.loaded)} of ${bytes(event.total)}, ${Math.floor(share * 100)} %`
    : "all is sent, and the server judges the rest";
  sent.textContent = `${name}: ${told}.`;
}

/** Sends a file. What comes of it is there when the server has answered. */
function check(file, name) {
  const isWhole = /\.city\.json(\.gz)?$/.test(file.name);
  const most = Number(isWhole ? form.dataset.whole : form.dataset.most);
  if (file.size > most) {
    return Promise.resolve(unchecked(file, `it has ${bytes(file.size)}, and the server takes ${bytes(most)}`));
  }
  const asked = ["tree", "extensions"].filter((option) => document.getElementById(option).checked);
  return new Promise((done) => {
    request = new XMLHttpRequest();
    request.open("POST", `${form.dataset.check}?keep_going=true&summary=true&max_reports=${TOLD}${asked.map((option) => `&${option}=true`).join("")}`);
    request.setRequestHeader("Content-Type", isWhole ? "application/city+json" : "application/octet-stream");
    request.upload.onprogress = (event) => advance(name, event);
    request.onload = () => {
      const { status, responseText } = request;
      done(status === 200 ? answered(file, responseText) : failed(file, status, responseText));
    };
    request.onerror = () => done(failed(file, 0, ""));
    request.onabort = () => done({ ...unchecked(file, "it was not sent to its end"), title: "Stopped" });
    progress.value = 0;
    sent.textContent = `${name}: it is read.`;
    request.send(file);
  });
}

/** One file of several, with its verdict and its reports. */
function section(told) {
  const box = make("div");
  fill(box, told);
  return make("section", {}, box, ...told.parts);
}

/** The verdict on several files. */
function verdictOf(results) {
  const worst = ["invalid", "fault", "valid"].find((kind) => results.some((each) => each.kind === kind));
  const words = { valid: "valid", invalid: "invalid", fault: "not checked" };
  const counts = Object.entries(words).map(([kind, word]) => [results.filter((each) => each.kind === kind).length, word])
    .filter(([number]) => number).map(([number, word]) => `${number.toLocaleString("en")} ${word}`);
  return { kind: worst, title: count(results.length, "file", "files"), lines: [counts.join(", ")] };
}

/** Checks files one after another. */
async function run(wanted) {
  clear();
  isRunning = true;
  isStopped = false;
  running.hidden = stop.hidden = false;
  start.disabled = true;
  const results = [];
  for (const [number, file] of wanted.entries()) {
    const name = wanted.length === 1 ? file.name : `${number + 1} of ${wanted.length}, ${file.name}`;
    const told = isStopped ? unchecked(file, "it was not sent") : await check(file, name);
    results.push(told);
    report.append(...(wanted.length === 1 ? told.parts : [section(told)]));
  }
  request = null;
  isRunning = false;
  running.hidden = stop.hidden = true;
  start.disabled = files.length === 0;
  show(wanted.length === 1 ? results[0] : verdictOf(results));
}

input.addEventListener("change", () => choose(input.files));
form.addEventListener("submit", (event) => {
  event.preventDefault();
  if (files.length && !isRunning) run(files);
});
stop.addEventListener("click", () => {
  isStopped = true;
  if (request !== null) request.abort();
});
for (const name of ["dragenter", "dragover"]) {
  window.addEventListener(name, (event) => {
    event.preventDefault();
    drop.classList.add("over");
  });
}
window.addEventListener("dragleave", (event) => {
  if (event.relatedTarget === null) drop.classList.remove("over");
});
window.addEventListener("drop", (event) => {
  event.preventDefault();
  drop.classList.remove("over");
  const { files: dropped } = event.dataTransfer;
  if (dropped.length && !isRunning) {
    choose(dropped);
    run(files);
  }
});
