"use strict";
(function () {
  const STEP = 100;  // rows that are shown at once
  const byId = (id) => document.getElementById(id);

  // A button copies what its data says; where the browser has no clipboard, the text is selected.
  function copied(button, done) {
    button.textContent = done ? "Copied" : "Press Ctrl+C";
    byId("said").textContent = done ? "Copied to the clipboard" : "Selected: press Ctrl+C";
    window.setTimeout(() => { button.textContent = "Copy"; }, 2000);
  }
  function select(button) {
    const range = document.createRange();
    range.selectNodeContents(byId(button.dataset.of));
    const selection = window.getSelection();
    selection.removeAllRanges();
    selection.addRange(range);
    let done = false;
    try { done = document.execCommand("copy"); } catch (_) { done = false; }
    copied(button, done);
  }
  for (const button of document.querySelectorAll("button.copy")) {
    button.hidden = false;
    button.addEventListener("click", () => {
      const text = byId(button.dataset.of).textContent;
      if (!navigator.clipboard) { select(button); return; }
      navigator.clipboard.writeText(text).then(() => copied(button, true), () => select(button));
    });
  }

  // What is closed on the screen is on paper too.
  let opened = [];
  window.addEventListener("beforeprint", () => {
    opened = Array.from(document.querySelectorAll("details:not([open])"));
    for (const details of opened) { details.open = true; }
  });
  window.addEventListener("afterprint", () => {
    for (const details of opened) { details.open = false; }
  });

  // The table of reports.
  const place = byId("data");
  if (place === null) { return; }
  const data = JSON.parse(place.textContent);
  const body = byId("rows"), filter = byId("filter"), reason = byId("reason"), more = byId("more");
  const count = byId("count");
  const texts = data.rows.map((row) =>
    [data.files[row[0]], row[4], row[3] + " " + data.reasons[row[3]], row[5] + row[6] + row[7]]
      .join("\n").toLowerCase());
  const order = data.rows.map((_, number) => number);
  let found = order, shown = 0, sorted = -1, falling = false;

  function cell(row, text, name) {
    const made = row.insertCell();
    if (name) { made.className = name; }
    made.textContent = text;
    return made;
  }
  function isolated(row, text) {
    const made = document.createElement("bdi");
    made.textContent = text;
    row.insertCell().append(made);
  }
  function excerpt(row, parts) {
    const mark = document.createElement("mark");
    mark.textContent = parts[1];
    const made = cell(row, "", "excerpt");
    made.append(parts[0], mark, parts[2]);
  }
  function add(numbers) {
    const rows = document.createDocumentFragment();
    for (const number of numbers) {
      const told = data.rows[number], row = document.createElement("tr");
      isolated(row, data.files[told[0]]);
      cell(row, told[1], "count");
      cell(row, told[2], "count");
      cell(row, told[3] + " " + data.reasons[told[3]]);
      isolated(row, told[4]);
      excerpt(row, told.slice(5));
      rows.append(row);
    }
    body.append(rows);
  }
  function tell() {
    count.textContent = "Showing " + shown.toLocaleString("en") + " of "
      + found.length.toLocaleString("en") + " reports"
      + (found.length < order.length ? " (of " + order.length.toLocaleString("en") + ")" : "");
    more.hidden = shown >= found.length;
  }
  function showMore(step) {
    const next = found.slice(shown, shown + step);
    add(next);
    shown += next.length;
    tell();
  }
  function show() {
    const wanted = filter.value.toLowerCase(), code = reason.value;
    found = order.filter((number) => (code === "" || String(data.rows[number][3]) === code)
      && texts[number].includes(wanted));
    body.replaceChildren();
    shown = 0;
    showMore(STEP);
  }
  function key(number, column) {
    const row = data.rows[number];
    if (column === 0) { return data.files[row[0]]; }
    return column < 4 ? row[column] : column === 4 ? row[4] : row[5] + row[6] + row[7];
  }
  function sort(column, head) {
    falling = sorted === column && !falling;
    sorted = column;
    const sign = falling ? -1 : 1;
    order.sort((one, other) => {
      const left = key(one, column), right = key(other, column);
      return left < right ? -sign : left > right ? sign : one - other;
    });
    for (const each of document.querySelectorAll("#reports thead th")) {
      each.removeAttribute("aria-sort");
    }
    head.setAttribute("aria-sort", falling ? "descending" : "ascending");
    show();
  }
  document.querySelectorAll("#reports thead th").forEach((head, column) => {
    const button = document.createElement("button");
    button.type = "button";
    button.textContent = head.textContent;
    button.addEventListener("click", () => sort(column, head));
    head.replaceChildren(button);
  });
  filter.addEventListener("input", show);
  reason.addEventListener("change", show);
  more.addEventListener("click", () => showMore(5 * STEP));
  byId("controls").hidden = false;
  show();
}());
