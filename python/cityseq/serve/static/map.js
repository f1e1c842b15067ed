"use strict";
// The map is one stop of the Tab key. The arrow keys go from one feature to the next.

const links = [...document.querySelectorAll(".map a")];
const steps = { ArrowRight: 1, ArrowDown: 1, ArrowLeft: -1, ArrowUp: -1 };

for (const [at, link] of links.entries()) {
  link.addEventListener("keydown", (event) => {
    const next = links[at + (steps[event.key] || 0)];
    if (next === undefined || next === link) return;
    event.preventDefault();
    link.setAttribute("tabindex", "-1");
    next.setAttribute("tabindex", "0");
    next.focus();
  });
}
