// The findings as a file: as objects, or as a page of their own.

import { placeOf, sentence } from "./sentences.js";

export function jsonOf(stream, { findings, damage, notes }) {
  const plain = findings.map(({ group, ...finding }) => finding);
  return `${JSON.stringify({ stream, damage, notes, findings: plain }, null, 1)}\n`;
}

export function htmlOf(stream, { findings, damage, notes }) {
  const page = document.implementation.createHTMLDocument(`Findings of ${stream}`);
  const add = (name, text) => page.body.appendChild(Object.assign(page.createElement(name), { textContent: text }));
  add("h1", page.title);
  add(
    "p",
    `damage: ${damage}, notes: ` +
      `${notes}${findings.length < damage + notes ? `; the first ${findings.length} are below` : ""}`,
  );
  const table = add("table", "");
  for (const finding of findings) {
    const row = table.insertRow();
    for (const text of [finding.severity, placeOf(finding), sentence(finding)]) row.insertCell().textContent = text;
  }
  return `<!doctype html>\n<meta charset="utf-8">\n${page.documentElement.innerHTML}\n`;
}
