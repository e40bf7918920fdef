// A dialog with a few fields.

import { find } from "./elements.js";

/** Asks for values; `fields` are objects with name, label, value, and choices, or the most and the step of a number.
 * `note` is a sentence below them. Returns the values, or null. */
export function ask(title, action, fields, note = "") {
  const dialog = find("ask");
  dialog.querySelector("h2").textContent = title;
  dialog.querySelector("button[value=yes]").textContent = action;
  const place = dialog.querySelector(".fields");
  place.replaceChildren();
  const inputs = {};
  for (const { name, label, value, choices, most, step } of fields) {
    const line = document.createElement("label");
    const input = /** @type {any} */ (document.createElement(choices ? "select" : "input"));
    if (choices) {
      for (const [text, chosen] of choices) input.append(new Option(text, chosen));
    } else {
      input.type = "number";
      input.min = 0;
      if (step) input.step = step;
      input.required = true;
      if (most !== undefined) input.max = most;
    }
    input.value = value;
    inputs[name] = input;
    line.append(label, input);
    place.append(line);
  }
  const below = dialog.querySelector(".note");
  below.textContent = note;
  below.hidden = !note;
  dialog.returnValue = "";
  dialog.showModal();
  place.querySelector("input, select")?.focus();
  // A list takes no Enter itself.
  place.onkeydown = (event) => {
    if (event.key !== "Enter" || !event.target.matches("select")) return;
    event.preventDefault();
    dialog.querySelector("button[value=yes]").click();
  };
  dialog.querySelector("button[value=no]").onclick = () => dialog.close("no");
  return new Promise((answer) => {
    dialog.addEventListener(
      "close",
      () =>
        answer(
          dialog.returnValue === "yes"
            ? Object.fromEntries(Object.entries(inputs).map(([name, input]) => [name, input.value]))
            : null,
        ),
      { once: true },
    );
  });
}
