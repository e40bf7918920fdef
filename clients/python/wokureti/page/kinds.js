// The kinds of packets: the letter of the interface, the variable of the colour, and the name. Each one is worse than
// those before it.

import { make } from "./elements.js";

export const KINDS = [
  { letter: "i", colour: "--inter", name: "inter" },
  { letter: "h", colour: "--hidden", name: "hidden" },
  { letter: "k", colour: "--key", name: "key" },
  { letter: "f", colour: "--forged", name: "forged" },
  { letter: "d", colour: "--dropped", name: "dropped (no bytes)" },
  { letter: "p", colour: "--damaged", name: "read past its end" },
  { letter: "l", colour: "--lost", name: "lost with a refused one" },
  { letter: "r", colour: "--refused", name: "refused" },
];

export const NAMES = Object.fromEntries(KINDS.map(({ letter, name }) => [letter, name]));

/** The colours of the theme that is on, by letter and by variable. */
export function theme() {
  const style = getComputedStyle(document.documentElement);
  const value = (name) => style.getPropertyValue(name).trim();
  const found = Object.fromEntries(KINDS.map(({ letter, colour }) => [letter, value(colour)]));
  for (const name of [
    "text", "muted", "line", "line-strong", "grid", "selection", "cursor", "edit", "accent", "panel", "back",
    "refused", "wave",
  ]) {
    found[name] = value(`--${name}`);
  }
  return found;
}

/** A patch of a colour, for a legend. */
export function patch(colour) {
  const found = make("i");
  found.style.background = colour;
  return found;
}

/** Writes the legend. */
export function writeLegend(place) {
  for (const { colour, name } of KINDS) {
    place.append(make("span", {}, patch(`var(${colour})`), name));
  }
}
