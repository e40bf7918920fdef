// Elements of the page.

export const find = (id) => document.getElementById(id);

/** An element with members, or attributes, and children. */
export function make(name, members = {}, ...children) {
  const made = document.createElement(name);
  for (const [member, value] of Object.entries(members)) {
    if (member in made) made[member] = value;
    else made.setAttribute(member, value);
  }
  made.append(...children);
  return made;
}

/** Follows a pointer that was pressed on an element until it is let go. */
export function drag(element, event, move, end = (last) => {}) {
  element.setPointerCapture(event.pointerId);
  const over = (last) => {
    element.removeEventListener("pointermove", move);
    for (const name of ["pointerup", "pointercancel"]) element.removeEventListener(name, over);
    end(last);
  };
  element.addEventListener("pointermove", move);
  for (const name of ["pointerup", "pointercancel"]) element.addEventListener(name, over);
}

/** The arrow keys go to the element before one of a row, or to the one after it, and choose that. */
export function walk(elements, place, event, choose) {
  const step = { ArrowRight: 1, ArrowDown: 1, ArrowLeft: -1, ArrowUp: -1 }[event.key];
  if (!step) return;
  event.preventDefault();
  event.stopPropagation();
  const other = elements[(place + step + elements.length) % elements.length];
  other.focus();
  choose(other);
}
