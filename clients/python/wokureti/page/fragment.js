// What is shown, in the URL's fragment: a reload comes back to it, and so does a copy of the address in another tab.

/** The members of a fragment: numbers by their names, and words. */
export function parse(text) {
  const found = {};
  for (const part of text.replace(/^#/, "").split("&")) {
    const [name, value = ""] = part.split("=");
    if (["frame", "source"].includes(name) && /^\d{1,15}$/.test(value)) found[name] = Number(value);
    if (["from", "scale", "left", "zoom"].includes(name) && /^\d{1,15}(\.\d{1,9})?$/.test(value))
      found[name] = Number(value);
    if (["view", "plane", "size", "overlay", "panel"].includes(name) && /^[a-z0-9]{1,12}$/.test(value))
      found[name] = value;
  }
  return found;
}

/** The fragment of members; those that are as at the start are left out. */
export function format(members) {
  const defaults = { view: "frame", plane: "colour", size: "fit", overlay: "none", panel: "findings", source: 0 };
  const parts = Object.entries(members).filter(([name, value]) =>
    value !== undefined && value !== null && value !== defaults[name],
  );
  const textOf = (value) => (typeof value === "number" ? Number(value.toFixed(6)) : value);
  return `#${parts.map(([name, value]) => `${name}=${textOf(value)}`).join("&")}`;
}

export class Fragment {
  constructor(read) {
    this.read = read;
    this.written = location.hash;
  }

  /** Writes the fragment once nothing changed for a moment. */
  soon() {
    clearTimeout(this.timer);
    this.timer = setTimeout(() => this.write(), 150);
  }

  write() {
    const text = format(this.read());
    if (text === this.written) return;
    this.written = text;
    history.replaceState(null, "", text);
  }
}
