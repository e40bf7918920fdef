// What vp8list says of the current packet, and of its header.

import { detailsOf, objectsOf } from "./details.js";
import { find } from "./elements.js";
import { engine } from "./engine.js";
import { whyNone } from "./records.js";

const NAMES = [
  ["frame", "Frame"],
  ["stamp", "Time stamp"],
  ["bytes", "Bytes"],
  ["kind", "Kind"],
  ["show", "Shown"],
  ["cause", "Refused"],
  ["size", "Size"],
  ["version", "Version"],
  ["first", "First partition"],
  ["partitions", "Token partitions"],
  ["quantizer", "Quantizer index"],
  ["level", "Loop filter level"],
  ["last", "Last"],
  ["golden", "Golden"],
  ["altref", "Altref"],
  ["byte", "Byte in the file"],
  ["scale", "Scale"],
  ["color", "Color space"],
  ["clamp", "Clamping type"],
];

export class PacketFacts {
  constructor(model) {
    this.model = model;
    this.asked = "";
    for (const name of ["session", "packet"]) model.addEventListener(name, () => this.soon());
  }

  /** The facts are asked for once the packet stays for a moment, and only if they are seen. */
  soon() {
    clearTimeout(this.timer);
    this.timer = setTimeout(() => this.show().catch(() => {}), 60);
  }

  async show() {
    if (find("packet").hidden || !this.model.session) return;
    const { packet, source, revision, packets } = this.model;
    const key = `${revision} ${source} ${packet}`;
    if (key === this.asked) return;
    this.asked = key;
    if (!packets) {
      find("packet-name").textContent = "No packets";
      writeTable(find("packet-facts"), []);
      return;
    }
    find("packet-name").textContent = `Packet ${packet} of ${packets.toLocaleString("en")}`;
    // The header of one packet is not shown below the name of another.
    writeTable(find("header-facts"), []);
    find("header-changes").hidden = true;
    const [facts] = objectsOf(await engine.answer(`list ${packet} 1`, source, { waits: "the facts of the packet" }));
    if (key !== this.asked) return;
    if (!facts) return;
    const known = NAMES.filter(([name]) => (facts[name] ?? null) !== null);
    writeTable(find("packet-facts"), known.map(([name, text]) => [text, facts[name].toLocaleString("en")]));
    await this.showHeader(key, source, packet);
  }

  /** The fields of the header, by their names in RFC 6386. */
  async showHeader(key, source, packet) {
    const details = detailsOf(await engine.answer(`header ${packet}`, source, { waits: "the header of the packet" }));
    if (key !== this.asked) return;
    find("header-note").textContent = whyNone(packet, details) ?? "";
    const [header = {}, ...probabilities] = details.objects;
    const fields = Object.entries(header).filter(([name]) => !["bits", "packet"].includes(name));
    writeTable(
      find("header-facts"),
      fields.map(([name, value]) => [
        name,
        Array.isArray(value) ? value.join(", ") : value,
        bitsText(header.bits?.[name]),
      ]),
    );
    const changes = find("header-changes");
    changes.hidden = !probabilities.length;
    changes.querySelector("summary").textContent = `Probabilities that it changes: ${probabilities.length}`;
    writeTable(
      changes.querySelector("table"),
      probabilities.map(({ probability, index, old, new: now }) => [`${probability}[${index}]`, `${old} → ${now}`]),
    );
  }
}

/** The bits of a field; a list has those of each value. */
function bitsText(bits) {
  return bits === undefined ? "" : [bits].flat().join(", ");
}

function writeTable(table, rows) {
  const body = table.tBodies[0];
  body.replaceChildren();
  for (const cells of rows) {
    const row = body.insertRow();
    for (const cell of cells) row.insertCell().textContent = cell;
  }
}
