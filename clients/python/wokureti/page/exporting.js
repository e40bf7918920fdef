// Export: the frames that are shown as a file, or why that cannot be. What the script changes is coded again, if that
// is wanted.

import { ask } from "./ask.js";
import { find } from "./elements.js";
import { engine, offer } from "./engine.js";
import { notice } from "./status.js";

// Milliseconds between two looks at how far an export is.
const OFTEN = 200;
// Nanoseconds of a lead from which on there is a choice, and decibels that each coded frame has at least if nothing is
// said.
const LONG = 10e9;
const USUAL = 45;

function many(number, what) {
  return `${number.toLocaleString("en")} ${what}${number === 1 ? "" : "s"}`;
}

/** What an export codes again, in a sentence. */
export function codedText({ coded, frames }) {
  if (coded === frames) return `The script changes each of the ${many(frames, "frame")}: all of them are coded again.`;
  return `${coded.toLocaleString("en")} of ${many(frames, "frame")} ${coded === 1 ? "is" : "are"} coded again; all ` +
    "others stay as they are.";
}

/** What each way costs for parts that begin between key packets. */
export function leadText(leads) {
  const sum = (name) => leads.reduce((all, lead) => all + lead[name], 0);
  const frames = leads.reduce((all, { first, end }) => all + end - first, 0);
  const isOne = leads.length === 1;
  const longest = (Math.max(...leads.map(({ length }) => length)) / 1e9).toFixed(0);
  const begin = isOne
    ? `Frame ${leads[0].first} is ${longest} s after a key frame.`
    : `${leads.length} parts begin between key frames, one of them ${longest} s after one.`;
  const exact =
    `The packets from ${isOne ? "there" : "the key frames"} on can come before ${isOne ? "it" : "them"}, hidden: ` +
    `${many(sum("packets"), "packet")}, ${many(sum("bytes"), "byte")}.`;
  return `${begin} ${exact} Or ${isOne ? "its" : "their"} first ${many(frames, "frame")}, ` +
    `${many(sum("coded_bytes"), "byte")} now, ${frames === 1 ? "is" : "are"} coded again, and nothing is hidden.`;
}

/** Whether a part begins so long after a key packet that there is a choice. It is of all parts. */
function hasLong({ leads }) {
  return leads.some(({ length }) => length > LONG);
}

/** The fields of the dialog for what an export costs; none if there is nothing to choose. */
function fieldsOf(costs) {
  const { coded, sounds, encoder } = costs;
  const isLong = hasLong(costs);
  if (!encoder || (!coded && !isLong)) return [];
  const label = "Decibels that each coded frame has at least";
  const fields = /** @type {any[]} */ ([{ name: "psnr", label, value: USUAL, most: 60 }]);
  if (sounds)
    fields.push({
      name: "sound",
      label: "Sound",
      value: "fade",
      choices: [["fades with the picture", "fade"], ["stays as it is", "copy"]],
    });
  if (isLong)
    fields.push({
      name: "lead",
      label: "Packets before a part",
      value: "exact",
      choices: [["hidden", "exact"], ["none: coded again", "coded"]],
    });
  return fields;
}

/** How the frames are exported: null if not at all, else what is coded again, or nothing. */
async function chosen(signal) {
  const costs = await engine.task("costs", {}, { waits: "what an export costs", signal });
  if (costs.coded && !costs.encoder) throw new Error(`${codedText(costs)} ${costs.why}`);
  const fields = fieldsOf(costs);
  if (!fields.length) return {};
  const how = await ask(
    "Export",
    "Export",
    fields,
    [costs.coded ? codedText(costs) : "", hasLong(costs) ? leadText(costs.leads) : ""].join(" ").trim(),
  );
  // Nothing is coded.
  if (how && !costs.coded && how.lead !== "coded") return {};
  return how && { how };
}

export class Exporting {
  constructor(status) {
    this.status = status;
    // What ends the export that goes on.
    this.making = null;
    find("export").addEventListener("click", (event) => {
      event.preventDefault();
      this.make();
    });
  }

  /** Makes the file; while it is made, another click ends that. */
  async make() {
    if (this.making) {
      this.making.abort();
      return;
    }
    const making = new AbortController();
    this.making = making;
    const how = await chosen(making.signal).catch((error) => (error.name === "AbortError" ? null : this.failed(error)));
    if (!how) {
      this.making = null;
      return;
    }
    const button = find("export");
    const { title } = button;
    button.textContent = "Stop the export";
    const number = String(Math.random()).slice(2);
    this.tell(number, making).catch(() => {});
    try {
      const { file, name, said } = await engine.file("export", {
        ...how,
        name: number,
        signal: making.signal,
        got: (done, total) => this.status.share("the export is read", done / total),
      });
      if (file) offer(file, name);
      this.status.say(`exported ${name}: ${said}`);
      this.done?.(name);
    } catch (error) {
      if (error.name === "AbortError") this.status.say("the export was stopped");
      else this.failed(error);
    } finally {
      this.making = null;
      button.textContent = "Export";
      button.title = title;
    }
  }

  failed(error) {
    notice(`Nothing was exported: ${error.message}`, { isBad: true, id: "exported" });
    return null;
  }

  /** Says how far the server is. vp8serve itself does not say it: then how long it takes. */
  async tell(number, making) {
    for (;;) {
      await new Promise((done) => setTimeout(done, OFTEN));
      const now = this.making === making ? (await engine.progress(number)).exporting : null;
      if (this.making !== making) return;
      if (now?.total) this.status.share(`exporting: ${now.what}`, now.done / now.total);
      else if (now) this.status.share(`exporting: ${now.what}, ${now.seconds.toFixed(1)} s`, null);
    }
  }
}
