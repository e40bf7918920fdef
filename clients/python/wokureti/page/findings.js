// The findings of vp8list --check, and the repairs that can work for each of them.

import { find, make } from "./elements.js";
import { engine, offer } from "./engine.js";
import { htmlOf, jsonOf } from "./report.js";
import { placeOf, sentence } from "./sentences.js";
import { notice } from "./status.js";

const STEP = 200;
// Milliseconds after a check before the repairs of all are asked for, which takes a while.
const LATER = 2000;
// Findings inside packets, which change what the timeline has.
const INSIDE = ["past_end", "unread"];

/** Damage before notes, each in the order of packets. */
export function ordered(findings) {
  const rank = (finding) => (finding.severity === "damage" ? 0 : 1);
  return findings.map((finding, place) => ({ finding, place })).sort((one, other) =>
    rank(one.finding) - rank(other.finding) || one.place - other.place,
  );
}

/** Findings in groups: damage up to the next key packet is mostly that of the first packet, and notes of one kind say
 * one thing. */
export function grouped(list) {
  const groups = new Map();
  for (const { finding, place } of list) {
    const { severity, packet, group, kind } = finding;
    const key = severity !== "damage" ? `note ${kind}` : packet === null ? `damage ${place}` : `damage of ${group}`;
    if (!groups.has(key)) groups.set(key, []);
    groups.get(key).push(finding);
  }
  return [...groups].map(([key, found]) => ({ key, first: found[0], rest: found.slice(1) }));
}

/** A finding as a text that stays the same if the finding does. */
function keyOf(finding) {
  return JSON.stringify({ ...finding, frame: undefined, group: undefined });
}

/** What a person can do where no repair is certain. */
export function hopelessText(left) {
  const many = left === 1 ? "1 packet stays damaged" : `${left.toLocaleString("en")} packets stay damaged`;
  return `No repair is certain, so nothing is changed: ${many}. Press a finding to see what can be done there, or ` +
    "open a second recording as source 1 (Open …): its packets replace damaged ones.";
}

export class Findings {
  constructor(model, viewer, editing, timeline, status) {
    Object.assign(this, { model, viewer, editing, timeline, status });
    Object.assign(this, { check: null, open: null, most: STEP, kept: new Set(), learning: 0 });
    // Which groups are unfolded, of those that were pressed.
    this.unfolded = new Map();
    // What was heard so far of the check that goes on.
    this.news = { check: null, findings: [] };
    // The repairs of all damage that a check found, and of which check they are; or why there are none.
    this.all = { check: null };
    model.addEventListener("session", () => this.follow());
    find("findings-more").addEventListener("click", () => {
      this.most += STEP;
      this.write();
    });
    find("repair-all").addEventListener("click", () => this.previewAll());
    find("report").addEventListener("click", () => this.report(htmlOf, "text/html", "html"));
    find("report-json").addEventListener("click", () => this.report(jsonOf, "application/json", "json"));
    find("preview-take").addEventListener("click", () => this.take());
    find("preview-leave").addEventListener("click", () => this.leave());
  }

  /** Offers the findings as a file. */
  report(textOf, type, ending) {
    const [name] = this.model.session.names;
    offer(new Blob([textOf(name, this.check)], { type }), `${name.replace(/\.[^.]*$/, "")}-findings.${ending}`);
  }

  /** What is of the stream before an edit goes. */
  follow() {
    if (this.open && this.open.revision !== this.model.revision) this.close();
  }

  /** The server says what is new of the check of the current stream. */
  heard(answer) {
    if (answer.check === undefined) {
      find("check-text").textContent = answer.failed;
      return;
    }
    // Another stream is checked, or the server tells all of it again.
    if (answer.check !== this.news.check || !answer.from) this.news = { check: answer.check, findings: [] };
    const { check, findings } = this.news;
    findings.push(...answer.findings.map((finding, place) => ({ ...finding, group: answer.groups[place] })));
    const isNew =
      !this.check || this.check.check !== check || answer.findings.length > 0 || this.check.over !== answer.over;
    // Those of the stream before stay until this check is over, or has found something, or takes long.
    if (answer.over || findings.length || this.check?.check === check) {
      this.check = { ...answer, findings };
      if (isNew) this.write();
    }
    this.tell(answer);
  }

  tell({ over, done, packets, damage, notes, failed }) {
    const bar = find("check-bar");
    bar.hidden = over;
    bar.value = packets ? done / packets : 0;
    const totals = `damage: ${damage.toLocaleString("en")}, notes: ${notes.toLocaleString("en")}`;
    const text = failed
      ? `The check failed: ${failed}`
      : over
        ? damage || notes
          ? `All ${packets.toLocaleString("en")} packets were checked, ${totals}.`
          : `All ${packets.toLocaleString("en")} packets were checked: nothing was found.`
        : `Checking: ${done.toLocaleString("en")} of ${packets.toLocaleString("en")} packets, ${totals}.`;
    find("check-text").textContent = text;
    find("repair-all-line").hidden = !over || damage < 2;
    this.offerAll();
    clearTimeout(this.learning);
    if (over && damage >= 2 && this.all.check !== this.check?.check)
      this.learning = setTimeout(() => this.learnAll().catch(() => {}), LATER);
    find("report-line").hidden = !over || !(damage || notes);
    find("check-status").textContent = over
      ? `checked, ${totals}`
      : `checking ${done.toLocaleString("en")} of ${packets.toLocaleString("en")} packets`;
    const count = find("findings-count");
    count.textContent = damage || notes ? (damage || notes).toLocaleString("en") : "";
    count.classList.toggle("bad", damage > 0);
    count.title = totals;
  }

  write() {
    const { findings, check, over, damage: all, notes } = this.check;
    const damage = [...new Set(
      findings.filter(({ severity, packet }) => severity === "damage" && packet !== null).map(({ packet }) => packet),
    )];
    const inside = findings.filter(({ kind }) => INSIDE.includes(kind)).map(({ packet }) => packet);
    // The timeline is asked for again only if there are more findings than are told.
    this.timeline.setFindings(damage, inside, over && findings.length < all + notes ? String(check) : "");
    const list = find("findings-list");
    const groups = grouped(ordered(findings));
    list.replaceChildren(...groups.slice(0, this.most).flatMap((group, place) => this.rows(group, place === 0)));
    find("findings-more").hidden = groups.length <= this.most;
    find("findings-more").textContent = `Show more of ${groups.length.toLocaleString("en")}`;
  }

  /** The rows of a group: the first finding, and the others if the group is unfolded, as the first one is. */
  rows({ key, first, rest }, isFirst) {
    const found = [this.row(first)];
    if (!rest.length) return found;
    const isUnfolded = this.unfolded.get(key) ?? (isFirst && rest.length < STEP);
    const many = `${rest.length.toLocaleString("en")} more`;
    const which = first.severity === "damage" ? "up to the next key frame" : "of this kind";
    const text = `${isUnfolded ? "▾" : "▸"} ${many} ${which}`;
    const turn = () => {
      this.unfolded.set(key, !isUnfolded);
      this.write();
    };
    const members = { className: "row", "aria-expanded": String(isUnfolded), textContent: text, onclick: turn };
    found.push(make("li", { className: "more" }, make("button", members)));
    return isUnfolded ? [...found, ...rest.slice(0, 5 * STEP).map((finding) => this.row(finding))] : found;
  }

  row(finding) {
    const key = keyOf(finding);
    const { severity } = finding;
    const parts = [
      { className: `dot${severity === "damage" ? "" : " note"}`, title: severity },
      { className: "text", textContent: sentence(finding) },
      { className: "sub", textContent: `${severity} · ${placeOf(finding)}` },
    ].map((members) => make("span", members));
    const press = () => this.press(finding, key);
    const button = make("button", { className: "row", "aria-expanded": "false", onclick: press }, ...parts);
    const entry = make("li", { "data-key": key, className: this.kept.has(key) ? "is-kept" : "" }, button);
    if (this.open && this.open.key === key) this.unfold(entry, this.open);
    return entry;
  }

  /** A click goes to the packet, and shows the repairs. */
  async press(finding, key) {
    const wasOpen = this.open && this.open.key === key;
    await this.leave();
    for (const old of find("findings-list").querySelectorAll("li.is-open")) fold(old);
    this.open = null;
    // The check is of source 0.
    if (this.model.source !== 0) await this.model.useSource(0);
    if (finding.packet !== null) this.model.goPacket(Math.min(finding.packet, this.model.packets - 1)).catch(() => {});
    if (wasOpen) return;
    const open = { key, finding, revision: this.model.revision, repairs: null };
    this.open = open;
    try {
      const given = ["kind", "packet", "before", "stamp"].filter((name) =>
        name === "kind" || Number.isInteger(finding[name]),
      );
      const answer = await engine.task(
        "repairs",
        { finding: Object.fromEntries(given.map((name) => [name, finding[name]])) },
        { waits: "the repairs" },
      );
      open.repairs = answer.repairs;
    } catch (error) {
      open.repairs = [];
      this.status.say(error.message);
    }
    if (this.open === open) this.unfoldOpen();
  }

  /** Shows the repairs below the finding that was pressed: the list may have been written again since. */
  unfoldOpen() {
    // The row of a folded group has no key.
    if (!this.open) return;
    const entry = [...find("findings-list").children].find((one) => one.dataset.key === this.open.key);
    if (entry) this.unfold(entry, this.open);
  }

  unfold(entry, open) {
    if (!open.repairs) return;
    entry.classList.add("is-open");
    entry.querySelector(".row").setAttribute("aria-expanded", "true");
    entry.querySelector(".repairs")?.remove();
    const items = open.repairs.map((repair) => {
      const { title: textContent, lines } = repair;
      const more = lines.length > 6 ? `\n… ${lines.length} edits` : "";
      const title = lines.length ? `${lines.slice(0, 6).join("\n")}${more}` : "Nothing is changed";
      const onclick = () => (lines.length ? this.preview(repair) : this.keep(open, entry));
      const className = this.shown === repair ? "is-shown" : "";
      return make("li", {}, make("button", { textContent, title, className, onclick }));
    });
    entry.append(make("ul", { className: "repairs" }, ...items));
  }

  /** Shows the pictures with a repair, which is not made yet. */
  async preview(repair) {
    this.shown = repair;
    this.unfoldOpen();
    find("preview-bar").hidden = false;
    find("preview-text").textContent = repair.title;
    find("preview-text").title = "";
    find("preview-result").textContent = "";
    const { revision } = this.model;
    await this.viewer.setPreview(repair.lines);
    try {
      const { findings } = await engine.task("check", { lines: repair.lines, packet: repair.packet, revision });
      if (this.shown !== repair) return;
      const damage = findings.filter(({ severity }) => severity === "damage").length;
      find("preview-result").textContent = damage
        ? `damage up to the next key frame: ${damage}`
        : "no damage up to the next key frame";
    } catch (error) {
      if (this.shown === repair) find("preview-result").textContent = error.message;
    }
  }

  /** The button is off, with the reason, if nothing can be repaired. */
  offerAll() {
    const { check, why = "" } = this.all.check === this.check?.check ? this.all : { check: null };
    find("repair-all").disabled = Boolean(check && why);
    find("repair-all-why").textContent = why;
  }

  /** Asks which repairs the command wokureti repair would make. */
  async learnAll(waits = "") {
    const check = this.check?.check;
    if (this.all.check !== check) {
      const found = await engine.task("repair_all", {}, { waits }).catch((error) => ({
        lines: [],
        said: [],
        left: 0,
        why: error.message,
      }));
      this.all = { ...found, check, why: found.why ?? (found.lines.length ? "" : hopelessText(found.left)) };
      this.offerAll();
    }
    return this.all;
  }

  /** Shows the pictures with all repairs that the command wokureti repair would make. */
  async previewAll() {
    const { lines, said, left, why } = await this.learnAll("the repairs");
    if (why) {
      notice(why, { id: "repairs" });
      return;
    }
    const title =
      `${said.length.toLocaleString("en")} steps, ${lines.length.toLocaleString("en")} ` +
      `edits${left ? `, ${left} packets stay damaged` : ""}`;
    await this.preview({ title, lines, packet: this.model.packet, step: "Repair all" });
    find("preview-text").title = said.slice(0, 40).join("\n");
  }

  async take() {
    const repair = this.shown;
    if (!repair) return;
    const { packet } = repair;
    this.close();
    toTimeline();
    const isMade = await this.editing.make(
      this.model.session.source === 0 ? repair.lines : ["use 0", ...repair.lines],
      repair.step || repair.title,
    );
    await this.viewer.setPreview(null);
    if (isMade) await this.model.goPacket(Math.min(packet, this.model.packets - 1));
  }

  /** Goes back from a preview. */
  async leave() {
    if (!this.shown) return;
    this.shown = null;
    find("preview-bar").hidden = true;
    for (const button of find("findings-list").querySelectorAll(".is-shown")) button.classList.remove("is-shown");
    toTimeline();
    await this.viewer.setPreview(null);
  }

  close() {
    if (this.shown) {
      this.shown = null;
      find("preview-bar").hidden = true;
      this.viewer.preview = null;
    }
    this.open = null;
    for (const old of find("findings-list").querySelectorAll("li.is-open")) fold(old);
  }

  keep(open, entry) {
    this.leave();
    if (this.kept.has(open.key)) this.kept.delete(open.key);
    else this.kept.add(open.key);
    entry.classList.toggle("is-kept", this.kept.has(open.key));
    fold(entry);
    this.open = null;
  }

  /** Goes to the next damage after the current packet, or to the one before it. */
  go(step) {
    const packets = [...new Set(
      (this.check?.findings || []).filter(({ packet }) => packet !== null).map(({ packet }) => packet),
    )].sort((one, other) => one - other);
    const { packet } = this.model;
    const next = step > 0 ? packets.find((one) => one > packet) : packets.filter((one) => one < packet).pop();
    if (next !== undefined) this.model.goPacket(next).catch(() => {});
  }
}

/** The keys go to the packets if the button that was pressed is gone. */
function toTimeline() {
  if (
    !document.activeElement ||
    document.activeElement === document.body ||
    document.activeElement.closest("#preview-bar")
  ) find("timeline").focus({ focusVisible: false });
}

function fold(entry) {
  entry.classList.remove("is-open");
  entry.querySelector(".row").setAttribute("aria-expanded", "false");
  entry.querySelector(".repairs")?.remove();
}
