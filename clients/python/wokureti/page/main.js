// Starts the page.

import { Curves } from "./curves.js";
import { Adding } from "./adding.js";
import { Cropping } from "./cropping.js";
import { Cutting } from "./cutting.js";
import { Editing, packets, savedText } from "./editing.js";
import { EditList } from "./edit_list.js";
import { Exporting } from "./exporting.js";
import { Findings } from "./findings.js";
import { Fragment, parse } from "./fragment.js";
import { find, walk } from "./elements.js";
import { Frames } from "./frames.js";
import { engine, whenLost } from "./engine.js";
import * as keys from "./keys.js";
import { writeLegend } from "./kinds.js";
import { Macroblocks } from "./macroblock.js";
import { Menu } from "./menu.js";
import { Model } from "./model.js";
import { PacketFacts } from "./packet_facts.js";
import { Player } from "./player.js";
import { Programme } from "./programme.js";
import { ScriptPanel } from "./script.js";
import { Sound } from "./sound.js";
import { Status, markToolbars, notice, withdraw } from "./status.js";
import { frameOf, timeText } from "./times.js";
import { Thumbs } from "./thumbs.js";
import { Timeline } from "./timeline.js";
import { Viewer } from "./viewer.js";
import { Waves } from "./waves.js";

const start = parse(location.hash);
const model = new Model();
const status = new Status();
const frames = new Frames(model);
const timeline = new Timeline(model);
const viewer = new Viewer(model, frames, status);
const macroblocks = new Macroblocks(model, viewer, status);
const sound = new Sound(model, status);
const player = new Player(model, frames, viewer, sound);
const editing = new Editing(model, status);
const findings = new Findings(model, viewer, editing, timeline, status);
const packetFacts = new PacketFacts(model);
const scriptPanel = new ScriptPanel(model, editing);
const editList = new EditList(model, editing);
const programme = new Programme(model, editing, status);
const thumbs = new Thumbs(model, programme, timeline);
const waves = new Waves(model, programme, thumbs);
const curves = new Curves(model, timeline, frames, player, status);
timeline.ondraw = () => {
  thumbs.soon();
  curves.soon();
};
const cutting = new Cutting(model, editing, status);
editing.cutting = cutting;
/** The lane that keys act on. */
const lane = () => (model.lane === "packets" ? timeline : programme);
const zooms = { in: () => lane().zoom(2), out: () => lane().zoom(0.5), all: () => lane().zoomAll() };
for (const [name, act] of Object.entries(zooms)) find(`zoom-${name}`).addEventListener("click", act);
new Adding(model, status);
const exporting = new Exporting(status);
new Cropping(model, cutting, viewer.picture, status);
editing.viewer = viewer;

// Panels

const tabs = [...document.querySelectorAll("[role=tab]")];
let panel = "findings";

function showPanel(name) {
  panel = name;
  for (const tab of tabs) {
    const isShown = tab.getAttribute("aria-controls") === name;
    tab.setAttribute("aria-selected", String(isShown));
    tab.tabIndex = isShown ? 0 : -1;
    find(tab.getAttribute("aria-controls")).hidden = !isShown;
  }
  packetFacts.soon();
  macroblocks.soon();
  fragment.soon();
}

tabs.forEach((tab, place) => {
  tab.addEventListener("click", () => showPanel(tab.getAttribute("aria-controls")));
  tab.addEventListener("keydown", (event) => {
    if (/Left|Right/.test(event.key)) walk(tabs, place, event, (other) => other.click());
  });
});

// The lane of packets is there unless the window is low.

function showPackets(isShown) {
  find("packets-lane").hidden = !isShown;
  find("packets-switch").setAttribute("aria-pressed", String(isShown));
  if (!isShown) model.activate("programme");
}

find("packets-switch").addEventListener("click", () => showPackets(find("packets-lane").hidden));
const isLow = matchMedia("(max-height: 560px)");
isLow.addEventListener("change", () => showPackets(!isLow.matches));
showPackets(!isLow.matches);

// The menu of other files

new Menu(find("export-more"), find("export-menu"));

// The address

const fragment = new Fragment(() => ({
  frame: model.frame,
  source: model.source,
  from: timeline.isAll ? undefined : timeline.window.from,
  scale: timeline.isAll ? undefined : timeline.window.scale,
  left: programme.isAll ? undefined : programme.window.from,
  zoom: programme.isAll ? undefined : programme.window.scale,
  view: viewer.picture.view,
  plane: viewer.picture.plane,
  size: viewer.picture.size,
  overlay: macroblocks.kind,
  panel,
}));
for (const one of [timeline, programme]) one.onview = () => fragment.soon();
macroblocks.onchange = () => fragment.soon();
for (const name of ["frame", "session"]) model.addEventListener(name, () => fragment.soon());
document.querySelector("#viewer .tools").addEventListener("click", () => fragment.soon());

// The head, and what is current

function writeFrame() {
  if (document.activeElement !== find("frame")) find("frame").value = model.aside ? "" : model.frame;
  if (!model.session) find("time").textContent = "";
  else if (model.aside) find("time").textContent = `packet ${model.aside.packet}, which no frame shows`;
  else find("time").textContent =
    `of ${model.frames.toLocaleString("en")} · ${timeText(model.frame, model.rate, model.times)}`;
}

function framesText(count) {
  return count === 1 ? "1 frame" : `${count.toLocaleString("en")} frames`;
}

function writeSelection() {
  const { range, selection } = model;
  const count = range ? range.end - range.first : 0;
  const mark = { begin: `In at frame ${range?.first}`, end: `Out at frame ${range?.first}` }[range?.mark];
  find("selection-text").textContent =
    mark ??
    (range ? `${framesText(count)} selected, ${range.first} to ${range.end - 1}, ${timeText(count, model.rate)}` : "");
  find("packets-text").textContent = selection ? `${packets(selection)} selected` : "";
}

// The file that has what is shown, and the revision that it is of.
let exported = null;
exporting.done = (name) => {
  exported = { name, revision: model.revision };
  writeHead();
};
const isExported = () => exported?.revision === model.revision;

function writeHead() {
  const { names, rate, script, saved, sources, saves, changing } = model.session;
  find("name").textContent = names[0];
  document.title = `${saved || isExported() ? "" : "• "}${names[0]} – Wokureti`;
  const facts = [
    `${model.session.packets.toLocaleString("en")} packets`,
    `${model.frames.toLocaleString("en")} frames`,
    `${(rate[0] / rate[1]).toFixed(3).replace(/\.?0+$/, "")} frames a second`,
  ];
  if (script !== "-") facts.push("with a script");
  find("facts").textContent = facts.join(" · ");
  find("saved").textContent = isExported() ? `exported to ${exported.name}` : savedText(model.session);
  find("saved").title = find("saved").textContent;
  find("save").title = script === "-"
    ? `A copy with all packets: ${saves[0].next}`
    : `A copy with all packets, ${saves[0].next}: the script is not in it`;
  find("export").title = changing
    ? `Node ${changing[0]}, ${changing[1]}, changes the picture: these frames are coded again, all others stay as ` +
      "they are"
    : "What is seen as a file, without coding again (Ctrl+S)";
  find("replace-source").hidden = sources.length < 2;
  if (find("source").options.length !== sources.length) {
    find("source").replaceChildren(...names.map((name, number) => new Option(`${number}: ${name}`, number)));
    find("source").value = model.source;
  }
}

model.addEventListener("session", () => {
  writeHead();
  writeFrame();
});
model.addEventListener("frame", writeFrame);
for (const name of ["selection", "range"]) model.addEventListener(name, writeSelection);
find("source").addEventListener("change", () => model.useSource(Number(find("source").value)).catch(() => {}));
model.addEventListener("session", () => (find("source").value = model.source));
find("frame").addEventListener("change", () => {
  const frame = frameOf(find("frame").value, model.frame, model.rate, model.times);
  if (frame === null) status.say("a frame is a number, as 120; a step, as -5; or a time, as 1:02.5 or 12.5");
  else model.go(frame).catch(() => {});
});
find("frame").addEventListener("keydown", (event) => {
  if (event.key === "Enter" || event.key === "Escape") find("frame").blur();
});
find("frame").addEventListener("blur", writeFrame);

// Playback

player.onchange = () => {
  find("play").setAttribute("aria-label", player.isPlaying ? "Stop" : "Play");
  find("play-path").setAttribute("d", player.isPlaying ? "M4 3h3v10H4zM9 3h3v10H9z" : "M4 3v10l9-5z");
  if (!player.isPlaying) find("playing").textContent = "";
};
let told = 0;
player.onframe = () => {
  const now = performance.now();
  if (now - told < 250) return;
  told = now;
  const speed = player.speed === 1 ? "" : `${player.speed} times, `;
  find("playing").textContent = `${speed}${player.measured.toFixed(1)} frames a second, ${player.dropped} dropped`;
};
find("play").addEventListener("click", () => player.toggle());
find("mark-in").addEventListener("click", () => cutting.mark(true));
find("mark-out").addEventListener("click", () => cutting.mark(false));
find("loop").addEventListener("click", () => {
  player.isLoop = !player.isLoop;
  find("loop").setAttribute("aria-pressed", String(player.isLoop));
  player.restart();
});
const moves = {
  first: () => model.goEnd(true),
  back: () => model.step(-1),
  forward: () => model.step(1),
  last: () => model.goEnd(false),
};
for (const [id, go] of Object.entries(moves)) find(id).addEventListener("click", () => go().catch(() => {}));

// Keys

const palette = {
  escape: () => {
    if (findings.shown) return findings.leave();
    model.selectFrames(null);
    return model.select(null);
  },
  sayPackets: () =>
    status.say(
      "This acts on packets, and frames are selected: press on the lane of packets first, or Esc to drop the selection",
    ),
  showKeys: () => find("keys").showModal(),
  fullScreen: () => (document.fullscreenElement ? document.exitFullscreen() : find("viewer").requestFullscreen()),
};
const list = keys.keysOf({ model, player, sound, lane, editing, findings, viewer, macroblocks, cutting, palette });
keys.write(list);
keys.listen(list, viewer.loupe, macroblocks);
find("help").addEventListener("click", palette.showKeys);
find("full").addEventListener("click", () => palette.fullScreen().catch((error) => status.say(error.message)));

// What the server says

// Files that the page offers: by an address, or made here.
for (const link of document.querySelectorAll("[data-file]")) {
  link.addEventListener("click", (event) => {
    if (engine.link(link.dataset.file, model.frame)) return;
    event.preventDefault();
    engine.offer(link.dataset.file, model.frame).catch((error) => notice(error.message, {
      isBad: true,
      id: "offered",
    }));
  });
}

let isLost = false;
let isReloading = false;
let restarts = null;

engine.changed((name, changes) => {
  if (name === "lost") {
    if (!isLost) notice(whenLost(), { isBad: true, id: "lost" });
    isLost = true;
    status.say("the server of this page does not answer");
    return;
  }
  if (name === "open") {
    if (isLost) status.say("the server answers again");
    withdraw("lost");
    isLost = false;
    meet().catch(() => {});
    return;
  }
  if (name === "restarted")
    notice("vp8serve ended. It was started again, and all edits are there.", { id: "restarted" });
  model.load(changes).catch((error) => status.say(error.message));
}, (found) => findings.heard(found));

/** Another server may have the address of the one that was ended: all is read again then. */
async function meet() {
  const known = model.session?.instance;
  if (!known) return;
  const { instance } = await engine.state();
  if (instance === known) return;
  isReloading = true;
  location.reload();
}

// What the server says without being asked.
let noticed = 0;
model.addEventListener("session", () => {
  for (const [number, text] of model.session.notices) {
    if (number > noticed) notice(text, { isBad: true });
    noticed = Math.max(noticed, number);
  }
});

// Until all headers are listed, no packet is known to be refused.
let isWaiting = false;
model.addEventListener("session", () => {
  if (model.session.listed || isWaiting) return;
  isWaiting = true;
  setTimeout(() => {
    isWaiting = false;
    model.load().catch((error) => status.say(error.message));
  }, 400);
});

addEventListener("beforeunload", (event) => {
  if (model.session && !model.session.saved && !isExported() && !isReloading) event.preventDefault();
});

async function begin() {
  writeLegend(find("legend"));
  markToolbars();
  model.frame = start.frame || 0;
  if (start.view) viewer.choose_view(start.view);
  if (start.plane) viewer.choose_plane(start.plane);
  if (start.size) viewer.choose_size(start.size);
  if (start.overlay) macroblocks.choose(start.overlay);
  if (start.panel && find(`tab-${start.panel}`)) showPanel(start.panel);
  // The first picture is asked for before anything else is known.
  frames.first(model.frame).then(
    (frame) => viewer.picture.now || viewer.picture.show(frame),
    () => {},
  );
  await model.load();
  restarts = model.session.restarts;
  if (start.source && start.source < model.session.sources.length) {
    await model.useSource(start.source);
  } else {
    await model.go(model.frame);
  }
  if (start.scale) timeline.setView(start.from || 0, start.scale);
  if (start.zoom) programme.setView(start.left || 0, start.zoom);
  fragment.soon();
  find("programme").focus({ focusVisible: false });
  status.say(restarts ? `vp8serve was started again ${restarts} times` : "ready");
  document.body.dataset.ready = "yes";
}

// For tests.
window.wokureti = {
  engine,
  model,
  frames,
  viewer,
  macroblocks,
  player,
  sound,
  timeline,
  editing,
  findings,
  editList,
  scriptPanel,
  cutting,
  thumbs,
  curves,
  programme,
  waves,
};
begin().catch((error) => {
  status.say(error.message);
  notice(error.message, { isBad: true });
});
