// The keys, and the list of them.

import { find, make } from "./elements.js";

/** Each key has names as `KeyboardEvent.key` has them, a text, and what it does. */
export function keysOf({ model, player, sound, lane, editing, findings, viewer, macroblocks, cutting, palette }) {
  const step = (count) => () => model.step(count);
  const playOn = (direction) => () => {
    const same = Math.sign(player.speed) === direction;
    return player.play(same ? Math.sign(player.speed) * Math.min(8, Math.abs(player.speed) * 2) : direction);
  };
  // What acts on packets does not act on the packet of the current frame while frames are selected.
  const packets = (act) => () => {
    if (model.range && !model.selection && model.lane === "programme") return palette.sayPackets();
    return act();
  };
  return [
    { keys: ["ArrowLeft"], show: "←", text: "back one frame", act: step(-1) },
    { keys: ["ArrowRight"], show: "→", text: "forward one frame", act: step(1) },
    {
      keys: ["Shift+ArrowLeft"],
      show: "Shift ←",
      text: "extend the selection to the left (on the picture: move the loupe, or to the next macroblock)",
      act: () => extend(model, -1),
    },
    {
      keys: ["Shift+ArrowRight"],
      show: "Shift →",
      text: "extend the selection to the right",
      act: () => extend(model, 1),
    },
    { keys: ["PageUp"], show: "Page Up", text: "back 10 frames", act: step(-10) },
    { keys: ["PageDown"], show: "Page Down", text: "forward 10 frames", act: step(10) },
    { keys: ["ArrowUp"], show: "↑", text: "the key frame before", act: () => model.goKey(-1) },
    { keys: ["ArrowDown"], show: "↓", text: "next key frame", act: () => model.goKey(1) },
    {
      keys: ["Shift+PageUp"],
      show: "Shift Page Up",
      text: "the cut before, where the script joins",
      act: () => model.goCut(-1),
    },
    { keys: ["Shift+PageDown"], show: "Shift Page Down", text: "next cut", act: () => model.goCut(1) },
    { keys: ["Home"], show: "Home", text: "first frame", act: () => model.goEnd(true) },
    { keys: ["End"], show: "End", text: "last frame", act: () => model.goEnd(false) },
    { keys: [" "], show: "Space", text: "play or stop", act: () => player.toggle() },
    { keys: ["j", "J"], show: "J", text: "play backward; again: faster", act: playOn(-1) },
    { keys: ["k", "K"], show: "K", text: "stop", act: () => player.stop() },
    { keys: ["l", "L"], show: "L", text: "play forward; again: faster", act: playOn(1) },
    { keys: ["u", "U"], show: "U", text: "the sound of playback on or off", act: () => sound.toggle() },
    { keys: ["i", "I"], show: "I", text: "In: the selected frames begin here", act: () => cutting.mark(true) },
    { keys: ["o", "O"], show: "O", text: "Out: the selected frames end here", act: () => cutting.mark(false) },
    {
      keys: ["Ctrl+a"],
      show: "Ctrl A",
      text: "select all frames, or in the lane of packets all packets",
      act: () => (model.lane === "packets" ? model.select(0, model.packets) : model.selectFrames(0, model.frames)),
    },
    {
      keys: ["Escape"],
      show: "Esc",
      text: "leave the preview, or drop In, Out and the selections",
      act: () => palette.escape(),
    },
    {
      keys: ["Delete", "Backspace"],
      show: "Delete",
      text: "cut the selected frames out; in the lane of packets: delete packets",
      act: () => (model.lane === "packets" ? editing.delete() : cutting.cutOut()),
    },
    {
      keys: ["h", "H"],
      show: "H",
      text: "packets: hold the picture before in their place",
      act: packets(() => editing.hold()),
    },
    { keys: ["d", "D"], show: "D", text: "packets: drop them, for empty packets", act: packets(() => editing.drop()) },
    { keys: ["e", "E"], show: "E", text: "keep the selected frames, and show no others", act: () => cutting.keep() },
    {
      keys: ["x", "X"],
      show: "X",
      text: "cut the selected frames out: no packet is changed",
      act: () => cutting.cutOut(),
    },
    {
      keys: ["v", "V"],
      show: "V",
      text: "show the selected frames before the current one",
      act: () => cutting.moveHere(),
    },
    {
      keys: ["r", "R"],
      show: "R",
      text: "fade, show black or a frame for a time, or join a source",
      act: () => cutting.more(),
    },
    { keys: ["Ctrl+c"], show: "Ctrl C", text: "copy packets", act: packets(() => editing.copy(false)) },
    { keys: ["Ctrl+x"], show: "Ctrl X", text: "copy packets, to move them", act: packets(() => editing.copy(true)) },
    { keys: ["Ctrl+v"], show: "Ctrl V", text: "insert these before the current packet", act: () => editing.paste() },
    { keys: ["Ctrl+z"], show: "Ctrl Z", text: "undo", act: () => editing.undo() },
    { keys: ["Ctrl+Shift+Z", "Ctrl+Shift+z", "Ctrl+y"], show: "Ctrl Shift Z", text: "redo", act: () => editing.redo() },
    {
      keys: ["Ctrl+s", "Ctrl+e"],
      show: "Ctrl S",
      text: "export what is seen as a file",
      act: () => find("export").click(),
    },
    {
      keys: ["Ctrl+Shift+S", "Ctrl+Shift+s"],
      show: "Ctrl Shift S",
      text: "save the packets as they are",
      act: () => editing.save(),
    },
    { keys: ["+", "="], show: "+", text: "zoom in", act: () => lane().zoom(2) },
    { keys: ["-"], show: "−", text: "zoom out", act: () => lane().zoom(0.5) },
    { keys: ["0"], show: "0", text: "all of the lane", act: () => lane().zoomAll() },
    { keys: ["1"], show: "1 2 3 4", text: "frame, pair, split, difference", act: () => viewer.choose_view("frame") },
    { keys: ["2"], act: () => viewer.choose_view("pair") },
    { keys: ["3"], act: () => viewer.choose_view("split") },
    { keys: ["4"], act: () => viewer.choose_view("difference") },
    { keys: ["f", "F"], show: "F", text: "fit the picture", act: () => viewer.choose_size("fit") },
    { keys: ["w", "W"], show: "W", text: "the picture on the whole screen", act: () => palette.fullScreen() },
    { keys: ["p", "P"], show: "P", text: "the loupe", act: () => viewer.loupe.toggle() },
    { keys: ["m", "M"], show: "M", text: "the overlay of macroblocks", act: () => macroblocks.toggle() },
    {
      keys: ["n"],
      show: "N",
      text: "next frame that differs; with Shift the one before",
      act: () => viewer.nextDifference(1),
    },
    { keys: ["N", "Shift+N"], act: () => viewer.nextDifference(-1) },
    { keys: ["."], show: ".", text: "next finding", act: () => findings.go(1) },
    { keys: [","], show: ",", text: "the finding before", act: () => findings.go(-1) },
    {
      keys: ["g", "G"],
      show: "G",
      text: "type a frame: a number, a step as -5, or a time as 1:02.5",
      act: () => find("frame").select(),
    },
    { keys: ["?"], show: "?", text: "this list", act: () => palette.showKeys() },
  ];
}

/** The name of the key of an event. */
export function nameOf(event) {
  const isCommand = event.ctrlKey || event.metaKey;
  const isNamed = event.key.length > 1;
  return `${isCommand ? "Ctrl+" : ""}${event.shiftKey && (isNamed || isCommand) ? "Shift+" : ""}${event.key}`;
}

/** Whether an element takes the key itself. */
export function takes(element, name) {
  // A text that is selected on the page is copied as a text.
  if (name === "Ctrl+c" && !getSelection().isCollapsed) return true;
  if (!element || element === document.body) return false;
  if (element.closest("dialog")) return true;
  const isText = element.matches("textarea, input:not([type=file])");
  if (isText) return !["Ctrl+s", "Ctrl+e", "Ctrl+Shift+S", "Escape"].includes(name);
  if (element.matches("select")) return !name.startsWith("Ctrl+");
  if (element.matches("button, a")) return name === " " || name === "Enter";
  return false;
}

export function listen(keys, loupe, macroblocks) {
  const byName = new Map(keys.flatMap((key) => key.keys.map((name) => [name, key])));
  document.addEventListener("keydown", (event) => {
    const name = nameOf(event);
    if (event.altKey || event.defaultPrevented || takes(event.target, name)) return;
    const moves = {
      "Shift+ArrowLeft": [-1, 0],
      "Shift+ArrowRight": [1, 0],
      "Shift+ArrowUp": [0, -1],
      "Shift+ArrowDown": [0, 1],
    }[name];
    const moved = loupe.isOn ? loupe : macroblocks.isPanel ? macroblocks : null;
    if (moved && moves && event.target.id === "stage") {
      event.preventDefault();
      moved.move(...moves);
      return;
    }
    const key = byName.get(name);
    if (!key) return;
    event.preventDefault();
    Promise.resolve(key.act()).catch(() => {});
  });
}

/** Writes the list of keys. */
export function write(keys) {
  const body = find("keys").querySelector("tbody");
  body.replaceChildren();
  for (const { show, text } of keys) {
    if (!show) continue;
    const row = body.insertRow();
    const cell = row.insertCell();
    show.split(" ").forEach((part, place) => cell.append(place ? " " : "", make("kbd", { textContent: part })));
    row.insertCell().textContent = text;
  }
}

/** Moves on by an item of the lane that is active, and the end of its selection with it. */
export function extend(model, step) {
  const isPackets = model.lane === "packets";
  const [here, count, selection] = isPackets
    ? [model.packet, model.packets, model.selection]
    : [model.frame, model.frames, model.range];
  const next = Math.max(0, Math.min(count - 1, here + step));
  let { first, end } = selection || { first: here, end: here + 1 };
  if (here === end - 1 && (step > 0 || end - first > 1)) end = next + 1;
  else first = Math.min(next, end - 1);
  if (isPackets) model.select(first, end);
  else model.selectFrames(first, end);
  return isPackets ? model.goPacket(next) : model.go(next);
}
