// The desk: what its parts say to each other.
import { follow, get, post } from "./api.js";
import { drawMeter, drawMix, drawOverview, drawTakes, fittingHeight, learnColors, takesHeight } from "./draw.js";
import * as edits from "./edits.js";
import { KEYS, listenTo, STEPS } from "./keys.js";
import { change, done, dropTakenUp, heard, keepTakenUp, load, model, ordered, redo, refresh, save, say, sayBy, select, setCursor, setRange, takeOther, told, undo } from "./model.js";
import { make, showClip, showClips, showLevels, showMarks, showMaster } from "./panels.js";
import { hear, play, player, stop, warm } from "./player.js";
import { cancel, isDragging, listen, showAll, showRange, zoom } from "./pointer.js";
import { blockFor, forget, isWhole, redrawBy } from "./tiles.js";
import { clock, decibels, grouped, level, parsed } from "./times.js";
import { repaint } from "./waves.js";

const $ = name => document.querySelector(name);
const [mix, takes, overview] = ["#mix", "#takes", "#overview"].map($);
const AROUND = 1; // seconds before and after a cut
const MOST_MOVE = 100_000; // us that cuts may move
const stale = new Set(["mix", "takes", "overview"]);
const LANES = { mix, takes, overview };
let isWaiting = false;
let lines = [];

const DRAWS = { mix: () => drawMix(mix), takes: () => drawTakes(takes), overview: () => drawOverview(overview), meter };

// All lanes are drawn anew, with what doesn't move.
function repaintAll() {
  for (const it of Object.values(LANES)) repaint(it);
  redraw(...Object.keys(LANES));
}

// Waves came whose columns are that wide: lanes that show such are drawn anew.
function repaintBy(block) {
  const whole = { per: Math.max(model.length, 1) / Math.max(overview.clientWidth, 1) };
  const views = { ...model.views, overview: whole };
  for (const [name, canvas] of Object.entries(LANES)) {
    if (blockFor(views[name].per / model.about.factor) !== block) continue;
    repaint(canvas);
    redraw(name);
  }
  redraw("mix");
}

function redraw(...what) {
  for (const it of what) stale.add(it);
  if (isWaiting || !model.state) return;
  isWaiting = true;
  requestAnimationFrame(drawNow);
}

function drawNow() {
  isWaiting = false;
  const now = [...stale];
  stale.clear();
  for (const it of now) DRAWS[it]();
  if (isWhole() && !document.documentElement.dataset.waves) {
    document.documentElement.dataset.waves = "yes"; // for tests: all waves in sight are drawn
    performance.mark("waves");
  }
}

// Messages.

let quiet = null;
function message(text, isBad = false) {
  clearTimeout(quiet);
  const away = make("button", { type: "button", "aria-label": "close", onclick: () => $("#notes").replaceChildren() }, "✕");
  $("#notes").replaceChildren(make("p", { class: isBad ? "bad" : "" }, text, away));
  if (!isBad) quiet = setTimeout(() => $("#notes").replaceChildren(), 6000);
}
sayBy(message);

function ask(text, ...answers) {
  const rows = answers.map(([name, act]) => make("button", { type: "button", onclick: act }, name));
  $("#question").replaceChildren(make("span", {}, text), ...rows);
  $("#question").hidden = false;
}

let told_ = 0;
function questions() {
  const { state } = model;
  for (const it of state.notes.slice(told_)) message(it);
  told_ = state.notes.length;
  $("#question").hidden = true;
  if (state.outside) {
    const later = ["Keep mine, and write it over", () => save(true)];
    const text = `${state.outside}. What you did here isn't saved.`;
    ask(state.outside.includes(": ") || state.outside.includes("gone") ? state.outside : text, ["Take the other text, drop mine", () => takeOther()], later);
  } else if (state.taken_up) {
    const changes = state.taken_up === 1 ? "1 change that nobody saved was" : `${state.taken_up} changes that nobody saved were`;
    ask(`${changes} taken up from the journal.`, ["Keep them", () => keepTakenUp()], ["Drop them", () => dropTakenUp()]);
  }
}

// What is shown.

function showState() {
  const { state } = model;
  $("#name").textContent = state.name;
  document.title = `${state.saved ? "" : "• "}${state.name} — dsdarc desk`;
  $("#saved").textContent = state.saved ? "saved" : state.is_new && !state.undo ? "new" : "not saved";
  for (const [name, label] of [["undo", state.undo], ["redo", state.redo]]) {
    const button = $(`#${name}`);
    button.disabled = label === null;
    button.title = label ? `${name} ${label}` : "";
    button.setAttribute("aria-label", label ? `${name} ${label}` : name);
  }
  $("#save").disabled = state.saved || !model.clips.size;
  $("#make").disabled = $("#predict").disabled = !model.clips.size || state.make.running;
  const master = $("[name=heard][value=master]");
  master.disabled = !state.made?.is_current;
  if (master.disabled && player.which === "master") {
    hear("mix");
    $("[name=heard][value=mix]").checked = true;
  }
  questions();
  showMaster(actions);
}

function showWhere() {
  const { lane, bit } = model.playing ?? model.cursor;
  const { rate, takes: all } = model.about;
  const where = lane === "mix" ? "mix" : `take ${Number(lane.slice(5)) + 1}`;
  const length = lane === "mix" ? model.length : all[Number(lane.slice(5))].bits;
  $("#where").textContent = `${where} ${clock(bit, rate, 6)} of ${clock(length, rate)} · bit ${grouped(Math.round(bit))}`;
}

function meter() {
  drawMeter($("#meter-bars"), player.levels, player.held);
  const most = Math.max(0, ...player.held);
  $("#meter-text").textContent = level(player.isOn && most > 0 ? decibels(most) : null);
  $("#meter").setAttribute("aria-valuenow", String(Math.max(-60, Math.min(0, Math.round(decibels(most) || -60)))));
}

let spoken = null;
function speak() {
  clearTimeout(spoken);
  spoken = setTimeout(() => ($("#said").textContent = $("#where").textContent), 400);
}

// If all of the mix was in sight, it still is when the mix gets longer.
let before = null;
const inSight = length => model.views.mix.from <= 0 && model.views.mix.from + mix.clientWidth * model.views.mix.per >= length;
function keepInSight() {
  const isFirst = before === 0 && model.length > 0;
  if (isFirst || (before !== null && inSight(before) && !inSight(model.length))) showAll("mix", mix.clientWidth);
  before = model.length;
}

// Says that a making ended, once its result is there, and shows its files.
let wasRunning = false;
function sayMade() {
  const { make: now, made } = model.state;
  const isMade = wasRunning && !now.running && now.done && !now.predicts && made;
  wasRunning = now.running;
  if (!isMade) return;
  message(made.accepted && made.checked ? `The master is made and accepted. It is in ${made.folder}` : "The master is made, and rejected.", !made.accepted);
  $("#files").scrollIntoView({ block: "center" });
}

const SHOWS = {
  state: () => {
    keepInSight();
    showState();
    sayMade();
    showClips();
    showClip();
    showMarks();
    showWhere();
    repaintAll();
  },
  clips: () => {
    showClips();
    showClip();
    repaintAll();
  },
  selection: () => {
    showClips();
    showClip();
    repaint(mix);
    redraw("mix");
  },
  cursor: () => {
    showWhere();
    if (document.activeElement === mix || document.activeElement === takes) speak();
    redraw("mix", "takes", "overview");
  },
  range: () => {
    showLevels();
    redraw("mix", "takes");
  },
  view: () => redraw("mix", "takes", "overview"),
  heard: () => {
    showWhere();
    follow_();
    redraw("mix", "takes", "overview", "meter");
  },
  playing: () => {
    const button = $("#play");
    button.textContent = player.isOn ? "Stop" : "Play";
    button.setAttribute("aria-pressed", String(player.isOn));
    showWhere();
    redraw("mix", "takes", "overview", "meter");
  },
};
heard(what => SHOWS[what]());

// The lane goes along with what is heard.
function follow_() {
  if (!model.playing || isDragging()) return;
  const name = model.playing.lane === "mix" ? "mix" : "takes";
  const view = model.views[name];
  const width = (name === "mix" ? mix : takes).clientWidth * view.per;
  const { bit } = model.playing;
  if (bit > view.from + width || bit < view.from) view.from = Math.max(bit - width * 0.05, 0);
}

// What is done.

const lengthOf = lane => (lane === "mix" ? model.length : model.about.takes[Number(lane.slice(5))].bits);

function playHere() {
  if (player.isOn) return stop();
  const loop = $("#loop").checked && model.range;
  if (loop) return playRange();
  let { lane, bit } = model.cursor;
  const { range } = model;
  if (range?.lane === lane && range.from === bit) return play(lane, bit, range.to);
  if (bit >= lengthOf(lane)) bit = 0;
  if (!lengthOf(lane)) return message("The mix is empty: put a part of a take into it.", true);
  play(lane, bit, lengthOf(lane));
}

function playRange() {
  if (!model.range) return message("Select a range first.", true);
  const { lane } = model.range;
  play(lane, model.range.from, model.range.to, () => (model.range?.lane === lane ? model.range : null));
}

export function hearCut(bit) {
  const around = AROUND * model.about.rate;
  setCursor("mix", bit);
  reveal();
  play("mix", Math.max(bit - around, 0), Math.min(bit + around, model.length));
}

function cut(by) {
  const all = edits.cuts();
  const found = by > 0 ? all.find(it => it > model.place) : all.findLast(it => it < model.place);
  if (found === undefined) return message("There is no cut further on.");
  hearCut(found);
}

// The cursor stays in sight.
function reveal() {
  const name = model.cursor.lane === "mix" ? "mix" : "takes";
  const view = model.views[name];
  const width = (name === "mix" ? mix : takes).clientWidth * view.per;
  const { bit } = model.cursor;
  if (bit < view.from || bit > view.from + width) view.from = Math.max(bit - width / 2, -0.1 * width);
  told("view");
}

async function saveNow() {
  await done();
  if (!model.clips.size) return message("The mix is empty: put a part of a take into it.", true);
  if (!model.state.saved || model.state.outside) save();
}

// By how much cuts may move, in us; null if that is no time.
function moving() {
  if (!$("#may-move").checked) return 0;
  const bits = parsed($("#move").value, model.about.rate);
  const found = bits === null ? null : Math.round((bits * 1e6) / model.about.rate);
  return found !== null && found > 0 && found <= MOST_MOVE ? found : null;
}

async function start(what) {
  const move = moving();
  if (move === null) return message(`Cuts move by up to a time such as 1 ms, at most 100 ms; “${$("#move").value}” is none.`, true);
  lines = [];
  try {
    await post(what, { move });
    wasRunning = true;
    await refresh();
    $("#master").scrollIntoView({ block: "nearest" });
  } catch (error) {
    message(error.message, true);
  }
}

async function makeMaster() {
  await done();
  if (!model.clips.size) return saveNow();
  if (model.state.make.running) return message("A master is being made.", true);
  if (!model.state.saved) await save();
  await done();
  if (model.state.saved) start("make");
}

async function predict() {
  await done();
  start("predict");
}

function pause() {
  const bits = parsed($("#pause-time").value, model.about.rate);
  if (!bits) return message(`A pause is a time such as 2 s or 1:30; “${$("#pause-time").value}” is none.`, true);
  edits.pause(bits);
}

const actions = { stop: () => post("stop").then(() => refresh()), hear: hearCut, lines: () => lines.join("\n") };

function help() {
  const close = make("button", { type: "button", autofocus: true, onclick: () => $("#help").close() }, "Close");
  const rows = KEYS.map(([keys, what]) => make("tr", {}, make("th", { scope: "row" }, make("kbd", {}, keys)), make("td", {}, what)));
  const steps = make("ol", {}, ...STEPS.map(it => make("li", {}, it)));
  $("#help").replaceChildren(close, make("h2", { id: "help-head" }, "From takes to a master"), steps, make("h2", {}, "Keys"), make("table", {}, make("tbody", {}, ...rows)));
  $("#help").showModal();
}

const active = () => (document.activeElement === takes || model.cursor.lane !== "mix" ? "takes" : "mix");
const canvasOf = name => (name === "mix" ? mix : takes);

function step(event) {
  return event.altKey ? 1 : (event.shiftKey ? 10 : 1) * model.views[active()].per;
}

function laneCursor(by) {
  const lane = document.activeElement === takes && model.cursor.lane === "mix" ? `take-${model.take}` : document.activeElement === mix ? "mix" : model.cursor.lane;
  const bit = model.cursor.lane === lane ? model.cursor.bit : lane === "mix" ? model.place : 0;
  setCursor(lane, by === -Infinity ? 0 : by === Infinity ? lengthOf(lane) : Math.min(bit + by, lane === "mix" ? Infinity : lengthOf(lane)));
  reveal();
}

function otherTake(by) {
  if (document.activeElement !== takes) return false;
  const number = Math.max(0, Math.min(model.take + by, model.about.takes.length - 1));
  const bit = model.cursor.lane === "mix" ? 0 : model.cursor.bit;
  setCursor(`take-${number}`, Math.min(bit, model.about.takes[number].bits));
  return true;
}

let mark = null;
function rangeFrom() {
  mark = { ...model.cursor };
  message(`The range begins at ${clock(mark.bit, model.about.rate)}.`);
}
function rangeTo() {
  if (!mark || mark.lane !== model.cursor.lane) mark = { lane: model.cursor.lane, bit: 0 };
  setRange({ lane: mark.lane, from: mark.bit, to: model.cursor.bit });
}

function neighbour(by) {
  const all = ordered();
  if (!all.length) return;
  const now = all.findIndex(it => model.selected.has(it));
  const number = all[Math.max(0, Math.min(now < 0 ? (by > 0 ? 0 : all.length - 1) : now + by, all.length - 1))];
  select([number]);
  setCursor("mix", model.clips.get(number).at);
  reveal();
}

// Puts a part of a take where the cursor was last in the mix, or at the end if that is inside of a clip.
function insert() {
  const { place, length } = model;
  const isFree = ![...model.clips.values()].some(it => it.at < place && place < it.at + it.length);
  const wasInSight = inSight(length);
  edits.insert(isFree ? place : length);
  if (!wasInSight) reveal();
}

const BINDINGS = {
  space: playHere,
  "shift space": playRange,
  a: () => {
    const master = $("[name=heard][value=master]");
    if (master.disabled) return message("There is no master of this mix yet.", true);
    const which = player.which === "mix" ? "master" : "mix";
    $(`[name=heard][value=${which}]`).checked = true;
    hear(which);
  },
  arrowleft: event => laneCursor(-step(event)), arrowright: event => laneCursor(step(event)),
  "shift arrowleft": event => laneCursor(-step(event)), "shift arrowright": event => laneCursor(step(event)),
  "alt arrowleft": event => laneCursor(-step(event)), "alt arrowright": event => laneCursor(step(event)),
  arrowup: () => otherTake(-1), arrowdown: () => otherTake(1),
  home: () => laneCursor(-Infinity), end: () => laneCursor(Infinity),
  "[": rangeFrom, "]": rangeTo,
  "+": () => zoomBy(1 / 1.5), "=": () => zoomBy(1 / 1.5), "-": () => zoomBy(1.5), 0: () => showAll(active(), canvasOf(active()).clientWidth),
  z: () => model.range && showRange(model.range, canvasOf(model.range.lane === "mix" ? "mix" : "takes").clientWidth),
  enter: insert, i: insert,
  ",": event => edits.move(-Math.round(step(event))), ".": event => edits.move(Math.round(step(event))),
  "alt ,": () => edits.move(-1), "alt .": () => edits.move(1),
  "<": () => edits.move(-Math.round(10 * model.views.mix.per)), ">": () => edits.move(Math.round(10 * model.views.mix.per)),
  n: () => neighbour(1), p: () => neighbour(-1),
  s: edits.split, j: edits.join, f: edits.fade, x: edits.crossfade, g: edits.point, "shift p": pause,
  delete: edits.removeChosen, backspace: edits.removeChosen,
  "ctrl z": undo, "ctrl y": redo, "ctrl shift z": redo, "ctrl s": saveNow, "ctrl enter": makeMaster,
  "?": help,
};

function zoomBy(times) {
  const name = active();
  const canvas = canvasOf(name);
  const view = model.views[name];
  const x = (model.cursor.bit - view.from) / view.per;
  zoom(name, times, x >= 0 && x <= canvas.clientWidth ? x : canvas.clientWidth / 2, canvas.clientWidth);
}

// Tab goes from cut to cut in a lane; after Escape it leaves the lane, as everywhere.
let isLeaving = false;
function bindings(name, event) {
  if (name === "escape") {
    isLeaving = true;
    if (!cancel()) {
      select([]);
      setRange(null);
    }
    return true;
  }
  if (name === "tab" || name === "shift tab") {
    if (document.activeElement !== mix || isLeaving || !model.clips.size) return false;
    cut(name === "tab" ? 1 : -1);
    return true;
  }
  isLeaving = false;
  const act = BINDINGS[name];
  if (!act || !model.state) return false;
  return act(event) !== false;
}

function tall(times) {
  model.tall = Math.max(1, Math.min(model.tall * times, 256));
  isFitted = true;
  message(`Waves are drawn ${model.tall === 1 ? "as they are" : `${model.tall} times as high as they are`}.`);
  repaintAll();
}

// Quiet takes are drawn higher from the start.
let isFitted = false;
function fit() {
  if (isFitted) return;
  const { takes: all } = model.about;
  isFitted = all.every(it => it.done >= it.frames && it.peak !== null);
  model.tall = fittingHeight();
}

function buttons() {
  const clicks = {
    undo, redo, save: saveNow, make: makeMaster, keys: help, play: playHere, previous: () => cut(-1), next: () => cut(1),
    in: () => zoom("mix", 1 / 1.5, mix.clientWidth / 2, mix.clientWidth), out: () => zoom("mix", 1.5, mix.clientWidth / 2, mix.clientWidth),
    all: () => showAll("mix", mix.clientWidth), "to-selection": () => BINDINGS.z() ?? (model.range || message("Select a range first.", true)),
    lower: () => tall(0.5), taller: () => tall(2),
    "take-in": () => zoom("takes", 1 / 1.5, takes.clientWidth / 2, takes.clientWidth), "take-out": () => zoom("takes", 1.5, takes.clientWidth / 2, takes.clientWidth),
    "take-all": () => showAll("takes", takes.clientWidth), insert, split: edits.split, join: edits.join, fade: edits.fade, cross: edits.crossfade, point: edits.point,
    pause, delete: edits.removeChosen, predict,
  };
  for (const [name, act] of Object.entries(clicks)) {
    // After a click by the mouse the space bar plays, and doesn't press the button again.
    const lane = name.startsWith("take-") ? takes : mix;
    $(`#${name}`).addEventListener("click", event => {
      act();
      if (event.detail && name !== "keys") lane.focus({ preventScroll: true });
    });
  }
  for (const it of document.querySelectorAll("[name=heard]")) it.addEventListener("change", () => hear(it.value));
  $("#pause-time").addEventListener("keydown", event => event.key === "Enter" && pause());
  $("#move").addEventListener("input", () => ($("#may-move").checked = true));
  $("#clip").addEventListener("submit", event => event.preventDefault());
}

// What the server tells.

let soon = null;
const later = () => {
  clearTimeout(soon);
  soon = setTimeout(() => refresh().catch(() => {}), 30);
};

function news(it) {
  if (it.line !== undefined) {
    lines.push(it.line);
    const shown = $("#lines");
    if (shown) shown.textContent = lines.join("\n");
  } else if (it.peaks) {
    const { source, done: now, peak, why } = it.peaks;
    if (source !== "master") {
      const take = model.about.takes[Number(source.slice(5))];
      Object.assign(take, { done: now, peak });
      fit();
      if (why) message(`${take.name}: ${why}`, true);
    }
    forget(source);
    repaintAll();
  } else if (it.make) {
    model.state.make = it.make;
    if (!it.make.running) forget("master");
    showState();
    if (!it.make.running) later();
  } else if (it.changed !== undefined) later();
}

async function listenOn() {
  let isFirst = true;
  for (;;) {
    try {
      if (!isFirst) {
        await refresh(true);
        lines = (await get("lines")).lines;
        message("The desk answers again.");
      }
      isFirst = false;
      await follow(news);
    } catch (error) {
      if (error.status === 403) return message("This address is of a desk that was closed: open the new one.", true);
    }
    message("The desk doesn't answer. What you did is in its journal; this page goes on once it is there again.", true);
    await new Promise(go => setTimeout(go, 1000));
  }
}

// What was in sight as a whole still is when the window gets narrower, and fills it when it gets wider.
const widths = { mix: 0, takes: 0 };
function keepWhole(name, length) {
  const view = model.views[name];
  const width = canvasOf(name).clientWidth;
  const span = widths[name] * view.per;
  const wasWhole = view.from <= 0 && view.from + span >= length;
  const fits = view.from + width * view.per >= length;
  if (length && span && width !== widths[name] && wasWhole && (!fits || span < 1.06 * length)) showAll(name, width);
  widths[name] = width;
}

function sizes() {
  takes.style.height = `${takesHeight()}px`;
  keepWhole("mix", model.length);
  keepWhole("takes", Math.max(...model.about.takes.map(it => it.bits)));
  repaintAll();
  redraw("meter");
}

async function begin() {
  learnColors();
  redrawBy(repaintBy);
  buttons();
  listen(mix, takes, overview);
  listenTo(bindings);
  for (const it of ["pointerdown", "keydown"]) addEventListener(it, () => model.about && warm(), { once: true, capture: true });
  try {
    const printed = get("lines");
    await load();
    ({ lines } = await printed);
  } catch (error) {
    return message(error.message, true);
  }
  fit();
  sizes();
  showAll("mix", mix.clientWidth);
  showAll("takes", takes.clientWidth);
  showState();
  new ResizeObserver(sizes).observe($("#lanes"));
  matchMedia("(prefers-color-scheme: dark)").addEventListener("change", () => {
    learnColors();
    sizes();
  });
  const move = model.state.made?.move;
  if (move) {
    $("#may-move").checked = true;
    $("#move").value = `${move / 1000} ms`;
  }
  drawNow(); // asks for waves before the browser shows its first picture
  document.documentElement.dataset.ready = "yes";
  listenOn();
}

// For tests, and for the curious.
window.desk = { model, player, change, edits, say };
begin();
