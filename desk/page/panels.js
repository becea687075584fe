// What is beside the lanes: the selected clip, the list of clips, levels, marks, and the master.
import { get } from "./api.js";
import { drawSpectrum, loudest, residualColor } from "./draw.js";
import { STEPS as STEPS_FIRST } from "./keys.js";
import { removePoint, trimmed } from "./edits.js";
import { change, clip, model, ordered, say, select, setCursor, told } from "./model.js";
import { byHand, curved, settled } from "./overlaps.js";
import { CURVES, isFlat, isLevel, lineOf, linesOf, NAMES, withEach, withLine, withOne } from "./shapes.js";
import { clock, decibels, FULL, gainOf, grouped, lasting, level, levelOf, parsed } from "./times.js";

const $ = name => document.querySelector(name);
const MOST_GAIN = 2 ** 26;
const MOST_SHOWN = 40; // points of a line

// An element with attributes and what is inside; texts stay texts.
export function make(tag, attributes = {}, ...inside) {
  const made = document.createElement(tag);
  for (const [key, it] of Object.entries(attributes)) {
    if (key.startsWith("on")) made.addEventListener(key.slice(2), it);
    else if (it === true) made.setAttribute(key, "");
    else if (it !== false && it !== null && it !== undefined) made.setAttribute(key, it);
  }
  made.append(...inside.filter(it => it !== null && it !== undefined));
  return made;
}

// A name that keeps its direction of writing to itself.
const apart = name => `\u2068${name}\u2069`;

export function nameOfClip(it, number) {
  const { rate } = model.about;
  const parts = [`${clock(it.at, rate)} to ${clock(it.at + it.length, rate)}`, apart(model.about.takes[it.take].name)];
  if (it.title) parts.unshift(`“${apart(it.title)}”`);
  for (const side of ["in", "out"]) if (it[side]) parts.push(`${it.overlap?.[side] === undefined ? "fade" : "crossfade"} ${side} ${lasting(it[side][0], rate)}`);
  if (it.gains) parts.push("levels of its channels");
  const most = Math.max(...linesOf(it).map(line => (isFlat(line) ? 0 : line.length)));
  if (most) parts.push(`${most} gain points`);
  else if (!it.gains && it.line[0][1] !== FULL) parts.push(`${levelOf(it.line[0][1])} dB`);
  return `${number}. ${parts.join(", ")}`;
}

export function showClips() {
  const list = $("#clips");
  const rows = ordered().map((number, at) => {
    const pressed = String(model.selected.has(number));
    const choose = event => select(event.shiftKey || event.ctrlKey ? [...new Set([...model.selected, number])] : [number]);
    return make("li", {}, make("button", { type: "button", "aria-pressed": pressed, onclick: choose, "data-clip": number }, nameOfClip(model.clips.get(number), at + 1)));
  });
  const focused = document.activeElement?.dataset?.clip;
  list.replaceChildren(...(rows.length ? rows : [make("li", { class: "hint" }, "The mix is empty.")]));
  if (focused) list.querySelector(`[data-clip="${focused}"]`)?.focus();
}

let asked = "";
export function showClip(isForced = false) {
  const form = $("#clip");
  const number = model.selected.size === 1 ? [...model.selected][0] : null;
  const it = number === null ? null : clip(number);
  const key = it ? JSON.stringify([number, it, model.channel]) : `${model.selected.size} of ${model.clips.size}`;
  if (key === asked && !isForced) return;
  if (form.contains(document.activeElement) && model.preview) return;
  asked = key;
  const focused = form.contains(document.activeElement) ? document.activeElement.id : null;
  if (!it) {
    const text = model.selected.size ? `${model.selected.size} clips are selected.` : "Select a clip in the mix, or in the list.";
    const steps = make("ol", { class: "hint wide", id: "steps" }, ...STEPS_FIRST.map(step => make("li", {}, step)));
    $("#clip-head").textContent = model.clips.size ? "Clip" : "From takes to a master";
    form.replaceChildren(model.clips.size ? make("p", { class: "hint wide" }, text) : steps);
    return;
  }
  $("#clip-head").textContent = "Clip";
  form.replaceChildren(...fields(number, it));
  if (focused) form.querySelector(`#${focused}`)?.focus();
}

function field(id, name, value, set, help) {
  const take = event => {
    const why = set(event.target.value);
    event.target.setAttribute("aria-invalid", String(Boolean(why)));
    if (why) say(why, true);
    else showClip(true);
  };
  const input = make("input", { type: "text", id, value, onchange: take, title: help, autocomplete: "off" });
  return [make("label", { for: id }, name), input];
}

function timeField(id, name, bits, set) {
  const { rate } = model.about;
  const digits = bits % (rate / 1000) === 0 ? 3 : 6;
  return field(id, name, clock(bits, rate, digits), text => {
    const found = parsed(text, rate);
    return found === null ? `${text} is no time such as 1:02.5, 20ms or @1000 for bit 1000` : set(found);
  }, "a time such as 1:02.5, 20ms, or @1000 for bit 1000");
}

function fades(number, it, side, name) {
  const { rate } = model.about;
  const now = it[side];
  const set = (bits, curve) => {
    const other = it[side === "in" ? "out" : "in"]?.[0] ?? 0;
    if (bits + other > it.length) return `The fades of a clip take no longer than the clip, ${lasting(it.length, rate)}.`;
    change(side === "in" ? "fade in" : "fade out", new Map([[number, byHand({ ...it, [side]: bits ? [bits, curve] : null }, side)]]));
  };
  const time = make("input", { type: "text", id: `fade-${side}`, value: now ? lasting(now[0], rate) : "0 ms", "aria-label": `${name}: time`, autocomplete: "off" });
  const curve = make("select", { id: `curve-${side}`, "aria-label": `${name}: curve`, disabled: !now }, ...Object.keys(CURVES).map(key => make("option", { value: key, selected: (now?.[1] ?? "s") === key }, NAMES[key])));
  time.addEventListener("change", () => {
    const bits = parsed(time.value, rate);
    const why = bits === null ? `${time.value} is no time such as 20ms` : set(bits, curve.value);
    if (why) say(why, true);
    else showClip(true);
  });
  curve.addEventListener("change", () => change("curve", curved(number, side, curve.value)));
  return [make("span", {}, name), make("span", { class: "two" }, time, curve)];
}

function fields(number, it) {
  const { rate, takes } = model.about;
  const put = (label, now) => void change(label, new Map([[number, now]]));
  const lay = (label, now) => void change(label, settled(new Map([[number, now]])));
  const bits = takes[it.take].bits;
  const rows = [
    make("p", { class: "wide hint" }, `${takes[it.take].name}, bits ${grouped(it.start)} to ${grouped(it.start + it.length)} of ${grouped(bits)}`),
    ...field("title", "title", it.title ?? "", text => {
      if (new TextEncoder().encode(text).length > model.about.most_title) return `A title has at most ${model.about.most_title} bytes.`;
      put("title", { ...it, title: text || null });
    }, "what begins here; the master gets a mark"),
    ...timeField("at", "at", it.at, at => lay("move 1 clip", { ...it, at })),
    ...timeField("start", "from", it.start, start => {
      if (start + it.length > bits) return "The take ends before that.";
      put("slip", { ...it, start });
    }),
    ...timeField("length", "length", it.length, length => {
      if (length < 1 || it.start + length > bits) return "The take isn't that long.";
      lay("trim the end", trimmed(it, "end", length - it.length));
    }),
  ];
  const edges = [];
  if (it.start === 0 && !it.in) edges.push("begins with the first bit");
  if (it.start + it.length === bits && !it.out) edges.push("ends with the last bit");
  if (edges.length) rows.push(make("p", { class: "wide hint", id: "edges" }, `It ${edges.join(" and ")} of its take, beyond which nothing is heard: that may click. Trim it by 5 ms there, or fade it.`));
  return [...rows, ...fades(number, it, "in", "fade in"), ...fades(number, it, "out", "fade out"), ...each(it, put), ...levels(number, it, put)];
}

// Whether each channel has a line of its own, and which of them is shown.
function each(it, put) {
  const { channels } = model.about;
  if (channels.length < 2) return [];
  model.channel = Math.min(model.channel, channels.length - 1);
  const set = event => put("levels of channels", event.target.checked ? withEach(it, channels.length) : withOne(it, model.channel));
  const found = [make("label", { class: "wide" }, make("input", { type: "checkbox", id: "each", checked: Boolean(it.gains), onchange: set }), "levels for each channel")];
  if (!it.gains) return found;
  const choose = event => {
    model.channel = Number(event.target.value);
    told("selection");
  };
  const options = channels.map((name, channel) => make("option", { value: channel, selected: channel === model.channel }, name));
  return [...found, make("label", { for: "channel" }, "channel"), make("select", { id: "channel", onchange: choose }, ...options)];
}

// The level of the line, or its points.
function levels(number, it, put) {
  const line = lineOf(it, model.channel);
  const set = (label, now) => put(label, withLine(it, model.channel, now));
  if (!isLevel(line)) return points(number, it, line, set);
  return field("level", "level, dB", levelOf(line[0][1]), text => {
    const gain = gainOf(text);
    if (gain === null || gain > MOST_GAIN) return `${text} is no level such as −3, off, or at most +12`;
    set("level", [[0, gain]]);
  }, "in dB, such as −3; off for silence");
}

// The points of a line of levels, each with its place and its level.
function points(number, it, line, set) {
  const { rate } = model.about;
  const found = [make("span", { class: "wide" }, `gain points: ${line.length}; times count from the start of the clip`)];
  const clear = make("button", { type: "button", class: "wide", onclick: () => set("level", [[0, FULL]]) }, "Take all points away");
  if (line.length > MOST_SHOWN) return [...found, clear];
  line.forEach(([place, gain], at) => {
    const replaced = row => set("gain point", line.map((other, place_) => (place_ === at ? row : other)));
    const [low, high] = [at ? line[at - 1][0] + 1 : 0, at + 1 < line.length ? line[at + 1][0] - 1 : it.length];
    const when = make("input", { type: "text", id: `place-${at}`, value: clock(place, rate), "aria-label": `time of gain point ${at + 1}`, autocomplete: "off" });
    when.addEventListener("change", () => {
      const now = parsed(when.value, rate);
      if (now !== null && now >= low && now <= high) return replaced([now, gain]);
      say(now === null ? `${when.value} is no time such as 2.5 or 20ms` : "The points of a line keep their order, and lie inside of the clip.", true);
      showClip(true);
    });
    const input = make("input", { type: "text", id: `point-${at}`, value: levelOf(gain), "aria-label": `level in dB of gain point ${at + 1}`, autocomplete: "off" });
    input.addEventListener("change", () => {
      const now = gainOf(input.value);
      if (now !== null && now <= MOST_GAIN) return replaced([place, now]);
      say(`${input.value} is no level such as −3`, true);
      showClip(true);
    });
    const away = make("button", { type: "button", "aria-label": `take gain point ${at + 1} away`, onclick: () => removePoint({ number, channel: model.channel, at }) }, "✕");
    found.push(make("span", { class: "wide point" }, when, input, away));
  });
  return [...found, clear];
}

// Levels of the selected range.

let wanted = 0;
export async function showLevels() {
  const mine = ++wanted;
  const range = model.range;
  const [text, canvas] = [$("#levels-text"), $("#spectrum")];
  if (!range) {
    text.textContent = "Select a range to see its levels and its spectrum.";
    canvas.hidden = true;
    return;
  }
  await new Promise(go => setTimeout(go, 200));
  if (mine !== wanted) return;
  const { factor, rate, channels } = model.about;
  const count = Math.max(Math.round((range.to - range.from) / factor), 1);
  try {
    const found = await get(`levels?source=${range.lane}&from=${Math.round(range.from / factor)}&count=${count}`);
    if (mine !== wanted) return;
    const rows = channels.map((name, at) => `${name}: peak ${level(found.peak[at] ?? null)}, RMS ${level(found.rms[at] ?? null)}`);
    const of = range.lane === "mix" ? "the mix" : model.about.takes[Number(range.lane.slice(5))].name;
    text.textContent = `${clock(range.from, rate)} to ${clock(range.to, rate)} of ${of}, ${lasting(range.to - range.from, rate)}. ${rows.join("; ")}${found.sampled ? ". Of some pieces, evenly spread." : "."}`;
    canvas.hidden = false;
    drawSpectrum(canvas, found.spectrum);
  } catch (error) {
    text.textContent = error.message;
    canvas.hidden = true;
  }
}

export function showMarks() {
  const rows = [];
  for (const number of ordered()) {
    const it = model.clips.get(number);
    if (it.title) rows.push([it.at, it.title]);
    for (const mark of model.about.takes[it.take].marks) if (mark.bit >= it.start && mark.bit < it.start + it.length) rows.push([it.at + mark.bit - it.start, mark.title || "mark"]);
  }
  rows.sort((a, b) => a[0] - b[0]);
  $("#marks-part").hidden = !rows.length;
  $("#marks").replaceChildren(...rows.map(([bit, title]) => make("li", {}, make("button", { type: "button", onclick: () => setCursor("mix", bit) }, `${clock(bit, model.about.rate)} ${title}`))));
}

// The master.

const SENTENCE = "Proved: a master that nulltest accepts differs audibly from its mix by at most the mix’s limit. At no judged place is the residual larger.";
const WORDS = { render: "new bits where the mix changes", edit: "the master, cut from takes and new bits", check: "whether it holds the takes’ bits", nulltest: "whether it sounds like the mix" };
const STEPS = Object.keys(WORDS);
const FILES = { ".moved.mix.toml": "mix with cuts that moved", ".dff": "master (DSDIFF)", ".dsf": "master (DSF)", ".cert": "certificate", ".mix.toml": "mix", ".report.txt": "report", ".toml": "project", ".new.dff": "take of new bits" };

export function showMaster(actions) {
  const { make: state, made, predicted, limit } = model.state;
  const parts = [];
  if (state.running) {
    const step = STEPS.indexOf(state.step);
    const text = state.predicts ? "What each cut will leave" : `Step ${step + 1} of ${STEPS.length}, ${state.step}: ${WORDS[state.step]}`;
    parts.push(make("p", { role: "status" }, text));
    parts.push(make("progress", { max: state.predicts ? 1 : STEPS.length, value: step + (state.part ?? 0), "aria-label": state.predicts ? "progress of the prediction" : "progress of the master" }));
    parts.push(make("button", { type: "button", id: "stop-making", onclick: actions.stop }, "Stop"));
  } else if (state.why) {
    const text = state.why === "stopped" ? "It was stopped." : state.predicts ? "No master can be made of it." : "No master was made.";
    parts.push(make("p", { class: "bad", id: "why", role: "alert" }, text));
    if (state.why !== "stopped") parts.push(make("pre", {}, state.why));
  }
  if (predicted && !made?.is_current) parts.push(...expected(predicted, limit, actions));
  if (made) parts.push(...result(made, limit, actions));
  if (!parts.length) parts.push(make("p", { class: "hint" }, `Make a master to see what each cut leaves. It is accepted if that is nowhere louder than ${level(limit)} to full scale.`));
  if (state.running || state.why || made) parts.push(make("details", {}, make("summary", {}, "What was printed"), make("pre", { id: "lines" }, actions.lines())));
  const isOpen = $("#master details")?.open;
  $("#master").replaceChildren(...parts);
  if (isOpen) $("#master details").open = true;
}

// What each cut leaves, or will leave, and by how much it moved.
function cutsTable(id, cuts, moves, head, actions) {
  const { rate } = model.about;
  const rows = cuts.map((it, number) => {
    const most = loudest(it);
    const patch = make("span", { class: "patch" });
    patch.style.background = residualColor(most);
    const go = make("button", { type: "button", "aria-label": `hear cut ${number + 1} at ${clock(it.first, rate)}`, onclick: () => actions.hear((it.first + it.last) / 2) }, clock(it.first, rate));
    const own = it.new ? `${it.why}; ${lasting(it.new[1] - it.new[0], rate)} of new bits` : it.why || "joined";
    const away = Math.max(0, ...moves.filter(move => move.first <= it.last && move.stop > it.first).map(move => Math.abs(move.us)));
    const moved = away ? `; moved by ${(away / 1000).toFixed(3)} ms` : "";
    return make("tr", {}, make("td", {}, go), make("td", {}, make("div", { class: "number" }, patch, level(most)), make("div", { class: "hint" }, own + moved)));
  });
  if (!rows.length) return [];
  return [make("table", { id }, make("thead", {}, make("tr", {}, ...["place", head].map(it => make("th", { scope: "col" }, it)))), make("tbody", {}, ...rows))];
}

function expected(predicted, limit, actions) {
  const { cuts, moves, move, share } = predicted;
  const most = cuts.map(loudest).reduce((sum, it) => (it !== null && (sum === null || it > sum) ? it : sum), null);
  const isQuiet = most === null || most <= limit;
  const moving = move ? ` if cuts may move by up to ${move / 1000} ms` : "";
  const text = ` — what is left will be at most ${level(most)}${moving}, and ${level(limit)} is allowed. ${share} % of the bits will be the takes’ own.`;
  const parts = [make("p", { class: isQuiet ? "good" : "bad", id: "predicted" }, make("strong", {}, isQuiet ? "predicted" : "too loud"), text)];
  if (!isQuiet) parts.push(make("p", { class: "hint" }, "Longer fades get quieter, and so do short ones if cuts may move."));
  return [...parts, ...cutsTable("expected", cuts, moves, "click that is expected, and what will be new", actions)];
}

const sized = bytes => (bytes < 1e3 ? `${bytes} bytes` : bytes < 1e5 ? `${(bytes / 1e3).toFixed(1)} kB` : `${(bytes / 1e6).toFixed(2)} MB`);

function result(made, limit, actions) {
  const parts = [];
  if (!made.is_current) parts.push(make("p", { class: "bad" }, "This master is of the mix as it was before: make it again."));
  const word = made.accepted && made.checked ? "accepted" : "rejected";
  parts.push(make("p", { class: made.accepted ? "good" : "bad", id: "verdict" }, make("strong", {}, word), ` — what is left is at most ${level(made.residual)}, and ${level(limit)} is allowed. ${made.share ?? 0} % of its bits are the takes’ own.`));
  if (made.accepted) parts.push(make("p", { class: "hint", id: "theorem" }, SENTENCE));
  if (made.move) parts.push(make("p", { class: "hint", id: "moved" }, movedText(made.moves)));
  const links = made.endings.map(it => make("li", {}, make("a", { href: `file/${it.slice(1)}`, download: true }, FILES[it] ?? it), ` ${sized(made.sizes[it])}`));
  parts.push(make("p", { class: "hint" }, `The files are in ${made.folder}`), make("ul", { id: "files" }, ...links));
  parts.push(...cutsTable("cuts", made.cuts, made.moves ?? [], "click, and what is new", actions));
  return parts;
}

// How many cuts moved. Their mix is another one than was asked for, by that much.
function movedText(moves) {
  if (!moves.length) return "No cut had to move.";
  const [count, most] = [new Set(moves.map(it => it.first)).size, Math.max(...moves.map(it => Math.abs(it.us)))];
  return `${count === 1 ? "1 cut" : `${count} cuts`} moved, by at most ${(most / 1000).toFixed(3)} ms. The master was judged by the mix that has them there.`;
}

export { decibels };
