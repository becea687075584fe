// The mouse, the pen and the finger on the lanes. A drag shows what it would do, and is one step when it ends; Escape and
// whatever else interrupts it leave all as it was.
import { channelAt, gainBox, gainOfY, gainY, HEAD, mixPlan, QUIETEST, RULER, takeHeight } from "./draw.js";
import { addPoint, insert, moved, places, removePoint, snapped, trimmed } from "./edits.js";
import { change, model, select, setCursor, setRange, shown, told } from "./model.js";
import { byHand, overlapping, settled } from "./overlaps.js";
import { envelope, gainAt, isLevel, lineOf, linesOf, withLine } from "./shapes.js";
import { clock, decibels, FULL, lasting, level } from "./times.js";

const EDGE = 7; // pixels
const MOVED = 4; // pixels after which a press is a drag
const SNAP = 9;
const LINE = 6; // pixels beside a line of levels that are on it
const TENTHS = 10; // of a decibel, to which levels are dragged
const MOST_PER = 2 ** 36 / 200;

let drag = null;
let mix, takes;
export const isDragging = () => drag !== null;

const bitAt = (view, x) => view.from + x * view.per;
const snap = bit => (document.querySelector("#snap").checked && drag ? snapped(bit, SNAP * model.views.mix.per, drag.places ??= places(drag.numbers)) : bit);

export function zoom(name, times, x, width) {
  const view = model.views[name];
  const bit = bitAt(view, x);
  const most = name === "mix" ? Math.max(model.length, model.about.rate) : Math.max(...model.about.takes.map(it => it.bits));
  view.per = Math.max(0.5, Math.min(view.per * times, Math.max((2 * most) / width, 1), MOST_PER));
  view.from = Math.max(bit - x * view.per, -0.1 * width * view.per);
  told("view");
}

export function scroll(name, pixels, width) {
  const view = model.views[name];
  view.from = Math.max(view.from + pixels * view.per, -0.1 * width * view.per);
  told("view");
}

export function showAll(name, width) {
  const most = name === "mix" ? model.length || 10 * model.about.rate : Math.max(...model.about.takes.map(it => it.bits));
  model.views[name] = { from: 0, per: Math.max((most * 1.04) / width, 0.5) };
  told("view");
}

export function showRange(range, width) {
  const name = range.lane === "mix" ? "mix" : "takes";
  const length = Math.max(range.to - range.from, 8);
  model.views[name] = { from: range.from - 0.05 * length, per: Math.max((1.1 * length) / width, 0.5) };
  told("view");
}

// What of the mix is at a point.
function hit(x, y, height) {
  const view = model.views.mix;
  if (y < RULER) return { what: "ruler" };
  const clips = shown();
  const plan = mixPlan(height, clips);
  for (const [number, it] of [...clips].reverse()) {
    if (!it) continue;
    const top = plan.top(number);
    if (y < top || y > top + plan.size - 3) continue;
    const x0 = (it.at - view.from) / view.per;
    const x1 = (it.at + it.length - view.from) / view.per;
    if (x < x0 - EDGE || x > x1 + EDGE) continue;
    const found = { number, it, channel: channelAt(it, y, top, plan.size) };
    if (model.selected.has(number)) {
      const xIn = x0 + (it.in?.[0] ?? 0) / view.per;
      const xOut = x1 - (it.out?.[0] ?? 0) / view.per;
      if (y < top + 12 && Math.abs(x - xIn) < EDGE) return { ...found, what: "in" };
      if (y < top + 12 && Math.abs(x - xOut) < EDGE) return { ...found, what: "out" };
      for (const [channel, line] of linesOf(it).entries()) {
        const box = gainBox(it, channel, top, plan.size);
        const at = isLevel(line) ? -1 : line.findIndex(([place, gain]) => Math.abs(x0 + place / view.per - x) < EDGE && Math.abs(gainY(gain / FULL, box) - y) < EDGE);
        if (at >= 0) return { ...found, what: "point", point: at, channel, box };
      }
    }
    if (Math.abs(x - x0) < EDGE) return { ...found, what: "start" };
    if (Math.abs(x - x1) < EDGE) return { ...found, what: "end" };
    if (x < x0 || x > x1) continue;
    const isOnLine = y >= top + HEAD && onLine(it, found.channel, gainBox(it, found.channel, top, plan.size), x - x0, y);
    return { ...found, isOnLine, what: y < top + HEAD ? "head" : "body" };
  }
  return { what: "nothing" };
}

// Whether a point of a clip is on its line of levels, as it is drawn, or without the fades.
function onLine(it, channel, box, x, y) {
  const { per } = model.views.mix;
  const places = [-3, 0, 3].map(by => Math.max(0, Math.min(Math.round((x + by) * per), it.length - 1)));
  const isNear = levels => {
    const rows = levels.map(found => gainY(found, box));
    return y > Math.min(...rows) - LINE && y < Math.max(...rows) + LINE;
  };
  return isNear(places.map(place => envelope(it, place, channel))) || isNear(places.map(place => gainAt(lineOf(it, channel), place) / FULL));
}

const CURSORS = { ruler: "text", in: "ew-resize", out: "ew-resize", start: "ew-resize", end: "ew-resize", point: "move", head: "grab", body: "default", nothing: "text" };

function point(event, canvas) {
  const box = canvas.getBoundingClientRect();
  return { x: event.clientX - box.left - canvas.clientLeft, y: event.clientY - box.top - canvas.clientTop };
}

function press(event) {
  if (drag || event.button !== 0) return;
  const { x, y } = point(event, mix);
  const found = hit(x, y, mix.clientHeight);
  const bit = bitAt(model.views.mix, x);
  drag = { ...found, id: event.pointerId, canvas: mix, x, y, bit, isMoved: false, numbers: new Set() };
  mix.setPointerCapture(event.pointerId);
  model.point = found.what === "point" ? { number: found.number, channel: found.channel, at: found.point } : null;
  if (found.number !== undefined) {
    if (found.it.gains && found.what !== "head") model.channel = found.channel;
    const isMore = event.shiftKey || event.ctrlKey || event.metaKey;
    if (isMore) select(model.selected.has(found.number) ? [...model.selected].filter(it => it !== found.number) : [...model.selected, found.number]);
    else select(model.selected.has(found.number) ? [...model.selected] : [found.number]);
    drag.numbers = found.what === "head" || found.what === "body" ? new Set(model.selected) : new Set([found.number]);
    if (isMore) drag.what = "nothing-more";
  } else if (found.what === "nothing") select([]);
  mix.focus({ preventScroll: true });
}

const preview = rows => {
  model.preview = rows;
  told("clips");
};

function dragMix(x, y) {
  const it = drag.it;
  const bit = bitAt(model.views.mix, x);
  const by = Math.round(bit - drag.bit);
  if (drag.what === "head") {
    const start = model.clips.get(drag.number).at;
    const first = snap(start + by) - start;
    const last = snap(start + it.length + by) - start - it.length;
    const least = Math.abs(first - by) <= Math.abs(last - by) || last === by ? first : last;
    preview(moved([...drag.numbers], first !== by ? first : least));
  } else if (drag.what === "start" || drag.what === "end") {
    const edge = drag.what === "start" ? it.at : it.at + it.length;
    preview(settled(new Map([[drag.number, trimmed(it, drag.what, snap(edge + by) - edge)]])));
  } else if (drag.what === "in") {
    const bits = Math.round(Math.max(0, Math.min(snap(bit) - it.at, it.length - (it.out?.[0] ?? 0))));
    preview(new Map([[drag.number, byHand({ ...it, in: bits ? [bits, it.in?.[1] ?? "s"] : null }, "in")]]));
  } else if (drag.what === "out") {
    const bits = Math.round(Math.max(0, Math.min(it.at + it.length - snap(bit), it.length - (it.in?.[0] ?? 0))));
    preview(new Map([[drag.number, byHand({ ...it, out: bits ? [bits, it.out?.[1] ?? "s"] : null }, "out")]]));
  } else if (drag.what === "point") {
    const line = lineOf(it, drag.channel).map(row => [...row]);
    const low = drag.point ? line[drag.point - 1][0] + 1 : 0;
    const high = drag.point + 1 < line.length ? line[drag.point + 1][0] - 1 : it.length;
    const db = Math.round(decibels(gainOfY(y, drag.box)) * TENTHS) / TENTHS;
    const gain = db <= QUIETEST ? 0 : Math.round(10 ** (db / 20) * FULL);
    line[drag.point] = [Math.round(Math.max(low, Math.min(snap(bit) - it.at, high))), gain];
    preview(new Map([[drag.number, withLine(it, drag.channel, line)]]));
  } else if (drag.what === "ruler" || drag.what === "nothing" || drag.what === "body") {
    drag.places ??= places();
    setRange({ lane: "mix", from: Math.max(0, Math.round(snap(drag.bit))), to: Math.max(0, Math.round(snap(bit))) });
  }
}

// What a drag of a clip would come to.
function saying() {
  const it = model.preview?.get(drag.number);
  const { rate } = model.about;
  if (!it) return "";
  if (drag.what === "point") {
    const [place, gain] = lineOf(it, drag.channel)[drag.point];
    return `${level(gain ? decibels(gain / FULL) : null)} at ${clock(it.at + place, rate)}`;
  }
  if (drag.what === "in" || drag.what === "out") return `fade ${drag.what} ${lasting(it[drag.what]?.[0] ?? 0, rate)}`;
  const times = drag.what === "head" ? `at ${clock(it.at, rate)}` : `${clock(it.at, rate)} to ${clock(it.at + it.length, rate)}`;
  return [times, ...overlapping(it).map(bits => `crossfade ${lasting(bits, rate)}`)].join(", ");
}

// Shows it beside the pointer.
function showTip(event) {
  const tip = document.querySelector("#tip");
  const text = event && drag?.canvas === mix ? saying() : "";
  tip.hidden = !text;
  if (!text) return;
  tip.textContent = text;
  tip.style.left = `${Math.max(0, Math.min(event.clientX + 14, innerWidth - tip.offsetWidth - 4))}px`;
  tip.style.top = `${Math.max(0, event.clientY - 34)}px`;
}

const LABELS = { head: "move", start: "trim the start", end: "trim the end", in: "fade in", out: "fade out", point: "move a gain point" };

function release(event) {
  if (!drag || event.pointerId !== drag.id) return;
  const it = drag;
  drag = null;
  showTip();
  if (it.canvas === takes) return releaseTake(it);
  if (it.isMoved && model.preview) {
    const rows = [...model.preview].filter(([number, now]) => JSON.stringify(now) !== JSON.stringify(model.clips.get(number)));
    if (rows.length) change(LABELS[it.what] ?? "change", new Map(rows));
    else preview(null);
  } else if (!it.isMoved && it.what !== "nothing-more") {
    setCursor("mix", it.bit);
    if (model.range?.lane === "mix") setRange(null);
  } else if (it.isMoved && model.range?.lane === "mix") setCursor("mix", model.range.from);
}

export function cancel() {
  if (!drag) return false;
  drag = null;
  showTip();
  model.preview = null;
  model.drop = null;
  told("clips");
  return true;
}

// Takes.

function takeAt(y) {
  const number = Math.floor((y - RULER) / takeHeight());
  return number >= 0 && number < model.about.takes.length ? number : null;
}

function pressTake(event) {
  if (drag || event.button !== 0) return;
  const { x, y } = point(event, takes);
  const bit = bitAt(model.views.takes, x);
  const number = takeAt(y) ?? 0;
  const lane = `take-${number}`;
  const range = model.range;
  const isInside = y >= RULER && range?.lane === lane && bit >= range.from && bit <= range.to;
  drag = { what: isInside ? "drop" : "range", id: event.pointerId, canvas: takes, x, y, bit, lane, isMoved: false, numbers: new Set() };
  takes.setPointerCapture(event.pointerId);
  takes.focus({ preventScroll: true });
}

function dragTake(event, x) {
  const bits = model.about.takes[Number(drag.lane.slice(5))].bits;
  if (drag.what === "range") {
    const within = it => Math.max(0, Math.min(Math.round(it), bits));
    setRange({ lane: drag.lane, from: within(drag.bit), to: within(bitAt(model.views.takes, x)) });
    return;
  }
  const over = point(event, mix);
  const isOver = over.x >= 0 && over.y >= 0 && over.x <= mix.clientWidth && over.y <= mix.clientHeight;
  const length = model.range.to - model.range.from;
  const at = bitAt(model.views.mix, over.x) - (drag.bit - model.range.from);
  const first = snap(at);
  const last = snap(at + length) - length;
  const best = first !== at || last === at ? first : last;
  model.drop = isOver ? { at: Math.max(0, Math.round(best)), length } : null;
  told("view");
}

function releaseTake(it) {
  const drop = model.drop;
  model.drop = null;
  if (drop) insert(drop.at);
  else if (!it.isMoved) {
    setRange(null);
    setCursor(it.lane, it.bit);
  } else if (model.range && it.what === "range") setCursor(it.lane, model.range.from);
  told("clips");
}

function move(event) {
  if (!drag) {
    if (event.currentTarget === mix) {
      const { x, y } = point(event, mix);
      const found = hit(x, y, mix.clientHeight);
      mix.style.cursor = found.isOnLine ? "crosshair" : CURSORS[found.what];
    } else {
      const { x, y } = point(event, takes);
      const bit = bitAt(model.views.takes, x);
      const isInside = model.range?.lane === `take-${takeAt(y)}` && bit >= model.range.from && bit <= model.range.to;
      takes.style.cursor = isInside ? "grab" : "text";
    }
    return;
  }
  if (event.pointerId !== drag.id) return;
  const { x, y } = point(event, drag.canvas);
  if (!drag.isMoved && Math.hypot(x - drag.x, y - drag.y) < MOVED) return;
  drag.isMoved = true;
  if (drag.canvas === takes) dragTake(event, x);
  else dragMix(x, y);
  showTip(event);
}

// A double click adds a point to a line of levels, or takes one away.
function twice(event) {
  const { x, y } = point(event, mix);
  const found = hit(x, y, mix.clientHeight);
  const place = Math.round(bitAt(model.views.mix, x)) - (found.it?.at ?? 0);
  if (found.what === "point") removePoint({ ...found, at: found.point });
  else if (found.isOnLine && place > 0 && place < found.it.length) addPoint(found.number, found.channel, place);
}

// Two fingers zoom and scroll as the wheel does. Some browsers count lines or pages.
function wheel(event, name, canvas) {
  event.preventDefault();
  const { x } = point(event, canvas);
  const unit = [1, 16, canvas.clientWidth][event.deltaMode];
  if (event.ctrlKey || event.metaKey) zoom(name, 1.0015 ** (event.deltaY * unit), x, canvas.clientWidth);
  else scroll(name, (event.deltaX || event.deltaY) * unit, canvas.clientWidth);
}

export function listen(mixCanvas, takesCanvas, overview) {
  [mix, takes] = [mixCanvas, takesCanvas];
  mix.addEventListener("pointerdown", press);
  takes.addEventListener("pointerdown", pressTake);
  for (const it of [mix, takes]) {
    it.addEventListener("pointermove", move);
    it.addEventListener("pointerup", release);
    it.addEventListener("pointercancel", cancel);
    it.addEventListener("lostpointercapture", event => drag && event.pointerId === drag.id && cancel());
  }
  mix.addEventListener("dblclick", twice);
  mix.addEventListener("wheel", event => wheel(event, "mix", mix), { passive: false });
  takes.addEventListener("wheel", event => wheel(event, "takes", takes), { passive: false });
  let isOn = false;
  const go = event => {
    const view = model.views.mix;
    const { x } = point(event, overview);
    view.from = (x / overview.clientWidth) * Math.max(model.length, 1) - (view.per * mix.clientWidth) / 2;
    told("view");
  };
  overview.addEventListener("pointerdown", event => {
    isOn = true;
    overview.setPointerCapture(event.pointerId);
    go(event);
  });
  overview.addEventListener("pointermove", event => isOn && go(event));
  for (const it of ["pointerup", "pointercancel"]) overview.addEventListener(it, () => (isOn = false));
}
