// The lanes, drawn of what the model holds. Each lane is drawn only when something in it changed.
import { model, ordered, shown } from "./model.js";
import { envelope, isLevel, lineOf, linesOf } from "./shapes.js";
import { clock, decibels, FULL, grouped } from "./times.js";
import { picture, ratio, settled, sized, wave } from "./waves.js";

export const RULER = 42; // pixels
export const HEAD = 18; // of a clip: its name
const TAKE_HEAD = 18;
const TAKE_HEIGHT = 62; // of a channel
export const LOUDEST = 6; // dB at the top of a line of gains
export const QUIETEST = -42;
const MOST_HANDLES = 200; // of a line that are drawn

const color = {};
export function learnColors() {
  const style = getComputedStyle(document.documentElement);
  for (const it of ["ground", "panel", "ink", "soft", "line", "main", "lane", "wave", "cursor", "select", "gain", "bad", "good", "new"]) color[it] = style.getPropertyValue(`--${it}`).trim();
  color.dark = matchMedia("(prefers-color-scheme: dark)").matches;
}

// The colour of what a cut leaves: red at -40 dB, green at -110 dB.
export function residualColor(db) {
  const part = db === null ? 1 : Math.max(0, Math.min((-40 - db) / 70, 1));
  return `hsl(${Math.round(part * 130)} 80% ${color.dark ? 60 : 36}%)`;
}

export const takeColor = number => `hsl(${(205 + number * 67) % 360} ${color.dark ? "45% 20%" : "60% 84%"})`;
const waveColor = number => `hsl(${(205 + number * 67) % 360} ${color.dark ? "75% 76%" : "70% 28%"})`;

function begun(canvas) {
  const { clientWidth: width, clientHeight: height } = canvas;
  sized(canvas, width, height);
  const to = canvas.getContext("2d");
  to.setTransform(ratio(), 0, 0, ratio(), 0, 0);
  to.clearRect(0, 0, width, height);
  to.font = "12px system-ui, sans-serif";
  to.textBaseline = "middle";
  return { to, width, height };
}

// Begins a lane with its kept picture, over which the rest is drawn.
function begunWith(canvas, view, paint) {
  const { width, height } = begun(canvas);
  const found = picture(canvas, view, (to, ...span) => paint(to, width, height, span));
  const to = canvas.getContext("2d");
  if (found.width && found.height) to.drawImage(found, 0, 0, width, height);
  return { to, width, height };
}

const STEPS = [1, 2, 5];
function ruler(to, width, view, top = 0) {
  const { rate } = model.about;
  to.fillStyle = color.panel;
  to.fillRect(0, top, width, RULER);
  const seconds = (110 * view.per) / rate;
  let step = 10 ** Math.floor(Math.log10(seconds));
  step *= STEPS.find(it => it * step >= seconds) ?? 10;
  if (seconds > 20) step = [30, 60, 120, 300, 600, 1200, 3600, 7200, 14400].find(it => it >= seconds) ?? 28800;
  const digits = step >= 1 ? 0 : step >= 1e-3 ? 3 : 6;
  to.strokeStyle = color.line;
  to.textAlign = "left";
  for (let number = Math.max(Math.floor((view.from / rate) / step), 0); ; number++) {
    const bit = number * step * rate;
    const x = (bit - view.from) / view.per;
    if (x > width) break;
    to.beginPath();
    to.moveTo(Math.round(x) + 0.5, top + 4);
    to.lineTo(Math.round(x) + 0.5, top + RULER);
    to.stroke();
    to.fillStyle = color.ink;
    to.fillText(clock(bit, rate, Math.max(digits, step < 1 ? 3 : 0)), x + 4, top + 10);
    to.fillStyle = color.soft;
    to.fillText(grouped(Math.round(bit)), x + 4, top + 25);
  }
}

// Which row each clip is in: clips that overlap are below each other.
export function rows(clips) {
  const ends = [];
  const found = new Map();
  const numbers = [...clips.keys()].filter(it => clips.get(it)).sort((a, b) => clips.get(a).at - clips.get(b).at || a - b);
  for (const number of numbers) {
    const it = clips.get(number);
    let row = ends.findIndex(end => end <= it.at);
    if (row < 0) row = ends.length;
    ends[row] = it.at + it.length;
    found.set(number, row);
  }
  return { found, count: Math.max(ends.length, 1) };
}

export function mixPlan(height, clips = shown()) {
  const { found, count } = rows(clips);
  const size = (height - RULER - 6) / Math.max(count, 2);
  return { row: found, size, top: number => RULER + 3 + found.get(number) * size };
}

// Where the line of levels of a clip is drawn, or that of one of its channels.
export function gainBox(it, channel, top, size) {
  const height = size - 4 - HEAD;
  if (!it.gains) return { top: top + HEAD, height: height - 8 };
  const each = height / it.gains.length;
  return { top: top + HEAD + channel * each + 3, height: Math.max(each - 6, 1) };
}
export const channelAt = (it, y, top, size) => (it.gains ? Math.max(0, Math.min(Math.floor(((y - top - HEAD) * it.gains.length) / (size - 4 - HEAD)), it.gains.length - 1)) : 0);
export const gainY = (gain, box) => {
  const db = Math.max(QUIETEST, Math.min(decibels(Math.abs(gain)), LOUDEST));
  return box.top + ((LOUDEST - db) / (LOUDEST - QUIETEST)) * box.height;
};
export const gainOfY = (y, box) => {
  const part = Math.max(0, Math.min((y - box.top) / box.height, 1));
  return 10 ** ((LOUDEST - part * (LOUDEST - QUIETEST)) / 20);
};

// What a clip is times at a pixel of a channel; nothing if that is 1 all over.
function gainOf(it, channel, x0, per) {
  const line = lineOf(it, channel);
  if (!it.in && !it.out && isLevel(line) && line[0][1] === FULL) return null;
  return x => envelope(it, (x - x0) * per, channel);
}

function paintClip(to, span, view, it, number, top, size) {
  const x0 = (it.at - view.from) / view.per;
  const x1 = (it.at + it.length - view.from) / view.per;
  if (x1 < span[0] - 8 || x0 > span[1] + 8) return;
  const take = model.about.takes[it.take];
  const isSelected = model.selected.has(number);
  to.fillStyle = takeColor(it.take);
  to.fillRect(x0, top, Math.max(x1 - x0, 1), size - 4);
  const count = model.about.channels.length;
  const half = (size - 4 - HEAD) / count / 2;
  for (let channel = 0; channel < count; channel++) {
    const row = { source: `take-${it.take}`, frames: take.frames, channel, from: it.start - it.at + view.from, x0, x1 };
    wave(to, { ...row, middle: top + HEAD + half * (2 * channel + 1), half: half - 1, gain: gainOf(it, channel, x0, view.per), paint: waveColor(it.take) }, view, span);
  }
  linesOf(it).forEach((_, channel) => {
    to.lineWidth = it.gains && isSelected && channel === model.channel ? 2.5 : 1.5;
    gainLine(to, span, it, channel, gainBox(it, channel, top, size), view);
  });
  to.strokeStyle = isSelected ? color.main : color.line;
  to.lineWidth = isSelected ? 3 : 1;
  to.strokeRect(x0 + 0.5, top + 0.5, Math.max(x1 - x0 - 1, 1), size - 5);
  to.lineWidth = 1;
  if (isSelected) handles(to, view, it, number, x0, x1, top, size);
  if (it.title) mark(to, x0, top, color.main);
}

function gainLine(to, span, it, channel, box, view) {
  const x0 = (it.at - view.from) / view.per;
  const gain = gainOf(it, channel, x0, view.per) ?? (() => 1);
  const [first, last] = [Math.max(x0, span[0] - 4), Math.min(x0 + it.length / view.per, span[1] + 4)];
  to.strokeStyle = color.gain;
  to.beginPath();
  for (let x = first; x < last; x += isLevel(lineOf(it, channel)) && !it.in && !it.out ? Math.max(last - first, 1) : 2) to.lineTo(x, gainY(gain(x), box));
  to.lineTo(last, gainY(gain(last), box));
  to.stroke();
}

// The name of a clip, which stays in sight.
function nameClip(to, width, view, it, top) {
  const x0 = (it.at - view.from) / view.per;
  const [from, end] = [Math.max(x0, 0), Math.min(x0 + it.length / view.per, width)];
  if (end - from < 20) return;
  to.save();
  to.beginPath();
  to.rect(from, top, end - from, HEAD);
  to.clip();
  to.fillStyle = color.ink;
  const { name } = model.about.takes[it.take];
  to.fillText(it.title ? `${it.title} · ${name}` : name, from + 16, top + HEAD / 2 + 1);
  to.restore();
}

const isChosen = (number, channel, at) => model.point?.number === number && model.point.channel === channel && model.point.at === at;
function handles(to, view, it, number, x0, x1, top, size) {
  to.fillStyle = color.main;
  for (const x of [x0 + (it.in?.[0] ?? 0) / view.per, x1 - (it.out?.[0] ?? 0) / view.per]) {
    to.beginPath();
    to.arc(x, top + 5, 5, 0, 7);
    to.fill();
  }
  to.fillStyle = color.gain;
  linesOf(it).forEach((line, channel) => {
    if (isLevel(line) || line.length > MOST_HANDLES) return;
    const box = gainBox(it, channel, top, size);
    line.forEach(([place, gain], at) => {
      const half = isChosen(number, channel, at) ? 6 : 4;
      to.fillRect(x0 + place / view.per - half, gainY(gain / FULL, box) - half, 2 * half, 2 * half);
    });
  });
}

function mark(to, x, top, paint) {
  to.fillStyle = paint;
  to.beginPath();
  to.moveTo(x, top);
  to.lineTo(x + 9, top);
  to.lineTo(x, top + 11);
  to.fill();
}

function vertical(to, x, height, paint, top = 0) {
  to.strokeStyle = paint;
  to.beginPath();
  to.moveTo(Math.round(x) + 0.5, top);
  to.lineTo(Math.round(x) + 0.5, height);
  to.stroke();
}

function marksOf(to, view, it, top) {
  for (const mark_ of model.about.takes[it.take].marks) {
    if (mark_.bit < it.start || mark_.bit >= it.start + it.length) continue;
    const x = (it.at + mark_.bit - it.start - view.from) / view.per;
    mark(to, x, top + HEAD, color.gain);
  }
}

export function drawMix(canvas) {
  const view = settled(model.views.mix);
  const clips = shown();
  const plan = mixPlan(canvas.clientHeight, clips);
  const { to, width, height } = begunWith(canvas, view, (on, across, _, span) => {
    ruler(on, across, view);
    for (const [number, it] of clips) if (it) {
      paintClip(on, span, view, it, number, plan.top(number), plan.size);
      marksOf(on, view, it, plan.top(number));
    }
    made(on, across, view, RULER - 9);
  });
  for (const [number, it] of clips) if (it) nameClip(to, width, view, it, plan.top(number));
  if (model.range?.lane === "mix") {
    to.fillStyle = color.select;
    to.fillRect((model.range.from - view.from) / view.per, 0, (model.range.to - model.range.from) / view.per, height);
  }
  if (model.drop) {
    to.fillStyle = color.select;
    to.strokeStyle = color.main;
    const x = (model.drop.at - view.from) / view.per;
    to.fillRect(x, RULER, model.drop.length / view.per, height - RULER);
    to.strokeRect(x, RULER, model.drop.length / view.per, height - RULER);
  }
  if (!clips.size && !model.drop) {
    to.fillStyle = color.soft;
    to.textAlign = "center";
    to.fillText("The mix is empty. Drag a part of a take here.", width / 2, (height + RULER) / 2);
    to.textAlign = "left";
  }
  vertical(to, (model.place - view.from) / view.per, height, model.cursor.lane === "mix" ? color.cursor : color.line);
  if (model.playing?.lane === "mix") vertical(to, (model.playing.bit - view.from) / view.per, height, color.main);
}

// New bits, and what each cut leaves, of a master that is of this mix; or, in thinner lines, what was predicted.
function made(to, width, view, top) {
  const isMade = model.state.made?.is_current;
  const found = isMade ? model.state.made : model.state.predicted;
  if (!found) return;
  to.fillStyle = color.new;
  for (const it of isMade ? found.new : []) to.fillRect((it.first - view.from) / view.per, top + 5, Math.max((it.stop - it.first) / view.per, 1), 3);
  for (const it of found.cuts) {
    to.fillStyle = residualColor(loudest(it));
    to.fillRect((it.first - view.from) / view.per, top, Math.max((it.last - it.first) / view.per, 3), isMade ? 4 : 2);
  }
}

export const loudest = cut => Object.values(cut.db).reduce((most, it) => (it !== null && (most === null || it > most) ? it : most), null);

export function drawOverview(canvas) {
  const view = { from: 0, per: Math.max(model.length, 1) / Math.max(canvas.clientWidth, 1) };
  const count = Math.min(model.about.channels.length, 2);
  const { to, width, height } = begunWith(canvas, view, (on, across, down, span) => {
    const half = (down - 8) / count / 2;
    for (const number of ordered()) {
      const it = shown().get(number);
      if (!it) continue;
      const [x0, x1] = [it.at / view.per, (it.at + it.length) / view.per];
      on.fillStyle = takeColor(it.take);
      on.globalAlpha = 0.7;
      on.fillRect(x0, 8, Math.max(x1 - x0, 1), down - 8);
      on.globalAlpha = 1;
      for (let channel = 0; channel < count; channel++) {
        const row = { source: `take-${it.take}`, frames: model.about.takes[it.take].frames, channel, from: it.start - it.at, x0, x1 };
        wave(on, { ...row, middle: 8 + half * (2 * channel + 1), half, gain: gainOf(it, channel, x0, view.per), paint: waveColor(it.take) }, view, span);
      }
      if (it.title) mark(on, x0, 0, color.main);
    }
    made(on, across, view, 0);
  });
  const seen = model.views.mix;
  to.strokeStyle = color.main;
  to.lineWidth = 2;
  to.strokeRect(seen.from / view.per + 1, 1, Math.max((width * seen.per) / view.per - 2, 3), height - 2);
  to.lineWidth = 1;
  if (model.cursor.lane === "mix") vertical(to, model.cursor.bit / view.per, height, color.cursor);
  if (model.playing?.lane === "mix") vertical(to, model.playing.bit / view.per, height, color.main);
}

export const takesHeight = () => RULER + model.about.takes.length * takeHeight() + 4;
export const takeHeight = () => TAKE_HEAD + TAKE_HEIGHT * Math.min(model.about.channels.length, 6) * (model.about.channels.length > 2 ? 0.6 : 0.75);

export function drawTakes(canvas) {
  const view = settled(model.views.takes);
  const size = takeHeight();
  const { takes } = model.about;
  const { to } = begunWith(canvas, view, (on, across, _, span) => {
    ruler(on, across, view);
    takes.forEach((take, number) => paintTake(on, span, view, take, number));
  });
  takes.forEach((take, number) => {
    const top = RULER + number * size;
    to.fillStyle = color.ink;
    const more = model.state.lost.includes(number) ? " — the file is gone" : take.done < take.frames ? ` — ${Math.floor((100 * take.done) / take.frames)} % read` : "";
    to.fillText(`${number + 1}  ${take.name}${more}`, Math.max(-view.from / view.per, 0) + 6, top + TAKE_HEAD / 2 + 1);
    const lane = `take-${number}`;
    if (model.range?.lane === lane) {
      to.fillStyle = color.select;
      to.fillRect((model.range.from - view.from) / view.per, top, (model.range.to - model.range.from) / view.per, size);
    }
    if (model.cursor.lane === lane) vertical(to, (model.cursor.bit - view.from) / view.per, top + size, color.cursor, top);
    if (model.playing?.lane === lane) vertical(to, (model.playing.bit - view.from) / view.per, top + size, color.main, top);
  });
}

function paintTake(to, span, view, take, number) {
  const count = model.about.channels.length;
  const size = takeHeight();
  const top = RULER + number * size;
  const [x0, x1] = [-view.from / view.per, (take.bits - view.from) / view.per];
  to.fillStyle = takeColor(number);
  to.fillRect(x0, top + 1, x1 - x0, size - 3);
  const half = (size - TAKE_HEAD - 4) / count / 2;
  for (let channel = 0; channel < count; channel++) {
    const row = { source: `take-${number}`, frames: take.frames, channel, from: view.from, x0, x1 };
    wave(to, { ...row, middle: top + TAKE_HEAD + half * (2 * channel + 1), half: half - 1, gain: null, paint: waveColor(number) }, view, span);
  }
  for (const it of take.marks) {
    const x = (it.bit - view.from) / view.per;
    mark(to, x, top + 1, color.gain);
    to.fillStyle = color.ink;
    if (it.title) to.fillText(it.title, x + 12, top + TAKE_HEAD / 2 + 1 + 14);
  }
}

// How many times as high waves may be drawn, by the greatest peak of all takes that is known: a power of 2.
export function fittingHeight() {
  const most = Math.max(0, ...model.about.takes.map(it => it.peak ?? 0));
  return most ? Math.max(1, Math.min(2 ** Math.floor(Math.log2(31000 / most)), 64)) : 1;
}

export function drawSpectrum(canvas, found) {
  const { to, width, height } = begun(canvas);
  const low = Math.log(20);
  const high = Math.log(model.about.frame_rate / 2);
  const x = hertz => ((Math.log(hertz) - low) / (high - low)) * width;
  const y = db => (Math.min(-db, 140) / 140) * height;
  to.strokeStyle = color.line;
  to.fillStyle = color.soft;
  to.font = "10px system-ui, sans-serif";
  for (const [hertz, text] of [[100, "100"], [1000, "1 kHz"], [10000, "10k"], [20000, "20k"]]) {
    vertical(to, x(hertz), height, color.line);
    to.fillText(text, x(hertz) + 2, height - 6);
  }
  for (const db of [-40, -80, -120]) {
    to.strokeStyle = color.line;
    to.strokeRect(-1, y(db) + 0.5, width + 2, 0);
    to.fillText(`${db}`.replace("-", "−"), 2, y(db) - 6);
  }
  to.strokeStyle = color.wave;
  to.lineWidth = 1.5;
  to.beginPath();
  found.forEach(([hertz, db], number) => to[number ? "lineTo" : "moveTo"](x(hertz), y(db ?? -140)));
  to.stroke();
  to.lineWidth = 1;
}

export function drawMeter(canvas, levels, held) {
  const { to, width, height } = begun(canvas);
  const x = db => Math.max(0, Math.min((db + 60) / 60, 1)) * width;
  const size = height / Math.max(levels.length, 1);
  levels.forEach((it, number) => {
    const db = decibels(it);
    to.fillStyle = db > -1 ? color.bad : color.good;
    to.fillRect(0, number * size + 1, x(db), size - 2);
    to.fillStyle = color.ink;
    if (held[number] > 0) to.fillRect(x(decibels(held[number])) - 1, number * size + 1, 2, size - 2);
  });
}
