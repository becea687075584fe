// How loud a clip is along its length: the same lines and curves as those of desk/shapes.py and cuts/curves.py.
import { FULL } from "./times.js";

const STEEP = 1000;

export const CURVES = {
  linear: part => part,
  power: part => Math.sin((part * Math.PI) / 2),
  s: part => (1 - Math.cos(part * Math.PI)) / 2,
  exponential: part => (STEEP ** part - 1) / (STEEP - 1),
};

export const NAMES = { linear: "straight", power: "power", s: "S", exponential: "dB" };

// The gain of points at a place, as docs/NULL_TEST.md defines it; whole numbers of any size.
export function gainAt(points, place) {
  if (place < points[0][0]) return points[0][1];
  for (let number = points.length - 1; number >= 0; number--) {
    const [at, gain] = points[number];
    if (at > place) continue;
    const next = points[number + 1];
    if (!next) return gain;
    const top = BigInt(next[1] - gain) * BigInt(place - at);
    const low = BigInt(next[0] - at);
    let found = top / low;
    if (top < 0n && top % low !== 0n) found -= 1n;
    return gain + Number(found);
  }
  return points[0][1];
}

// The same, quickly, for what is drawn.
function near(points, place) {
  let low = 0;
  let high = points.length;
  while (low < high) {
    const middle = (low + high) >> 1;
    if (points[middle][0] <= place) low = middle + 1;
    else high = middle;
  }
  if (low === 0) return points[0][1];
  if (low === points.length) return points[low - 1][1];
  const [at, gain] = points[low - 1];
  const [next, other] = points[low];
  return gain + ((other - gain) * (place - at)) / (next - at);
}

// A clip has one line of levels for all channels, or one for each of them.
export const linesOf = clip => clip.gains ?? [clip.line];
export const lineOf = (clip, channel) => (clip.gains ? clip.gains[channel] : clip.line);
export const withLines = (clip, call) => (clip.gains ? { ...clip, gains: clip.gains.map(call) } : { ...clip, line: call(clip.line, 0) });
export const withLine = (clip, channel, line) => withLines(clip, (it, other) => (!clip.gains || other === channel ? line : it));

// The same clip with a line for each channel, or with that of one channel for all.
export function withEach({ line, ...clip }, count) {
  return clip.gains ? clip : { ...clip, gains: Array.from({ length: count }, () => line) };
}
export function withOne({ gains, ...clip }, channel) {
  return gains ? { ...clip, line: gains[channel] } : clip;
}

// What a clip is times at a place of a channel; 1 is full gain.
export function envelope(clip, place, channel = 0) {
  let found = near(lineOf(clip, channel), place) / FULL;
  if (clip.in && place < clip.in[0]) found *= CURVES[clip.in[1]](Math.max(place, 0) / clip.in[0]);
  const left = clip.length - place;
  if (clip.out && left < clip.out[0]) found *= CURVES[clip.out[1]](Math.max(left, 0) / clip.out[0]);
  return found;
}

export const isFlat = line => line.every(it => it[1] === line[0][1]);
export const isLevel = line => line.length === 1;

// The points from a place on, counted from there.
export function pointsFrom(points, first, length) {
  const inside = points.filter(it => it[0] > first && it[0] - first <= length).map(([at, gain]) => [at - first, gain]);
  const found = points[0][0] <= first ? [[0, gainAt(points, first)], ...inside] : inside;
  if (!found.length) return [[0, gainAt(points, first)]];
  const after = points.find(it => it[0] - first > length);
  if (after && found.at(-1)[0] < length) found.push([length, gainAt(points, first + length)]);
  return isFlat(found) ? [[0, found[0][1]]] : found;
}

// A part of a clip, with the same sound at each place. The fades at its ends stay if `keeps` says so.
export function part(clip, first, length, keeps) {
  const made = { ...withLines(clip, it => pointsFrom(it, first, length)), start: clip.start + first, at: clip.at + first, length };
  made.in = keeps.in && clip.in ? [Math.min(clip.in[0], length), clip.in[1]] : null;
  made.out = keeps.out && clip.out ? [Math.min(clip.out[0], length), clip.out[1]] : null;
  if (clip.overlap) made.overlap = Object.fromEntries(Object.entries(clip.overlap).filter(([side]) => keeps[side]));
  const over = (made.in?.[0] ?? 0) + (made.out?.[0] ?? 0) - length;
  if (over > 0) {
    if (keeps.moved === "in") made.out = made.out[0] > over ? [made.out[0] - over, made.out[1]] : null;
    else made.in = made.in[0] > over ? [made.in[0] - over, made.in[1]] : null;
    const still = (made.in?.[0] ?? 0) + (made.out?.[0] ?? 0) - length;
    if (still > 0) made[keeps.moved === "in" ? "in" : "out"] = null;
  }
  return made;
}
