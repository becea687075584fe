// What can be done to clips. Each is one step, which can be undone.
import { change, clip, model, newNumber, ordered, say, select, setCursor, setRange, takeOf } from "./model.js";
import { byHand, settled } from "./overlaps.js";
import { gainAt, isFlat, isLevel, lineOf, linesOf, part, withEach, withLine, withLines } from "./shapes.js";
import { clock, FULL } from "./times.js";

export const MOST = 2 ** 36;
const one = it => (it === 1 ? "1 clip" : `${it} clips`);
const refuse = why => say(why, true);
const near = (clips, bit) => clips.filter(it => clip(it).at <= bit && bit < clip(it).at + clip(it).length);

// A clip of a part of a take. The server knows which decoder it has.
export function madeOf(take, start, length, at) {
  return { take, decoder: null, start, at, length, title: null, line: [[0, FULL]], in: null, out: null };
}

// The part of a take that is selected, or all of it.
export function chosen() {
  const range = model.range && model.range.lane !== "mix" ? model.range : null;
  const take = range ? takeOf(range.lane) : model.take;
  const bits = model.about.takes[take].bits;
  return range ? { take, start: range.from, length: range.to - range.from } : { take, start: 0, length: bits };
}

export function insert(at, what = chosen()) {
  if (!what.length) return refuse("This take has no sound.");
  const number = newNumber();
  change("put a part of a take into the mix", settled(new Map([[number, madeOf(what.take, what.start, what.length, Math.max(0, at))]])));
  select([number]);
  setCursor("mix", at + what.length);
  setRange(null);
}

export function remove() {
  if (!model.selected.size) return refuse("Select a clip first.");
  change(`delete ${one(model.selected.size)}`, settled(new Map([...model.selected].map(it => [it, null])), false));
  select([]);
}

export function moved(numbers, by) {
  const least = Math.min(...numbers.map(it => model.clips.get(it).at));
  const step = Math.max(by, -least);
  return settled(new Map(numbers.map(it => [it, { ...model.clips.get(it), at: model.clips.get(it).at + step }])));
}

export function move(by) {
  if (model.selected.size && by) change(`move ${one(model.selected.size)}`, moved([...model.selected], by));
}

// A clip whose start or end is so many bits later.
export function trimmed(it, side, by) {
  if (side === "start") {
    const step = Math.max(-it.start, -it.at, Math.min(by, it.length - 1));
    if (step >= 0) return part(it, step, it.length - step, { in: true, out: true, moved: "in" });
    const longer = { ...it, start: it.start + step, at: it.at + step, length: it.length - step };
    return withLines(longer, line => (isFlat(line) ? line : line.map(([place, gain]) => [place - step, gain])));
  }
  const bits = model.about.takes[it.take].bits;
  const length = Math.max(1, Math.min(it.length + by, bits - it.start));
  return length <= it.length ? part(it, 0, length, { in: true, out: true, moved: "out" }) : { ...it, length };
}

export function split() {
  const bit = model.place;
  const found = near([...(model.selected.size ? model.selected : model.clips.keys())], bit).filter(it => clip(it).at < bit);
  if (!found.length) return refuse("There is no clip at the cursor of the mix.");
  const changes = new Map();
  const later = [];
  for (const number of found) {
    const it = clip(number);
    const first = bit - it.at;
    if ((it.in && first < it.in[0]) || (it.out && it.length - first < it.out[0])) return refuse("The cursor is inside a fade: split elsewhere, or take the fade away first.");
    changes.set(number, part(it, 0, first, { in: true, out: false }));
    const other = newNumber();
    changes.set(other, { ...part(it, first, it.length - first, { in: false, out: true }), title: null });
    later.push(other);
  }
  change(`split at ${clock(bit, model.about.rate)}`, changes);
  select(later);
}

function joined(one, other) {
  if (one.take !== other.take || one.decoder !== other.decoder) return "they are of different takes";
  if (one.at + one.length !== other.at || one.start + one.length !== other.start) return "the take doesn't go on from one to the other";
  if (one.out || other.in) return "there is a fade between them";
  if (other.title !== null) return "a title begins with the second one";
  const count = model.about.channels.length;
  const [first, second] = one.gains || other.gains ? [withEach(one, count), withEach(other, count)] : [one, other];
  if (linesOf(first).some((line, channel) => gainAt(line, first.length) !== gainAt(lineOf(second, channel), 0))) return "the level changes between them";
  const made = withLines(first, (line, channel) => follows(line, first.length, lineOf(second, channel)));
  const overlap = { ...first.overlap, ...second.overlap }; // neither fades where they meet
  return { ...made, length: first.length + second.length, out: second.out, overlap };
}

// A line that goes on as another one from a place on.
function follows(line, length, other) {
  const all = [...line.filter(it => it[0] < length), [length, gainAt(other, 0)], ...other.map(([place, gain]) => [place + length, gain])];
  const made = all.filter((it, number) => number === 0 || it[0] > all[number - 1][0]);
  return isFlat(made) ? [[0, made[0][1]]] : made;
}

export function join() {
  const numbers = [...model.selected].sort((a, b) => clip(a).at - clip(b).at);
  if (numbers.length === 1) {
    const it = clip(numbers[0]);
    const next = ordered().find(other => clip(other).at === it.at + it.length && clip(other).take === it.take && clip(other).start === it.start + it.length);
    if (next !== undefined) numbers.push(next);
  }
  if (numbers.length < 2) return refuse("Select the clips that are to be joined.");
  let found = clip(numbers[0]);
  for (const it of numbers.slice(1)) {
    found = joined(found, clip(it));
    if (typeof found === "string") return refuse(`These clips can't be joined: ${found}.`);
  }
  change(`join ${one(numbers.length)}`, new Map([[numbers[0], found], ...numbers.slice(1).map(it => [it, null])]));
  select([numbers[0]]);
}

// A fade from the start of the selected clip to the cursor, or from the cursor to its end, whichever is nearer.
export function fade() {
  const changes = new Map();
  for (const number of model.selected) {
    const it = clip(number);
    const first = model.place - it.at;
    if (first <= 0 || first >= it.length) continue;
    const made = byHand({ ...it }, first <= it.length / 2 ? "in" : "out");
    if (first <= it.length / 2) made.in = [Math.min(first, it.length - (it.out?.[0] ?? 0)), it.in?.[1] ?? "s"];
    else made.out = [Math.min(it.length - first, it.length - (it.in?.[0] ?? 0)), it.out?.[1] ?? "s"];
    changes.set(number, made);
  }
  if (!changes.size) return refuse("Select a clip, and put the cursor where its fade begins or ends.");
  change("fade to the cursor", changes);
}

export function crossfade() {
  const all = ordered();
  let numbers = all.filter(it => model.selected.has(it));
  if (numbers.length === 1) {
    // With what it overlaps before and after.
    const [number] = numbers;
    const [it, at] = [clip(number), all.indexOf(number)];
    const before = all.slice(0, at).findLast(other => clip(other).at + clip(other).length > it.at);
    const after = all.slice(at + 1).find(other => clip(other).at < it.at + it.length);
    numbers = [before, number, after].filter(it => it !== undefined);
  }
  const changes = new Map();
  for (let number = 0; number + 1 < numbers.length; number++) {
    const early = changes.get(numbers[number]) ?? clip(numbers[number]);
    const late = clip(numbers[number + 1]);
    const overlap = early.at + early.length - late.at;
    if (overlap <= 0 || overlap > Math.min(early.length, late.length)) continue;
    if ((early.in?.[0] ?? 0) + overlap > early.length) return refuse("The first clip has no room for it: its fade-in is too long.");
    const curve = early.take === late.take ? "linear" : "power";
    changes.set(numbers[number], byHand({ ...early, out: [overlap, curve] }, "out"));
    const out = late.out && late.out[0] + overlap > late.length ? null : late.out;
    changes.set(numbers[number + 1], byHand({ ...late, in: [overlap, curve], out }, "in"));
  }
  if (!changes.size) return refuse("Select a clip that lies over the end of another one: drag it there first.");
  change("crossfade", changes);
}

// Adds a point to the line of levels where the cursor is: to that of the chosen channel, if each has one.
export function point() {
  const changes = new Map();
  for (const number of near([...model.selected], model.place)) {
    const made = pointed(clip(number), model.channel, model.place - clip(number).at);
    if (made) changes.set(number, made);
  }
  if (!changes.size) return refuse("Select a clip, and put the cursor inside of it.");
  change("gain point", changes);
}

// A clip with a point more at a place of its line, which stays as loud; nothing if there is one already.
function pointed(it, channel, place) {
  const now = lineOf(it, channel);
  if (!isLevel(now) && now.some(other => other[0] === place)) return null;
  const line = isLevel(now) ? [[0, now[0][1]], [it.length, now[0][1]]] : now;
  const made = [...line.filter(other => other[0] < place), [place, gainAt(line, place)], ...line.filter(other => other[0] > place)];
  return withLine(it, channel, made.filter((other, at) => at === 0 || other[0] > made[at - 1][0]));
}

// Adds a point to a line of a clip, and chooses it.
export function addPoint(number, channel, place) {
  const made = pointed(clip(number), channel, place);
  if (!made) return;
  model.point = { number, channel, at: lineOf(made, channel).findIndex(it => it[0] === place) };
  change("gain point", new Map([[number, made]]));
}

export function removePoint({ number, channel, at }) {
  const rest = lineOf(clip(number), channel).filter((_, other) => other !== at);
  model.point = null;
  change("take a gain point away", new Map([[number, withLine(clip(number), channel, isFlat(rest) ? [[0, rest[0][1]]] : rest)]]));
}

// The chosen point, if it is still there.
export function chosenPoint() {
  const { point: it } = model;
  const line = it && model.selected.has(it.number) && clip(it.number) ? lineOf(clip(it.number), it.channel) : null;
  return line && !isLevel(line) && it.at < line.length ? it : null;
}

// What the key for it deletes: the chosen gain point, or clips.
export function removeChosen() {
  const it = chosenPoint();
  if (it) removePoint(it);
  else remove();
}

// Puts a pause before the selected clip, or where the cursor is: what begins there or later comes later.
export function pause(bits) {
  const starts = [...model.selected].map(it => clip(it).at);
  const from = starts.length ? Math.min(...starts) : model.place;
  const later = [...model.clips.keys()].filter(it => clip(it).at >= from);
  if (!later.length) return refuse("Select the clip that the pause comes before.");
  change(`pause of ${(bits / model.about.rate).toFixed(3)} s`, settled(new Map(later.map(it => [it, { ...clip(it), at: clip(it).at + bits }]))));
}

// The places that something may snap to.
export function places(without = new Set()) {
  const found = [0, model.place];
  for (const [number, it] of model.clips) {
    if (without.has(number)) continue;
    found.push(it.at, it.at + it.length);
    if (it.in) found.push(it.at + it.in[0]);
    if (it.out) found.push(it.at + it.length - it.out[0]);
    for (const mark of model.about.takes[it.take].marks) {
      if (mark.bit > it.start && mark.bit < it.start + it.length) found.push(it.at + mark.bit - it.start);
    }
  }
  return found;
}

export function snapped(bit, within, among) {
  let best = bit;
  let least = within;
  for (const it of among) {
    if (Math.abs(it - bit) <= least) {
      least = Math.abs(it - bit);
      best = it;
    }
  }
  return best;
}

// The places where clips begin or end, inside of the mix.
export function cuts() {
  const found = new Set();
  for (const it of model.clips.values()) found.add(it.at).add(it.at + it.length);
  return [...found].sort((a, b) => a - b);
}
