// What the page shows: what the server says of the mix, what is selected, and where each lane is looked at.
import { get, post, Refusal } from "./api.js";

export const model = {
  about: null,
  state: null,
  clips: new Map(), // by their numbers, as the server has them
  preview: null, // clips that a drag changes, until it ends
  selected: new Set(),
  cursor: { lane: "mix", bit: 0 },
  place: 0, // where the cursor was last in the mix
  take: 0, // the take that was looked at last
  point: null, // the gain point that was pressed last: { number, channel, at }
  channel: 0, // whose line of levels is changed, where each channel has one
  range: null, // { lane, from, to } in bits
  views: { mix: { from: 0, per: 1000 }, takes: { from: 0, per: 1000 } },
  drop: null, // a part of a take that is dragged over the mix
  playing: null, // the bit that is heard, and its lane
  length: 0,
  tall: 1, // how many times as high waves are drawn as they are
};

const hearers = new Set();
export const heard = call => hearers.add(call);
export const told = what => hearers.forEach(it => it(what));

export const clip = number => model.preview?.get(number) ?? model.clips.get(number);

export function shown() {
  if (!model.preview) return model.clips;
  const found = new Map(model.clips);
  for (const [number, it] of model.preview) found.set(number, it);
  return found;
}

export const ordered = () => [...model.clips.keys()].sort((a, b) => model.clips.get(a).at - model.clips.get(b).at || a - b);

function take(state, isAnew = false) {
  if (!isAnew && model.state && state.number < model.state.number) return;
  model.state = state;
  model.clips = new Map(Object.entries(state.clips).map(([key, it]) => [Number(key), it]));
  for (const it of model.selected) if (!model.clips.has(it)) model.selected.delete(it);
  model.length = Math.max(0, ...[...model.clips.values()].map(it => it.at + it.length));
  told("state");
}

export async function load() {
  const [about, state] = await Promise.all([get("about"), get("state")]);
  model.about = about;
  take(state);
}

export async function refresh(isAnew = false) {
  take(await get("state"), isAnew);
}

// Tells the user something: a refusal, or what was done.
export let say = () => {};
export const sayBy = call => (say = call);

let last = Promise.resolve();

// One call after the other; what is refused is said, and the page shows again what is there.
function inTurn(call) {
  last = last.then(call).catch(async error => {
    if (!(error instanceof Refusal)) throw error;
    say(error.message, true);
    if (error.status) await refresh().catch(() => {});
  });
  return last;
}

// Changes clips: a map of numbers to clips, or to null where they go.
export function change(label, clips) {
  model.preview = null;
  const rows = Object.fromEntries(clips);
  for (const [key, it] of clips) {
    if (it) model.clips.set(Number(key), it);
    else model.clips.delete(Number(key));
  }
  told("clips");
  return inTurn(async () => take(await post("operations", { number: model.state.number, label, clips: rows })));
}

export const undo = () => inTurn(async () => take(await post("operations", { number: model.state.number, undo: true })));
export const redo = () => inTurn(async () => take(await post("operations", { number: model.state.number, redo: true })));
export const save = (over = false) => inTurn(async () => take(await post("save", { number: model.state.number, over })));
export const keepTakenUp = () => inTurn(async () => take(await post("keep", { number: model.state.number })));
export const dropTakenUp = () => inTurn(async () => take(await post("drop", { number: model.state.number })));
export const takeOther = () => inTurn(async () => take(await post("other", { number: model.state.number })));
export const done = () => last;

let number = 0;
export function newNumber() {
  number = Math.max(number + 1, model.state.next);
  return number;
}

export function select(numbers) {
  model.selected = new Set(numbers);
  if (model.point && !model.selected.has(model.point.number)) model.point = null;
  told("selection");
}

export function setCursor(lane, bit) {
  const most = lane === "mix" ? 2 ** 36 : model.about.takes[Number(lane.slice(5))].bits;
  model.cursor = { lane, bit: Math.max(0, Math.min(Math.round(bit), most)) };
  if (lane === "mix") model.place = model.cursor.bit;
  else model.take = Number(lane.slice(5));
  told("cursor");
}

export function setRange(range) {
  model.range = range && range.from !== range.to ? { ...range, from: Math.min(range.from, range.to), to: Math.max(range.from, range.to) } : null;
  told("range");
}

export const takeOf = lane => (lane === "mix" ? null : Number(lane.slice(5)));
