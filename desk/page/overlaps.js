// Crossfades that come by overlapping: where a clip is laid over the end of another one, both fade as long as they overlap.
// These fades follow the overlap, and go with it: `overlap` of a clip has what each of them replaced.
import { model } from "./model.js";

const OTHER = { in: "out", out: "in" };
const SIDES = Object.keys(OTHER);
const endOf = it => it.at + it.length;
const isOver = (it, side) => it.overlap?.[side] !== undefined;

// The clips whose end is over the start of another one, each with that one.
function pairs(clips) {
  const numbers = [...clips.keys()].filter(it => clips.get(it)).sort((a, b) => clips.get(a).at - clips.get(b).at || a - b);
  const [outs, ins] = [new Map(), new Map()];
  numbers.forEach((number, place) => {
    const early = clips.get(number);
    for (const other of numbers.slice(place + 1)) {
      const late = clips.get(other);
      if (late.at >= endOf(early)) break;
      if (late.at === early.at || endOf(late) <= endOf(early)) continue;
      if (!outs.has(number)) outs.set(number, other);
      ins.set(other, number);
    }
  });
  return new Map([...outs].filter(([early, late]) => ins.get(late) === early));
}

const room = (it, side) => it.length - (it[OTHER[side]]?.[0] ?? 0);

// A clip whose fade of a side is the user's own.
export function byHand(it, side) {
  const { overlap, ...rest } = it;
  if (!overlap) return it;
  const { [side]: _, ...others } = overlap;
  return Object.keys(others).length ? { ...rest, overlap: others } : rest;
}

// A clip that doesn't overlap there any more: it fades as it did before.
function freed(it, side) {
  const before = it.overlap[side];
  return byHand({ ...it, [side]: before && before[0] <= room(it, side) ? before : null }, side);
}

const covering = (it, side, bits, curve) => ({ ...it, [side]: [bits, it.overlap?.[side] === undefined ? curve : (it[side]?.[1] ?? curve)], overlap: { ...it.overlap, [side]: isOver(it, side) ? it.overlap[side] : it[side] } });

// Changes of clips, with what they do to fades of overlaps. If clips are laid somewhere, they also make such.
export function settled(changes, isLaid = true) {
  const all = new Map([...model.clips, ...changes]);
  const [before, now] = [pairs(model.clips), pairs(all)];
  const near = new Set(changes.keys());
  for (const [these, others] of [[before, now], [now, before]]) for (const [early, late] of these) {
    if (changes.has(early) || changes.has(late) || others.get(early) !== late) near.add(early).add(late);
  }
  const covered = new Map();
  for (const [early, late] of now) {
    const bits = endOf(all.get(early)) - all.get(late).at;
    covered.set(`${early} out`, bits).set(`${late} in`, bits);
  }
  const put = (number, it) => {
    all.set(number, it);
    changes.set(number, it);
  };
  for (const number of near) for (const side of SIDES) {
    const it = all.get(number);
    const bits = covered.get(`${number} ${side}`);
    if (!it || !isOver(it, side) || it[side]?.[0] === bits) continue;
    put(number, bits && bits <= room(it, side) ? covering(it, side, bits, "s") : freed(it, side));
  }
  if (isLaid) for (const [early, late] of now) {
    if (!near.has(early) || before.get(early) === late) continue;
    const [one, other] = [all.get(early), all.get(late)];
    const bits = covered.get(`${early} out`);
    if (bits > room(one, "out") || bits > room(other, "in")) continue;
    const curve = one.take === other.take ? "linear" : "power";
    put(early, covering(one, "out", bits, curve));
    put(late, covering(other, "in", bits, curve));
  }
  return changes;
}

// The clips in which a fade gets another curve: that of an overlap gets it on both sides.
export function curved(number, side, curve) {
  const changes = new Map();
  const put = (key, where) => changes.set(key, { ...model.clips.get(key), [where]: [model.clips.get(key)[where][0], curve] });
  put(number, side);
  const found = [...pairs(model.clips)].find(it => it[side === "out" ? 0 : 1] === number);
  const other = found?.[side === "out" ? 1 : 0];
  if (other !== undefined && isOver(model.clips.get(number), side) && isOver(model.clips.get(other), OTHER[side])) put(other, OTHER[side]);
  return changes;
}

// How many bits of crossfades a clip has by overlapping.
export const overlapping = it => SIDES.filter(side => isOver(it, side)).map(side => it[side][0]);
