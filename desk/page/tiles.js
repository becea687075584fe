// Waves in pieces that stay: columns of a source at one of some widths, fetched when they are first drawn.
import { bytes } from "./api.js";

const FINE = [1, 8, 32, 128];
const BASE = 512;
const STEP = 4;
const MOST = 800;
const AT_ONCE = 6;
export const COLUMNS = 1024;

const kept = new Map();
const waiting = [];
let running = 0;
let redraw = () => {};
export const redrawBy = call => (redraw = call);

// How many frames a column of a tile has, at that many frames a pixel.
export function blockFor(frames) {
  let found = 1;
  for (const it of FINE) if (it <= frames) found = it;
  if (frames < BASE) return found;
  let block = BASE;
  while (block * STEP <= frames) block *= STEP;
  return block;
}

export function forget(source) {
  for (const [key, it] of kept) if (key.startsWith(`${source} `) && (!it.isWhole || source === "master")) kept.delete(key);
}

async function fetched(key, source, block, index) {
  try {
    const { data, headers } = await bytes(`tile?source=${source}&block=${block}&index=${index}`);
    kept.set(key, { data: new Int16Array(data), isWhole: headers.get("X-Complete") === "1" });
  } catch {
    kept.set(key, { data: new Int16Array(0), isWhole: false, isBad: true });
  }
  redraw(block);
}

async function work() {
  if (running >= AT_ONCE || !waiting.length) return;
  running++;
  const it = waiting.pop(); // what was asked for last is in sight
  await fetched(...it);
  running--;
  work();
}

// Whether all that was asked for is there.
export const isWhole = () => !running && !waiting.length;

// The columns of a tile, or null as long as it isn't there.
export function tile(source, block, index) {
  const key = `${source} ${block} ${index}`;
  const it = kept.get(key);
  if (it) {
    kept.delete(key);
    kept.set(key, it);
    return it.data ?? null;
  }
  kept.set(key, { data: null });
  waiting.push([key, source, block, index]);
  if (waiting.length > 64) kept.delete(waiting.shift()[0]);
  if (kept.size > MOST) for (const old of kept.keys()) {
    if (kept.get(old).data) kept.delete(old);
    if (kept.size <= MOST) break;
  }
  work();
  return null;
}
