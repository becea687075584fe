// What is heard: the frames that the server gives, two seconds ahead, by an audio worklet.
import { bytes } from "./api.js";
import { model, say, told } from "./model.js";

const FIRST = 4096; // frames of the first block, so that it sounds at once
const BLOCK = 1 << 15;
const AHEAD = 2; // seconds

let context = null;
let node = null;
let turn = 0;
let ahead = 0;
export const player = { isOn: false, which: "mix", levels: [], held: [], started: 0, latency: null };
const holds = [];

// The numbers of frames, from what the server sends.
export function decoded(data, form) {
  if (form === "f32") return new Float32Array(data);
  const from = new Uint8Array(data);
  const size = Number(form.slice(1)) / 8;
  const found = new Float32Array(from.length / size);
  for (let number = 0; number < found.length; number++) {
    const at = number * size;
    const value = size === 3 ? (from[at] << 8) | (from[at + 1] << 16) | (from[at + 2] << 24) : (from[at] << 16) | (from[at + 1] << 24);
    found[number] = value / 2147483648;
  }
  return found;
}

async function made() {
  const it = new AudioContext({ sampleRate: model.about.frame_rate, latencyHint: "interactive" });
  const count = model.about.channels.length;
  await it.audioWorklet.addModule("worklet.js");
  it.destination.channelCount = Math.min(Math.max(count, 1), it.destination.maxChannelCount || 2);
  node = new AudioWorkletNode(it, "ring", { numberOfInputs: 0, outputChannelCount: [count] });
  node.connect(it.destination);
  node.port.onmessage = ({ data }) => report(data);
  return it;
}

// Gets the sound ready, once the user has done anything: browsers want that.
let getting = null;
export function warm() {
  getting ??= made().then(it => (context = it));
  getting.catch(() => (getting = null));
}

async function begin() {
  warm();
  await getting;
  if (context.state === "suspended") {
    const late = new Promise((_, no) => setTimeout(() => no(new Error("no sound device answers")), 3000));
    await Promise.race([context.resume(), late]);
  }
}

function report({ frame, turn: of, peaks, ahead: left, isOn }) {
  ahead = left;
  const now = performance.now();
  if (isOn && player.isOn) {
    player.levels = peaks;
    peaks.forEach((it, channel) => {
      if (!holds[channel] || it >= holds[channel].peak || now - holds[channel].when > 1500) holds[channel] = { peak: it, when: now };
    });
    player.held = holds.map(it => it.peak);
    if (frame !== null && of === turn) {
      if (player.latency === null) player.latency = now - player.started;
      model.playing = { lane: player.lane, bit: frame * model.about.factor };
    } else if (frame === null && player.isOver) return stop();
  }
  told("heard");
}

// The frames of a block, of all that can be heard there. The mix ends in silence.
async function block(sources, first, count, signal) {
  const rows = await Promise.all(sources.map(it => bytes(`frames?source=${it}&from=${first}&count=${count}`, signal)));
  const channels = model.about.channels.length;
  return rows.map(({ data, headers }) => {
    const found = decoded(data, headers.get("X-Format"));
    if (found.length === count * channels) return found;
    const whole = new Float32Array(count * channels);
    whole.set(found);
    return whole;
  });
}

// Plays from a bit of a lane on, up to a bit, or again and again from one to the other.
export async function play(lane, from, to, loop = null) {
  const mine = ++turn;
  player.started = performance.now();
  player.latency = null;
  player.abort?.abort();
  const abort = (player.abort = new AbortController());
  const { factor, frame_rate } = model.about;
  Object.assign(player, { isOn: true, isOver: false, lane });
  told("playing");
  try {
    await begin();
    if (mine !== turn) return;
    node.port.postMessage({ clear: true, on: true, which: player.which === "master" ? 1 : 0 });
    ahead = 0;
    holds.length = 0;
    const sources = lane === "mix" ? (model.state.made?.is_current ? ["mix", "master"] : ["mix"]) : [lane];
    let place = Math.round(from / factor);
    const span = () => (loop ? loop() : null);
    let size = FIRST;
    let sent = 0;
    while (mine === turn) {
      const range = span();
      const stop = Math.round((range ? range.to : to) / factor);
      if (place >= stop) {
        if (!range || stop <= Math.round(range.from / factor)) break;
        place = Math.round(range.from / factor);
      }
      const count = Math.min(size, stop - place);
      const found = await block(sources, place, count, abort.signal);
      if (mine !== turn) return;
      node.port.postMessage({ block: { first: place, frames: count, sources: found, turn: mine } }, found.map(it => it.buffer));
      place += count;
      sent += count;
      size = Math.min(size * 2, BLOCK);
      while (mine === turn && ahead > AHEAD * frame_rate && sent > AHEAD * frame_rate) await new Promise(go => setTimeout(go, 50));
    }
    if (mine === turn) player.isOver = true;
  } catch (error) {
    if (mine !== turn || error.name === "AbortError") return;
    say(`Nothing can be heard: ${error.message}`, true);
    stop();
  }
}

export function stop() {
  turn++;
  player.isOn = false;
  player.abort?.abort();
  node?.port.postMessage({ clear: true, on: false });
  model.playing = null;
  player.levels = player.held = [];
  holds.length = 0;
  told("playing");
}

export function hear(which) {
  player.which = which;
  node?.port.postMessage({ which: which === "master" ? 1 : 0 });
  told("playing");
}
