// Waves, and pictures that are kept: a lane that is scrolled is drawn only where it wasn't in sight before.
import { model } from "./model.js";
import { blockFor, COLUMNS, tile } from "./tiles.js";

const BESIDE = 2; // columns that are drawn beside those that are new, so that nothing shows where they meet
const DOT = 5; // pixels between single samples from which on each has a dot
export const ratio = () => devicePixelRatio || 1;

export function sized(canvas, width, height) {
  const [across, down] = [Math.round(width * ratio()), Math.round(height * ratio())];
  const isOther = canvas.width !== across || canvas.height !== down;
  if (isOther) [canvas.width, canvas.height] = [across, down];
  return isOther;
}

const kept = new WeakMap();

// The picture of a canvas is drawn anew, all of it.
export const repaint = canvas => kept.delete(canvas);

// A view that begins with a whole pixel of the screen.
export const settled = view => ({ from: (Math.round((view.from / view.per) * ratio()) * view.per) / ratio(), per: view.per });

// The kept picture of a canvas. `paint` draws what is between two pixels.
export function picture(canvas, view, paint) {
  const { clientWidth: width, clientHeight: height } = canvas;
  const it = kept.get(canvas) ?? { canvas: document.createElement("canvas"), per: 0, place: 0 };
  const place = Math.round((view.from / view.per) * ratio());
  const isOther = sized(it.canvas, width, height) || it.per !== view.per;
  const by = isOther ? Infinity : place - it.place;
  const across = it.canvas.width;
  kept.set(canvas, Object.assign(it, { per: view.per, place }));
  if (by === 0) return it.canvas;
  const to = it.canvas.getContext("2d");
  to.setTransform(1, 0, 0, 1, 0, 0);
  let [first, last] = [0, across];
  if (Math.abs(by) < across) {
    to.globalCompositeOperation = "copy";
    to.drawImage(it.canvas, -by, 0);
    to.globalCompositeOperation = "source-over";
    [first, last] = by > 0 ? [across - by, across] : [0, -by];
  } else to.clearRect(0, 0, across, it.canvas.height);
  to.save();
  to.setTransform(ratio(), 0, 0, ratio(), 0, 0);
  to.beginPath();
  to.rect(first / ratio(), 0, (last - first) / ratio(), height);
  to.clip();
  to.font = "12px system-ui, sans-serif";
  to.textBaseline = "middle";
  paint(to, first / ratio(), last / ratio());
  to.restore();
  return it.canvas;
}

// The columns of a wave that are drawn between two pixels; from x0 to x1 there is sound.
function columns(span, x0, x1) {
  const first = Math.max(Math.floor(span[0] * ratio()) - BESIDE, Math.round(x0 * ratio()));
  return [first, Math.min(Math.ceil(span[1] * ratio()) + BESIDE, Math.max(Math.round(x1 * ratio()), first + 1))];
}

// Draws a channel of a source. `from` is its bit at pixel 0, and `gain` says what it is times at a pixel, if that isn't 1.
export function wave(to, { source, frames, channel, from, x0, x1, middle, half, gain, paint }, view, span) {
  const { factor, channels } = model.about;
  const step = view.per / ratio() / factor;
  const [first, last] = columns(span, x0, x1);
  const block = blockFor(view.per / factor);
  const read = reader(source, block, channels.length, channel);
  const scale = (half * model.tall) / 32768;
  to.fillStyle = to.strokeStyle = paint;
  if (view.per < factor) return samples(to, { frames, from, first, last, middle, half, gain, scale }, view, read);
  let line = [];
  for (let column = first; column < last; column++) {
    const frame = from / factor + column * step;
    const low = Math.max(Math.floor(frame / block), 0);
    const high = Math.max(Math.ceil((frame + step) / block) - 1, low);
    const [least, most] = frame + step <= 0 || frame >= frames ? [1, 0] : read(low, high);
    if (least > most) {
      filled(to, line);
      line = [];
      continue;
    }
    const times = gain ? gain(column / ratio()) * scale : scale;
    const [one, other] = [-most * times, -least * times];
    const top = Math.max(-half, Math.min(one, other, half));
    line.push((column + 0.5) / ratio(), middle + top, middle + Math.max(Math.min(half, Math.max(one, other)), top + 1));
  }
  filled(to, line);
}

// The area between the tops and the bottoms of columns: three numbers for each, its place, its top and its bottom.
function filled(to, line) {
  if (!line.length) return;
  const beside = 0.5 / ratio();
  to.beginPath();
  to.lineTo(line[0] - beside, line[1]);
  for (let at = 0; at < line.length; at += 3) to.lineTo(line[at], line[at + 1]);
  to.lineTo(line.at(-3) + beside, line.at(-2));
  to.lineTo(line.at(-3) + beside, line.at(-1));
  for (let at = line.length - 3; at >= 0; at -= 3) to.lineTo(line[at], line[at + 2]);
  to.lineTo(line[0] - beside, line[2]);
  to.fill();
}

// Says the least and the greatest of a channel from one column of its tiles to another.
function reader(source, block, count, channel) {
  let [number, found] = [-1, null];
  const result = [0, 0];
  return (low, high) => {
    let [least, most] = [32767, -32768];
    for (let column = low; column <= high; column++) {
      const index = Math.floor(column / COLUMNS);
      if (index !== number) [number, found] = [index, tile(source, block, index)];
      const place = ((column - index * COLUMNS) * count + channel) * 2;
      if (!found || place + 1 >= found.length) continue;
      if (found[place] < least) least = found[place];
      if (found[place + 1] > most) most = found[place + 1];
    }
    result[0] = least;
    result[1] = most;
    return result;
  };
}

// Single samples, joined by lines.
function samples(to, { frames, from, first, last, middle, half, gain, scale }, view, read) {
  const { factor } = model.about;
  const [low, high] = [first, last].map(it => (from + (it / ratio()) * view.per) / factor);
  const dots = [];
  let isOn = false;
  to.beginPath();
  for (let frame = Math.max(Math.floor(low), 0); frame <= Math.min(Math.ceil(high), frames - 1); frame++) {
    const [least, most] = read(frame, frame);
    const x = (frame * factor - from) / view.per;
    const y = middle - Math.max(-half, Math.min(least * scale * (gain ? gain(x) : 1), half));
    if (least <= most) to[isOn ? "lineTo" : "moveTo"](x, y);
    isOn = least <= most;
    if (isOn && factor / view.per > DOT) dots.push(x, y);
  }
  to.stroke();
  for (let at = 0; at < dots.length; at += 2) to.fillRect(dots[at] - 1.5, dots[at + 1] - 1.5, 3, 3);
}
