// Times and levels, as they are shown and typed. Places are bits of the mix, or of a take.
export const FULL = 1 << 24;

const pad = (number, size) => String(number).padStart(size, "0");

// 1,234,567. (A browser's own way of doing this takes it a tenth of a second to load.)
export const grouped = number => String(number).replace(/\B(?=(\d{3})+$)/g, ",");

// h:mm:ss.mmm, with that many digits after the point.
export function clock(bits, rate, digits = 3) {
  const unit = 10 ** digits;
  const all = Math.round((Math.abs(bits) * unit) / rate);
  const seconds = Math.floor(all / unit);
  const text = `${Math.floor(seconds / 3600)}:${pad(Math.floor(seconds / 60) % 60, 2)}:${pad(seconds % 60, 2)}`;
  return (bits < 0 ? "−" : "") + text + (digits ? `.${pad(all % unit, digits)}` : "");
}

// The bits of 1:02:03.5, 2:03.5, 3.5, 20ms, 3s, 50us or @N; null if it is none of these.
export function parsed(text, rate) {
  const it = text.trim().replace("−", "-");
  let found = /^@(\d{1,11})$/.exec(it);
  if (found) return Number(found[1]);
  found = /^(\d{1,9}(?:\.\d+)?|\.\d+)\s*(s|ms|us|µs)$/.exec(it);
  if (found) return Math.round(Number(found[1]) * { s: 1, ms: 1e-3, us: 1e-6, µs: 1e-6 }[found[2]] * rate);
  found = /^(?:(?:(\d{1,4}):)?(\d{1,5}):)?(\d{1,9}(?:\.\d+)?)$/.exec(it);
  if (!found) return null;
  return Math.round((Number(found[1] ?? 0) * 3600 + Number(found[2] ?? 0) * 60 + Number(found[3])) * rate);
}

export function lasting(bits, rate) {
  const time = bits / rate;
  return time >= 1 ? `${time.toFixed(3)} s` : `${(time * 1e3).toFixed(3)} ms`;
}

export const decibels = gain => (gain > 0 ? 20 * Math.log10(gain) : -Infinity);

export const level = value => (value === null || value === -Infinity ? "−∞ dB" : `${value.toFixed(1).replace("-", "−")} dB`);

export const gainOf = text => {
  const it = text.trim().replace("−", "-").replace(/\s*dB$/i, "");
  if (/^-?(inf|∞)$/i.test(it) || it === "off") return 0;
  return /^[+-]?\d{1,4}(\.\d+)?$/.test(it) ? Math.round(FULL * 10 ** (Number(it) / 20)) : null;
};

export const levelOf = gain => (gain <= 0 ? "off" : String(Math.round(decibels(gain / FULL) * 1e4) / 1e4).replace("-", "−"));
