// Clips are moved and trimmed at random. Each fade that came by overlapping covers its overlap; fades of a clip take no longer
// than it; and once all clips are apart, each fades as it did at first. Its argument takes what was found, and how many
// such fades there were.
const [done] = arguments;
const RUNS = 1000;
let seed = 1;
const below = number => {
  seed = (Math.imul(seed, 1664525) + 1013904223) >>> 0;
  return Math.floor((seed / 2 ** 32) * number);
};
const fade = () => (below(3) ? null : [1 + below(9), "s"]);
const faults = [];
let count = 0;

function judge(clips) {
  for (const it of clips) {
    if ((it.in?.[0] ?? 0) + (it.out?.[0] ?? 0) > it.length) faults.push(`longer than its clip: ${JSON.stringify(it)}`);
    for (const side of Object.keys(it.overlap ?? {})) {
      count++;
      const over = (early, late) => (late.at > early.at ? early.at + early.length - late.at : 0);
      const found = clips.map(other => (side === "out" ? over(it, other) : over(other, it)));
      if (!found.includes(it[side]?.[0])) faults.push(`covers no overlap, ${side}: ${JSON.stringify(clips)}`);
    }
  }
}

function tried({ model }, { settled }, { trimmed }) {
  const start = model.about.takes[0].bits / 2;
  const put = changes => changes.forEach((it, number) => model.clips.set(number, it));
  for (let run = 0; run < RUNS && !faults.length; run++) {
    const numbers = Array.from({ length: 2 + below(4) }, (_, number) => number);
    const clip = at => ({ take: below(2), start, at, length: 20 + below(200), line: [[0, 1]], in: fade(), out: fade() });
    model.clips = new Map(numbers.map(it => [it, clip(it * 1000)]));
    const first = JSON.stringify([...model.clips.values()].map(it => [it.in, it.out]));
    const isTrimmed = run % 2;
    for (let step = 0; step < 12; step++) {
      const number = below(numbers.length);
      const it = model.clips.get(number);
      const isTrim = isTrimmed && below(3) === 0;
      const now = isTrim ? trimmed(it, below(2) ? "start" : "end", below(60) - 30) : { ...it, at: below(600) };
      put(settled(new Map([[number, now]])));
      judge([...model.clips.values()]);
    }
    if (isTrimmed) continue;
    for (const it of numbers) put(settled(new Map([[it, { ...model.clips.get(it), at: 5000 + it * 1000 }]])));
    const last = JSON.stringify([...model.clips.values()].map(it => [it.in, it.out]));
    if (first !== last || [...model.clips.values()].some(it => it.overlap)) faults.push(`apart: ${last}, not ${first}`);
  }
  done([faults, count]);
}

Promise.all(["model", "overlaps", "edits"].map(it => import(new URL(`${it}.js`, location)))).then(found => tried(...found));
