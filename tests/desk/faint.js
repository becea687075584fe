// The texts of the page whose contrast is too small, and pairs of colours in the lanes, by WCAG 2's formula. Its arguments are
// the least contrast, and what takes how many were looked at, and those that were found.
const [least, done] = arguments;
const paper = document.createElement("canvas").getContext("2d");

// Red, green and blue, up to 255, and how much of it covers what is below.
function parsed(color) {
  paper.fillStyle = "#000";
  paper.fillStyle = color;
  const text = paper.fillStyle;
  const rows = text[0] === "#" ? [1, 3, 5].map(at => parseInt(text.slice(at, at + 2), 16)) : text.match(/[\d.]+/g).map(Number);
  return rows.length === 3 ? [...rows, 1] : rows;
}

const over = (one, other) => [0, 1, 2].map(it => one[it] * one[3] + other[it] * (1 - one[3])).concat(1);

function light(color) {
  const [red, green, blue] = color.map(it => (it / 255 <= 0.03928 ? it / 255 / 12.92 : ((it / 255 + 0.055) / 1.055) ** 2.4));
  return 0.2126 * red + 0.7152 * green + 0.0722 * blue;
}

function ratio(one, other) {
  const [low, high] = [light(one), light(other)].sort((a, b) => a - b);
  return (high + 0.05) / (low + 0.05);
}

const opacity = it => (it ? Number(getComputedStyle(it).opacity) * opacity(it.parentElement) : 1);

function ground(it) {
  if (!it) return [255, 255, 255, 1];
  const own = parsed(getComputedStyle(it).backgroundColor);
  own[3] *= opacity(it);
  return own[3] === 1 ? own : over(own, ground(it.parentElement));
}

const found = [];
let count = 0;
function judge(one, under, name) {
  count++;
  const value = ratio(one, under);
  if (value < least) found.push(`${name}: ${value.toFixed(2)}`);
}

for (const it of document.querySelectorAll("body *")) {
  const own = [...it.childNodes].filter(node => node.nodeType === 3).map(node => node.data);
  const text = it.matches("input[type=text], select") ? it.value : own.join("").trim();
  if (!text || !it.checkVisibility() || it.matches(".unseen")) continue;
  const color = parsed(getComputedStyle(it).color);
  color[3] *= opacity(it);
  const under = ground(it);
  judge(over(color, under), under, `${it.tagName} ${text.slice(0, 30)}`);
}

import(new URL("draw.js", location)).then(draw => {
  const style = getComputedStyle(document.documentElement);
  const named = it => parsed(style.getPropertyValue(`--${it}`).trim());
  const grounds = ["ground", "panel", "lane"];
  for (const one of ["ink", "soft", "main", "bad", "good"]) for (const it of grounds) judge(named(one), named(it), `${one} on ${it}`);
  judge(named("on-main"), named("main"), "on-main on main");
  const pairs = ["ink", "soft"].flatMap(it => [[it, named("panel")], [it, named("lane")]]);
  for (let take = 0; take < 16; take++) pairs.push(["ink", parsed(draw.takeColor(take))]);
  // Some are seen through the colour of a selected range.
  for (const [name, under] of pairs) for (const tint of [[0, 0, 0, 0], named("select")]) {
    judge(over(tint, named(name)), over(tint, under), `${name} on ${under.map(Math.round)}`);
  }
  done([count, found]);
});
