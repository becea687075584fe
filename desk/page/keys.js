// The keys, their list, and what is done with them first.
export const STEPS = [
  "Drag over a wave below: this selects a part of a take. “Play” lets you hear it.",
  "Press “Put into the mix”. Do the same with the next part: it comes after the first.",
  "Drag a clip by its name to move it, and by its ends to trim it.",
  "Drag the round handles of a selected clip to fade it in or out.",
  "Drag a clip over the end of the one before: they crossfade as long as they overlap.",
  "Double-click the line over a clip’s wave to add a gain point, and drag it.",
  "Click into the mix and press “Play” to hear it from there. Press “Make master” when it is right.",
];

export const KEYS = [
  ["Space", "play the selected range, or from the cursor; or stop"],
  ["Shift Space", "play what is selected, again and again"],
  ["A", "hear the mix or the master"],
  ["Tab, Shift Tab in a lane", "next or previous cut, with two seconds around it"],
  ["← →", "cursor by a pixel; with Shift by ten, with Alt by a bit"],
  ["Home, End", "cursor to the start or the end"],
  ["[ ]", "select from here, or up to here"],
  ["+ −", "zoom in and out; 0 all, Z what is selected"],
  ["Enter, I", "put the selected part of a take into the mix: at the cursor, or at the end if that is inside of a clip"],
  [", .", "move the selected clips by a pixel; with Shift by ten, with Alt by a bit"],
  ["N, P", "select the next or the previous clip"],
  ["S", "split at the cursor"],
  ["J", "join the selected clips"],
  ["F", "fade from an end of the clip to the cursor"],
  ["X", "crossfade the selected clips where they overlap, by fades that stay"],
  ["G", "gain point at the cursor"],
  ["Shift P", "pause before the selected clip, as long as its field says"],
  ["Delete", "take the chosen gain point away, or delete the selected clips"],
  ["Double click", "on the line of levels: add a gain point; on a point: take it away"],
  ["Wheel", "scroll; with Ctrl zoom at the pointer"],
  ["Escape", "end a drag, or select nothing; in a lane, then Tab leaves it"],
  ["Ctrl Z, Ctrl Y", "undo, redo"],
  ["Ctrl S", "save"],
  ["Ctrl Enter", "make the master"],
  ["?", "this list"],
];

// The name of a key of an event, such as "ctrl shift z".
export function nameOf(event) {
  const parts = [];
  if (event.ctrlKey || event.metaKey) parts.push("ctrl");
  if (event.altKey) parts.push("alt");
  const isLetter = event.key.length === 1;
  if (event.shiftKey && (!isLetter || /[a-z ]/i.test(event.key))) parts.push("shift");
  parts.push(event.key === " " ? "space" : event.key.toLowerCase());
  return parts.join(" ");
}

// What was typed into a field counts before what a key does.
function finish(field) {
  const { id, selectionStart: first, selectionEnd: last } = field;
  field.blur();
  const now = id && document.getElementById(id);
  now?.focus();
  if (now?.type === "text") now.setSelectionRange(first, last);
}

export function listenTo(bindings) {
  document.addEventListener("keydown", event => {
    const isField = event.target.closest("input[type=text], select, textarea, dialog");
    const name = nameOf(event);
    if (isField && !/^ctrl (s|enter)$/.test(name)) return;
    if (isField && event.target.id) finish(event.target);
    // A button, a box or a link has the space bar and Enter for itself.
    if (event.target.closest("button, input, a, summary") && /^(space|enter|arrow.*)$/.test(name)) return;
    const found = bindings(name, event);
    if (found) {
      event.preventDefault();
      event.stopPropagation();
    }
  });
}
