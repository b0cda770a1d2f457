// Changes: of the current line, of the chosen event or breakpoint, of the visible part. They are drawn once for each frame.
let waits = null;
function show(what) {
  if (waits) return void Object.assign(waits, what);
  waits = what;
  requestAnimationFrame(() => {
    const {isMoved, isChosen} = waits;
    waits = null;
    if (isMoved) {
      follow();
      say();
    }
    if (isMoved || isChosen) {
      showDetails();
      showPoints();
      markProgram();
      noteAddress();
    }
    measure();
    if (isMoved) toChange();
    if (isChosen && chosen && chosen.n <= sizeOf(chosen.p)) reveal(chosen.p, chosen.n, true);
    if (rovesTo && rovesTo.n <= sizeOf(rovesTo.p)) reveal(rovesTo.p, rovesTo.n, true);
    paintLines();
    paint(isMoved || isChosen);
    paintOverview();
  });
}
// Shows the line and its reply above.
function say() {
  find('slider').value = place;
  const [text, reply] = place === 0 ? ['start of the session', ''] : lines[place - 1];
  const begin = place === 0 ? '' : 'line ' + place + ' of ' + lines.length + ': ';
  update(find('said'), [begin, node('code', text), reply && ' -> ', node('b', node('code', reply))]);
}
// Scrolls to what the line changed, and after a jump to a halt, to the cut. After another jump, finds the last change, which may be in an
// earlier line.
function toChange() {
  revealLine();
  const isOpening = shownLine < 0, isJump = Math.abs(place - shownLine) > 1, cut = isJump && halts.includes(place) ? shownCut() : null;
  shownLine = place;
  if (cut) return revealCut(cut, isOpening);
  let n = place;
  if (isJump) while (n > 1 && states[n].lines === states[n - 1].lines) n--;
  const made = latest(n).map((n, p) => [p, Math.min(n, sizeOf(p))]).filter(([p, n]) => n > 0 && rowOf[p] >= 0);
  if (made.length > 0) reveal(...made.reduce((one, other) => depthAt(...other) > depthAt(...one) ? other : one));
}
function go(n) {
  const next = Math.max(0, Math.min(lines.length, n));
  if (next !== place) {
    place = next;
    show({isMoved: true});
  }
}
// Goes so many listed lines further.
function step(by) {
  const at = listPlace(place), isBetween = listed[at] !== place;
  go(listed[Math.max(0, Math.min(listed.length - 1, at + by + (isBetween && by < 0 ? 1 : 0)))]);
}
function choose(what) {
  chosen = what;
  if (what && what.p !== undefined) roving = what;
  find('details').scrollTop = 0;
  show({isChosen: true});
}
// Whether a line changed something: an event, a breakpoint, or which one halts.
function isChange(n) { return states[n] !== states[n - 1]; }
// Plays the lines that change something, and the last line.
function play(isOn) {
  clearInterval(playing);
  playing = 0;
  setText(find('play'), isOn ? 'stop' : 'play');
  if (!isOn) return;
  if (place === lines.length) go(0);
  playing = setInterval(playOn, 600);
}
function playOn() {
  if (place === lines.length) return play(false);
  let n = place + 1;
  while (n < lines.length && !isChange(n)) n++;
  go(n);
}
// Chooses a neighbour of the chosen event. If none is chosen, chooses the event that the line made.
function walk(key) {
  if (chosen && chosen.p !== undefined) return choose(rovesIfFocused(neighbour(chosen, key)));
  const p = Math.max(0, latest(place).findIndex(n => n > 0));
  choose(rovesIfFocused({p, n: state.lines[p].done.n}));
}
// The focus follows the choice, if it is in the drawing.
function rovesIfFocused(what) {
  if (svg.contains(document.activeElement)) rovesTo = what;
  return what;
}
// Goes to the next line that halts the session, or to the one before.
function toHalt(isNext) {
  const line = isNext ? halts.find(n => n > place) : halts.findLast(n => n < place);
  if (line !== undefined) go(line);
}
// Escape ends the choice. With none, it brings the focus to the lines.
function escape() {
  if (chosen) choose(null); else listArea.focus();
}
const moves = {ArrowUp: -1, ArrowLeft: -1, ArrowDown: 1, ArrowRight: 1, PageUp: -10, PageDown: 10, Home: -Infinity, End: Infinity};
const keys = {
  Escape: escape, '+': () => zoom(1.25, pointer), '=': () => zoom(1.25, pointer), '-': () => zoom(.8, pointer), f: fit, h: () => toHalt(true),
  H: () => toHalt(false), '/': openSearch, p: toggleProgram,
};
// Whether the focused part of the page uses this key by itself.
function isTaken(focused, key, isShifted) {
  if (focused.matches('input:not([type=range]), select')) return true;
  if (focused.matches('summary') && /^( |Enter)$/.test(key)) return true;
  return focused.matches('#details, #program') && !isShifted && key in moves && (focused.id === 'program' || !/Left|Right/.test(key));
}
// Whether the focus came by Tab. Only then arrow keys move it in the drawing: after a click they go through the lines.
let isTabbed = false;
document.addEventListener('pointerdown', () => isTabbed = false, true);
document.addEventListener('keydown', event => {
  if (event.ctrlKey || event.altKey || event.metaKey) return;
  const focused = document.activeElement, {key} = event;
  if (key === 'Tab') isTabbed = true;
  if (isTaken(focused, key, event.shiftKey)) return;
  if (event.shiftKey && key.startsWith('Arrow')) walk(key);
  else if (isTabbed && key.startsWith('Arrow') && svg.contains(focused) && focused.chooses) rove(key);
  else if (key in moves) step(moves[key]);
  else if (focused.chooses && (key === 'Enter' || key === ' ')) choose(focused.chooses);
  else if (key === ' ' && focused.tagName !== 'BUTTON') play(!playing);
  else if (Object.hasOwn(keys, key)) keys[key]();
  else return;
  event.preventDefault();
});
document.addEventListener('click', event => {
  const item = event.target.closest('g, #points button, .row');
  if (!item || !getSelection().isCollapsed && item.line !== undefined) return;
  if (item.chooses) choose(item.chooses);
  else if (item.line !== undefined) go(item.line);
});
find('slider').max = lines.length;
find('halts').append(...halts.slice(0, 100).map(n => node('option', '', {value: n})));
find('slider').oninput = event => go(Number(event.target.value));
const buttons = {
  first: () => step(-Infinity), before: () => step(-1), next: () => step(1), last: () => step(Infinity), play: () => play(!playing),
  narrower: () => zoom(.8), wider: () => zoom(1.25), fit, text: copyAsText, copy: copyLink, save, code: toggleProgram,
};
for (const name in buttons) find(name).onclick = buttons[name];
listArea.onscroll = area.onscroll = () => show({});
new ResizeObserver(() => show({})).observe(area);
openAt(location.hash);
