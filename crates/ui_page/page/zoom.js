// The drawing: the size of the window, the width of the names, the width of an event, the height of a process, the radius of a mark.
const TOP = 30, NARROWEST = 6, WIDEST = 240, USUAL = 72, longestName = Math.max(...processes.map(({name}) => name.length));
let wide = 0, high = 0, stripWidth = 0, margin = 0, width = USUAL, height = 0, radius = 8.5, isFitted = false;
// The depth that the drawing reaches to the right, with the messages that are on their way.
function deepest() {
  let depth = Math.max(...later.map(({events}, p) => events.length > 0 ? events[events.length - 1].depth : state.lines[p].done.depth));
  for (const {to, sent, got} of shown.channels.values()) {
    if (sent.length > got.length) depth = Math.max(depth, flightDepth(to, sent[sent.length - 1], sent.length - got.length));
  }
  return depth;
}
function fittingWidth(depth) { return Math.max(1, Math.min(110, (wide - margin - 16) / (depth + .7))); }
function measure() {
  if (isWhole) return;
  wide = area.clientWidth;
  high = area.clientHeight;
  stripWidth = area.offsetWidth;
  margin = Math.min(wide < 500 ? 90 : 180, 24 + 7.3 * longestName);
  height = Math.max(isFitted ? 4 : 49, Math.min(92, (high - TOP - 6) / Math.max(1, rowCount)));
  const depth = deepest();
  // When the page opens, events take the room that there is.
  if (isFitted) width = fittingWidth(depth);
  else if (shownLine < 0) width = Math.max(USUAL, Math.floor(fittingWidth(depth + .5)));
  radius = Math.max(2, Math.min(8.5, .42 * width, .3 * height));
  across.resize(Math.max(wide, margin + (depth + (isFitted ? .6 : 1.2)) * width));
  down.resize(Math.max(high, TOP + height * rowCount));
}
// Draws all of the drawing, in place of what is visible, to save or print it; at most so many pixels each way, from what is visible on.
const LARGEST = 12000;
let isWhole = false, offsets = [0, 0];
function drawWhole(isOn) {
  isWhole = isOn;
  if (isOn) {
    offsets = [across.offset, down.offset];
    if (across.whole <= LARGEST) across.offset = 0;
    if (down.whole <= LARGEST) down.offset = 0;
    [wide, high] = [across, down].map(({whole, offset}) => Math.min(LARGEST, whole - offset));
  } else {
    measure();
    [across.offset, down.offset] = offsets;
  }
  paint(false);
}
addEventListener('beforeprint', () => drawWhole(true));
addEventListener('afterprint', () => drawWhole(false));
// Scrolls the drawing so that event n of process p is visible, with room for the events after it. For a chosen event, scrolls only as far
// as needed.
function reveal(p, n, isChosen) {
  if (rowOf[p] < 0) return;
  const right = (depthAt(p, n) - .4) * width, top = rowOf[p] * height, least = isChosen ? 16 : 30, most = wide - margin - Math.max(40, width);
  if (n > 0 && across.whole > wide + 1 && (right < across.offset + least || right > across.offset + most)) {
    across.offset = right - (!isChosen ? .6 * (wide - margin) : right < across.offset + least ? 30 : most);
  }
  if (top < down.offset || TOP + top + height > down.offset + high) down.offset = top - (high - height) / 2;
}
// Scrolls the drawing so that the last events of the breakpoint's processes in its cut are visible. When the page opens, they come nearer to
// each other if they would not fit.
function revealCut({cut, parts}, isOpening) {
  const named = parts.map(([p]) => p).filter(p => rowOf[p] >= 0);
  if (named.length === 0) return;
  const depths = named.map(p => depthAt(p, cut[p])), least = Math.min(...depths), most = Math.max(...depths);
  const apart = most - least + 1.5, room = wide - margin - 40;
  if (isOpening && apart * width > room) {
    width = Math.max(wide < 500 ? 12 : 40, Math.floor(room / apart));
    measure();
  }
  const right = (most - .4) * width, farthest = right + margin + 12 + Math.max(40, width) - wide;
  across.offset = Math.max(farthest, Math.min(right - .75 * (wide - margin), (least - .4) * width - 20));
  const rows = named.map(p => rowOf[p] * height), top = Math.min(...rows);
  if (top < down.offset || TOP + Math.max(...rows) + height > down.offset + high) down.offset = top;
}
// Makes events wider or narrower. What is at this distance from the left edge of the drawing stays there.
function zoom(factor, at) {
  const from = Math.max(0, (at === undefined ? (wide + margin) / 2 : at) - margin), depth = (across.offset + from) / width;
  isFitted = false;
  width = Math.max(NARROWEST, Math.min(WIDEST, Math.round(1000 * width * factor) / 1000));
  measure();
  across.offset = depth * width - from;
  set(find('fit'), {'aria-pressed': false});
  show({});
}
let beforeFit = USUAL;
function fit() {
  isFitted = !isFitted;
  if (isFitted) beforeFit = width; else width = beforeFit;
  set(find('fit'), {'aria-pressed': isFitted});
  show({isMoved: true});
}
// Where the pointer is in the drawing, as a distance from its left edge; undefined elsewhere.
let pointer;
function fromLeft(event) { return event.clientX - area.getBoundingClientRect().left; }
area.addEventListener('pointermove', event => pointer = fromLeft(event));
area.addEventListener('pointerleave', () => pointer = undefined);
area.addEventListener('wheel', event => {
  if (!event.ctrlKey) return;
  event.preventDefault();
  zoom(Math.exp(-Math.max(-120, Math.min(120, event.deltaY)) / 400), fromLeft(event));
}, {passive: false});

// Drags with a mouse move the drawing. A finger scrolls it by itself.
let drag = null;
area.addEventListener('pointerdown', event => {
  if (event.pointerType !== 'mouse' || event.button !== 0) return;
  drag = {x: event.clientX, y: event.clientY, left: across.offset, top: down.offset, isMoved: false};
});
addEventListener('pointermove', event => {
  if (!drag) return;
  const right = event.clientX - drag.x, below = event.clientY - drag.y;
  if (!drag.isMoved && Math.hypot(right, below) < 5) return;
  drag.isMoved = true;
  area.classList.add('dragged');
  across.offset = drag.left - right;
  down.offset = drag.top - below;
});
// The click at the end of a drag chooses nothing.
addEventListener('click', event => {
  if (drag && drag.isMoved) event.stopPropagation();
  drag = null;
}, true);
addEventListener('pointerup', () => {
  area.classList.remove('dragged');
  if (drag && !drag.isMoved) drag = null;
  setTimeout(() => drag = null, 0);
});

// The overview: all events, in a row of up to four pixels for each process, and the part that is visible. It is shown if the drawing is
// larger, and takes at most an eighth of its height.
const overview = find('overview'), strip = overview.querySelector('svg'), ticks = processes.map(() => shape('path', strip));
const visible = shape('rect', strip);
let strippedAt = null;
function stripHigh() { return Math.max(.5, Math.min(4, (high / 8 - 4) / Math.max(1, rowCount))); }
// The pixels at which a process has events, as runs.
function ticksOf(p, scale, size) {
  const made = shown.events[p], again = later[p].events, path = [], y = 2 + (rowOf[p] + .5) * stripHigh();
  const hasEvent = (list, from, to) => {
    const i = firstWhere(list, ({depth}) => depth >= from);
    return i < list.length && list[i].depth < to;
  };
  for (let x = 0; x < size; x += 2) {
    if ([made, again].some(list => hasEvent(list, x / scale, (x + 2) / scale))) path.push('M' + x + ' ' + y + 'h1.5');
  }
  return path.join('');
}
function paintOverview() {
  const isLarger = across.whole > wide + 1 || down.whole > high + 1, size = stripWidth;
  overview.classList.toggle('unneeded', !isLarger);
  if (!isLarger || size === 0) return;
  const scale = size / (across.whole / width), now = [place, size, across.whole, rowCount, stripHigh()].join();
  set(strip, {width: size, height: stripHigh() * rowCount + 4});
  if (strippedAt !== now) ticks.forEach((path, p) => set(path, {d: rowOf[p] < 0 ? '' : ticksOf(p, scale, size)}));
  strippedAt = now;
  const {offset, whole} = across, share = Math.min(1, wide / whole), tall = stripHigh() * rowCount + 2;
  set(visible, {x: offset / whole * size, width: Math.max(6, share * size)});
  set(visible, {y: 1 + down.offset / down.whole * tall, height: Math.min(1, high / down.whole) * tall});
}
function toOverview(event) {
  const box = overview.getBoundingClientRect();
  across.offset = (event.clientX - box.left) / box.width * across.whole - wide / 2;
  down.offset = (event.clientY - box.top) / box.height * down.whole - high / 2;
}
overview.addEventListener('pointerdown', event => {
  overview.setPointerCapture(event.pointerId);
  toOverview(event);
});
overview.addEventListener('pointermove', event => { if (event.buttons & 1) toOverview(event); });
