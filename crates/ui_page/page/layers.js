const SVG = 'http://www.w3.org/2000/svg', svg = area.querySelector('svg');
function shape(tag, parent, attributes = {}) {
  const made = document.createElementNS(SVG, tag);
  for (const name in attributes) made.setAttribute(name, attributes[name]);
  return parent.appendChild(made);
}
function set(element, attributes) {
  for (const name in attributes) if (element.getAttribute(name) !== String(attributes[name])) element.setAttribute(name, attributes[name]);
}
// Sets a text if it is another one, so that a selection of it stays.
function setText(element, text) { if (element.textContent !== String(text)) element.textContent = text; }
// A name in so many characters, without its middle: names that begin alike often end otherwise.
function shortName(name, most) {
  const end = Math.floor((most - 2) / 2);
  return name.length <= most || end < 1 ? short(name, most) : name.slice(0, most - 2 - end) + '..' + name.slice(-end);
}
function short(text, most) { return text.length <= most ? text : most < 4 ? text.slice(0, Math.max(0, most)) : text.slice(0, most - 2) + '..'; }
shape('desc', svg, {id: 'described'}).textContent = 'Each process is a line from left to right, with its events in the order in which it makes ' +
  'them. Arrows are messages. Events that can be redone are pale. The cut of a breakpoint is a line across the processes. Arrow keys go from ' +
  'event to event, and Enter chooses one.';
svg.setAttribute('aria-describedby', 'described');

// Elements that stay as long as the things that they show, in the order in which they are named. Each is a group of these tags, and the last
// one is its name.
class Layer {
  constructor(name) {
    this.group = shape('g', svg, {class: name});
    this.kept = new Map();
  }
  begin(fades) {
    this.fades = fades;
    this.used = new Set();
    this.cursor = this.group.firstChild;
  }
  make(key, tags, chooses) {
    const item = shape('g', this.group);
    for (const tag of tags) shape(tag, item);
    set(item, chooses && chooses.p !== undefined ? {tabindex: -1, role: 'button'} : {role: 'img'});
    item.chooses = chooses;
    item.isNew = this.fades;
    if (this.fades) requestAnimationFrame(() => requestAnimationFrame(() => {
      item.isNew = false;
      item.classList.remove('new');
    }));
    this.kept.set(key, item);
    return item;
  }
  item(key, kind, tags, chooses) {
    const item = this.kept.get(key) || this.make(key, tags, chooses);
    this.used.add(key);
    set(item, {class: kind + (item.isNew ? ' new' : '')});
    while (this.cursor && this.cursor.isGone) this.cursor = this.cursor.nextSibling;
    if (this.cursor === item) this.cursor = item.nextSibling; else this.group.insertBefore(item, this.cursor);
    return item.children;
  }
  end() {
    for (const [key, item] of this.kept) {
      if (this.used.has(key)) continue;
      this.kept.delete(key);
      item.isGone = true;
      if (item === document.activeElement) area.focus({preventScroll: true});
      item.removeAttribute('tabindex');
      item.classList.add('gone');
      if (this.fades) setTimeout(() => item.remove(), 260); else item.remove();
    }
  }
}
function nameItem(title, text) {
  setText(title, text);
  set(title.parentNode, {'aria-label': text});
}
const [rails, cuts, arrows, marks, names, labels] = ['rails', 'cuts', 'arrows', 'marks', 'names', 'labels'].map(name => new Layer(name));
const LAYERS = [rails, cuts, arrows, marks, names, labels];

// The drawing is one stop of Tab. Arrow keys move its focus to the next event, or to the next process.
let roving = null, rovesTo = null;
function itemAt({p, n}) { return n === 0 ? names.kept.get(p) : marks.kept.get(p + ',' + n); }
function isFocusable(item) { return item && !item.isGone && item.isWithin; }
function focusableItems() { return [...marks.kept.values(), ...names.kept.values()].filter(isFocusable); }
function placeStop() {
  const items = focusableItems(), focused = document.activeElement;
  const wished = chosen && chosen.p !== undefined ? [roving, chosen] : [roving];
  const wanted = [focused, ...wished.map(what => what && itemAt(what)), marks.group.querySelector('.latest'), items[0]];
  const stop = wanted.find(item => items.includes(item));
  for (const layer of [marks, names]) for (const item of layer.kept.values()) set(item, {tabindex: item === stop ? 0 : -1});
  if (rovesTo) {
    const item = itemAt(rovesTo);
    rovesTo = null;
    if (isFocusable(item)) item.focus({preventScroll: true});
  }
  if (svg.contains(document.activeElement) && !isFocusable(document.activeElement)) area.focus({preventScroll: true});
}
// What is next to event n of process p: an event of the process, or a nearby event of the process that is drawn next.
function neighbour({p, n}, key) {
  const last = Math.min(n, sizeOf(p));
  if (key === 'ArrowLeft') return {p, n: Math.max(0, last - 1)};
  if (key === 'ArrowRight') return {p, n: Math.min(sizeOf(p), last + 1)};
  const q = nextRow(p, key === 'ArrowDown' ? 1 : -1);
  if (q === undefined) return {p, n: last};
  return {p: q, n: firstWhere([...shown.events[q], ...later[q].events], event => event.depth > depthAt(p, last))};
}
function rove(key) {
  roving = rovesTo = neighbour(document.activeElement.chooses, key);
  show({isRoved: true});
}
