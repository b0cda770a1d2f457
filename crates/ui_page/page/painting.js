// The name of an event, and what it did.
function summary(p, n) {
  const what = n === 0 ? 'start' : n <= shown.events[p].length ? 'event ' + n : 'to redo: event ' + n;
  return what + ' of ' + processes[p].name;
}
// A command by its label, or else by its number.
function commandName({p, k}) { return (processes[p].commands[k] || [])[2] || 'command ' + k; }
function deeds(event) {
  const [way, other, value] = event.exchange || [], message = way === 's' ? 'sent ' + value + ' to ' : 'received ' + value + ' from ';
  const sets = event.sets.map(([name, , value]) => name + '=' + value);
  return [commandName(event), ...sets, ...way ? [message + processes[other].name] : []].join(', ');
}
// The changes of an event, in so many characters: a name is cut before its value is. What this part of a predicate names comes first.
function settings(event, most, part) {
  const changes = event.sets.filter(([, old, value]) => old !== value), named = part.match(/\w+(?:\[\d+\])*/g) || [];
  changes.sort(([one], [other]) => named.includes(other) - named.includes(one));
  const [first, ...rest] = changes.map(([name, , value]) => [name, '=' + value]);
  if (!first || most < 4) return '';
  const whole = [first, ...rest].map(parts => parts.join('')).join(' ');
  if (whole.length <= most) return whole;
  const [name, value] = first, more = rest.length > 0 ? ' ..' : '';
  return short(name, Math.max(1, most - value.length - more.length)) + short(value, most - 1) + more;
}

// What is visible: the drawing begins at `base`, in groups that are moved, so that scrolling changes few elements.
function visiblePart() {
  const left = across.offset, top = down.offset, base = left - left % 2048;
  return {
    left, top, seen: left - base, low: left / width - 1, most: (left + wide - margin) / width + 1,
    x: depth => margin + 12 + Math.max(0, depth - .4) * width - base, y: p => TOP + (rowOf[p] + .45) * height,
  };
}
function isRowSeen({top, y}, p) { return rowOf[p] >= 0 && y(p) > top - height && y(p) < top + high + height; }
// Whether an event there is visible with its ring. If it is not, it cannot have the focus, because a browser scrolls to the element that has it.
function isWithin({seen, top}, x, y) {
  return x - seen > margin + 12 && x - seen < wide - Math.max(15, width / 2) && y - top > 24 && y - top < high - 16;
}

function paintNames(part) {
  const {top, y} = part;
  processes.forEach(({name}, p) => {
    if (!isRowSeen(part, p)) return;
    const [rail] = rails.item(p, 'line', ['line']);
    set(rail, {x1: 0, x2: wide, y1: y(p), y2: y(p)});
    set(rail.parentNode, {'aria-hidden': true});
    const [ground, text, title] = names.item(p, chosen && chosen.p === p && chosen.n === 0 ? 'chosen' : '', ['rect', 'text', 'title'], {p, n: 0});
    set(ground, {y: y(p) - .45 * height, width: margin, height: height + 1});
    set(text, {x: 8, y: y(p) + 4});
    ground.parentNode.isWithin = y(p) - top > .45 * height - 1 && y(p) - top < high - .55 * height + 1;
    setText(text, shortName(name, Math.floor((margin - 20) / 7.3)));
    nameItem(title, summary(p, 0));
  });
}

// Where a message that is on its way ends: at the recipient's line, after its events. Of many messages, the later ones end further to the right.
function flightDepth(to, event, place) { return Math.max(event.depth, state.lines[to].done.depth) + .8 + .12 * Math.min(20, place); }
function messageName(event, end) {
  const [, to, value] = event.exchange;
  return 'message ' + value + ' from event ' + event.n + ' of ' + processes[event.p].name + ' to ' +
    (end ? 'event ' + end.n + ' of ' + processes[to].name : processes[to].name + ', on its way');
}
function paintArrow(part, {from, to, got}, n, event, kind) {
  const {x, y} = part, end = got[n], value = event.exchange[2];
  const x1 = x(event.depth), y1 = y(from), x2 = x(end ? end.depth : flightDepth(to, event, n - got.length)), y2 = y(to);
  const length = Math.hypot(x2 - x1, y2 - y1), ux = (x2 - x1) / length, uy = (y2 - y1) / length, gap = end ? radius + 2 : 1;
  const tx = x2 - gap * ux, ty = y2 - gap * uy, along = Math.abs(rowOf[to] - rowOf[from]) > 1 ? .3 : .46;
  const side = (back, off) => (tx - back * ux - off * uy) + ',' + (ty - back * uy + off * ux);
  const isChosen = chosen && chosen.from === from && chosen.to === to && chosen.message === n, what = {from, to, message: n};
  const [line, head, text, title] = arrows.item([from, to, n].join(), kind + (isChosen ? ' chosen' : ''), ['line', 'path', 'text', 'title'], what);
  set(line, {x1: x1 + radius * ux, y1: y1 + radius * uy, x2: end ? tx - 5 * ux : tx, y2: end ? ty - 5 * uy : ty});
  set(head, {d: 'M' + side(8, 4) + ' L' + tx + ',' + ty + ' L' + side(8, -4) + (end ? ' Z' : '')});
  set(text, {x: x1 + along * (x2 - x1), y: y1 + along * (y2 - y1) + 4});
  setText(text, short(value, Math.floor(Math.max(length / 2, width) / 7)));
  nameItem(title, messageName(event, end));
}
function paintChannel(part, channel, cut) {
  const {from, to, sent, got} = channel, {low, most} = part;
  // In a channel the messages that touch the window follow one another.
  const begin = firstWhere(got, event => event.depth >= low), end = firstWhere(sent, event => event.depth > most);
  for (let n = begin, passing = 0; n < end; n++) {
    const event = sent[n], last = got[n], depth = last ? last.depth : flightDepth(to, event, n - got.length);
    if (event.depth < low && depth > most && ++passing > 20) continue;
    const crosses = cut && isInside(cut, event) && !(last && isInside(cut, last));
    const middle = chosenEvent(), way = middle && last !== middle ? relation(last || event, middle) : middle ? ' past' : '';
    paintArrow(part, channel, n, event, 'arrow' + (last ? '' : ' flying') + (crosses ? ' crossing ' + colourOf(cut.name) : '') + way);
  }
}

// The kinds of an event's mark. `cut` is the cut that is shown as a state.
function markKinds(p, n, isMade, latestOf, cut) {
  const isLast = cut && cut.cut[p] === n && cut.parts.some(([q]) => q === p);
  return 'event' + (isMade ? '' : ' later') + (latestOf[p] === n ? ' latest' : '') + (chosen && chosen.p === p && chosen.n === n ? ' chosen' : '') +
    (cut && isMade && !isInside(cut, {p, n}) ? ' beyond' : '') + (isLast ? ' holding ' + colourOf(cut.name) : '') +
    (isMade ? relation(shown.events[p][n - 1], chosenEvent()) : '');
}
// The part of the predicate for which the cut needs n events of process p; an empty text if it is another event.
function decidedPart(p, n, cut) {
  const part = cut && cut.cut[p] === n ? cut.parts.find(([q]) => q === p) : undefined;
  return part ? part[1] : '';
}
function paintMark(part, event, {p, n, depth, room, kinds, decides}) {
  const {x, y} = part, digits = String(n).length, forDigits = radius < 8 ? 0 : 2.9 * digits + 2.5;
  const half = Math.max(radius, Math.min(forDigits, width * .48));
  const [ring, disc, number, sets, title] = marks.item(p + ',' + n, kinds, ['ellipse', 'ellipse', 'text', 'text', 'title'], {p, n});
  set(ring, {rx: half + 4.5, ry: radius + 4.5, class: 'ring'});
  set(disc, {rx: half, ry: radius});
  set(number, {y: 3.5, class: 'number'});
  const isAbove = event.exchange && rowOf[event.exchange[1]] > rowOf[p];
  set(sets, {x: -radius, y: isAbove ? -radius - 5 : radius + 14, class: 'sets'});
  set(ring.parentNode, {transform: 'translate(' + x(depth) + ' ' + y(p) + ')'});
  ring.parentNode.isWithin = isWithin(part, x(depth), y(p));
  setText(number, half * 2 >= 5.8 * digits && radius >= 8 ? n : '');
  setText(sets, height < 34 ? '' : settings(event, Math.min(60, Math.floor((room * width - 4) / 6.7)), decides));
  nameItem(title, summary(p, n) + ': ' + deeds(event));
}
// The labels of events have the room up to the next event.
function paintRow(part, p, latestOf, cut) {
  const made = shown.events[p], again = later[p].events, {low, most} = part;
  function mark(event, n, depth) {
    const room = n < sizeOf(p) ? depthAt(p, n + 1) - depth : 60;
    const kinds = markKinds(p, n, n <= made.length, latestOf, cut);
    paintMark(part, event, {p, n, depth, room, kinds, decides: decidedPart(p, n, cut)});
  }
  for (let i = firstWhere(made, event => event.depth >= low); i < made.length && made[i].depth <= most; i++) mark(made[i], i + 1, made[i].depth);
  for (let i = firstWhere(again, ({depth}) => depth >= low); i < again.length && again[i].depth <= most; i++) {
    mark(again[i].event, made.length + i + 1, again[i].depth);
  }
}

function cutName({name, cut}) {
  return 'cut of ' + name + ': ' + cut.map((n, p) => processes[p].name + ' ' + n).join(', ') + (state.halting === name ? ', halts the session' : '');
}
function paintCut(part, point, i, isTinted) {
  const {seen, top, x, y} = part, {name, cut} = point, near = value => Math.max(-3000, Math.min(wide + 5000, value));
  const offset = 4 * (i % 5), gap = Math.min(radius + 4.5 + offset, width / 2), drawn = order.filter(p => rowOf[p] >= 0).map(p => [cut[p], p]);
  const places = drawn.map(([n, p]) => [near(x(depthAt(p, n)) + (n === 0 ? Math.min(offset, width / 2) : gap)), y(p)]);
  if (places.length === 0 || !isTinted && places.every(([x]) => x < seen + margin) || places.every(([x]) => x > seen + wide)) return;
  const kind = 'cut ' + colourOf(name) + (state.halting === name ? ' halting' : '') + (chosen && chosen.point === name ? ' chosen' : '');
  const [tint, line, title] = cuts.item(name, kind, ['path', 'path', 'title'], {point: name}), first = places[0][0];
  // Its name is at the top of the window, where the line crosses the first row that is visible.
  const [crossed] = places.find(([, y]) => y > top) || places[places.length - 1];
  const path = places.flatMap(([x, y]) => [[x, y - .45 * height], [x, y + .55 * height]]).map(place => place.join()).join(' L');
  const [begin, bottom] = [places[0][1] - .45 * height, places[places.length - 1][1] + .55 * height];
  set(tint, {class: 'tint', d: isTinted ? 'M' + path + ' L-3000,' + bottom + ' L-3000,' + begin + ' Z' : ''});
  set(line, {d: 'M' + first + ',' + Math.min(top, begin) + ' L' + path});
  nameItem(title, cutName(point));
  const [text] = labels.item(name, kind, ['text'], {point: name});
  set(text.parentNode, {'aria-hidden': true});
  set(text, {x: Math.max(margin + 4, Math.min(wide - 8 * name.length - 8, crossed + 5 - seen)), y: 12 + 14 * (i % 2)});
  setText(text, short(name, 20));
}

let drawnAt = '';
function describeDrawing() {
  const after = place === 0 ? 'at the start' : 'after line ' + place;
  return 'Space-time diagram ' + after + ': ' + processes.map(({name}, p) => name + ' ' + counted(state.lines[p].done.n)).join(', ');
}
function paint(fades) {
  const part = visiblePart(), {left, top, seen} = part, latestOf = latest(place), cut = shownCut();
  const now = [left, top, wide, high, width, height].join(), isFading = fades && now === drawnAt;
  drawnAt = now;
  for (const {group} of [cuts, arrows, marks]) set(group, {transform: 'translate(' + -seen + ' ' + -top + ')'});
  for (const {group} of [rails, names]) set(group, {transform: 'translate(0 ' + -top + ')'});
  set(svg, {width: wide, height: high, viewBox: '0 0 ' + wide + ' ' + high, 'aria-label': describeDrawing()});
  for (const layer of LAYERS) layer.begin(isFading);
  paintNames(part);
  points.forEach((point, i) => point.cut && paintCut(part, point, i, point === cut));
  for (const channel of shown.channels.values()) if (rowOf[channel.from] >= 0 && rowOf[channel.to] >= 0) paintChannel(part, channel, cut);
  for (let p = 0; p < count; p++) if (isRowSeen(part, p)) paintRow(part, p, latestOf, cut);
  for (const layer of LAYERS) layer.end();
  placeStop();
}
