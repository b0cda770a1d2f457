// Why the candidate of a process advanced.
function reason({p, to, by, event}) {
  const {name} = processes[p];
  if (by === undefined) return name + (to === 1 ? ' at its start' : ' after ' + counted(to - 1)) + ': its part is false';
  return name + ' needs ' + counted(to) + ': event ' + event + ' of ' + processes[by].name + ' depends on that';
}
// The last eliminations of a search, with those of the current line in bold.
const SHOWN_STEPS = 200;
function searchSteps(name, last) {
  const before = states[Math.max(0, place - 1)], old = before.searches[pointPlace(before, name)], items = [];
  const kept = old ? common(old, last) : last.n;
  for (let step = last; step.n > 0 && items.length < SHOWN_STEPS; step = step.before) {
    items.push(node('li', step.n > kept ? node('b', reason(step)) : reason(step), {value: step.n}));
  }
  const more = last.n - items.length, note = more > 0 ? [node('p', 'the last ' + items.length + ' of ' + last.n + ' steps')] : [];
  return node('div', [...note, node('ol', items.reverse())], {class: 'search'});
}
// The search is folded, until the reader opens it. Only then the details have it.
let isSearchOpen = false;
function searchParts({name, search, frontier}) {
  const counts = table('frontier: events of', frontier.map((n, p) => [processes[p].name, n < 0 ? 'past' : String(n)]));
  counts.className = 'counts';
  return node('div', [counts, searchSteps(name, search)], {class: 'parts'});
}
function searchDetails(point) {
  const {n} = point.search, heading = n === 0 ? 'no state was ruled out' : n === 1 ? '1 state was ruled out' : n + ' states were ruled out';
  const made = node('details', node('summary', 'search: ' + heading), isSearchOpen ? {open: ''} : {});
  if (isSearchOpen) made.append(searchParts(point));
  made.ontoggle = () => {
    if (isSearchOpen === made.open) return;
    isSearchOpen = made.open;
    if (isSearchOpen) made.append(searchParts(points.find(({name}) => name === point.name) || point)); else made.lastChild.remove();
  };
  return made;
}

// The parts of a predicate, as one condition.
function predicateOf({parts}) { return parts.map(([p, text, shown]) => processes[p].name + ' ' + (shown || text)).join(' and '); }
// A process in a cut: its events in it and in all, its part of the predicate, since when that holds, and its variables.
function cutRow({cut, parts}, p) {
  const n = cut[p], part = parts.find(([q]) => q === p), made = state.lines[p].done.n;
  const values = [...valuesAt(madeEvent(p, n)), ...countsOf(part ? part[1] : '', p, n)].map(([name, value]) => name + '=' + value).join(' ');
  return [unbroken(processes[p].name), n + ' of ' + made, part ? unbroken(part[2] || part[1]) : '', part ? heldSince(part[1], p, n) : '', values];
}
// A text that no line break divides, unless it is long.
function unbroken(text) { return text.length > 20 ? text : node('span', text, {class: 'whole'}); }
// The counts of messages that a part names, after n events of process p.
function countsOf(text, p, n) {
  return [...new Set(text.match(/\b(?:sent|got)\(\w+\)/g) || [])].map(count => {
    const [way, name] = count.split(/[()]/), other = processes.findIndex(process => process.name === name);
    const events = way === 'sent' ? shown.channel(p, other).sent : shown.channel(other, p).got;
    return [count, String(firstWhere(events, event => event.n > n))];
  });
}
const HEADS = ['process', 'events', 'predicate', 'part', 'variables'];
// The state in the cut. The processes that the predicate names come first.
function cutDetails(point) {
  const {name, parts} = point, isNamed = p => parts.some(([q]) => q === p);
  const order = [...processes.keys()].sort((p, q) => isNamed(q) - isNamed(p)), rows = order.map(p => cutRow(point, p));
  const made = table('state in the cut', rows), channels = crossing(point);
  made.createTHead().append(node('tr', HEADS.map(head => node('th', head, {scope: 'col'}))));
  made.className = 'state';
  parts.forEach((part, i) => made.rows[i + 1].className = 'part');
  const ways = channels.map(({from, to, values}) => [processes[from].name + ' to ' + processes[to].name, values.join(' ')]);
  const messages = ways.length > 0 ? table('messages that cross the cut', ways) : node('p', 'no message crosses the cut', {class: 'caption'});
  const heading = state.halting === name ? 'halted by ' + name : 'breakpoint ' + name;
  return [node('h2', heading), node('p', node('code', predicateOf(point)), {class: colourOf(name)}),
    node('div', [made, messages], {class: 'parts'}), searchDetails(point)];
}
function pointDetails(name) {
  const point = points.find(point => point.name === name);
  if (!point) return [node('h2', 'breakpoint ' + name), node('p', hidden.points.has(name) ? 'hidden' : 'not set here')];
  const found = state.halting === name ? ', halts the session' : point.cut ? ', has a cut' : ', has no cut';
  const mark = node('p', (point.armed ? 'armed' : 'not armed') + found);
  if (point.cut) return [...cutDetails(point), mark];
  return [node('h2', 'breakpoint ' + name), node('p', node('code', predicateOf(point)), {class: colourOf(name)}), mark, searchDetails(point)];
}
