// The details below the drawing.
function node(tag, parts, attributes = {}) {
  const made = document.createElement(tag);
  for (const name in attributes) made.setAttribute(name, attributes[name]);
  made.append(...[parts].flat());
  return made;
}
function table(caption, rows, kind = '') {
  const body = rows.map(([head, ...cells]) => node('tr', [node('th', head, {scope: 'row'}), ...cells.map(cell => node('td', cell))], {class: kind}));
  return node('table', [node('caption', caption), ...body]);
}
function choosing(text, what) {
  const made = node('button', text);
  made.onclick = () => choose(what);
  return made;
}
function link(p, n) { return choosing('event ' + n + ' of ' + processes[p].name, {p, n}); }
function exchanged(event) {
  const [way, other, value, n] = event.exchange, name = processes[other].name;
  const channel = way === 's' ? shown.channel(event.p, other) : shown.channel(other, event.p);
  const end = way === 's' ? channel.got[n - 1] : channel.sent[n - 1], [from, to] = way === 's' ? [event.p, other] : [other, event.p];
  const message = choosing('message ' + n, {from, to, message: n - 1});
  if (way === 'r') return ['received ' + value + ' from ' + name + ', its ', message, ', sent by ', end ? link(other, end.n) : name];
  return ['sent ' + value + ' to ' + name + ', ', message, ', ', ...end ? ['received by ', link(other, end.n)] : ['on its way']];
}
function eventDetails({p, n}) {
  const {name, variables, commands} = processes[p], event = n === 0 ? at(state.lines[p].done, 0) : eventAt(p, n);
  if (!event) return [node('h2', name + ' has no event ' + n + ' here')];
  const isMade = n <= shown.events[p].length, details = [node('h2', summary(p, n))];
  if (n > 0) {
    const [line] = commands[event.k] || ['?'];
    details.push(node('p', [commandName(event) + ' in line ' + line + ': ', node('code', commandText(p, event.k))]));
  }
  if (!isMade) return event.sets.length > 0 || event.exchange ? [...details, node('p', 'as it was made before: ' + deeds(event))] : details;
  if (event.exchange) details.push(node('p', exchanged(event)));
  if (n > 0) details.push(...causeDetails(event));
  const values = valuesAt(event), sets = new Map(event.sets.map(([name, old]) => [name, old]));
  const local = variables.map(([name]) => [name, values.get(name), ...sets.has(name) ? ['was ' + sets.get(name)] : []]);
  const clock = clockAt(event).map((own, q) => [processes[q].name, String(own)]);
  const upTo = list => firstWhere(list, other => other.n > n);
  const counts = processes.map((other, q) => [other.name, upTo(shown.channel(p, q).sent), upTo(shown.channel(q, p).got)]);
  const messages = counts.filter(([, sent, got]) => sent + got > 0).map(([name, sent, got]) => [name, 'sent ' + sent, 'got ' + got]);
  const upToIt = messages.length > 0 ? [table('messages up to it', messages)] : [];
  const chains = n > 0 ? chainDetails(event) : [];
  details.push(node('div', [table('variables after it', local), table('its clock', clock), ...upToIt, ...chains], {class: 'parts'}));
  return details;
}
// A message: its events, and whether it crosses the cut that is shown.
function messageDetails({from, to, message}) {
  const {sent, got} = shown.channel(from, to), event = sent[message], end = got[message], cut = shownCut();
  if (!event) return [node('h2', processes[from].name + ' has sent no message ' + (message + 1) + ' to ' + processes[to].name + ' here')];
  const crosses = cut && isInside(cut, event) && !(end && isInside(cut, end));
  return [node('h2', messageName(event, end)), node('p', ['sent by ', link(from, event.n), ': ' + deeds(event)]),
    node('p', end ? ['received by ', link(to, end.n), ': ' + deeds(end)] : 'it is on its way'),
    node('p', 'message ' + (message + 1) + ' of ' + sent.length + ' from ' + processes[from].name + ' to ' + processes[to].name +
      (got.length < sent.length ? '; ' + got.length + ' are received' : '')),
    ...crosses ? [node('p', 'it crosses the cut of ' + cut.name)] : []];
}
function detailsOf(what) {
  return what.point !== undefined ? pointDetails(what.point) : what.message !== undefined ? messageDetails(what) : eventDetails(what);
}
function counted(n) { return n + (n === 1 ? ' event' : ' events'); }
// Why the candidate of a process advanced.
function reason({p, to, by, event}) {
  const {name} = processes[p];
  if (by === undefined) return name + (to === 1 ? ' at its start' : ' after ' + counted(to - 1)) + ': its part is false';
  return name + ' needs ' + counted(to) + ': event ' + event + ' of ' + processes[by].name + ' depends on that';
}
const HELP = 'Arrow keys, Page Up, Page Down, Home and End go through the lines, h and H through the halts, and / searches. A click chooses an ' +
  'event, a name or a breakpoint; so does Enter, after Tab and arrow keys have reached it. Shift with an arrow key continues from it; Escape ends ' +
  'the choice. f fits the drawing to the window, + and - change its size, and p shows the program.';
// The events of a process that a line made or undid: their number went from `before` to `after`.
function changeOf(p, before, after) {
  if (after < before) return node('p', ['undone: ', before - after === 1 ? '' : 'the ' + counted(before - after) + ' from ', link(p, after + 1)]);
  return [...shown.events[p].slice(before, after)].map(event => node('p', [link(p, event.n), ': ' + deeds(event)]));
}
// What a line did, or why it was refused.
function lineDetails() {
  if (place === 0) return [];
  const [text, , explained] = lines[place - 1], old = states[place - 1].lines;
  const changes = state.lines.flatMap((line, p) => line === old[p] ? [] : changeOf(p, old[p].done.n, line.done.n));
  const refused = explained ? explained.trimEnd().split('\n').map(line => node('p', line, {class: 'explained'})) : [];
  return changes.length + refused.length > 0 ? [node('h2', ['line ' + place + ': ', node('code', text)]), ...changes, ...refused] : [];
}
function stateDetails() {
  const rows = state.lines.map(({done}, p) => {
    const values = [...valuesAt(done)].map(([name, value]) => name + '=' + value).join(' '), again = later[p].events.length;
    return [processes[p].name, counted(done.n) + (again ? ', ' + again + ' to redo' : ''), values];
  });
  const ways = [...shown.channels.values()].filter(({sent, got}) => sent.length > got.length).map(({from, to, sent, got}) => {
    const values = sent.slice(got.length, got.length + 50).map(event => event.exchange[2]).join(' ');
    return [processes[from].name + ' to ' + processes[to].name, values + (sent.length > got.length + 50 ? ' ..' : '')];
  });
  const halting = points.find(({name}) => name === state.halting);
  const aboutLine = lineDetails(), aboutHalt = halting ? cutDetails(halting) : [], isRefused = place > 0 && lines[place - 1].length > 2;
  return [...isRefused ? [...aboutLine, ...aboutHalt] : [...aboutHalt, ...aboutLine], node('h2', 'all processes'),
    node('div', [table('', rows), ...ways.length ? [table('on their way', ways)] : []], {class: 'parts'}), node('p', HELP, {class: 'help'})];
}
// Replaces those parts that have changed, so that a selection of text in the others stays.
function update(parent, parts) {
  let old = parent.firstChild;
  for (const part of [...node('div', parts).childNodes]) {
    let same = old;
    while (same && !same.isEqualNode(part)) same = same.nextSibling;
    while (same && old !== same) old = removed(old);
    if (same) old = same.nextSibling; else parent.insertBefore(part, old);
  }
  while (old) old = removed(old);
}
// Removes a part, and gives the one after it.
function removed(part) {
  const next = part.nextSibling;
  part.remove();
  return next;
}
function showDetails() {
  const details = find('details'), hadFocus = details.contains(document.activeElement) && details !== document.activeElement;
  update(details, chosen ? detailsOf(chosen) : stateDetails());
  if (hadFocus && !details.contains(document.activeElement)) details.focus();
}
function showPoints() {
  const area = find('points');
  while (area.children.length > points.length) {
    if (area.lastChild === document.activeElement) listArea.focus();
    area.lastChild.remove();
  }
  points.forEach(({name, armed, cut}, i) => {
    const button = area.children[i] || area.appendChild(node('button', ''));
    const isHalting = state.halting === name;
    const parts = [!cut ? 'no cut' : count > 8 ? 'cut' : 'cut ' + cut.join(' '), ...armed ? [] : ['not armed'], ...isHalting ? ['halts'] : []];
    setText(button, name + ': ' + parts.join(', '));
    button.chooses = {point: name};
    set(button, {class: colourOf(name) + (isHalting ? ' halting' : ''), 'aria-pressed': Boolean(chosen && chosen.point === name)});
  });
}
