// What led to the chosen event, and what depends on it. An event is in its past if its clock counts that event, and in its future if that
// event's clock counts it.
function chosenEvent() {
  const {p, n} = chosen || {};
  return n > 0 && p !== undefined && n <= shown.events[p].length ? shown.events[p][n - 1] : null;
}
function relation(event, middle) {
  if (!middle || event === middle) return '';
  if (clockAt(middle)[event.p] >= event.n) return ' past';
  return clockAt(event)[middle.p] >= middle.n ? ' future' : ' apart';
}
// The shortest chains to an event: of each other process in its past, an event from which the fewest messages lead there, as the events on the
// way, the last one first. Of those with as few messages, one with the fewest events is taken.
const CHAINED = 20000;
function chainsTo(middle) {
  const chains = new Map(), seen = new Set([middle]);
  for (let near = [{event: middle, rest: null}], count = 0; near.length > 0 && count < CHAINED;) {
    const far = [];
    for (const step of near) {
      for (let {event, rest} = step; event && event.n > 0 && count < CHAINED; count++) {
        if (event.p !== middle.p && !chains.has(event.p)) chains.set(event.p, {event, rest});
        const {sender, before} = event;
        if (sender && !seen.has(sender)) seen.add(sender), far.push({event: sender, rest: {event, rest}});
        if (!before || before.n === 0 || seen.has(before)) break;
        seen.add(before);
        [event, rest] = [before, {event, rest}];
      }
    }
    near = far;
  }
  return chains;
}
// The events of a chain, of which those of one process that follow one another are one span.
function chainText(step) {
  const spans = [];
  for (; step; step = step.rest) {
    const {p, n} = step.event, last = spans[spans.length - 1];
    if (last && last.q === p) last.to = n; else spans.push({q: p, from: n, to: n});
  }
  return spans.map(spanOf).join(' \u2192 ');
}
function chainDetails(middle) {
  const chains = [...chainsTo(middle)].sort(([p], [q]) => p - q);
  return chains.length > 0 ? [table('shortest chain of messages from', chains.map(([p, step]) => [processes[p].name, chainText(step)]))] : [];
}
// The first event of each process that depends on this one, and the last that the process made; none for the others.
function consequences(middle) {
  return processes.flatMap((process, q) => {
    const made = shown.events[q], first = firstWhere(made, event => clockAt(event)[middle.p] >= middle.n) + 1;
    const from = q === middle.p ? middle.n + 1 : first;
    return from <= made.length ? [{q, from, to: made.length}] : [];
  });
}
function spanOf({q, from, to}) { return processes[q].name + ' ' + from + (to > from ? '\u2013' + to : ''); }
// How many events come before and after it, and the command that undoes it with what depends on it.
function causeDetails(middle) {
  const after = consequences(middle), counts = after.reduce((sum, {from, to}) => sum + to - from + 1, 0);
  const before = clockAt(middle).reduce((sum, own) => sum + own, -1), others = shown.events.reduce((sum, made) => sum + made.length, -1);
  const {name} = processes[middle.p], command = counts === 0 ? 'undo ' + name : 'rollback ' + name + ' ' + (middle.n - 1);
  const copied = node('button', 'copy', {'aria-label': 'Copy the command ' + command});
  copied.onclick = () => copyText(command, copied);
  return [node('p', 'after ' + before + ' of ' + others + ' other events; ' + counts + (counts === 1 ? ' comes' : ' come') + ' after it'),
    node('p', ['to undo it', counts === 0 ? ' alone: ' : ' with ' + after.map(spanOf).join(', ') + ': ', node('code', command), ' ', copied],
      {class: 'undoing'})];
}
