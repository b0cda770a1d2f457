// The lines that are listed. Row 0 is the start. A row stays as long as its line is visible, so that a selection of its text stays.
const HIGH = 42, list = listArea.querySelector('.window'), rows = new Map();
function makeRow(n) {
  const [text, reply] = n === 0 ? ['start', ''] : lines[n - 1];
  const kind = /^no\b/.test(reply) ? ' refused' : / halted \w+$/.test(reply) ? ' halts' : '';
  const parts = [node('span', n || '', {class: 'number'}), node('div', text), node('div', reply || ' ', {class: 'reply' + kind})];
  const row = node('div', parts, {role: 'option', id: 'line' + n, title: text + (reply && ' -> ' + reply)});
  row.line = n;
  rows.set(n, row);
  return list.appendChild(row);
}
function paintLines() {
  const high = listArea.clientHeight, top = listScroll.offset, first = Math.floor(top / HIGH);
  const seen = listed.slice(first, first + Math.ceil(high / HIGH) + 1);
  list.style.height = high + 'px';
  for (const [n, row] of rows) {
    if (n >= seen[0] && n <= seen[seen.length - 1] && listed[listPlace(n)] === n) continue;
    rows.delete(n);
    row.remove();
  }
  seen.forEach((n, i) => {
    const row = rows.get(n) || makeRow(n);
    row.style.top = (first + i) * HIGH - top + 'px';
    set(row, {class: n === place ? 'row chosen' : 'row', 'aria-selected': n === place});
    set(row, {'aria-posinset': first + i + 1, 'aria-setsize': listed.length});
  });
  set(listArea, {'aria-activedescendant': 'line' + listed[listPlace(place)]});
}
function revealLine() {
  const top = listPlace(place) * HIGH, seen = listArea.clientHeight;
  if (top < listScroll.offset || top + HIGH > listScroll.offset + seen) listScroll.offset = top - (seen - HIGH) / 2;
}
function relist() {
  listLines();
  listScroll.resize(listed.length * HIGH);
}
relist();
