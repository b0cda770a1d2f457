// The search finds lines by their text and reply, events by what they did, and values that processes have now.
const FOUND = 50, searchField = find('search'), results = find('results');
let atResult = -1;
// The events that line n made.
function madeBy(n) {
  return states[n].lines.flatMap(({done}, p) => {
    const old = states[n - 1].lines[p].done, made = [];
    for (let event = done; event.n > old.n && made.length < FOUND; event = event.before) made.push(event);
    return made.reverse();
  });
}
function findValues(has) {
  return state.lines.flatMap(({done}, p) => [...valuesAt(done)].map(([name, value]) => name + '=' + value).filter(has)
    .map(text => ({text: processes[p].name + ' has ' + text + ' now', line: place, chosen: {p, n: done.n}})));
}
function findLine(n, has) {
  const [text, reply] = lines[n - 1], found = [];
  if (has(text + ' -> ' + reply)) found.push({text: 'line ' + n + ': ' + text + (reply && ' -> ' + reply), line: n, chosen: null});
  if (states[n].lines === states[n - 1].lines) return found;
  for (const event of madeBy(n)) {
    const whole = 'event ' + event.n + ' of ' + processes[event.p].name + ': ' + deeds(event);
    if (has(whole)) found.push({text: 'line ' + n + ', ' + whole, line: n, chosen: {p: event.p, n: event.n}});
  }
  return found;
}
// The lines after the current one come first, and then those from the start.
function findAll(words) {
  const sought = words.toLowerCase().split(/\s+/).filter(word => word), has = text => sought.every(word => text.toLowerCase().includes(word));
  if (sought.length === 0) return [];
  const found = findValues(has).slice(0, 10);
  for (let i = 0; i < lines.length && found.length < FOUND; i++) found.push(...findLine((place + i) % lines.length + 1, has));
  return found;
}
function markResult(n) {
  atResult = Math.max(-1, Math.min(results.children.length - 1, n));
  [...results.children].forEach((item, i) => set(item, {'aria-selected': i === atResult}));
  if (atResult < 0) return searchField.removeAttribute('aria-activedescendant');
  set(searchField, {'aria-activedescendant': 'result' + atResult});
  results.children[atResult].scrollIntoView({block: 'nearest'});
}
function showResults() {
  const found = findAll(searchField.value);
  results.replaceChildren(...found.map((result, i) => {
    const item = node('div', result.text, {role: 'option', id: 'result' + i});
    item.onclick = () => take(result);
    return item;
  }));
  if (found.length === 0 && searchField.value.trim()) results.append(node('div', 'nothing found', {class: 'note'}));
  set(searchField, {'aria-expanded': found.length > 0});
  results.classList.toggle('open', results.childElementCount > 0);
  Object.assign(results, {found, sought: searchField.value});
  markResult(found.length > 0 ? 0 : -1);
}
function take(result) {
  if (!result) return;
  closeSearch();
  go(result.line);
  choose(result.chosen);
}
function openSearch() {
  searchField.focus();
  searchField.select();
}
function closeSearch() {
  results.classList.remove('open');
  set(searchField, {'aria-expanded': false});
  listArea.focus();
}
let searchWaits = 0;
searchField.addEventListener('input', () => {
  clearTimeout(searchWaits);
  searchWaits = setTimeout(showResults, lines.length > 5000 ? 200 : 0);
});
searchField.addEventListener('keydown', event => {
  if (event.key === 'Escape') closeSearch();
  else if (event.key === 'ArrowDown') markResult(atResult + 1);
  else if (event.key === 'ArrowUp') markResult(Math.max(0, atResult - 1));
  else if (event.key === 'Enter') {
    clearTimeout(searchWaits);
    if (!results.classList.contains('open') || results.sought !== searchField.value) showResults();
    take(results.found[Math.max(0, atResult)]);
  } else return;
  event.preventDefault();
  event.stopPropagation();
});
searchField.addEventListener('blur', () => setTimeout(() => {
  if (document.activeElement !== searchField) results.classList.remove('open');
}, 200));
