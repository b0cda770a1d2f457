// The address ends in the number of the line. After a colon, the chosen breakpoint follows, or the chosen process and the number of its event,
// or the processes and the number of a message.
function choiceEnd({point, p, n, from, to, message}) {
  if (point !== undefined) return ':' + point;
  return message !== undefined ? ':' + [processes[from].name, processes[to].name, message + 1].join(':') : ':' + processes[p].name + ':' + n;
}
function addressEnd() { return '#' + place + (chosen ? choiceEnd(chosen) : ''); }
function choiceAt(names) {
  const places = names.map(name => processes.findIndex(process => process.name === name)), [p, q] = places, last = names[names.length - 1];
  const number = /^\d+$/.test(last) ? Number(last) : -1;
  if (names.length === 3 && p >= 0 && q >= 0 && number > 0) return {from: p, to: q, message: number - 1};
  if (names.length === 2 && p >= 0 && number >= 0) return {p, n: number};
  return names.length === 1 && last ? {point: last} : null;
}
// Shows what the end of an address names, and otherwise where the session halts first. What was shown before no longer becomes the address.
function openAt(end) {
  clearTimeout(addressWaits);
  const [line, ...names] = end.slice(1).split(':');
  if (/^\d+$/.test(line)) place = Math.min(lines.length, Number(line));
  chosen = choiceAt(names);
  show({isMoved: true, isChosen: chosen !== null});
}
// The file's name, from the address of the page, without its ending; or else the names of the processes.
function sessionName() {
  let file = location.pathname.split('/').pop();
  try {
    file = decodeURIComponent(file);
  } catch {
    // The name is shown as it is.
  }
  return readable(file).replace(/\.html?$/, '') || processes.map(({name}) => name).join(', ');
}
function shownTitle() {
  const line = place === 0 ? 'start' : 'line ' + place;
  return [sessionName(), line, ...state.halting ? ['halted ' + state.halting] : []].join(', ');
}
// The address follows a moment later, because browsers limit how often it may change. Back leads to where a jump began.
let addressWaits = 0;
function noteAddress() {
  document.title = shownTitle();
  clearTimeout(addressWaits);
  addressWaits = setTimeout(writeAddress, 250);
}
function writeAddress() {
  if (location.hash === addressEnd()) return;
  const isJump = location.hash && !playing && Math.abs(place - parseInt(location.hash.slice(1))) > 1;
  try {
    history[isJump ? 'pushState' : 'replaceState'](null, '', addressEnd());
  } catch {
    // The browser lets this page have no address of its own.
  }
}
addEventListener('hashchange', event => openAt(new URL(event.newURL).hash));

// Shows for a moment, in place of a button's text, that it has done its work.
function confirmIn(button, text) {
  const before = button.textContent;
  button.textContent = text;
  setTimeout(() => button.textContent = before, 1200);
}
function copySelected(text) {
  const field = document.body.appendChild(node('textarea', text, {class: 'outside'}));
  field.select();
  const isCopied = document.execCommand('copy');
  field.remove();
  return isCopied;
}
async function copyText(text, button) {
  let isCopied = true;
  try {
    await navigator.clipboard.writeText(text);
  } catch {
    isCopied = copySelected(text);
    button.focus();
  }
  confirmIn(button, isCopied ? 'copied' : 'not copied');
}
function copyLink() {
  writeAddress();
  copyText(location.href.replace(/#.*/, '') + addressEnd(), find('copy'));
}
// What is said of the state, as text: the line with its reply, and the details. Cells are below each other.
function tableText(table) {
  const texts = [...table.rows].map(row => [...row.cells].map(cell => cell.textContent.trim()));
  const widths = texts.reduce((all, row) => row.map((text, i) => Math.max(all[i] || 0, text.length)).concat(all.slice(row.length)), []);
  const lines = texts.map(row => '  ' + row.map((text, i) => text.padEnd(widths[i] + 2)).join('').trimEnd());
  return [...table.caption.textContent ? [table.caption.textContent] : [], ...lines];
}
function textOf(part) {
  if (part.matches('.help, details')) return [];
  if (part.matches('table')) return tableText(part);
  if (part.matches('.parts')) return [...part.children].flatMap(textOf);
  const parts = [...part.childNodes].filter(child => child.nodeType === 3 || !child.matches('[aria-label^="Copy"]'));
  return [parts.map(child => child.textContent).join('').trim()];
}
function copyAsText() {
  const parts = [...find('details').children].flatMap(part => part.matches('h2') ? ['', ...textOf(part)] : textOf(part));
  copyText([sessionName(), find('said').textContent, ...parts].join('\n') + '\n', find('text'));
}

// The whole drawing as a file of its own: each shape with the look that it has here.
const LOOKS = ['fill', 'fill-opacity', 'stroke', 'stroke-width', 'stroke-dasharray', 'stroke-linejoin', 'opacity', 'color', 'font-family',
  'font-size', 'font-weight', 'text-anchor', 'paint-order'];
function copyLooks(from, to) {
  const looks = getComputedStyle(from), copies = [...to.children];
  for (const name of LOOKS) to.style.setProperty(name, looks.getPropertyValue(name));
  for (const name of ['tabindex', 'role', 'class', 'aria-describedby']) to.removeAttribute(name);
  [...from.children].forEach((child, i) => copyLooks(child, copies[i]));
  if (from.matches('.gone, desc')) to.remove();
}
function drawingFile() {
  const copy = svg.cloneNode(true), ground = document.createElementNS(SVG, 'rect');
  copyLooks(svg, copy);
  set(copy, {xmlns: SVG, role: 'img'});
  set(ground, {width: wide, height: high, fill: getComputedStyle(document.body).backgroundColor});
  const title = document.createElementNS(SVG, 'title');
  title.textContent = shownTitle();
  copy.prepend(title, ground);
  return new XMLSerializer().serializeToString(copy);
}
function save() {
  const link = node('a', '', {download: sessionName().replace(/[^\w.-]+/g, '_') + '-line-' + place + '.svg'});
  drawWhole(true);
  link.href = URL.createObjectURL(new Blob([drawingFile()], {type: 'image/svg+xml'}));
  drawWhole(false);
  link.click();
  setTimeout(() => URL.revokeObjectURL(link.href), 10000);
  confirmIn(find('save'), 'saved');
}
