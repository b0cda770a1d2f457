// The program as it was written, up to the lines of the session, with the command of the chosen event, or of the event that the line made, marked.
const programLines = readable(session.program || '').split(/^%%\s*$/m)[0].replace(/\s+$/, '').split('\n');
// A line of the program, with as many signs, in which comments and their words are blank.
function withoutComment(line) { return line.replace(/#.*/, comment => ' '.repeat(comment.length)); }
// The lines of commands of process p that begin in the same line of the text.
function commandsIn(p, line) { return processes[p].commands.flatMap(([at], k) => at === line ? [k] : []); }
// Where command k of process p is in the program: its line, from 0, and where it begins in the line. If several commands begin in the line, a
// repetition may have made more of each, one round after the other.
function commandStart(p, k) {
  const [line] = processes[p].commands[k] || [0];
  if (!line || line > programLines.length) return null;
  const text = withoutComment(programLines[line - 1]), begins = [...text.matchAll(/(?:\b\w+\s*:\s*)?\bwhen\b/g)].map(({index}) => index);
  if (begins.length === 0) return {line: line - 1, from: text.search(/\S/)};
  // (the members of a family have the same commands)
  const family = ({name}) => name.replace(/_\d.*/, '');
  const before = processes.slice(0, p).some((process, q) => family(process) !== family(processes[p]) && commandsIn(q, line).length > 0);
  const at = commandsIn(p, line).indexOf(k) % begins.length;
  return {line: line - 1, from: before && begins.length > 1 ? text.search(/\S/) : begins[at]};
}
// The parts of the program that a command takes: of each line the first and the last sign.
function commandParts(p, k) {
  const begin = commandStart(p, k), parts = new Map();
  if (!begin) return parts;
  for (let {line, from} = begin; line < programLines.length; line++, from = 0) {
    const text = withoutComment(programLines[line]), end = text.indexOf(';', from);
    parts.set(line, [from, end < 0 ? programLines[line].length : end + 1]);
    if (end >= 0) break;
  }
  return parts;
}
// The whole command in one line, or as much as the page has of it.
function commandText(p, k) {
  const parts = [...commandParts(p, k)].map(([line, [from, to]]) => withoutComment(programLines[line]).slice(from, to).trim());
  return parts.filter(part => part).join(' ') || (processes[p].commands[k] || [0, ''])[1];
}
// The event whose command is marked.
function markedEvent() {
  if (chosen && chosen.p !== undefined) return chosen.n > 0 ? eventAt(chosen.p, chosen.n) : null;
  if (chosen) return null;
  const p = latest(place).findIndex(n => n > 0);
  return p < 0 ? null : eventAt(p, latest(place)[p]);
}
let isProgramShown = false;
function programLine(text, part) {
  if (!part) return node('div', text || ' ');
  const [from, to] = part;
  return node('div', [text.slice(0, from), node('mark', text.slice(from, to)), text.slice(to)]);
}
// Marks the command. Only the lines that change are made anew.
let markedLines = [];
function markProgram() {
  if (!isProgramShown) return;
  const event = markedEvent(), parts = event ? commandParts(event.p, event.k) : new Map(), area = find('program');
  if (area.childElementCount === 0) area.append(...programLines.map(text => programLine(text)));
  for (const line of new Set([...markedLines, ...parts.keys()])) {
    const row = area.children[line], made = programLine(programLines[line], parts.get(line));
    if (!row.isEqualNode(made)) row.replaceWith(made);
  }
  markedLines = [...parts.keys()];
  const mark = area.querySelector('mark');
  if (!mark) return;
  const box = mark.getBoundingClientRect(), whole = area.getBoundingClientRect();
  if (box.top < whole.top || box.bottom > whole.bottom) area.scrollTop += box.top - whole.top - whole.height / 3;
}
function showProgram(isOn) {
  isProgramShown = isOn;
  find('below').classList.toggle('with-program', isOn);
  set(find('code'), {'aria-pressed': isOn});
  markProgram();
}
function toggleProgram() { showProgram(!isProgramShown); }
showProgram(Boolean(session.program) && innerWidth >= 1100);
