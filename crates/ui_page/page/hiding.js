// A choice of what is shown, as a check box.
function checkBox(text, isOn, change) {
  const box = node('input', '', {type: 'checkbox'});
  box.checked = isOn;
  box.onchange = () => {
    change(box.checked);
    show({isMoved: true, isChosen: true});
  };
  return node('label', [box, ' ' + text]);
}
function hide(keys, key, isShown) {
  if (isShown) keys.delete(key); else keys.add(key);
}
function boxes(legend, made) { return node('fieldset', [node('legend', legend), ...made]); }
// All breakpoints that the session ever has.
function pointNames() {
  const names = new Set();
  let last = null;
  for (const {points} of states) if (points !== last) for (const {name} of last = points) names.add(name);
  return [...names];
}
function fillChoices() {
  const ofProcesses = processes.map(({name}, p) => checkBox(name, true, isShown => {
    hide(hidden.processes, p, isShown);
    placeRows();
  }));
  const ofPoints = pointNames().map(name => checkBox(name, true, isShown => hide(hidden.points, name, isShown)));
  const questions = checkBox('questions, as cut and vars', true, isShown => {
    hidden.isQuestions = !isShown;
    relist();
  });
  find('choices').append(boxes('processes', ofProcesses), boxes('lines', [questions]));
  if (ofPoints.length > 0) find('choices').lastChild.before(boxes('breakpoints', ofPoints));
}
fillChoices();
// A click elsewhere and Escape close the choices.
const shownPart = find('shown');
document.addEventListener('click', event => { if (!shownPart.contains(event.target)) shownPart.open = false; });
shownPart.addEventListener('keydown', event => {
  if (event.key !== 'Escape') return;
  shownPart.open = false;
  shownPart.querySelector('summary').focus();
  event.stopPropagation();
});
