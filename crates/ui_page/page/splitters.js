// Bars between two areas, which a pointer or arrow keys move. They set how wide the list of lines is, and how high the details are, in percent.
const splitters = {
  beside: {least: 10, most: 60, back: 'ArrowLeft', on: 'ArrowRight', at: event => 100 * event.clientX / innerWidth},
  above: {least: 10, most: 80, back: 'ArrowDown', on: 'ArrowUp', at: event => 100 * (innerHeight - event.clientY) / innerHeight},
};
function split(name, percent) {
  const {least, most} = splitters[name], value = Math.round(Math.max(least, Math.min(most, percent)));
  document.body.style.setProperty('--' + name, value + '%');
  set(find(name), {'aria-valuenow': value});
  show({});
}
// How much there is now, in percent.
function share(name) {
  const area = find(find(name).getAttribute('aria-controls'));
  return name === 'beside' ? 100 * area.offsetWidth / innerWidth : 100 * area.offsetHeight / innerHeight;
}
for (const name in splitters) {
  const bar = find(name), {least, most, back, on, at} = splitters[name];
  set(bar, {'aria-valuemin': least, 'aria-valuemax': most, 'aria-valuenow': Math.round(share(name))});
  bar.onpointerdown = event => bar.setPointerCapture(event.pointerId);
  bar.onpointermove = event => bar.hasPointerCapture(event.pointerId) && split(name, at(event));
  bar.onkeydown = event => {
    if (event.key !== back && event.key !== on) return;
    split(name, share(name) + (event.key === on ? 2 : -2));
    event.preventDefault();
    event.stopPropagation();
  };
}
