// What the page of a session shows, once the next frame is drawn.
new Promise(done => requestAnimationFrame(() => {
  const find = id => document.getElementById(id), all = (where, what) => [...where.querySelectorAll(what)].filter(item => !item.closest('.gone'));
  const text = item => item ? item.textContent : '', drawing = find('drawing'), below = find('details'), focus = document.activeElement;
  const svg = drawing.querySelector('svg');
  const view = {left: 0, top: 0, right: innerWidth, bottom: innerHeight};
  const inside = (item, whole) => {
    const one = item.getBoundingClientRect(), other = whole.getBoundingClientRect ? whole.getBoundingClientRect() : whole;
    return one.left >= other.left - 1 && one.top >= other.top - 1 && one.right <= other.right + 1 && one.bottom <= other.bottom + 1;
  };
  const disc = item => item.querySelector('ellipse + ellipse, rect');
  // Whether an item is visible from left to right: no name, and no other part of the page, covers it.
  const uncovered = item => {
    const box = (item.closest('svg') ? disc(item) : item).getBoundingClientRect();
    return [.1, .5, .9].every(part => {
      const over = document.elementsFromPoint(box.left + part * box.width, (box.top + box.bottom) / 2), at = over.findIndex(other => item.contains(other));
      return at >= 0 && !over.slice(0, at).some(other => other.closest('.names') || !other.closest('svg'));
    });
  };
  const seen = item => inside(disc(item), svg) && uncovered(item);
  const named = item => item.closest('svg') ? text(item.querySelector('title')) :
    item.parentNode === find('points') ? 'breakpoint ' + item.chooses.point : item.id || item.tagName;
  const ringed = item => {
    const ring = item.matches('.event') ? item.querySelector('.ring') : item.matches('.names g') ? item.querySelector('rect') : null;
    const style = getComputedStyle(ring || item);
    return ring ? style.stroke !== 'none' && parseFloat(style.strokeWidth) > 3 : style.outlineStyle !== 'none' && parseFloat(style.outlineWidth) > 1;
  };
  const parts = [document.querySelector('header'), ...all(document, 'header > *'), find('lines'), find('right'), ...find('right').children]
    .filter(part => getComputedStyle(part).display !== 'none');
  const wide = ['said', 'points', 'details'].map(find).filter(part => part.scrollWidth > part.clientWidth + 1);
  const root = document.documentElement, chosenRow = document.querySelector('.row.chosen');
  const marks = all(svg, '.event.latest'), chosen = all(svg, '.event.chosen, .names .chosen');
  done({
    line: Number(find('slider').value), said: all(find('said'), 'code').map(text).filter(said => said), row: chosenRow && [...chosenRow.children].map(text),
    isRowSeen: Boolean(chosenRow) && inside(chosenRow, find('lines')),
    heading: text(below.querySelector('h2')), headings: all(below, 'h2').map(text), title: document.title, hash: location.hash.slice(1), notes: all(below, 'p').map(text),
    tables: all(below, 'table').map(table => [text(table.caption), [...table.rows].map(row => [...row.cells].map(text))]),
    breakpoints: [...find('points').children].map(named),
    red: [...find('points').children].filter(button => button.classList.contains('c0')).map(button => button.chooses.point),
    cutLooks: all(svg, '.cuts .cut').map(item => getComputedStyle(item.children[1])).map(({stroke, strokeDasharray}) => stroke + ' ' + strokeDasharray),
    play: text(find('play')),
    holding: all(svg, '.event.holding').filter(seen).length, isLatestSeen: marks.some(seen), isChosenSeen: chosen.some(seen),
    outside: [...parts.filter(part => !part.matches(':empty') && !inside(part, view)).map(part => part.id || part.tagName),
      ...wide.map(part => part.id + ' (in width)'), ...root.scrollWidth > innerWidth || root.scrollHeight > innerHeight ? ['the page'] : []],
    focus: named(focus), isFocusSeen: focus !== document.body && ringed(focus) && uncovered(focus),
    stop: all(svg, '[tabindex="0"]').map(named),
    isProgramShown: getComputedStyle(find('program')).display !== 'none',
    places: all(svg, '.event').map(item => item.getAttribute('transform')).join(), ground: getComputedStyle(document.body).backgroundColor,
  });
}))
