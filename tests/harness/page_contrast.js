// The texts and marks of a page whose contrast to their ground is too low: 4.5 for texts, and 3 for marks.
(() => {
  const numbers = colour => (colour.match(/[\d.]+/g) || []).map(Number);
  const share = part => part <= .04045 ? part / 12.92 : ((part + .055) / 1.055) ** 2.4;
  const light = ([red, green, blue]) => .2126 * share(red / 255) + .7152 * share(green / 255) + .0722 * share(blue / 255);
  const contrast = (one, other) => {
    const [low, high] = [light(one), light(other)].sort((one, other) => one - other);
    return (high + .05) / (low + .05);
  };
  const isSolid = ([, , , alpha]) => alpha === undefined || alpha > .5;
  const groundOf = item => {
    for (let at = item; at; at = at.parentElement) {
      const colour = numbers(getComputedStyle(at).backgroundColor);
      if (colour.length >= 3 && isSolid(colour)) return colour;
    }
    return [255, 255, 255];
  };
  const isSeen = item => item.getClientRects().length > 0 && getComputedStyle(item).visibility === 'visible' && !item.closest('.gone, script, style, datalist');
  const hasText = item => [...item.childNodes].some(child => child.nodeType === 3 && child.textContent.trim());
  const faults = new Set();
  const check = (what, colour, ground, least) => {
    const found = contrast(numbers(colour), ground);
    if (found < least) faults.add(what + ': ' + found.toFixed(2) + ' instead of ' + least);
  };
  const named = item => item.tagName + ' ' + (item.id || item.getAttribute('class') || item.parentNode.getAttribute('class') || item.parentNode.id || '');
  for (const item of document.querySelectorAll('body *')) {
    if (!isSeen(item) || !hasText(item) || item.closest('title, desc')) continue;
    const looks = getComputedStyle(item), disc = item.matches('.number') && item.parentNode.querySelector('ellipse + ellipse');
    check(named(item), item.closest('svg') ? looks.fill : looks.color, disc ? numbers(getComputedStyle(disc).fill) : groundOf(item), 4.5);
  }
  for (const item of document.querySelectorAll('#drawing .line line, #drawing .arrow line, #drawing .cut path:not(.tint), #drawing .event ellipse + ellipse')) {
    if (isSeen(item)) check(named(item), getComputedStyle(item).stroke, groundOf(item), 3);
  }
  return [...faults];
})()
