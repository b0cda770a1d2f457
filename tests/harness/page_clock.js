// A clock for the timers of the page that repeat. It moves only by `tick`, so that no test depends on the speed of the machine.
(() => {
  const timers = new Map();
  let count = 0;
  window.setInterval = act => (timers.set(++count, act), count);
  window.clearInterval = number => timers.delete(number);
  window.tick = () => { for (const act of [...timers.values()]) act(); };
})();
