// The parts of a predicate, evaluated as the process language says. A fault is an exception, and a part with a fault does not hold.
const LEAST = -(2n ** 63n), MOST = 2n ** 63n - 1n;
function inRange(number) {
  if (number < LEAST || number > MOST) throw new RangeError('the result is out of range');
  return number;
}
const OPERATORS = {
  '+': (one, other) => inRange(one + other), '-': (one, other) => inRange(one - other), '*': (one, other) => inRange(one * other),
  '/': (one, other) => inRange(one / other), '%': (one, other) => one % other,
  '=': (one, other) => one === other, '!=': (one, other) => one !== other,
  '<': (one, other) => one < other, '<=': (one, other) => one <= other, '>': (one, other) => one > other, '>=': (one, other) => one >= other,
};
function binary(operator, one, other) {
  if (operator === 'and') return state => one(state) && other(state);
  if (operator === 'or') return state => one(state) || other(state);
  const act = OPERATORS[operator];
  return state => act(one(state), other(state));
}
// The part as a function of a local state, which has a value for each variable and two counts for each other process.
function readPart(text) {
  const tokens = text.match(/\w+(?:\[\d+\])*|[!<>]=|[^\s\w]/g) || [];
  let at = 0;
  function countOf(way) {
    const other = processes.findIndex(({name}) => name === tokens[at + 1]);
    at += 3;
    return state => state[way](other);
  }
  function grouped() {
    const sign = tokens[at];
    let read;
    if (sign === 'not' || sign === '-') {
      at++;
      const operand = expression();
      read = sign === 'not' ? state => !operand(state) : state => inRange(-operand(state));
    } else {
      const one = expression(), operator = tokens[at++];
      read = tokens[at - 1] === ')' ? (at--, one) : binary(operator, one, expression());
    }
    at++;
    return read;
  }
  function expression() {
    const token = tokens[at++];
    if (token === '(') return grouped();
    if (token === 'true' || token === 'false') return () => token === 'true';
    if ((token === 'sent' || token === 'got') && tokens[at] === '(') return countOf(token);
    if (token === '-') return (number => () => number)(-BigInt(tokens[at++]));
    return /^\d/.test(token) ? (number => () => number)(BigInt(token)) : state => BigInt(numbers.get(state.values.get(token)) || state.values.get(token));
  }
  return expression();
}
const readParts = new Map();
// Whether a part of process p holds after n events, which set these values.
function holds(text, p, n, values) {
  if (!readParts.has(text)) readParts.set(text, readPart(text));
  const upTo = list => BigInt(firstWhere(list, event => event.n > n));
  try {
    return readParts.get(text)({values, sent: q => upTo(shown.channel(p, q).sent), got: q => upTo(shown.channel(q, p).got)}) === true;
  } catch {
    return false;
  }
}
// Event n of process p, which was made, or what is before its first event.
function madeEvent(p, n) { return n === 0 ? at(state.lines[p].done, 0) : shown.events[p][n - 1]; }
// Since which event a part has held, which holds after n events of process p. It is sought in the last thousand states.
const SEARCHED = 1000;
function heldSince(text, p, n) {
  const values = valuesAt(madeEvent(p, n)), least = Math.max(0, n - SEARCHED);
  for (let event = n; event > least; event--) {
    for (const [name, old] of madeEvent(p, event).sets) values.set(name, old);
    if (!holds(text, p, event - 1, values)) return 'holds since event ' + event;
  }
  return least === 0 ? 'holds from the start' : 'holds since event ' + least + ' or earlier';
}

// The breakpoint whose cut is shown as a state: the chosen one, or else the one that halts the session.
function shownCut() {
  const name = chosen && chosen.point !== undefined ? chosen.point : state.halting;
  const point = points.find(point => point.name === name);
  return point && point.cut ? point : null;
}
function isInside({cut}, {p, n}) { return n <= cut[p]; }
// The messages that are sent in a cut and not received in it: for each channel its processes and the values.
function crossing({cut}) {
  return [...shown.channels.values()].flatMap(({from, to, sent, got}) => {
    const first = firstWhere(got, event => event.n > cut[to]), end = firstWhere(sent, event => event.n > cut[from]);
    const values = sent.slice(first, Math.min(end, first + 50)).map(event => event.exchange[2]);
    return first < end ? [{from, to, values: end - first > 50 ? [...values, '..'] : values}] : [];
  });
}
