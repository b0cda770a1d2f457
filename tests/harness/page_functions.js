// Calls the functions of the page's script that compute what it shows, without a browser, on the data of a page. Prints the state after each
// of these lines as JSON. Arguments: the folder of the sources, the file of the page, and the numbers of lines.
'use strict';
const fs = require('fs'), path = require('path');
const [folder, pageFile, ...numbers] = process.argv.slice(2);
const data = fs.readFileSync(pageFile, 'utf8').match(/<script id=session type=application\/json>\n([^]*?)<\/script>/)[1];
const sources = ['reading', 'states', 'shown', 'predicate'].map(name => fs.readFileSync(path.join(folder, name + '.js'), 'utf8'));
const stateAfter = `
return n => {
  place = n;
  follow();
  const messages = ({from, to, sent, got}) => [processes[from].name, processes[to].name, sent.slice(got.length).map(event => event.exchange[2])];
  return {
    processes: state.lines.map(({done}, p) => ({
      name: processes[p].name, events: done.n, length: sizeOf(p), values: [...valuesAt(done)], clock: clockAt(done),
    })),
    messages: [...shown.channels.values()].map(messages).filter(([, , values]) => values.length > 0),
    cuts: points.map(({name, parts, cut}) => {
      return {name, cut, holding: cut ? parts.map(([p, text]) => holds(text, p, cut[p], valuesAt(madeEvent(p, cut[p])))) : []};
    }),
  };
};`;
// What these parts ask of an element, besides the data of the session.
const element = {textContent: data};
const state = new Function('document', [...sources, stateAfter].join('\n'))({getElementById: () => element});
console.log(JSON.stringify(numbers.map(n => state(Number(n)))));
