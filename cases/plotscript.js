// Runs the script of a page in a stand-in for a browser, and prints what an address shows: the rows of the table that are scrolled to,
// the row that is marked, and the first and the last time of the picture.
'use strict';
const fs = require('fs');
const page = fs.readFileSync(process.argv[2], 'latin1');
const data = {};
for (const found of /<svg id="pic"([^>]*)>/.exec(page)[1].matchAll(/data-(\w+)="([^"]*)"/g)) data[found[1]] = found[2];
const scrolled = [], handlers = {}, nothing = () => {};

// An element that takes what the script does to it.
function element(more) {
  const attributes = {}, classes = new Set();
  return Object.assign({
    attributes, dataset: {}, textContent: '', clientWidth: 1300, appendChild: nothing, addEventListener: nothing,
    classList: { add: it => classes.add(it), remove: it => classes.delete(it), contains: it => classes.has(it), toggle: nothing },
    setAttribute: (name, value) => { attributes[name] = value; }, removeAttribute: name => { delete attributes[name]; },
    querySelector: () => element(), querySelectorAll: () => [], lastChild: { setAttribute: nothing, textContent: '' },
  }, more);
}
const rows = [...page.matchAll(/<tr data-t="(\d+)"/g)].map(found => element({
  dataset: { t: found[1] }, scrollIntoView: () => scrolled.push(found[1]),
}));
const byName = { pic: element({ dataset: data }) };
global.document = {
  getElementById: name => byName[name] || (byName[name] = element()), querySelector: () => element(), createElementNS: () => element(),
  querySelectorAll: what => what.startsWith('tr') ? rows : [], body: element(),
};
global.window = { addEventListener: (name, handler) => { handlers[name] = handler; } };
global.history = { replaceState: nothing };
global.location = { hash: process.argv[3] };
(0, eval)(/<script>([\s\S]*)<\/script>/.exec(page)[1]);
for (const address of process.argv.slice(3)) {
  location.hash = address;
  if (address !== process.argv[3]) handlers.hashchange();
  const [from, , size] = byName.plot.attributes.viewBox.split(' ').map(Number), scale = (data.t1 - data.t0) / data.w;
  const marked = rows.filter(it => it.classList.contains('on')).map(it => it.dataset.t);
  console.log(`${address}: rows ${scrolled.splice(0)}, marked ${marked}, ${Math.round(from * scale)} to ${Math.round((from + size) * scale)}`);
}
