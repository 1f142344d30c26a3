#!/usr/bin/env node
// A client of `tophat json`: shows the page of seat 1, and sets the first empty editor of ints to a number.
//     docs/client.js PROGRAM FILE NUMBER
// A number of more than 53 bits is read as a BigInt: JSON.parse alone would round it.
const { spawn } = require('child_process');
const { createInterface } = require('readline');
const [program, file, number] = process.argv.slice(2);
const tophat = spawn(program, ['json', file], { stdio: ['pipe', 'pipe', 'inherit'] });
const answers = createInterface({ input: tophat.stdout })[Symbol.asyncIterator]();

// Each number of the text as a string behind a mark, which no string of the text begins with; so numbers outside strings alone.
const quoted = (text) => text.replace(/"(?:[^"\\]|\\.)*"|-?\d+/g, (it) => (it[0] === '"' ? `"$${it.slice(1)}` : `"#${it}"`));
const back = (it) => (Number.isSafeInteger(Number(it)) ? Number(it) : BigInt(it));
const plain = (it) => {
  if (Array.isArray(it)) return it.map(plain);
  if (it === null || typeof it === 'boolean') return it;
  if (typeof it === 'string') return it[0] === '#' ? back(it.slice(1)) : it.slice(1);
  return Object.fromEntries(Object.entries(it).map(([key, value]) => [key.slice(1), plain(value)]));
};
const ask = async (line) => {
  tophat.stdin.write(line + '\n');
  return plain(JSON.parse(quoted((await answers.next()).value)));
};

(async () => {
  const page = await ask('{"seat":1,"show":true}');
  const { path } = page.widgets.find((it) => it.kind === 'enter' && it.type === 'int');
  console.log(await ask(`{"seat":1,"path":${JSON.stringify(path)},"act":"set","value":${number}}`));
  console.log((await ask('{"seat":1,"show":true}')).widgets.find((it) => it.path === path && it.kind === 'edit'));
  tophat.stdin.end();
})();
