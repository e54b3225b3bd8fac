// node samples/sample.mjs GRAMMAR TEXT: the spans of a text, as `./run spans` prints them, after `./build wasm32`.
// The files are taken as bytes, so that places are bytes too; of strings they are JavaScript's.
import { readFileSync } from 'node:fs';
import { load } from '../target/library/gurkenmond.js';

const gurkenmond = await load();
const [grammar, text] = process.argv.slice(2).map(name => new Uint8Array(readFileSync(name)));
const answer = gurkenmond.match(grammar, text);
if (answer.kind === 'refused') {
  console.log(`refused ${answer.number} ${answer.place}`);
  if (answer.line) console.error(`line ${answer.line}, column ${answer.column}: ${answer.what}`);
} else if (answer.kind === 'none') {
  console.log('none');
} else {
  console.log(`match ${answer.taken}`);
  for (const { start, end, depth, name } of answer.nodes) console.log(`${start} ${end} ${depth} ${name}`);
}
