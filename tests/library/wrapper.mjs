// node wrapper.mjs gurkenmond.js < CASES: what the wrapper answers to pairs of grammar and text: that of `match`, nodes as lists; the records of these nodes;
// line and column of the first positions; then the values of the other calls, or the number of their refusal. Odd modes, numbers and nodes are tried too:
// nothing may throw.
import { readFileSync } from 'node:fs';
import { pathToFileURL } from 'node:url';

const { load } = await import(pathToFileURL(process.argv[2]));
const gurkenmond = await load();
const numbers = [0, 1, 3, -1, 0.5, NaN, undefined, 2 ** 53, '1'], POSITIONS = 16;
function ask(grammar, text, number, mode) {
  gurkenmond.sets(grammar, number, mode);
  gurkenmond.lakeAt(grammar, text, number, number, mode);
  gurkenmond.symbolName(grammar, number, mode);
  gurkenmond.lineAndColumn(text, number);
  gurkenmond.summarise(grammar, text, [{ symbol: number, start: number, end: number, depth: number }], mode);
}
const counted = answer => (answer.kind === 'nodes' ? { ...answer, nodes: answer.nodes.length } : answer);
// the list of a match, written and read again
function back(grammar, text) {
  const said = gurkenmond.json(grammar, text);
  return said.kind === 'text' ? counted(gurkenmond.readJson(grammar, text, said.text)) : said;
}
// the records of a match; of no list, of what is none, and of one with an odd number in it they are refused
function summary(grammar, text, nodes) {
  for (const odd of [undefined, null, [], {}, 'x', [null, undefined, 1], nodes.map(node => ({ ...node, depth: 2 ** 32 + node.depth }))]) {
    const { kind, number } = gurkenmond.summarise(grammar, text, odd);
    if (kind !== 'refused' || number !== 15) throw new Error(`${JSON.stringify(odd)}: ${kind} ${number}`);
  }
  return gurkenmond.summarise(grammar, text, nodes).records.map(r => [r.symbol, r.name, r.present, r.nodes, r.bytes, r.first, r.last]);
}
const place = at => at.kind === 'refused' ? at.number : [at.line, at.column];
const answers = JSON.parse(readFileSync(0, 'utf8')).map(([grammar, text]) => {
  for (const mode of ['lake', 'plain', undefined, 'neither']) {
    for (const call of ['read', 'cannotSkip', 'writeOwn', 'writePlain', 'names']) gurkenmond[call](grammar, mode);
    gurkenmond.readJson(grammar, text, text, mode);
    gurkenmond.json(grammar, text, mode);
    for (const number of mode === 'lake' ? numbers : [1]) { ask(grammar, text, number, mode); }
  }
  const answer = gurkenmond.match(grammar, text);
  const others = [gurkenmond.read(grammar), gurkenmond.sets(grammar, 1), gurkenmond.cannotSkip(grammar), gurkenmond.lakeAt(grammar, text, 1, 0),
    gurkenmond.writeOwn(grammar), gurkenmond.writePlain(grammar), gurkenmond.symbolName(grammar, 1), gurkenmond.symbolName(grammar, 64),
    gurkenmond.json(grammar, text), back(grammar, text), counted(gurkenmond.readJson(grammar, text, '['.repeat(1000))),
    gurkenmond.names(grammar), gurkenmond.names(grammar, 'plain')];
  return [answer.kind === 'match' ? { ...answer, nodes: answer.nodes.map(n => [n.symbol, n.name, n.start, n.end, n.depth]) } : answer,
    answer.kind === 'match' ? summary(grammar, text, answer.nodes) : null,
    Array.from({ length: POSITIONS }, (_, k) => place(gurkenmond.lineAndColumn(text, k))),
    others.map(({ kind, ...values }) => kind === 'refused' ? values.number : values)];
});
process.stdout.write(JSON.stringify(answers));
