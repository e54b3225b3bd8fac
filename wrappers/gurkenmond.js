// Gurkenmond in JavaScript, for Node and the browser, over gurkenmond.wasm (./build wasm32); the types are in gurkenmond.d.ts.
//   const gurkenmond = await load();
//   gurkenmond.match(grammar, text)   // { kind: 'match', taken, nodes }, { kind: 'none' } or { kind: 'refused', number, place, .. }
// Texts are strings, or bytes as a Uint8Array. Of a string places are JavaScript's, in UTF-16 units; a place within a character is the character's begin.
// Nothing that a grammar or a text holds makes a call throw: it is refused, as document 01 says.

const WHAT = ['', 'grammar text too long', 'syntax', 'name, literal or parentheses over their bound', 'name given twice, or reserved', 'name without a rule',
  'too many symbols, terminals or expressions', 'translation too large', 'loop', 'input too long', 'too few work cells', 'too deep', 'too many nodes',
  'room too small', 'no such expression, symbol, lake or position', 'not a list of nodes', 'not the JSON text of a list of nodes', 'too few records'];
const LAST_IN_TEXT = 5; // refusals 1 to 5 have their place in the grammar's text
const WAYS = ['not', 'rule', 'water', 'skip'], NO_MATCH = 100n, NODE_WORDS = 4, NODES_FIRST = 1 << 12, NODES_MOST = 1 << 18, ROOM_FIRST = 1 << 12;
const GRAMMAR_MOST = 1048577, INPUT_MOST = 65536; // one byte more than any call takes: what is cut is refused as the whole is, 1 and 9
const SYMBOLS_MOST = 64, RECORD_BYTES = 40, PRESENT_AT = 32, LAST_WORD = 2 ** 32 - 1; // a record: four numbers of 8 bytes, then a byte for present

// A text with its bytes, and the place of each byte in the string.
class Text {
  constructor(value, most) {
    this.string = value instanceof Uint8Array ? null : String(value ?? '');
    this.bytes = (this.string === null ? value : new TextEncoder().encode(this.string)).subarray(0, most);
  }
  places() {
    if (this.map) return this.map;
    this.map = new Uint32Array(this.bytes.length + 1);
    let byte = 0, unit = 0;
    for (const character of this.string) {
      const code = character.codePointAt(0), end = byte + (code < 0x80 ? 1 : code < 0x800 ? 2 : code < 0x10000 ? 3 : 4);
      this.map.fill(unit, byte, end);
      [byte, unit] = [end, unit + character.length];
    }
    return this.map.fill(unit, byte);
  }
  // the first byte of a place; a place that none has is no byte
  byte(place) {
    if (this.string === null) return place;
    const places = this.places();
    let low = 0, high = places.length;
    while (low < high) {
      const middle = (low + high) >> 1;
      if (places[middle] < place) low = middle + 1; else high = middle;
    }
    return places[low] === place ? low : -1;
  }
  place(byte) { return this.string === null ? byte : this.places()[Math.min(byte, this.bytes.length)]; }
  // line and column of a place, from 1
  position(place) {
    const lines = (this.string ?? new TextDecoder('latin1').decode(this.bytes)).slice(0, place).split('\n');
    return { line: lines.length, column: lines.at(-1).length + 1 };
  }
}

export class Gurkenmond {
  #calls; #at; #out;
  constructor(calls) { this.#calls = calls; }
  // memory: each call uses what lies behind the module's own data anew
  #start() { this.#at = this.#calls.__heap_base.value; this.#out = this.#room(8 * 9); }
  #room(bytes) {
    const start = Math.ceil(this.#at / 16) * 16;
    this.#at = start + bytes;
    const lack = this.#at - this.#calls.memory.buffer.byteLength;
    if (lack > 0) this.#calls.memory.grow(Math.ceil(lack / 65536));
    return start;
  }
  #lend(text) {
    const start = this.#room(text.bytes.length);
    new Uint8Array(this.#calls.memory.buffer).set(text.bytes, start);
    return [start, BigInt(text.bytes.length)];
  }
  #lendWords(words) {
    const start = this.#room(4 * words.length);
    new Uint32Array(this.#calls.memory.buffer, start, words.length).set(words);
    return [start, BigInt(words.length)];
  }
  // records of zeros: what is lent says of each whether it is present
  #lendRecords(count) {
    const start = this.#room(RECORD_BYTES * count);
    new Uint8Array(this.#calls.memory.buffer, start, RECORD_BYTES * count).fill(0);
    return [start, BigInt(count)];
  }
  #records(start, count) {
    return Array.from({ length: count }, (_, symbol) => {
      const view = new DataView(this.#calls.memory.buffer, start + RECORD_BYTES * symbol, RECORD_BYTES);
      const [nodes, bytes, first, last] = [0, 8, 16, 24].map(at => Number(view.getBigUint64(at, true)));
      return { symbol, present: view.getUint8(PRESENT_AT) === 1, nodes, bytes, first, last };
    });
  }
  #words(start, count) { return new Uint32Array(this.#calls.memory.buffer, start, count).slice(); }
  #ask(call, ...given) {
    this.#calls[call](...given, this.#out);
    return Array.from(new BigUint64Array(this.#calls.memory.buffer, this.#out, 9));
  }
  #refused(grammar, [number, place]) {
    const inText = number <= LAST_IN_TEXT, at = inText ? grammar.place(Number(place)) : Number(place);
    const position = inText ? grammar.position(at) : { line: null, column: null };
    return { kind: 'refused', number: Number(number), place: at, ...position, what: WHAT[Number(number)] };
  }
  // a call on a grammar: what `good` makes of the numbers, or the refusal
  #on(grammar, mode, call, more, good) {
    this.#start();
    const text = new Text(grammar, GRAMMAR_MOST);
    const out = this.#ask(call, number(mode), ...this.#lend(text), ...more);
    return out[0] === 0n ? good(out) : this.#refused(text, out);
  }
  // a call on a grammar and an input: lent no work cells it says how many it needs
  #onInput(text, given, mode, call, more) {
    for (let cells = 0; ;) {
      this.#start();
      const lent = [...this.#lend(text), ...this.#lend(given), this.#room(4 * cells), BigInt(cells)];
      const out = this.#ask(call, number(mode), ...lent, ...more());
      if (out[0] !== 10n) return out;
      cells = Number(out[1]);
    }
  }
  // a call that writes: where the room is too small it says how many bytes it needs
  #write(grammar, mode, call, more = () => []) {
    const text = new Text(grammar, GRAMMAR_MOST);
    for (let length = ROOM_FIRST; ;) {
      this.#start();
      const lent = [...this.#lend(text), ...more()], room = this.#room(length), out = this.#ask(call, number(mode), ...lent, room, BigInt(length));
      if (out[0] === 0n) return { kind: 'text', text: new TextDecoder().decode(new Uint8Array(this.#calls.memory.buffer, room, Number(out[1]))) };
      if (out[0] !== 13n) return this.#refused(text, out);
      length = Number(out[1]);
    }
  }

  read(grammar, mode = 'lake') {
    return this.#on(grammar, mode, 'gm_read', [], out => ({ kind: 'read', symbols: Number(out[1]), terminals: Number(out[2]), expressions: Number(out[3]) }));
  }
  sets(grammar, expression, mode = 'lake') {
    const set = ([symbols, terminals]) => ({ symbols: bits(symbols), terminals: bits(terminals) });
    return this.#on(grammar, mode, 'gm_sets', [count(expression)], ([, rounds, ...out]) => ({ kind: 'sets', rounds: Number(rounds),
      beginning: set(out), succeed: set(out.slice(2)), alt: set(out.slice(4)), epsilon: out[6] === 1n }));
  }
  cannotSkip(grammar, mode = 'lake') { return this.#on(grammar, mode, 'gm_cannot_skip', [], out => ({ kind: 'lakes', lakes: bits(out[1]) })); }
  writeOwn(grammar, mode = 'lake') { return this.#write(grammar, mode, 'gm_write_own'); }
  writePlain(grammar, mode = 'lake') { return this.#write(grammar, mode, 'gm_write_plain'); }
  symbolName(grammar, symbol, mode = 'lake') { return this.#write(grammar, mode, 'gm_symbol_name', () => [count(symbol)]); }
  names(grammar, mode = 'lake') {
    const read = this.read(grammar, mode);
    return read.kind === 'refused' ? read : { kind: 'names', names: Array.from({ length: read.symbols }, (_, i) => this.symbolName(grammar, i, mode).text) };
  }
  // a match's numbers and node words
  #matched(text, given, mode) {
    for (let most = NODES_FIRST, nodes; ; most *= 8) {
      const out = this.#onInput(text, given, mode, 'gm_match', () => [nodes = this.#room(4 * NODE_WORDS * most), BigInt(NODE_WORDS * most)]);
      if (out[0] !== 12n || 8 * most > NODES_MOST) return { out, words: out[0] === 0n ? this.#words(nodes, NODE_WORDS * Number(out[2])) : [] };
    }
  }
  #listed(grammar, given, words, mode) {
    const list = [], names = [];
    for (let i = 0; i < words.length; i += NODE_WORDS) {
      const [symbol, start, end, depth] = words.subarray(i, i + NODE_WORDS);
      names[symbol] ??= this.symbolName(grammar, symbol, mode).text;
      list.push({ symbol, name: names[symbol], start: given.place(start), end: given.place(end), depth });
    }
    return list;
  }
  match(grammar, input, mode = 'lake') {
    const text = new Text(grammar, GRAMMAR_MOST), given = new Text(input, INPUT_MOST), { out, words } = this.#matched(text, given, mode);
    if (out[0] === NO_MATCH) return { kind: 'none' };
    if (out[0] !== 0n) return this.#refused(text, out);
    return { kind: 'match', taken: given.place(Number(out[1])), nodes: this.#listed(grammar, given, words, mode) };
  }
  // the tree of a match as JSON text; places in it are bytes of the input
  json(grammar, input, mode = 'lake') {
    const text = new Text(grammar, GRAMMAR_MOST), given = new Text(input, INPUT_MOST), { out, words } = this.#matched(text, given, mode);
    if (out[0] === NO_MATCH) return { kind: 'none' };
    if (out[0] !== 0n) return this.#refused(text, out);
    return this.#write(grammar, mode, 'gm_write_json', () => [...this.#lend(given), ...this.#lendWords(words)]);
  }
  // the node list that such a text says, of the same grammar and input
  readJson(grammar, input, json, mode = 'lake') {
    const text = new Text(grammar, GRAMMAR_MOST), given = new Text(input, INPUT_MOST), said = new Text(json, Infinity);
    for (let most = NODES_FIRST; ; most *= 8) {
      this.#start();
      const lent = [text, given, said].flatMap(part => this.#lend(part)), nodes = this.#room(4 * NODE_WORDS * most);
      const out = this.#ask('gm_read_json', number(mode), ...lent, nodes, BigInt(NODE_WORDS * most));
      if (out[0] === 0n) return { kind: 'nodes', nodes: this.#listed(grammar, given, this.#words(nodes, NODE_WORDS * Number(out[1])), mode) };
      if (out[0] !== 12n || 8 * most > NODES_MOST) return this.#refused(text, out);
    }
  }
  // one record a symbol, of a list of nodes such as `match` and `readJson` answer; anything else is refused
  summarise(grammar, input, nodes, mode = 'lake') {
    const text = new Text(grammar, GRAMMAR_MOST), given = new Text(input, INPUT_MOST);
    const words = Array.from(nodes ?? []).flatMap(node => [node?.symbol, given.byte(node?.start), given.byte(node?.end), node?.depth].map(word));
    this.#start();
    const lent = [...this.#lend(text), ...this.#lend(given), ...this.#lendWords(words)], records = this.#lendRecords(SYMBOLS_MOST);
    const out = this.#ask('gm_summarise', number(mode), ...lent, ...records);
    if (out[0] !== 0n) return this.#refused(text, out);
    const found = this.#records(records[0], Number(out[1]));
    return { kind: 'summary', records: found.map(({ symbol, ...record }) => ({ symbol, name: this.symbolName(grammar, symbol, mode).text, ...record })) };
  }
  // line and column of a position in a text, both from 1; of a string the column is counted in UTF-16 units too
  lineAndColumn(text, position) {
    const given = new Text(text, INPUT_MOST), byte = given.byte(position);
    this.#start();
    const out = this.#ask('gm_line_and_column', ...this.#lend(given), count(byte));
    if (out[0] !== 0n) return this.#refused(given, out);
    return { kind: 'position', line: Number(out[1]), column: position - given.place(byte - (Number(out[2]) - 1)) + 1 };
  }
  // how a lake, by its symbol number, matches at a place of the input
  lakeAt(grammar, input, lake, place, mode = 'lake') {
    const text = new Text(grammar, GRAMMAR_MOST), given = new Text(input, INPUT_MOST);
    const out = this.#onInput(text, given, mode, 'gm_lake_at', () => [count(lake), count(given.byte(place))]);
    return out[0] === 0n ? { kind: 'way', way: WAYS[Number(out[1])] } : this.#refused(text, out);
  }
}

const number = mode => (mode === 'plain' ? 1 : 0);
const bits = word => Array.from({ length: 64 }, (_, i) => i).filter(i => (word >> BigInt(i)) & 1n);
// a number of an expression, lake or place; what is none is one that no grammar has
const count = n => (Number.isSafeInteger(n) && n >= 0 ? BigInt(n) : (1n << 64n) - 1n);
// a word of a node; what is none is one that no list has
const word = n => (Number.isSafeInteger(n) && n >= 0 && n < LAST_WORD ? n : LAST_WORD);

// `source`: the module's bytes or its URL; without it gurkenmond.wasm beside this file.
export async function load(source = new URL('./gurkenmond.wasm', import.meta.url)) {
  let bytes = source;
  if (!(source instanceof Uint8Array || source instanceof ArrayBuffer)) {
    const url = new URL(source, import.meta.url);
    bytes = url.protocol === 'file:' ? await (await import('node:fs/promises')).readFile(url) : await (await fetch(url)).arrayBuffer();
  }
  return new Gurkenmond((await WebAssembly.instantiate(bytes, {})).instance.exports);
}
