// node harness.mjs gurkenmond.wasm < QUESTIONS: what harness.c does, through gurkenmond.wasm: the same questions, answers and guards.
// Its last line on the error stream is the stack that the calls have touched, in bytes.
import fs from 'node:fs';

const GUARD = 32, GUARD_BYTE = 0xa5, ROOM_BYTE = 0xee, FRESH = 3735928559, STACK = 4194304, STACK_BYTE = 0x5a, RECORD = 40, PRESENT_AT = 32, RECORDS = 96;
// a record as it is lent: of one node and absent, which no symbol is; what lies behind `present` is no part of it
const MARK = new Uint8Array(RECORD).fill(ROOM_BYTE, PRESENT_AT + 1);
MARK[0] = 1;
const { exports: calls } = (await WebAssembly.instantiate(fs.readFileSync(process.argv[2]), {})).instance;
const bytes = () => new Uint8Array(calls.memory.buffer);

// what is lent stands behind the module's own data, each part between guards; one question after the other uses the same place
let at, lents;
function lend(size) {
  const start = Math.ceil((at + GUARD) / 16) * 16;
  at = start + size + GUARD;
  const lack = at - calls.memory.buffer.byteLength;
  if (lack > 0) calls.memory.grow(Math.ceil(lack / 65536));
  bytes().fill(GUARD_BYTE, start - GUARD, at);
  const lent = { start, size };
  lents.push(lent);
  return lent;
}
function lendWords(list) {
  const lent = lend(4 * list.length);
  new Uint32Array(calls.memory.buffer, lent.start, list.length).set(list);
  return lent;
}
function lendRecords(count) {
  const lent = lend(RECORD * count);
  for (let i = 0; i < count; i++) view(lent).set(MARK, RECORD * i);
  return lent;
}
const view = lent => bytes().subarray(lent.start, lent.start + lent.size);
const numbers = lent => new Uint32Array(calls.memory.buffer, lent.start, lent.size / 4);
const all = (array, value) => array.every(byte => byte === value);
const kept = lent => all(bytes().subarray(lent.start - GUARD, lent.start), GUARD_BYTE) &&
  all(bytes().subarray(lent.start + lent.size, lent.start + lent.size + GUARD), GUARD_BYTE) &&
  (!lent.before || Buffer.compare(lent.before, view(lent)) === 0);

const readers = {
  m: field => field === 'lake' ? 0 : field === 'plain' ? 1 : /^\d+$/.test(field) && Number(field) < 256 ? Number(field) : undefined,
  n: field => /^\d{1,20}$/.test(field) ? BigInt.asUintN(64, BigInt(field)) : undefined,
  b: field => {
    if (field !== '-' && !/^([0-9a-f]{2})+$/.test(field)) return undefined;
    const given = Buffer.from(field === '-' ? '' : field, 'hex'), lent = lend(given.length);
    view(lent).set(given);
    lent.before = given;
    return lent;
  },
  w: field => {
    if (field !== '-' && !(/^\d+(,\d+)*$/.test(field) && field.split(',').every(word => Number(word) < 2 ** 32))) return undefined;
    const lent = lendWords(field === '-' ? [] : field.split(',').map(Number));
    lent.before = Buffer.from(view(lent));
    return lent;
  },
  c: field => /^\d+$/.test(field) ? lendWords(new Uint32Array(Number(field)).fill(FRESH)) : undefined,
  r: field => {
    if (!/^\d+$/.test(field)) return undefined;
    const lent = lend(Number(field));
    view(lent).fill(ROOM_BYTE);
    return lent;
  },
  s: field => /^\d+$/.test(field) && BigInt(field) <= RECORDS ? lendRecords(Number(field)) : undefined,
  p: field => /^\d+$/.test(field) && BigInt(field) < 2 ** 32 ? BigInt(field) : undefined,
};
// a question's fields, its call and how the answer is said
const refused = out => `refused ${out[0]} ${out[1]}`;
const listed = (label, lent) => ` ; ${label}${Array.from(numbers(lent), n => ` ${n}`).join('')}`;
// a record that is as it was lent, with what is no part of it, is `x`
function recorded(lent) {
  let said = ' ; records';
  for (let at = lent.start; at < lent.start + lent.size; at += RECORD) {
    const record = Buffer.from(calls.memory.buffer, at, RECORD);
    said += record.equals(MARK) ? ' x' : ` ${[0, 8, 16, 24].map(k => record.readBigUInt64LE(k)).join(':')}:${record[PRESENT_AT]}`;
  }
  return said;
}
function written(out, values) {
  const n = out[0] === 0n ? Number(out[1]) : 0, room = view(values.at(-1));
  if (!all(room.subarray(n), ROOM_BYTE)) return 'broken';
  return out[0] === 0n ? `text ${Buffer.from(room.subarray(0, n)).toString('hex')}` : refused(out);
}
const kinds = {
  read: ['mb', 'gm_read', out => out[0] ? refused(out) : `read ${out.slice(1, 4).join(' ')}`],
  sets: ['mbn', 'gm_sets', out => out[0] ? refused(out) : `sets ${out.slice(2, 9).join(' ')} ${out[1]}`],
  skip: ['mb', 'gm_cannot_skip', out => out[0] ? refused(out)
    : ['skip', ...Array.from({ length: 64 }, (_, i) => i).filter(i => out[1] >> BigInt(i) & 1n)].join(' ')],
  match: ['mbbcc', 'gm_match', (out, v) =>
    (out[0] === 100n ? 'none' : out[0] ? refused(out) : `match ${out[1]}`) + listed('cells', v[3]) + listed('nodes', v[4])],
  lake: ['mbbcnn', 'gm_lake_at', (out, v) => (out[0] ? refused(out) : `value ${out[1]}`) + listed('cells', v[3])],
  own: ['mbr', 'gm_write_own', written],
  plain: ['mbr', 'gm_write_plain', written],
  name: ['mbnr', 'gm_symbol_name', written],
  json: ['mbbwr', 'gm_write_json', written],
  unjson: ['mbbbc', 'gm_read_json', (out, v) => (out[0] ? refused(out) : `nodes ${out[1]}`) + listed('nodes', v[4])],
  summary: ['mbbws', 'gm_summarise', (out, v) => (out[0] ? refused(out) : `summary ${out[1]}`) + recorded(v[4])],
  where: ['bp', 'gm_line_and_column', out => out[0] ? refused(out) : `at ${out[1]} ${out[2]}`],
  sound: ['wnn', 'gm_node_sound', out => `sound ${out[1]}`],
  text: ['bwn', 'gm_node_text', (out, v) => `text ${Buffer.from(view(v[0]).subarray(Number(out[1]), Number(out[1] + out[2]))).toString('hex') || '-'}`],
  span: ['bwn', 'gm_node_text', out => `span ${out[1]} ${out[2]}`],
};
const counted = { b: 1n, r: 1n, w: 4n, c: 4n, s: BigInt(RECORD) };

function answer(line) {
  at = calls.__heap_base.value;
  lents = [];
  const [kind, ...fields] = line.split(' ');
  if (!Object.hasOwn(kinds, kind)) return 'unreadable';
  const [shape, call, says] = kinds[kind];
  if (fields.length !== shape.length) return 'unreadable';
  const values = fields.map((field, i) => readers[shape[i]](field));
  if (values.includes(undefined)) return 'unreadable';
  const words = kind === 'sets' ? 9 : 4, room = lend(8 * words);
  const given = values.flatMap((value, i) => shape[i] in counted ? [value.start, BigInt(value.size) / counted[shape[i]]] : [value]);
  const code = BigInt.asUintN(64, calls[call](...given, room.start));
  const out = Array.from(new BigUint64Array(calls.memory.buffer, room.start, words));
  const said = says(out, values);
  return code === out[0] && lents.every(kept) ? said : 'broken';
}

bytes().fill(STACK_BYTE, 0, STACK);
const lines = fs.readFileSync(0, 'latin1').split('\n');
lines.pop();
process.stdout.write(lines.map(line => answer(line) + '\n').join(''));
console.error(STACK - bytes().findIndex(byte => byte !== STACK_BYTE));
