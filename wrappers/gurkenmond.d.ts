// Types of gurkenmond.js. Places are UTF-16 units of a string, bytes of a Uint8Array.
export type Mode = 'lake' | 'plain';
export type Text = string | Uint8Array;

/** Document 01's refusal number and place. Of 1 to 5 the place is in the grammar's text and has a line and a column, from 1; of the others it is a number. */
export interface Refused { kind: 'refused'; number: number; place: number; line: number | null; column: number | null; what: string }

export interface Read { kind: 'read'; symbols: number; terminals: number; expressions: number }
export interface Set { symbols: number[]; terminals: number[] }
export interface Sets { kind: 'sets'; rounds: number; beginning: Set; succeed: Set; alt: Set; epsilon: boolean }
export interface Lakes { kind: 'lakes'; lakes: number[] }
export interface Written { kind: 'text'; text: string }
export interface Names { kind: 'names'; names: string[] }
export interface Node { symbol: number; name: string; start: number; end: number; depth: number }
export interface Match { kind: 'match'; taken: number; nodes: Node[] }
export interface Nodes { kind: 'nodes'; nodes: Node[] }
/** Of one symbol: how many nodes it has, how many bytes its outermost ones cover, the numbers of its first and last in the list. All 0 if it is not present. */
export interface SymbolRecord { symbol: number; name: string; present: boolean; nodes: number; bytes: number; first: number; last: number }
export interface Summary { kind: 'summary'; records: SymbolRecord[] }
export interface Position { kind: 'position'; line: number; column: number }
export interface None { kind: 'none' }
export interface Way { kind: 'way'; way: 'not' | 'rule' | 'water' | 'skip' }

/** No call throws, whatever the texts hold. */
export class Gurkenmond {
  read(grammar: Text, mode?: Mode): Read | Refused;
  /** BEGINNING, SUCCEED and ALT of an expression of the intermediate grammar, from 1. */
  sets(grammar: Text, expression: number, mode?: Mode): Sets | Refused;
  cannotSkip(grammar: Text, mode?: Mode): Lakes | Refused;
  writeOwn(grammar: Text, mode?: Mode): Written | Refused;
  writePlain(grammar: Text, mode?: Mode): Written | Refused;
  /** The name of a symbol, by its number, as it stands in the grammar: a lake's with its brackets. */
  symbolName(grammar: Text, symbol: number, mode?: Mode): Written | Refused;
  /** Every symbol's name, by its number. */
  names(grammar: Text, mode?: Mode): Names | Refused;
  match(grammar: Text, input: Text, mode?: Mode): Match | None | Refused;
  /** The tree of a match as JSON text; places in it are bytes of the input. */
  json(grammar: Text, input: Text, mode?: Mode): Written | None | Refused;
  /** The node list that such a text says, of the same grammar and input; any other text is refused 16. */
  readJson(grammar: Text, input: Text, json: Text, mode?: Mode): Nodes | Refused;
  /** One record a symbol, by its number, of the nodes of a match; `bytes` are bytes also of a string. What is no list of nodes is refused 15. */
  summarise(grammar: Text, input: Text, nodes: Node[], mode?: Mode): Summary | Refused;
  /** Line and column of a position in a text, both from 1; the column counts what places count. LF ends a line. A position past the end is refused 14. */
  lineAndColumn(text: Text, position: number): Position | Refused;
  lakeAt(grammar: Text, input: Text, lake: number, place: number, mode?: Mode): Way | Refused;
}

/** `source`: the module's bytes or its URL; without it gurkenmond.wasm beside gurkenmond.js. */
export function load(source?: Uint8Array | ArrayBuffer | URL | string): Promise<Gurkenmond>;
