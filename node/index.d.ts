/** A node of ESTree. */
export interface Node {
  type: string;
  start: number;
  end: number;
  loc?: Loc;
  range?: [number, number];
  [field: string]: unknown;
}

/** A line, counted from 1, and a column, counted from 0 in UTF-16 units. */
export interface Position {
  line: number;
  column: number;
}

export interface Loc {
  start: Position;
  end: Position;
}

export interface Comment {
  type: 'Line' | 'Block' | 'Hashbang';
  value: string;
  start: number;
  end: number;
  loc?: Loc;
  range?: [number, number];
}

/** What is thrown where a program has a fault, as acorn throws it. */
export interface Fault extends SyntaxError {
  pos: number;
  loc: Position;
  raisedAt: number;
}

/**
 * Options of acorn's `parse`. `ecmaVersion` is passed over: what is read is ECMAScript 2025. Others that change what is read or
 * handed out, as `onToken`, throw a `RangeError`.
 */
export interface ParseOptions {
  sourceType?: 'script' | 'module' | 'commonjs';
  allowReturnOutsideFunction?: boolean;
  locations?: boolean;
  ranges?: boolean;
  onComment?:
    | Comment[]
    | ((block: boolean, text: string, start: number, end: number, startLoc?: Position, endLoc?: Position) => void);
  /** How deeply expressions may be nested: 200. Each level takes at most 14,000 bytes of stack. */
  levels?: number;
  [option: string]: unknown;
}

/** What a program is read as; `any`: a script, or else a module, or else a CommonJS module. */
export type Goal = 'any' | 'script' | 'module' | 'commonjs';

/** What is wrong with a program, and where. Lines and columns are counted from 1; `start` and `end` are UTF-16 units. */
export interface Finding {
  start: number;
  end: number;
  line: number;
  column: number;
  endLine: number;
  endColumn: number;
  message: string;
  firstLine?: number;
  firstColumn?: number;
}

/** A name: how it is used, and where it is bound. */
export interface Name {
  name: string;
  start: number;
  end: number;
  use: 'bound' | 'read' | 'written' | 'read and written';
  binding: [number, number] | null;
}

export interface Token {
  type: 'word' | 'string' | 'template' | 'number' | 'bigint' | 'regexp' | 'sign';
  start: number;
  end: number;
  text: string;
}

/** The tree of a program, as acorn makes it. Throws a `Fault`. */
export function parse(text: string, options?: ParseOptions): Node;

/** What ESLint asks a parser for. */
export function parseForESLint(text: string, options?: object): { ast: Node };

/** What is wrong with a program, early errors too. */
export function check(text: string, options?: { goal?: Goal; most?: number; levels?: number }): Finding[];

/** A program in its layout. Throws a `Fault`. */
export function format(
  text: string,
  options?: { goal?: Goal; width?: number; indent?: number; commas?: 'all' | 'lists' | 'none'; levels?: number },
): string;

/** The names of a program. Throws a `Fault`. */
export function names(text: string, options?: { goal?: Goal; levels?: number }): Name[];

/** The tokens of a text. Throws a `Fault`. */
export function tokens(text: string, options?: { goal?: Goal }): Token[];

export const version: string;
