/** By whose rules a text is read; "crate", those of the Rust crate, if none is named. */
export type Dialect = "crate" | "strict" | "newline-delimited";

/** The value of a field. An integer is a bigint, an unsigned one `{ unsigned }`; a float is a number, or its literal `{ float }`, which reading
 * gives where the nearest number is infinite. */
export type Value = bigint | { unsigned: bigint } | number | { float: string } | string | boolean;

/** Where an item is. Lines and columns count from 1, offsets from 0, in bytes of UTF-8. A piece begins with the blanks and comments before
 * its text. */
export interface Place {
    item: number;
    line: number;
    offset: number;
    length: number;
    pieceLine: number;
    pieceOffset: number;
    pieceLength: number;
}

/** A line: pairs in the order of the text, of which a key may come twice, and nanoseconds since 1970, or `null`. */
export interface Line {
    measurement: string;
    tags: [string, string][];
    fields: [string, Value][];
    timestamp: bigint | null;
    key?: string;
    /** What JSON.stringify writes. A line that you make, or that postMessage copied, has no such call. */
    toJSON?(): LineJson;
}

/** A value in JSON: a number of 64 bits is its digits, since JSON.parse would round it, and an integer names its type, as a float is a number. */
export type ValueJson = { integer: string } | { unsigned: string } | number | { float: string } | string | boolean;

/** A line in JSON, which `write` takes. It also has what the options added: its place, and its key. */
export interface LineJson {
    measurement: string;
    tags: [string, string][];
    fields: [string, ValueJson][];
    timestamp: string | null;
}

/** A line that is handed in. A timestamp is nanoseconds, as a bigint or as a text of its digits, or a Date. */
export interface LineLike {
    measurement: string;
    tags?: Iterable<readonly [string, string]> | Record<string, string> | null;
    fields: Iterable<readonly [string, Value | ValueJson]> | Record<string, Value | ValueJson>;
    timestamp?: bigint | Date | string | null;
}

export type FaultKind =
    | "measurement_value_invalid"
    | "field_set_missing"
    | "integer_value_invalid"
    | "uinteger_value_invalid"
    | "timestamp_value_invalid"
    | "ends_with_backslash"
    | "cannot_parse_entire_line"
    | "tag_set_malformed"
    | "generic_parsing_error"
    | "not_utf8"
    | "too_long";

/** A piece that is no line. `text` is the number out of its range, or what is left of the line; `stop..` tells the byte at which reading
 * stopped, and `refused` are the bytes of the piece.
 *
 * The fault of a piece that has more bytes than `maxLine` of a Reader is `too_long`, also if the piece is a comment or blank. Nothing of the
 * piece is read: `stop..` is its first byte. `refused` are its first bytes, as many as `longerThan`, which is that limit; so `length` and
 * `pieceLength` are too. */
export interface Fault extends Place {
    fault: FaultKind;
    message: string;
    text: string;
    side: "" | "above" | "below";
    stopOffset: number;
    stopLine: number;
    stopColumn: number;
    refused: Uint8Array;
    longerThan?: number;
    /** What JSON.stringify writes: `refused` is a text, or a list of bytes if these are not UTF-8. */
    toJSON?(): Omit<Fault, "refused" | "toJSON"> & { refused: string | number[] };
}

export type Item = Line | Fault;

export interface Options {
    dialect?: Dialect;
}

export interface ParseOptions extends Options {
    /** Each line tells its place, as a fault does. */
    places?: boolean;
    /** Each float is its literal, `{ float }`. */
    literals?: boolean;
    /** Each line has `key`, the key of its series. */
    keys?: boolean;
}

export interface ReadOptions extends ParseOptions {
    /** The most bytes that a piece may have, without the newline that ends it: 16 MiB by default. `Infinity` is no limit. */
    maxLine?: number;
}

/** A string, or bytes of UTF-8. A string can hold half of a surrogate pair, which has no UTF-8: its line is then refused as `not_utf8`, and
 * `refused` has the three bytes `ed a0 80` to `ed bf bf` in place of that half. */
export type Text = string | Uint8Array | ArrayBuffer | ArrayBufferView;

/** The items of a text, one after another. Throws TypeError if the text is neither a string nor bytes, or if its buffer is detached, also
 * while the items are read; RangeError if no dialect has this name. */
export function parse(text: Text, options: ParseOptions & { places: true }): IterableIterator<(Line & Place) | Fault>;
export function parse(text: Text, options?: ParseOptions): IterableIterator<Item>;

/** The items of a stream, as its parts come. The parts may be cut anywhere, also within a character or a surrogate pair.
 *
 * A piece that has more bytes than `maxLine` is a fault `too_long`, which comes as soon as more bytes have come. The items after it follow.
 * A Reader holds the piece that goes on, but of a piece that is too long no more than a part.
 *
 * The iteration throws what the source throws; TypeError if a part is neither a string nor bytes, or if `maxLine` is no number; RangeError
 * if no dialect has this name, or if `maxLine` is no whole number from 0 on. */
export class Reader implements AsyncIterable<Item> {
    constructor(source: ReadableStream<Uint8Array | string> | AsyncIterable<Uint8Array | string> | Iterable<Uint8Array | string>, options?: ReadOptions);
    [Symbol.asyncIterator](): AsyncIterableIterator<Item>;
}

/** A TransformStream of parts, as a Reader takes them, into items. The readable side fails where the iteration of a Reader throws. */
export class ItemStream extends TransformStream<Uint8Array | string, Item> {
    constructor(options?: ReadOptions);
}

/** A line, or lines, as text that is read as these and as nothing else, whatever comes after it. Throws NotAdmitted, and writes nothing, if
 * a name or a string rules that out, or holds half of a surrogate pair. Throws TypeError if a member of a line has another type, and RangeError
 * if a number has no place in 64 bits. */
export function write(lines: LineLike | Iterable<LineLike>, options?: Options): string;

/** Each line of a text in one spelling, a line for each other item, and how many there are of each. */
export function rebuild(text: Text, options?: Options): { batch: string; faults: string; carried: number; refused: number };

/** The key of the series of a line, which the series has alone. Throws NotAdmitted if a name holds half of a surrogate pair, and TypeError if
 * the measurement or a tag is no string. */
export function seriesKey(line: Pick<LineLike, "measurement" | "tags">): string;

/** What the options of a server change. */
export interface Limits {
    line?: number;
    tags?: number;
    earliest?: bigint;
    latest?: bigint;
}

/** A clause of what is portable, named by what breaks it, with the servers that it concerns. */
export interface Clause {
    name: string;
    influx1: boolean;
    victoria: boolean;
    means: string;
}

export const CLAUSES: readonly Clause[];

/** The names of the clauses that a line breaks. */
export function brokenClauses(text: Text, limits?: Limits): string[];

/** Whether servers read a line as this reader does in the dialect "strict". */
export function isPortable(text: Text, to?: "influx1" | "victoria" | "all", limits?: Limits): boolean;

/** A line cannot be written. `part` is the part that rules it out, `value` its text, and `key` the key of its tag or field if it is a value, else
 * `null`. `what` names the part in words, as in "the value of tag 1", and `index` is the number of the line, counted from 0. All of `part`, `key`
 * and `value` are `null` if no single part rules the line out. */
export class NotAdmitted extends Error {
    readonly part: "measurement" | "tag key" | "tag value" | "field key" | "field value" | null;
    readonly key: string | null;
    readonly value: string | null;
    readonly what: string;
    readonly index: number;
}

/** Whether this engine has the 64-bit memory that the proved module lp_page.wasm needs. */
export function hasWideMemory(): boolean;

/** The same calls over the module of these bytes: lp_page_32.wasm, or the proved lp_page.wasm. Throws Error if the engine has no 64-bit memory,
 * and the module needs it. */
export function connect(source: BufferSource | WebAssembly.Module): Promise<LineProtocol>;

export class LineProtocol {
    private constructor();
    parse(text: Text, options: ParseOptions & { places: true }): IterableIterator<(Line & Place) | Fault>;
    parse(text: Text, options?: ParseOptions): IterableIterator<Item>;
    read(source: ReadableStream<Uint8Array | string> | AsyncIterable<Uint8Array | string> | Iterable<Uint8Array | string>, options?: ReadOptions): AsyncIterableIterator<Item>;
    transformer(options?: ReadOptions): Transformer<Uint8Array | string, Item>;
    write(lines: LineLike | Iterable<LineLike>, options?: Options): string;
    rebuild(text: Text, options?: Options): { batch: string; faults: string; carried: number; refused: number };
    brokenClauses(text: Text, limits?: Limits): string[];
    isPortable(text: Text, to?: "influx1" | "victoria" | "all", limits?: Limits): boolean;
}
