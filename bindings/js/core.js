/* InfluxDB line protocol in JavaScript, over the proved reader of crates/lp_page.
 *
 * The module reads: it cuts a text into pieces, and tells of each its item by offsets; and it says whether a text is as the library's
 * builder writes it. What is here moves bytes in and makes objects of what comes out. It also spells lines, but hands none out that the module
 * does not read back as what was meant. This file imports nothing, so a page or a worker may hold it as a text. It stands in index.cjs too. */

const DIALECTS = ["crate", "strict", "newline-delimited"];
const FAULTS = [
    "", "duplicate_tag", "measurement_value_invalid", "field_set_missing", "integer_value_invalid", "uinteger_value_invalid",
    "timestamp_value_invalid", "ends_with_backslash", "cannot_parse_entire_line", "tag_set_malformed", "generic_parsing_error",
];
const SIDES = ["", "above", "below"];
const MESSAGES = {
    measurement_value_invalid: () => "Invalid measurement was provided",
    field_set_missing: () => "No fields were provided",
    integer_value_invalid: text => `Unable to parse integer value '${text}'`,
    uinteger_value_invalid: text => `Unable to parse unsigned integer value '${text}'`,
    timestamp_value_invalid: text => `Unable to parse timestamp value '${text}'`,
    ends_with_backslash: () => "Measurements, tag keys and values, and field keys may not end with a backslash",
    cannot_parse_entire_line: text => `Could not parse entire line. Found trailing content: '${text}'`,
    tag_set_malformed: () => "Tag Set Malformed",
    generic_parsing_error: () => "A generic parsing error occurred: TakeWhile1",
    not_utf8: () => "the line is not UTF-8",
    too_long: () => "the line is too long",
};

// The numbers of the header include/influxdb_line_protocol.h, which checks/documents.py compares with it: of answers and of kinds of parts;
const END = 0, LINE = 1, MORE_PARTS = 3, MORE_ROOM = 4, NOT_UTF8 = 8, MORE_TEXT = 10, TOO_LONG = 11;
const INTEGER = 1, UNSIGNED = 2, FLOAT = 3, STRING = 4, BOOLEAN = 5;

// how many bytes a row, a part, a block and a search for cuts take;
const ROW = 88, PART = 32, BLOCK = 24, CUTS = 48;

// and where the members of the first three lie: in words of 32 bits, but those that are COPIED or tell of a timestamp in halves of words.
const ROW_LINE = 0, ROW_TIMESTAMP = 2, ROW_KEY = 4, ROW_PIECE = 8, ROW_MEASUREMENT = 10, ROW_LINE_AT = 12, ROW_STOP_AT = 13, ROW_PARTS_AT = 14;
const ROW_TAGS = 15, ROW_FIELDS = 16, ROW_ROOM_LEN = 17, ROW_ANSWER = 18, ROW_FAULT = 19, ROW_SIDE = 20;
const ROW_MEASUREMENT_COPIED = 42, ROW_HAS_TIMESTAMP = 43;
const PART_KEY = 0, PART_TEXT = 2, PART_NUMBER = 4, PART_KIND = 6, PART_KEY_COPIED = 14, PART_TEXT_COPIED = 15;
const BLOCK_LINE = 0, BLOCK_AT = 2, BLOCK_ROWS = 3, BLOCK_ROOM = 5;

// How much of a text is read at once, and the most bytes that a piece of a stream may have, if nothing else is asked for.
const WINDOW = 1 << 16, LONGEST = 1 << 24;

// A memory with more bytes than these is let go once little is left in it.
const LARGE = 1 << 22;

// A string of at most so many characters that are all ASCII is moved one by one: that takes less time than to ask for its bytes.
const SHORT = 1 << 12, ASCII = /^[\0-\x7f]*$/;

const encoder = new TextEncoder();
const decoder = new TextDecoder("utf-8", { ignoreBOM: true }), strictDecoder = new TextDecoder("utf-8", { ignoreBOM: true, fatal: true });
// The powers of ten that are exact as numbers.
const POWERS = Array.from({ length: 23 }, (_, n) => Number(`1e${n}`));
const HALF = /(\p{Surrogate})/u;

const MOST_SHOWN = 60;

/** A name or a string of a line cannot be written: the line would not read back, or the text holds half of a surrogate pair. `part` says which
 * part rules the line out, `key` is the key of its tag or field if it is a value, and `value` is its text; `what` is the part in words, and
 * `index` the number of the line, counted from 0. */
export class NotAdmitted extends Error {
    constructor({ part = null, number, key = null, value = null }, index, why = "would not read back") {
        const [beside, thing] = part === null ? ["", "part"] : part.split(" ").reverse();
        const what = part === null ? "a part" : part === "measurement" ? "the measurement" : `the ${beside} of ${thing} ${number}`;
        const shown = text => JSON.stringify(text.length > MOST_SHOWN ? `${text.slice(0, MOST_SHOWN)}..` : text);
        super(`${what} of line ${index + 1} ${why}${value === null ? "" : `: ${shown(value)}`}${key === null ? "" : `, of the key ${shown(key)}`}`);
        Object.assign(this, { name: "NotAdmitted", what, index, part, key, value });
    }
}

/** Whether this engine has the 64-bit memory that the proved module needs. */
export function hasWideMemory() {
    return typeof WebAssembly === "object" && WebAssembly.validate(new Uint8Array([0, 97, 115, 109, 1, 0, 0, 0, 5, 3, 1, 4, 1]));
}

function numberOf(dialect) {
    const number = DIALECTS.indexOf(dialect);
    if (number < 0) throw new RangeError(`${String(dialect)} is no dialect: it is one of ${DIALECTS.join(", ")}`);
    return number;
}

// The bytes of a string. Half of a surrogate pair has no UTF-8: it becomes three bytes that are none, so its line is refused as `not_utf8`.
function encoded(text) {
    if (text.isWellFormed()) return encoder.encode(text);
    const parts = text.split(HALF).map((part, n) => {
        const unit = part.charCodeAt(0), isHalf = n % 2 === 1;
        return isHalf ? Uint8Array.of(0xe0 | unit >> 12, 0x80 | unit >> 6 & 0x3f, 0x80 | unit & 0x3f) : encoder.encode(part);
    });
    const bytes = new Uint8Array(parts.reduce((len, part) => len + part.length, 0));
    parts.reduce((at, part) => (bytes.set(part, at), at + part.length), 0);
    return bytes;
}

function bytesOf(text) {
    if (typeof text === "string") return encoded(text);
    if (text instanceof ArrayBuffer) return new Uint8Array(text);
    if (!ArrayBuffer.isView(text)) throw new TypeError("a text is a string or bytes");
    const bytes = text instanceof Uint8Array ? text : new Uint8Array(text.buffer, text.byteOffset, text.byteLength);
    // A view of a detached buffer has the length 0, as if it were empty, but this call throws.
    bytes.at(0);
    return bytes;
}

function limitOf(most) {
    if (typeof most !== "number") throw new TypeError("maxLine is a number");
    if (most !== Infinity && !(Number.isSafeInteger(most) && most >= 0)) throw new RangeError(`maxLine is ${most}: it is a whole number from 0 on, or Infinity`);
    return most;
}

// A value of a field in JSON, which has no bigint and no -0.
function jsonOf(value) {
    if (typeof value === "bigint") return { integer: String(value) };
    if (typeof value === "number") return Object.is(value, -0) ? { float: "-0" } : value;
    return value.unsigned === undefined ? value : { unsigned: String(value.unsigned) };
}

/* A line that was read. In JSON an integer is `{ integer }`, and each number of 64 bits is a text: so `write` takes what JSON.parse gives. */
class Line {
    constructor(measurement, tags, fields, timestamp) {
        this.measurement = measurement;
        this.tags = tags;
        this.fields = fields;
        this.timestamp = timestamp;
    }

    toJSON() {
        const fields = this.fields.map(([key, value]) => [key, jsonOf(value)]);
        return { ...this, fields, timestamp: this.timestamp === null ? null : String(this.timestamp) };
    }
}

/* A piece that is no line. In JSON `refused` is a text, or a list of bytes if these are not UTF-8. */
class Fault {
    constructor(members) {
        Object.assign(this, members);
    }

    toJSON() {
        try {
            return { ...this, refused: strictDecoder.decode(this.refused) };
        } catch {
            return { ...this, refused: [...this.refused] };
        }
    }
}

/* A text of bytes as a string, of which parts are asked for by the places of their bytes: mostly one after another. */
class Decoded {
    // Takes the `len` bytes from a place on. `string` is what they are, if that is known.
    take(bytes, from, len, string = decoder.decode(bytes.subarray(from, from + len))) {
        this.bytes = bytes;
        this.from = from;
        this.string = string;
        this.isAscii = string.length === len;
        // Bytes that are not UTF-8 are no certain number of units. A character that the end of the bytes cuts does not matter.
        const bad = this.isAscii ? -1 : string.indexOf("\ufffd");
        this.isUtf8 = bad < 0 || bad === string.length - 1;
        this.mark = this.markUnit = this.byte = this.unit = 0;
    }

    // How many units of the string come before a byte: counted from the last byte that was asked for, or from the mark.
    unitBefore(byte) {
        if (byte < this.byte) {
            this.byte = byte < this.mark ? 0 : this.mark;
            this.unit = byte < this.mark ? 0 : this.markUnit;
        }
        const { bytes, from } = this;
        let unit = this.unit;
        for (let at = from + this.byte; at < from + byte; at++) unit += (bytes[at] & 0xc0) === 0x80 ? 0 : bytes[at] >= 0xf0 ? 2 : 1;
        this.byte = byte;
        this.unit = unit;
        return unit;
    }

    // Sets the mark: most bytes that are asked for from now on come after it.
    markAt(byte) {
        if (this.isAscii || !this.isUtf8) return;
        this.markUnit = this.unitBefore(byte);
        this.mark = byte;
    }

    slice(at, len) {
        if (this.isAscii) return this.string.substring(at, at + len);
        if (!this.isUtf8) return decoder.decode(this.bytes.subarray(this.from + at, this.from + at + len));
        const unit = this.unitBefore(at);
        return this.string.substring(unit, this.unitBefore(at + len));
    }
}

/* An instance of the module and its memory, behind its own: a block, a search for cuts with the place of a cut, rows, parts, a room for texts without their
 * escapes, and a text. */
class Border {
    constructor(instance, module) {
        this.module = module;
        // The text as a string, and the room, if a text that lies there was asked for.
        this.window = new Decoded();
        this.copies = new Decoded();
        this.begin(instance);
    }

    begin(instance) {
        this.calls = instance.exports;
        this.base = (Number(this.calls.__heap_base.value) + 15) & ~15;
        this.window.take(new Uint8Array(0), 0, 0, "");
        this.lay(WINDOW, 512, 8192, WINDOW);
    }

    // Lets go of the memory that a large text took. A memory cannot shrink, so a new instance takes its place; an old browser makes none at once.
    settle() {
        if (this.bytes.length <= LARGE) return;
        try {
            this.begin(new WebAssembly.Instance(this.module));
        } catch (error) {
            if (!(error instanceof RangeError)) throw error;
        }
    }

    // Lays out places for so many bytes of text, rows, parts and bytes of room. What was there is lost.
    lay(text, rows, parts, room) {
        const search = this.base + BLOCK, cut = search + CUTS, rowsAt = cut + 8, partsAt = rowsAt + ROW * rows, roomAt = partsAt + PART * parts;
        const textAt = roomAt + ((room + 15) & ~15), missing = textAt + text - this.calls.memory.buffer.byteLength;
        if (missing > 0) this.grow(Math.ceil(missing / 65536));
        const buffer = this.calls.memory.buffer;
        Object.assign(this, { textSize: text, rowCount: rows, partCount: parts, roomSize: room, search, cut, rows: rowsAt, parts: partsAt, room: roomAt, text: textAt });
        this.addresses = [textAt, this.base, roomAt, room, rowsAt, rows, partsAt, parts].map(BigInt);
        this.bytes = new Uint8Array(buffer);
        this.words = new Uint32Array(buffer);
        this.halves = new Uint16Array(buffer);
        this.longs = new BigInt64Array(buffer);
        this.unsigned = new BigUint64Array(buffer);
    }

    // A memory of 64 bits counts its pages by a bigint, but in older engines by a number, as a memory of 32 bits does.
    grow(pages) {
        try {
            this.calls.memory.grow(BigInt(pages));
        } catch (error) {
            if (!(error instanceof TypeError)) throw error;
            this.calls.memory.grow(pages);
        }
    }

    // Puts a text into its place: bytes, or a string that is all ASCII.
    put(text) {
        if (text.length > this.textSize) this.lay(text.length, this.rowCount, this.partCount, this.roomSize);
        const { bytes, text: at } = this;
        if (typeof text === "string") for (let n = 0; n < text.length; n++) bytes[at + n] = text.charCodeAt(n);
        else bytes.set(text, at);
    }

    // Reads rows of the first `len` bytes of the text, from `at` on, which is in this line. Gives the answer.
    read(len, dialect, last, at, line) {
        const block = this.base >> 2;
        this.unsigned[(block + BLOCK_LINE) >> 1] = line;
        this.words[block + BLOCK_AT] = at;
        const [text, own, room, roomSize, rows, rowCount, parts, partCount] = this.addresses;
        return this.calls.lp_offsets_block(text, BigInt(len), dialect, last ? 1 : 0, own, room, roomSize, rows, rowCount, parts, partCount);
    }

    // Makes places for the row that did not fit, though no other took any.
    enlarge() {
        const row = this.rows >> 2;
        const parts = Math.max(this.partCount, this.words[row + ROW_TAGS] + this.words[row + ROW_FIELDS]);
        this.lay(this.textSize, this.rowCount, parts, Math.max(this.roomSize, this.words[row + ROW_ROOM_LEN]));
    }

    // Tells each of so many rows the key of its series, where that stands in the text.
    tellKeys(len, rows) {
        this.calls.lp_offsets_keys(this.addresses[0], BigInt(len), this.addresses[4], BigInt(rows));
    }

    // Begins a search for the ends of pieces that may have so many bytes. Gives its state.
    beginSearch(dialect, limit) {
        this.calls.lp_cuts_begin(dialect, limit === Infinity ? 2n ** 64n - 1n : BigInt(limit), BigInt(this.search));
        return this.bytes.slice(this.search, this.search + CUTS);
    }

    // Searches the bytes that come next for the newline that ends the piece that goes on, and keeps the state. Gives the answer, and where
    // that newline is: if there is none, how many bytes there are.
    findCut(state, bytes) {
        let answer, at = 0;
        this.bytes.set(state, this.search);
        do {
            const window = bytes.subarray(at, at + WINDOW);
            this.bytes.set(window, this.text);
            answer = this.calls.lp_cuts_next(BigInt(this.search), BigInt(this.text), BigInt(window.length), BigInt(this.cut));
            const cut = Number(this.unsigned[this.cut >> 3]);
            at += cut;
            if (cut < window.length) break;
        } while (at < bytes.length);
        state.set(this.bytes.subarray(this.search, this.search + CUTS));
        return { answer, at };
    }

    // Whether so many bytes of the text are as the builder writes a line.
    isAsWritten(at, len) {
        return this.calls.lp_is_as_written(BigInt(this.text + at), BigInt(len)) !== 0;
    }
}

/* A walk over the items of a text that comes in windows. */
class Walk {
    constructor(border, dialect, options) {
        this.border = border;
        this.dialect = dialect;
        this.withPlaces = Boolean(options.places);
        this.withLiterals = Boolean(options.literals);
        this.withWritten = Boolean(options.written);
        this.withKeys = Boolean(options.keys);
        this.hasMore = this.withPlaces || this.withWritten || this.withKeys;
        this.line = 1n;
        this.offset = 0;
        this.items = 0;
        this.text = border.window;
        this.hasCopies = false;
    }

    // Reads the pieces of a window that end in it, or, if the text ends with it, all; and gives how many bytes they take. What is
    // made of each item is appended to `out`. The window is bytes, or a string that is all ASCII.
    step(window, last, out) {
        const border = this.border, len = window.length;
        border.put(window);
        this.text.take(border.bytes, border.text, len, typeof window === "string" ? window : undefined);
        let at = 0;
        for (;;) {
            const answer = border.read(len, this.dialect, last, at, this.line);
            const block = border.base >> 2, rows = border.words[block + BLOCK_ROWS];
            if (this.withKeys) border.tellKeys(len, rows);
            this.hasCopies = false;
            for (let row = 0; row < rows; row++) {
                this.items += 1;
                out.push(this.take((border.rows + ROW * row) >> 2));
            }
            at = border.words[block + BLOCK_AT];
            this.line = border.unsigned[(block + BLOCK_LINE) >> 1];
            if (answer === END || answer === MORE_TEXT) break;
            if (answer === MORE_PARTS || answer === MORE_ROOM) {
                if (rows === 0) {
                    border.enlarge();
                    border.put(window);
                    this.text.take(border.bytes, border.text, len, this.text.string);
                }
            } else if (answer !== LINE) {
                throw new Error(`the module answers ${answer}`);
            }
        }
        this.offset += at;
        border.settle();
        return at;
    }

    // The text at a place.
    textAt(at, len, copied) {
        if (copied === 0) return this.text.slice(at, len);
        const border = this.border;
        if (!this.hasCopies) border.copies.take(border.bytes, border.room, border.words[(border.base >> 2) + BLOCK_ROOM]);
        this.hasCopies = true;
        return border.copies.slice(at, len);
    }

    // The item of the row at a word.
    take(word) {
        const { words } = this.border, answer = words[word + ROW_ANSWER];
        this.text.markAt(words[word + ROW_PIECE]);
        return answer === LINE ? this.lineOf(word) : this.faultOf(word, answer);
    }

    lineOf(word) {
        const { words, halves, longs, parts } = this.border;
        const measurement = this.textAt(words[word + ROW_MEASUREMENT], words[word + ROW_MEASUREMENT + 1], halves[2 * word + ROW_MEASUREMENT_COPIED]);
        const part = (parts + PART * words[word + ROW_PARTS_AT]) >> 2, tags = words[word + ROW_TAGS];
        const line = new Line(
            measurement, this.tagsOf(part, tags), this.fieldsOf(part + (PART >> 2) * tags, words[word + ROW_FIELDS]),
            halves[2 * word + ROW_HAS_TIMESTAMP] === 1 ? longs[(word + ROW_TIMESTAMP) >> 1] : null);
        if (this.hasMore) this.addMore(line, word);
        return line;
    }

    // So many tags, of which the first is at a word.
    tagsOf(first, count) {
        const { words } = this.border, { isAscii, string } = this.text, tags = new Array(count);
        for (let n = 0, part = first; n < count; n++, part += PART >> 2) {
            // Most texts are parts of the window, as they stand.
            if (isAscii && words[part + (PART_KEY_COPIED >> 1)] === 0) {
                const key = words[part + PART_KEY], value = words[part + PART_TEXT];
                tags[n] = [string.substring(key, key + words[part + PART_KEY + 1]), string.substring(value, value + words[part + PART_TEXT + 1])];
            } else {
                tags[n] = [this.keyOf(part), this.partText(part)];
            }
        }
        return tags;
    }

    fieldsOf(first, count) {
        const fields = new Array(count);
        for (let n = 0, part = first; n < count; n++, part += PART >> 2) fields[n] = [this.keyOf(part), this.valueOf(part)];
        return fields;
    }

    // The key of a part, and its value or literal, if that is a text.
    keyOf(part) {
        const { words, halves } = this.border;
        return this.textAt(words[part + PART_KEY], words[part + PART_KEY + 1], halves[2 * part + PART_KEY_COPIED]);
    }

    partText(part) {
        const { words, halves } = this.border;
        return this.textAt(words[part + PART_TEXT], words[part + PART_TEXT + 1], halves[2 * part + PART_TEXT_COPIED]);
    }

    // Adds to a line what the options ask for.
    addMore(line, word) {
        const { words } = this.border, at = words[word + ROW_LINE_AT], end = words[word + ROW_STOP_AT];
        if (this.withPlaces) Object.assign(line, this.placeOf(word));
        if (this.withKeys) line.key = words[word + ROW_KEY] === 0 ? seriesKey(line) : this.textAt(at, words[word + ROW_KEY], 0);
        if (this.withWritten) {
            line.text = this.textAt(at, end - at, 0);
            line.asWritten = this.border.isAsWritten(at, end - at);
        }
    }

    valueOf(part) {
        const { words, longs, unsigned } = this.border, number = part + PART_NUMBER;
        switch (words[part + PART_KIND]) {
            case INTEGER: return longs[number >> 1];
            case FLOAT: return this.floatOf(part);
            case STRING: return this.partText(part);
            case UNSIGNED: return { unsigned: unsigned[number >> 1] };
            default: return words[number] === 1;
        }
    }

    // The nearest number of a float. One of few digits is a whole number and a power of ten, which are exact: so their quotient is the nearest.
    floatOf(part) {
        const { bytes, words, text } = this.border, start = text + words[part + PART_TEXT], end = start + words[part + PART_TEXT + 1];
        let digits = 0, point = 0;
        if (!this.withLiterals) {
            for (let at = bytes[start] === 45 ? start + 1 : start; at < end; at++) {
                const digit = bytes[at] - 48;
                if (digit >= 0 && digit <= 9) digits = 10 * digits + digit;
                else if (digit === -2) point = at + 1;
                else digits = Infinity;
            }
            const places = point === 0 ? 0 : end - point;
            if (digits < 2 ** 53 && places < POWERS.length) return (bytes[start] === 45 ? -digits : digits) / POWERS[places];
        }
        const literal = this.partText(part), value = Number(literal);
        return this.withLiterals || !Number.isFinite(value) ? { float: literal } : value;
    }

    // Where an item is: its number, the line and the byte at which its text begins and its piece does, and how long its text is.
    placeOf(word) {
        const { words, longs, bytes, text } = this.border;
        const at = words[word + ROW_PIECE], end = at + words[word + ROW_PIECE + 1], textAt = words[word + ROW_LINE_AT];
        const pieceLine = Number(longs[(word + ROW_LINE) >> 1]);
        let line = pieceLine;
        for (let n = at; n < textAt; n++) if (bytes[text + n] === 10) line += 1;
        return {
            item: this.items, line, offset: this.offset + textAt, length: end - textAt, pieceLine, pieceOffset: this.offset + at,
            pieceLength: end - at,
        };
    }

    faultOf(word, answer) {
        const { words, bytes, text } = this.border;
        const place = this.placeOf(word), at = words[word + ROW_LINE_AT], end = words[word + ROW_PIECE] + words[word + ROW_PIECE + 1];
        const refused = bytes.slice(text + words[word + ROW_PIECE], text + end), stop = words[word + ROW_STOP_AT];
        const fault = answer === NOT_UTF8 ? "not_utf8" : FAULTS[words[word + ROW_FAULT]];
        let stopLine = place.line, lineAt = at;
        for (let n = at; n < stop; n++) if (bytes[text + n] === 10) { stopLine += 1; lineAt = n + 1; }
        if (stopLine === place.line) while (lineAt > 0 && bytes[text + lineAt - 1] !== 10) lineAt -= 1;
        const named = this.namedBy(fault, stop, end);
        return new Fault({
            fault, message: MESSAGES[fault](named), text: named, side: SIDES[words[word + ROW_SIDE]], ...place, stopOffset: this.offset + stop, stopLine,
            stopColumn: stop - lineAt + 1, refused,
        });
    }

    // The item of a piece that has more bytes than the limit, of which these came so far. It is not read, so reading stopped at its first byte.
    longFault(bytes, limit) {
        this.items += 1;
        const line = Number(this.line), offset = this.offset;
        return new Fault({
            fault: "too_long", message: MESSAGES.too_long(), text: "", side: "", item: this.items, line, offset, length: limit, pieceLine: line,
            pieceOffset: offset, pieceLength: limit, stopOffset: offset, stopLine: line, stopColumn: 1, refused: bytes.slice(0, limit), longerThan: limit,
        });
    }

    // Passes bytes that are not read.
    pass(bytes) {
        this.offset += bytes.length;
        for (let at = bytes.indexOf(10); at >= 0; at = bytes.indexOf(10, at + 1)) this.line += 1n;
    }

    // What a fault names: the number at which reading stopped, or all that is left there.
    namedBy(fault, stop, end) {
        if (fault === "cannot_parse_entire_line") return this.textAt(stop, end - stop, 0);
        if (!fault.endsWith("_value_invalid") || fault === "measurement_value_invalid") return "";
        const { bytes, text } = this.border;
        let after = bytes[text + stop] === 45 ? stop + 1 : stop;
        while (after < end && bytes[text + after] >= 48 && bytes[text + after] <= 57) after += 1;
        return this.textAt(stop, after - stop, 0);
    }
}

// How names and values are spelled. Most names are spelled as they are.
const spelledMeasurement = name => (/[, \\]/.test(name) ? name.replace(/[, \\]/g, "\\$&") : name);
const spelledName = name => (/[,= \\]/.test(name) ? name.replace(/[,= \\]/g, "\\$&") : name);
const spelledString = text => `"${/["\\]/.test(text) ? text.replace(/["\\]/g, "\\$&") : text}"`;
const LITERAL = /^-?[0-9]+(\.[0-9]+)?([eE][+-]?[0-9]+)?$/;
const LEAST = -(2n ** 63n), MOST = 2n ** 63n - 1n, MOST_UNSIGNED = 2n ** 64n - 1n;

function inRange(value, least, greatest, what) {
    if (value < least || value > greatest) throw new RangeError(`${value} is no ${what} of 64 bits`);
    return value;
}

// A whole number, or its digits, as JSON has it; else undefined.
function wholeOf(it) {
    if (typeof it === "bigint") return it;
    return typeof it === "string" && /^-?[0-9]+$/.test(it) ? BigInt(it) : undefined;
}

// Adds a value as it is meant: its kind, and a bigint, a Boolean, or the text of a string or of a float.
function putMeant(list, value) {
    switch (typeof value) {
        case "bigint": return list.push(INTEGER, inRange(value, LEAST, MOST, "integer"));
        case "string": return list.push(STRING, value);
        case "boolean": return list.push(BOOLEAN, value);
        case "number":
            if (!Number.isFinite(value)) throw new RangeError(`${value} is no float that can be written`);
            return list.push(FLOAT, Object.is(value, -0) ? "-0" : String(value));
        default:
    }
    const integer = wholeOf(value?.integer), unsigned = wholeOf(value?.unsigned);
    if (integer !== undefined) return list.push(INTEGER, inRange(integer, LEAST, MOST, "integer"));
    if (unsigned !== undefined) return list.push(UNSIGNED, inRange(unsigned, 0n, MOST_UNSIGNED, "unsigned integer"));
    if (value && typeof value.float === "string") {
        if (!LITERAL.test(value.float)) throw new RangeError(`${value.float} is no literal of a float`);
        return list.push(FLOAT, value.float);
    }
    throw new TypeError("a value is a bigint, a number, a string, a boolean, { integer }, { unsigned } or { float }");
}

function spelledValue(kind, value) {
    switch (kind) {
        case INTEGER: return `${value}i`;
        case UNSIGNED: return `${value}u`;
        case STRING: return spelledString(value);
        default: return String(value);
    }
}

// The keys and values of tags or fields, in turns. These may be pairs, a Map or an object.
function listOf(pairs, what) {
    const list = [];
    if (pairs === undefined || pairs === null) return list;
    for (const pair of typeof pairs[Symbol.iterator] === "function" ? pairs : Object.entries(pairs)) {
        if (!Array.isArray(pair) || pair.length !== 2 || typeof pair[0] !== "string") throw new TypeError(`${what} are pairs of a key and a value`);
        list.push(pair[0], pair[1]);
    }
    return list;
}

// The measurement and the tags of a line.
function seriesOf(line) {
    const measurement = line?.measurement;
    if (typeof measurement !== "string") throw new TypeError("a line has a measurement, which is a string");
    const tags = listOf(line.tags, "tags");
    for (let n = 1; n < tags.length; n += 2) if (typeof tags[n] !== "string") throw new TypeError(`the value of the tag ${tags[n - 1]} is no string`);
    return { measurement, tags };
}

// A line as it is meant. Its fields are a list of keys, kinds and values, in turns.
function pointOf(line) {
    const { measurement, tags } = seriesOf(line), given = listOf(line.fields, "fields"), fields = [];
    for (let n = 0; n < given.length; n += 2) {
        fields.push(given[n]);
        putMeant(fields, given[n + 1]);
    }
    if (fields.length === 0) throw new TypeError("a line has a field");
    let timestamp = line.timestamp ?? null;
    if (timestamp instanceof Date) timestamp = BigInt(timestamp.getTime()) * 1_000_000n;
    if (timestamp !== null) timestamp = wholeOf(timestamp);
    if (timestamp === undefined) throw new TypeError("a timestamp is a bigint of nanoseconds, its digits, or a Date");
    if (timestamp !== null) inRange(timestamp, LEAST, MOST, "timestamp");
    return { measurement, tags, fields, timestamp };
}

// Each text of a line as it is meant: of which part it is, the number of its tag or field, the key beside a value, and the text.
function* textsOf({ measurement, tags, fields = [] }) {
    yield { part: "measurement", value: measurement };
    for (let n = 0; n < tags.length; n += 2) {
        yield { part: "tag key", number: n / 2 + 1, value: tags[n] };
        yield { part: "tag value", number: n / 2 + 1, key: tags[n], value: tags[n + 1] };
    }
    for (let n = 0; n < fields.length; n += 3) {
        yield { part: "field key", number: n / 3 + 1, value: fields[n] };
        if (fields[n + 1] === STRING) yield { part: "field value", number: n / 3 + 1, key: fields[n], value: fields[n + 2] };
    }
}

// Refuses a line if some text of it holds half of a surrogate pair.
function refuseHalves(point, index) {
    for (const text of textsOf(point)) if (!text.value.isWellFormed()) throw new NotAdmitted(text, index, "holds half of a surrogate pair");
}

function spelledSeries({ measurement, tags }) {
    let text = spelledMeasurement(measurement);
    for (let n = 0; n < tags.length; n += 2) text += `,${spelledName(tags[n])}=${spelledName(tags[n + 1])}`;
    return text;
}

function spelledLine(point) {
    const { fields, timestamp } = point;
    let text = spelledSeries(point), before = " ";
    for (let n = 0; n < fields.length; n += 3) {
        text += `${before}${spelledName(fields[n])}=${spelledValue(fields[n + 1], fields[n + 2])}`;
        before = ",";
    }
    return timestamp === null ? text : `${text} ${timestamp}`;
}

// The text of a line that may not be written, if there is one.
function notAdmitted(point, dialect) {
    for (const text of textsOf(point)) {
        const { part, value } = text, isString = part === "field value";
        if (isString && dialect === 2 && value.includes("\n")) return text;
        if (!isString && (value === "" || /[\t\n]|\\$/.test(value) || (part === "measurement" && /^#|\0/.test(value)))) return text;
    }
    return null;
}

/* A walk over lines that were written, which tells of each whether it says what is meant, and is as the builder writes it. */
class Proof extends Walk {
    constructor(border, dialect, points) {
        super(border, dialect, {});
        this.points = points;
    }

    take(word) {
        const { words } = this.border, point = this.points[this.items - 1], at = words[word + ROW_LINE_AT];
        this.text.markAt(words[word + ROW_PIECE]);
        return point !== undefined && words[word + ROW_ANSWER] === LINE && this.hasSeries(word, point) && this.hasFields(word, point)
            && this.border.isAsWritten(at, words[word + ROW_STOP_AT] - at);
    }

    // Whether a text at a place is this one.
    isText(place, copied, text) {
        const at = this.border.words[place], len = this.border.words[place + 1];
        if (copied !== 0 || !this.text.isAscii) return this.textAt(at, len, copied) === text;
        return len === text.length && this.text.string.startsWith(text, at);
    }

    hasSeries(word, { measurement, tags }) {
        const { words, halves, parts } = this.border;
        if (2 * words[word + ROW_TAGS] !== tags.length) return false;
        if (!this.isText(word + ROW_MEASUREMENT, halves[2 * word + ROW_MEASUREMENT_COPIED], measurement)) return false;
        let part = (parts + PART * words[word + ROW_PARTS_AT]) >> 2;
        for (let n = 0; n < tags.length; n += 2, part += PART >> 2) {
            if (!this.isText(part + PART_KEY, halves[2 * part + PART_KEY_COPIED], tags[n])) return false;
            if (!this.isText(part + PART_TEXT, halves[2 * part + PART_TEXT_COPIED], tags[n + 1])) return false;
        }
        return true;
    }

    hasFields(word, { fields, timestamp }) {
        const { words, halves, longs, parts } = this.border;
        if (3 * words[word + ROW_FIELDS] !== fields.length) return false;
        let part = (parts + PART * (words[word + ROW_PARTS_AT] + words[word + ROW_TAGS])) >> 2;
        for (let n = 0; n < fields.length; n += 3, part += PART >> 2) {
            if (!this.isText(part + PART_KEY, halves[2 * part + PART_KEY_COPIED], fields[n])) return false;
            if (words[part + PART_KIND] !== fields[n + 1] || !this.hasValue(part, fields[n + 1], fields[n + 2])) return false;
        }
        return halves[2 * word + ROW_HAS_TIMESTAMP] === 1 ? longs[(word + ROW_TIMESTAMP) >> 1] === timestamp : timestamp === null;
    }

    hasValue(part, kind, value) {
        const { words, halves, longs, unsigned } = this.border, number = part + PART_NUMBER;
        switch (kind) {
            case INTEGER: return longs[number >> 1] === value;
            case UNSIGNED: return unsigned[number >> 1] === value;
            case BOOLEAN: return (words[number] === 1) === value;
            default: return this.isText(part + PART_TEXT, halves[2 * part + PART_TEXT_COPIED], value);
        }
    }
}

// The order of texts by their bytes: of UTF-16 the units of pairs come after all others.
function compareByBytes(a, b) {
    const place = unit => (unit >= 0xe000 ? unit - 0x800 : unit >= 0xd800 ? unit + 0x2000 : unit);
    const len = Math.min(a.length, b.length);
    for (let n = 0; n < len; n++) {
        const one = a.charCodeAt(n), other = b.charCodeAt(n);
        if (one !== other) return place(one) - place(other);
    }
    return a.length - b.length;
}

/* The items of a text. Those of a window are made at once, so that others may use the memory of the module in between. */
class Items {
    #walk;
    #text;
    #length;
    #from = 0;
    #size = WINDOW;
    #made = [];
    #next = 0;

    constructor(walk, text) {
        this.#walk = walk;
        this.#text = typeof text === "string" && text.length <= SHORT && ASCII.test(text) ? text : bytesOf(text);
        this.#length = this.#text.length;
    }

    [Symbol.iterator]() {
        return this;
    }

    next() {
        while (this.#next === this.#made.length) {
            if (this.#from >= this.#length) return { done: true, value: undefined };
            this.#step();
        }
        return { done: false, value: this.#made[this.#next++] };
    }

    return(value) {
        this.#from = this.#length;
        this.#next = this.#made.length;
        return { done: true, value };
    }

    #step() {
        const text = this.#text;
        if (text.length !== this.#length) throw new TypeError("the buffer of the text was detached or resized while the text was read");
        const to = Math.min(this.#from + this.#size, this.#length), isLast = to === this.#length;
        this.#made = [];
        this.#next = 0;
        const passed = this.#walk.step(typeof text === "string" ? text : text.subarray(this.#from, to), isLast, this.#made);
        this.#from = isLast ? to : this.#from + passed;
        this.#size = passed === 0 ? 2 * this.#size : WINDOW;
    }
}

/** The calls over one instance of the module. */
export class LineProtocol {
    #border;

    constructor(instance, module) {
        this.#border = new Border(instance, module);
    }

    /** The items of a text, lines and faults, one after another. */
    parse(text, options = {}) {
        return new Items(new Walk(this.#border, numberOf(options.dialect ?? "crate"), options), text);
    }

    /** The items of a stream, as its parts come. */
    async *read(source, options = {}) {
        const feed = this.#feed(options);
        for await (const part of iterated(source)) {
            feed.take(part);
            yield* feed.items(false);
        }
        yield* feed.items(true);
    }

    /** What a TransformStream takes: parts go in, and items come out. */
    transformer(options = {}) {
        const feed = this.#feed(options), put = (to, isLast) => { for (const item of feed.items(isLast)) to.enqueue(item); };
        return {
            transform(part, to) {
                feed.take(part);
                put(to, false);
            },
            flush: to => put(to, true),
        };
    }

    #feed(options) {
        return new Feed(new Walk(this.#border, numberOf(options.dialect ?? "crate"), options), limitOf(options.maxLine ?? LONGEST));
    }

    /** A line, or each line of a list, as text: each with its newline. It is read again before it is handed out. */
    write(lines, options = {}) {
        const dialect = numberOf(options.dialect ?? "crate"), points = [];
        for (const line of lines && typeof lines.measurement === "string" ? [lines] : lines) points.push(pointOf(line));
        let text = "";
        for (const point of points) text += `${spelledLine(point)}\n`;
        const wrong = text.isWellFormed() ? this.#firstWrong(points, text, dialect) : 0;
        if (wrong >= 0) this.#refuse(points, dialect, wrong);
        return text;
    }

    // The number of the first line that does not say what is meant, or that is not as the builder writes it; -1 if there is none.
    #firstWrong(points, text, dialect) {
        let count = 0;
        for (const isRight of new Items(new Proof(this.#border, dialect, points), text)) {
            if (!isRight) return Math.min(count, points.length - 1);
            count += 1;
        }
        return count === points.length ? -1 : 0;
    }

    // Throws what rules a line out: of the first line that has such a text.
    #refuse(points, dialect, wrong) {
        points.forEach((point, index) => {
            refuseHalves(point, index);
            const text = notAdmitted(point, dialect);
            if (text) throw new NotAdmitted(text, index);
        });
        throw new NotAdmitted({}, wrong);
    }

    /** The line that was read so, as it is written again; `null` if it may not be written. */
    #again(line, dialect) {
        if (line.asWritten) return line.text;
        const point = pointOf(line), text = spelledLine(point);
        return !notAdmitted(point, dialect) && this.#firstWrong([point], `${text}\n`, dialect) < 0 ? text : null;
    }

    /** Each line of a text in one spelling, and a line for each item that is refused; and how many there are of each. */
    rebuild(text, options = {}) {
        const number = numberOf(options.dialect ?? "crate"), batch = [], faults = [];
        let items = 0;
        for (const item of this.parse(text, { dialect: DIALECTS[number], literals: true, written: true })) {
            items += 1;
            const again = item.fault ? null : this.#again(item, number);
            if (again !== null) batch.push(`${again}\n`);
            else faults.push(`item ${items}: ${item.message ?? "a name cannot be written again"}\n`);
        }
        return { batch: batch.join(""), faults: faults.join(""), carried: batch.length, refused: faults.length };
    }

    /** What becomes of one piece: its item, the text that goes out for it, and which clauses of what is portable that breaks. */
    look(text, options = {}) {
        const dialect = options.dialect ?? "crate", number = numberOf(dialect);
        const [item] = this.parse(text, { dialect, places: true, literals: true, written: true });
        if (!item || item.fault) return { item: item ?? null, out: null };
        return { item, out: this.#again(item, number), key: seriesKey(item), clauses: this.brokenClauses(text) };
    }

    /** The names of the clauses of what is portable that a line breaks. Not proved: it is compared with the proved verdicts of the library. */
    brokenClauses(text, limits = {}) {
        return brokenClauses(text, limits, bytes => this.#strictLine(bytes));
    }

    /** Whether servers read a line as this reader does in the dialect `strict`: "influx1", "victoria" or "all". Not proved, as there. */
    isPortable(text, to = "all", limits = {}) {
        if (!["influx1", "victoria", "all"].includes(to)) throw new RangeError(`${String(to)} is no server: it is influx1, victoria or all`);
        return this.brokenClauses(text, limits).every(name => to !== "all" && !CLAUSES.find(clause => clause.name === name)[to]);
    }

    // The line that bytes are by the strict rules, if they are one piece, which a newline ends.
    #strictLine(bytes) {
        const ended = new Uint8Array(bytes.length + 1), items = [];
        ended.set(bytes);
        ended[bytes.length] = 10;
        const passed = new Walk(this.#border, 1, { places: true, literals: true }).step(ended, false, items);
        const isOne = passed === ended.length && items.length === 1 && !items[0].fault && items[0].pieceOffset === 0;
        return isOne && items[0].pieceLength === bytes.length ? items[0] : null;
    }

    /** What of each item a list has, without its parts: for texts of millions of items. */
    index(text, options = {}) {
        const number = numberOf(options.dialect ?? "crate"), bytes = bytesOf(text), border = this.#border;
        const at = [], len = [], lines = [], kinds = [];
        let from = 0, size = WINDOW * 4, line = 1n;
        while (from < bytes.length) {
            const to = Math.min(from + size, bytes.length), window = bytes.subarray(from, to), last = to === bytes.length;
            border.put(window);
            let passed = 0;
            for (;;) {
                const answer = border.read(window.length, number, last, passed, line), block = border.base >> 2, rows = border.words[block + BLOCK_ROWS];
                for (let row = 0; row < rows; row++) {
                    const word = (border.rows + ROW * row) >> 2, came = border.words[word + ROW_ANSWER];
                    at.push(from + border.words[word + ROW_PIECE]);
                    len.push(border.words[word + ROW_PIECE + 1]);
                    lines.push(Number(border.longs[(word + ROW_LINE) >> 1]));
                    kinds.push(came === LINE ? 0 : came === NOT_UTF8 ? FAULTS.length : border.words[word + ROW_FAULT]);
                }
                passed = border.words[block + BLOCK_AT];
                line = border.unsigned[(block + BLOCK_LINE) >> 1];
                if (answer === END || answer === MORE_TEXT) break;
                if (rows === 0) {
                    border.enlarge();
                    border.put(window);
                }
            }
            from += passed;
            if (last) break;
            size = passed === 0 ? 2 * size : WINDOW * 4;
        }
        border.settle();
        return { at: Float64Array.from(at), len: Float64Array.from(len), line: Float64Array.from(lines), kind: Uint8Array.from(kinds), names: [...FAULTS, "not_utf8"] };
    }
}

/** The key of the series of a line, which the series has alone: its tags in the order of their keys, by bytes. */
export function seriesKey(line) {
    const { measurement, tags } = seriesOf(line);
    refuseHalves({ measurement, tags }, 0);
    const places = Array.from({ length: tags.length / 2 }, (_, n) => 2 * n).sort((one, other) => compareByBytes(tags[one], tags[other]));
    return spelledSeries({ measurement, tags: places.flatMap(at => [tags[at], tags[at + 1]]) });
}

/* Bytes that wait for more. They are moved only as often as their memory doubles. */
class Held {
    constructor() {
        this.memory = new Uint8Array(WINDOW);
        this.from = 0;
        this.to = 0;
    }

    get bytes() {
        return this.memory.subarray(this.from, this.to);
    }

    add(part) {
        const kept = this.bytes, need = kept.length + part.length;
        if (this.to + part.length > this.memory.length) {
            const memory = need > this.memory.length / 2 ? new Uint8Array(2 * need) : this.memory;
            memory.set(kept);
            this.memory = memory;
            this.from = 0;
            this.to = kept.length;
        }
        this.memory.set(part, this.to);
        this.to += part.length;
    }

    pass(count) {
        this.from += count;
        if (this.memory.length <= LARGE || this.to - this.from > WINDOW) return;
        const memory = new Uint8Array(2 * WINDOW);
        memory.set(this.bytes);
        Object.assign(this, { memory, from: 0, to: this.to - this.from });
    }
}

/* The items of a stream, as its bytes come. What is held begins with the piece that goes on. */
class Feed {
    constructor(walk, limit) {
        Object.assign(this, { walk, limit, held: new Held(), search: walk.border.beginSearch(walk.dialect, limit) });
        // The first half of a surrogate pair that ended a string.
        this.half = "";
        // How many of the held bytes were searched, and whether the piece that goes on is too long: of that one nothing is held.
        this.searched = 0;
        this.isLong = false;
    }

    // Takes a part of a stream. The first half of a surrogate pair that ends a string waits for the string that comes next.
    take(part) {
        const isText = typeof part === "string", text = isText ? this.half + part : this.half;
        this.half = isText && /[\ud800-\udbff]$/.test(text) ? text.slice(-1) : "";
        if (text !== this.half) this.held.add(encoded(this.half ? text.slice(0, -1) : text));
        if (!isText) this.held.add(bytesOf(part));
    }

    // The items of what is held, as far as pieces have ended.
    *items(isLast) {
        if (isLast && this.half) this.held.add(encoded(this.half));

        for (let items = this.next(isLast); items; items = this.next(isLast)) yield* items;
    }

    // The items of the next window, or that of the next piece if it does not end in the window; `null` if more bytes must come.
    next(isLast) {
        const { walk, limit, held } = this, bytes = held.bytes, items = [];
        if (bytes.length === 0) return null;
        if (this.searched === 0 && !this.isLong) {
            // A piece that ends in this window has no more bytes than the limit.
            const window = bytes.subarray(0, Math.min(WINDOW, limit + 1)), isEnd = isLast && window.length === bytes.length && window.length <= limit;
            const passed = walk.step(window, isEnd, items);
            held.pass(isEnd ? window.length : passed);
            if (isEnd || passed > 0) return items;
        }
        const { answer, at } = walk.border.findCut(this.search, bytes.subarray(this.searched)), end = this.searched + at, hasEnd = end < bytes.length;
        const piece = bytes.subarray(0, end + 1), isLong = answer === TOO_LONG;
        this.searched = hasEnd || isLong ? 0 : end;
        if (!hasEnd && !isLong && !isLast) return null;
        if (isLong) {
            if (!this.isLong) items.push(walk.longFault(bytes, limit));
            walk.pass(piece);
        } else {
            walk.step(piece, !hasEnd, items);
        }
        this.isLong = isLong && !hasEnd;
        held.pass(piece.length);
        return items;
    }
}

// Some engines cannot go over a ReadableStream.
function iterated(source) {
    if (typeof source === "string" || source instanceof Uint8Array) return [source];
    if (source && (source[Symbol.asyncIterator] || source[Symbol.iterator])) return source;
    if (!source || typeof source.getReader !== "function") throw new TypeError("a source is a ReadableStream, or what goes over parts");
    return (async function* () {
        const reader = source.getReader();
        try {
            for (;;) {
                const { done, value } = await reader.read();
                if (done) return;
                yield value;
            }
        } finally {
            reader.cancel().catch(() => {});
        }
    })();
}

/** Compiles and instantiates the module of these bytes at once. The main thread of a browser may not do this, if it is old. */
export function connectNow(bytes) {
    const module = new WebAssembly.Module(bytes);
    return new LineProtocol(new WebAssembly.Instance(module), module);
}

/** Instantiates the module of these bytes, or one that was compiled. */
export async function connect(source) {
    let module = source;
    if (!(source instanceof WebAssembly.Module)) {
        module = await WebAssembly.compile(source).catch(cause => {
            if (hasWideMemory()) throw cause;
            throw new Error("this engine has no 64-bit memory for WebAssembly, which lp_page.wasm needs: lp_page_32.wasm needs none", { cause });
        });
    }
    return new LineProtocol(await WebAssembly.instantiate(module, {}), module);
}

/** What the package exports over the calls of one module: a function for each call, and the classes of streams. */
export function exportsOf(calls) {
    /** The items of a stream, as its parts come. */
    class Reader {
        #source;
        #options;

        constructor(source, options = {}) {
            this.#source = source;
            this.#options = options;
        }

        [Symbol.asyncIterator]() {
            return calls.read(this.#source, this.#options);
        }
    }

    /** A TransformStream of parts into items. */
    class ItemStream extends TransformStream {
        constructor(options = {}) {
            super(calls.transformer(options));
        }
    }

    return {
        ItemStream,
        Reader,
        parse: (text, options) => calls.parse(text, options),
        write: (lines, options) => calls.write(lines, options),
        rebuild: (text, options) => calls.rebuild(text, options),
        brokenClauses: (text, limits) => calls.brokenClauses(text, limits),
        isPortable: (text, to, limits) => calls.isPortable(text, to, limits),
    };
}

// What is portable.

const BOTH = { influx1: true, victoria: true }, INFLUX1 = { influx1: true, victoria: false }, VICTORIA = { influx1: false, victoria: true };

/** The clauses of what is portable, named by what breaks them, each with the servers that it concerns and with what it says. */
export const CLAUSES = [
    ["NotALine", BOTH, "what is there is not one line for the strict reader"],
    ["LeadingBlank", VICTORIA, "a space or a tab comes before the line"],
    ["TrailingSpace", VICTORIA, "a space ends the line"],
    ["Newline", VICTORIA, "the line holds a newline: in a string, or escaped"],
    ["MeasurementEquals", BOTH, "an equals sign is escaped in the measurement"],
    ["MeasurementEscape", INFLUX1, "a backslash or a quote is escaped in the measurement"],
    ["TagEscape", INFLUX1, "a backslash is escaped in a tag key or a tag value"],
    ["TagKeyComma", BOTH, "a comma is bare in a tag key"],
    ["TagValueEquals", INFLUX1, "an equals sign is bare in a tag value"],
    ["RepeatedTag", BOTH, "two tags have one key"],
    ["FieldKeyEscape", INFLUX1, "a backslash or a quote is escaped in a field key"],
    ["FieldKeyComma", BOTH, "a comma is bare in a field key"],
    ["FieldKeyQuote", VICTORIA, "a field key holds a quote"],
    ["LongSeries", INFLUX1, "the series, four bytes and a field key are longer than 65,535 bytes"],
    ["Unsigned", INFLUX1, "a value is an unsigned integer"],
    ["InfiniteFloat", INFLUX1, "a float is too large for a finite number"],
    ["RoundedFloat", VICTORIA, "a float has an exponent, or takes over 310 bytes"],
    ["LeadingNul", INFLUX1, "the first field key begins with a byte 0"],
    ["TimeOutOfRange", INFLUX1, "the timestamp is the greatest of 64 bits, or one of the two least"],
    ["TagCount", INFLUX1, "the tags are 100, 200, 400, 800 and so on"],
    ["TimeName", INFLUX1, "a tag key or a field key is `time`"],
    ["SystemName", INFLUX1, "the measurement or a field key is a name of the server's own"],
    ["RepeatedField", BOTH, "two fields have one key"],
    ["KeySeparator", INFLUX1, "the series holds `#!~`"],
    ["ControlByte", INFLUX1, "the measurement or a field key holds a byte 0 or a carriage return"],
    ["NameLabel", VICTORIA, "a tag key is `__name__`"],
    ["LongTagKey", VICTORIA, "a tag key is longer than 256 bytes"],
    ["LongTagValue", VICTORIA, "a tag value is longer than 16,384 bytes"],
    ["LongMetricName", VICTORIA, "the measurement, a byte and a field key are longer than 16,384 bytes"],
    ["LongLabels", VICTORIA, "the series, a byte and a field key are longer than 32,000 bytes"],
    ["TooManyTags", VICTORIA, "there are more tags than the limit"],
    ["LongLine", VICTORIA, "the line is longer than the limit"],
    ["TimeNotKept", VICTORIA, "the timestamp is before or after what is kept"],
].map(([name, servers, means]) => ({ name, ...servers, means }));

// In a text of bytes each byte is one character.
const byteDecoder = new TextDecoder("latin1");

// Of a line of bytes, whose parts are known to be there, the parts as they are spelled.
function spelledParts(bytes, line) {
    const text = byteDecoder.decode(bytes), start = line.offset;
    let at = start;
    const token = stops => {
        const from = at;
        while (at < text.length && !stops.includes(text[at])) at += text[at] === "\\" ? 2 : 1;
        return text.slice(from, at);
    };
    const measurement = token(", "), tags = [], keys = [];
    for (let n = 0; n < line.tags.length; n++) {
        at += 1;
        const key = token("=");
        at += 1;
        tags.push([key, token(", ")]);
    }
    const series = text.slice(start, at);
    while (text[at] === " ") at += 1;
    for (const [, value] of line.fields) {
        keys.push(token("="));
        at += 1;
        if (typeof value === "string") {
            at += 1;
            token('"');
            at += 1;
        } else {
            token(", ");
        }
        at += 1;
    }
    return { text, measurement, tags, series, keys };
}

// The characters that backslashes of a spelled text pair with, from the left; and the text without these pairs.
function pairs(spelled) {
    const all = spelled.match(/\\[^]/g);
    return { others: all ? all.map(pair => pair[1]) : [], rest: all ? spelled.replace(/\\[^]/g, "") : spelled };
}

const pairsWith = (spelled, some) => spelled.includes("\\") && pairs(spelled).others.some(other => some.includes(other));
const isBare = (spelled, some) => spelled.includes(some) && pairs(spelled).rest.includes(some);
const hasRepeats = texts => new Set(texts).size !== texts.length;
const holdsControl = text => text.includes("\0") || text.includes("\r");

// The names of the clauses that a text breaks. `strictLine` reads it by the strict rules, if it is one line.
function brokenClauses(source, limits, strictLine) {
    const all = bytesOf(source), bytes = all[all.length - 1] === 10 ? all.subarray(0, -1) : all;
    const line = strictLine(bytes);
    if (!line) return ["NotALine"];
    const { text, measurement, tags, series, keys: fieldKeys } = spelledParts(bytes, line);
    const logicalMeasurement = measurement.replace(/\\([, \\])/g, "$1"), logical = spelled => spelled.replace(/\\([,= \\])/g, "$1");
    const tagKeys = tags.map(([key]) => key), tagValues = tags.map(([, value]) => value);
    const keys = tagKeys.map(logical), values = tagValues.map(logical), fields = fieldKeys.map(logical);
    const literals = line.fields.map(([, value]) => value.float).filter(literal => literal !== undefined);
    const time = line.timestamp, most = 2n ** 63n - 1n;
    const isOutside = (least, greatest) => time !== null && (time < least || time > greatest);
    const broken = {
        LeadingBlank: /^[ \t]/.test(text),
        TrailingSpace: text.endsWith(" "),
        Newline: text.includes("\n"),
        MeasurementEquals: pairsWith(measurement, "="),
        MeasurementEscape: pairsWith(measurement, '\\"'),
        TagEscape: [...tagKeys, ...tagValues].some(name => pairsWith(name, "\\")),
        TagKeyComma: tagKeys.some(name => isBare(name, ",")),
        TagValueEquals: tagValues.some(name => isBare(name, "=")),
        RepeatedTag: hasRepeats(keys),
        FieldKeyEscape: fieldKeys.some(name => pairsWith(name, '\\"')),
        FieldKeyComma: fieldKeys.some(name => isBare(name, ",")),
        FieldKeyQuote: fieldKeys.some(name => name.includes('"')),
        LongSeries: fieldKeys.some(name => series.length + 4 + name.length > 65535),
        Unsigned: line.fields.some(([, value]) => value.unsigned !== undefined),
        InfiniteFloat: literals.some(literal => !Number.isFinite(Number(literal))),
        RoundedFloat: literals.some(literal => /e/i.test(literal) || literal.length > 310),
        LeadingNul: fieldKeys[0].startsWith("\0"),
        TimeOutOfRange: isOutside(2n - 2n ** 63n, most - 1n),
        TagCount: [100, 200, 400, 800, 1600, 3200, 6400, 12800].includes(keys.length),
        TimeName: keys.includes("time") || fields.includes("time"),
        SystemName: /^_(fieldKeys|measurements|name|series|tagKeys?|tags)$/.test(logicalMeasurement) || fields.some(name => /^_(name|tagKey|tagValue|fieldKey|seriesKey)$/.test(name)),
        RepeatedField: hasRepeats(fields),
        KeySeparator: series.includes("#!~"),
        ControlByte: holdsControl(logicalMeasurement) || fields.some(holdsControl),
        NameLabel: keys.includes("__name__"),
        LongTagKey: keys.some(name => name.length > 256),
        LongTagValue: values.some(name => name.length > 16384),
        LongMetricName: fields.some(name => logicalMeasurement.length + 1 + name.length > 16384),
        LongLabels: fields.some(name => series.length + 1 + name.length > 32000),
        TooManyTags: keys.length > (limits.tags ?? 29),
        LongLine: text.length > (limits.line ?? 262144),
        TimeNotKept: isOutside(limits.earliest ?? 1_000_000n, limits.latest ?? most),
    };
    return CLAUSES.map(({ name }) => name).filter(name => broken[name]);
}
