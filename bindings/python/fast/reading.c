/* Items are read, block by block.
 *
 * Pointers: a reader owns its rows, parts, room and names, which are there until it is freed; `lend` alone moves them, before a block is read,
 * when no row of the block before is needed. What a row shows is in the segment, a `bytes` object that the reader holds in `text`, or in the
 * room: it is there until the next block or segment is read, that is, until `next_row` is called again. `window` and `lines` point into the
 * segment alone. What Python runs in between cannot change this, since one call at a time reads: `begin_call`. */
#include "fast.h"

/* At most so many rows are read at once; so many parts and bytes of room are lent for them. */
enum { ROWS = 512, PARTS = 8 * ROWS, ROOM = 64 * ROWS };

/* A new object of a class that Python made of one of these types, without its `__init__`. */
static PyObject *new_object(PyObject *class) { return PyType_GenericAlloc((PyTypeObject *)class, 0); }

/* A pair of two new objects, which it takes, also where it fails. */
static PyObject *pair_of(PyObject *first, PyObject *second) {
    PyObject *pair = first && second ? PyTuple_New(2) : NULL;
    if (!pair) {
        Py_XDECREF(first);
        Py_XDECREF(second);
        return NULL;
    }
    PyTuple_SetItem(pair, 0, first);
    PyTuple_SetItem(pair, 1, second);
    return pair;
}

static size_t place_of(const uint8_t *bytes, size_t len) {
    uint64_t first = 0, last = 0;
    if (len >= 8) {
        memcpy(&first, bytes, 8);
        memcpy(&last, bytes + len - 8, 8);
    } else if (len > 0) {
        first = (uint64_t)bytes[0] | (uint64_t)bytes[len / 2] << 8 | (uint64_t)bytes[len - 1] << 16;
        memcpy(&last, bytes, len);
    }
    return (size_t)(((first ^ last * 0x9E3779B97F4A7C15u ^ len) * 0xD6E8FEB86659FD93u) >> 40) % NAMES;
}

/* The object for a name, or for a pair if `split` is not 0: that which was made of the same bytes, if it is kept. */
static PyObject *kept_name(Reader *reader, const uint8_t *bytes, size_t len, size_t split) {
    Name *name = reader->names && len <= NAME ? &reader->names[place_of(bytes, len)] : NULL;
    if (name && name->object && name->len == len && name->split == split && memcmp(name->bytes, bytes, len) == 0) {
        Py_INCREF(name->object);
        return name->object;
    }
    const lp_text all = { bytes, len }, value = { bytes + split, len - split };
    PyObject *object = split ? pair_of(kept_name(reader, bytes, split - 1, 0), str_of(value)) : str_of(all);
    if (object && name) {
        PyObject *before = name->object;
        memcpy(name->bytes, bytes, len);
        name->len = (uint16_t)len;
        name->split = (uint16_t)split;
        Py_INCREF(object);
        name->object = object;
        Py_XDECREF(before);
    }
    return object;
}

PyObject *name_of(Reader *reader, lp_text name) {
    return kept_name(reader, name.at, name.len, 0);
}

/* A tag. Where its value begins directly after `key=`, the bytes of both are kept as one. (A name that is one escape alone is no copy,
 * but begins after its backslash.) */
static PyObject *tag_of(Reader *reader, const lp_offset_part *part) {
    const lp_text key = text_at(reader, part->key, part->key_copied), value = text_at(reader, part->text, part->text_copied);
    if (part->key_copied || part->text_copied || value.at != key.at + key.len + 1) return pair_of(name_of(reader, key), name_of(reader, value));
    return kept_name(reader, key.at, key.len + 1 + value.len, key.len + 1);
}

static PyObject *float_of(lp_text literal, bool *is_plain) {
    const double value = double_of(literal, is_plain);
    if (value == -1.0 && PyErr_Occurred()) return NULL;
    if (value - value == 0) return PyFloat_FromDouble(value);
    return PyObject_CallFunction(given.float_text, "s#", (const char *)literal.at, (Py_ssize_t)literal.len);
}

/* An Unsigned, which `int.__new__` makes. */
static PyObject *unsigned_of(uint64_t number) {
    PyObject *plain = PyLong_FromUnsignedLongLong(number), *object = NULL;
    if (plain) object = PyObject_CallFunctionObjArgs(given.new_int, given.unsigned_type, plain, NULL);
    Py_XDECREF(plain);
    return object;
}

PyObject *value_of(const Reader *reader, const lp_offset_part *part, bool *is_plain) {
    *is_plain = true;
    switch (part->kind) {
    case LP_INTEGER: return PyLong_FromLongLong((int64_t)part->number);
    case LP_UNSIGNED: return unsigned_of(part->number);
    case LP_FLOAT: return float_of(text_at(reader, part->text, part->text_copied), is_plain);
    case LP_BOOLEAN: return PyBool_FromLong((long)part->number);
    default: return str_of(text_at(reader, part->text, part->text_copied));
    }
}

/* The literals of the floats among fields, each before a newline. */
static PyObject *spelled_of(const Reader *reader, const lp_offset_part *fields, size_t count) {
    size_t len = 0;
    for (size_t i = 0; i < count; i++) len += fields[i].kind == LP_FLOAT ? fields[i].text.len + 1 : 0;
    PyObject *spelled = PyBytes_FromStringAndSize(NULL, (Py_ssize_t)len);
    if (!spelled) return NULL;
    char *at = PyBytes_AsString(spelled);
    for (size_t i = 0; i < count; i++) {
        const lp_text literal = text_at(reader, fields[i].text, fields[i].text_copied);
        if (fields[i].kind != LP_FLOAT) continue;
        memcpy(at, literal.at, literal.len);
        at[literal.len] = '\n';
        at += literal.len + 1;
    }
    return spelled;
}

/* Puts the tags and the fields of a line into its lists. */
static bool fill_lists(Reader *reader, Line *line, const lp_offset_part *parts, size_t tags, size_t fields) {
    bool are_plain = true;
    for (size_t i = 0; i < tags; i++) {
        PyObject *tag = tag_of(reader, &parts[i]);
        if (!tag) return false;
        PyList_SetItem(line->tags, (Py_ssize_t)i, tag);
    }
    for (size_t i = 0; i < fields; i++) {
        bool is_plain;
        const lp_offset_part *part = &parts[tags + i];
        PyObject *value = value_of(reader, part, &is_plain), *key = value ? name_of(reader, text_at(reader, part->key, part->key_copied)) : NULL;
        PyObject *field = pair_of(key, value);
        if (!field) return false;
        PyList_SetItem(line->fields, (Py_ssize_t)i, field);
        are_plain = are_plain && is_plain;
    }
    return are_plain || (line->spelled = spelled_of(reader, parts + tags, fields)) != NULL;
}

/* How many newlines come before a place of the window, from the start of a piece on. */
static unsigned long long newlines_before(const Reader *reader, const lp_offset_row *row, size_t place) {
    const uint8_t *at = reader->window.at + row->piece.at, *end = reader->window.at + place;
    unsigned long long count = 0;
    while (at < end && (at = memchr(at, '\n', (size_t)(end - at))) != NULL) {
        at++;
        count++;
    }
    return count;
}

/* The number of the line in which a piece ends. If the next row is of the next line, it is that in which the piece begins. */
static unsigned long long last_line_of(const Reader *reader, const lp_offset_row *row) {
    if (row + 1 < reader->rows + reader->block.rows && row[1].line == row->line + 1) return row->line;
    return row->line + newlines_before(reader, row, (size_t)row->piece.at + row->piece.len);
}

static PyObject *line_of(Reader *reader, const lp_offset_row *row) {
    Line *line = (Line *)new_object(given.line);
    if (!line) return NULL;
    line->measurement = name_of(reader, text_at(reader, row->measurement, row->measurement_copied));
    line->tags = PyList_New((Py_ssize_t)row->tags);
    line->fields = PyList_New((Py_ssize_t)row->fields);
    line->line = row->line + newlines_before(reader, row, row->line_at);
    line->offset = reader->offset + row->line_at;
    line->last_line = last_line_of(reader, row);
    if (row->has_timestamp) {
        line->timestamp = PyLong_FromLongLong(row->timestamp);
    } else {
        Py_INCREF(Py_None);
        line->timestamp = Py_None;
    }
    if (line->measurement && line->tags && line->fields && line->timestamp &&
        fill_lists(reader, line, reader->parts + row->parts_at, row->tags, row->fields)) return (PyObject *)line;
    Py_DECREF(line);
    return NULL;
}

/* A fault of this kind at the next item, whose other numbers are not told yet. The texts are taken, also if it fails. */
static Fault *new_fault(const Reader *reader, PyObject *kind, uint32_t side, PyObject *text, PyObject *refused) {
    PyObject *side_object = PyTuple_GetItem(given.sides, (Py_ssize_t)side);
    Fault *fault = kind && side_object && text && refused ? (Fault *)new_object(given.fault) : NULL;
    if (!fault) {
        Py_XDECREF(text);
        Py_XDECREF(refused);
        return NULL;
    }
    Py_INCREF(kind);
    Py_INCREF(side_object);
    fault->kind = kind;
    fault->side = side_object;
    fault->text = text;
    fault->refused = refused;
    fault->item = reader->items;
    return fault;
}

/* What a fault names: the number at which reading stopped, or all that is left there. */
static lp_text named_by(const Reader *reader, const lp_offset_row *row) {
    const uint8_t *text = reader->window.at, *end = text + row->piece.at + row->piece.len, *stop = text + row->stop_at, *at = stop;
    if (row->side != LP_NEITHER)
        for (at += *at == '-'; at < end && (uint8_t)(*at - '0') <= 9;) at++;
    const lp_text named = { stop, (size_t)((row->fault == LP_CANNOT_PARSE_ENTIRE_LINE ? end : at) - stop) };
    return named;
}

PyObject *fault_of(const Reader *reader, const lp_offset_row *row) {
    PyObject *kind = PyTuple_GetItem(given.kinds, (Py_ssize_t)row->fault);
    Fault *fault = new_fault(reader, kind, row->side, str_of(named_by(reader, row)), bytes_of(text_at(reader, row->piece, 0)));
    if (!fault) return NULL;
    const uint8_t *stop = reader->window.at + row->stop_at, *start = stop;
    while (start > reader->window.at + row->piece.at && start[-1] != '\n') start--;
    fault->piece_line = row->line;
    fault->piece_offset = reader->offset + row->piece.at;
    fault->line = row->line + newlines_before(reader, row, row->line_at);
    fault->offset = reader->offset + row->line_at;
    fault->stop_line = row->line + newlines_before(reader, row, row->stop_at);
    fault->stop_column = (unsigned long long)(stop - start) + 1;
    fault->last_line = last_line_of(reader, row);
    return (PyObject *)fault;
}

/* Lends so many elements of this size. What the memory held is lost. */
static bool lend(void *elements, size_t *len, size_t wanted, size_t size) {
    void **memory = elements;
    if (wanted <= *len) return true;
    void *more = wanted > PY_SSIZE_T_MAX / size ? NULL : PyMem_Malloc(wanted * size);
    if (!more) {
        PyErr_NoMemory();
        return false;
    }
    PyMem_Free(*memory);
    *memory = more;
    *len = wanted;
    return true;
}
static bool lend_parts(Reader *reader, size_t wanted) { return lend(&reader->parts, &reader->parts_len, wanted, sizeof *reader->parts); }
static bool lend_room(Reader *reader, size_t wanted) { return lend(&reader->room, &reader->room_len, wanted, 1); }

/* Lends what a segment of so many bytes is likely to take. */
static bool lend_for(Reader *reader, size_t len) {
    if (len > 4096 && !reader->names && !(reader->names = zeroed(NAMES, sizeof *reader->names))) {
        PyErr_NoMemory();
        return false;
    }
    return lend(&reader->rows, &reader->rows_len, len / 8 + 1 < ROWS ? len / 8 + 1 : ROWS, sizeof *reader->rows) &&
           lend_parts(reader, 2 * len / 8 + 2 < PARTS ? 2 * len / 8 + 2 : PARTS) && lend_room(reader, len < ROOM ? len + 1 : ROOM);
}

/* Begins to read a segment. */
static bool begin(Reader *reader, PyObject *segment) {
    PyObject *before = reader->text;
    if (!lend_for(reader, (size_t)PyBytes_Size(segment))) return false;
    Py_INCREF(segment);
    reader->text = segment;
    reader->window = text_of(segment);
    reader->at = reader->block.at = reader->block.rows = 0;
    reader->answer = LP_LINE;
    Py_XDECREF(before);
    return true;
}

/* Passes so many bytes of the window. */
static void pass(Reader *reader, size_t len) {
    reader->window.at += len;
    reader->window.len -= len;
    reader->offset += len;
    reader->block.at = 0;
}

/* Reads rows, of at most 4 GiB, which offsets can tell. False: memory for a verdict was refused. */
static bool read_rows(Reader *reader) {
    const lp_text text = reader->window;
    const bool is_last = text.len <= UINT32_MAX;
    const size_t len = is_last ? text.len : UINT32_MAX;
    size_t told = 0;
    PyThreadState *state = let_go(text.len - reader->block.at);
    if (reader->limits)
        reader->answer = lp_offsets_block_verdicts(text.at, len, reader->dialect, is_last, &reader->block, reader->room, reader->room_len, reader->rows,
                                                   reader->rows_len, reader->parts, reader->parts_len, reader->limits, &told);
    else
        reader->answer = lp_offsets_block(text.at, len, reader->dialect, is_last, &reader->block, reader->room, reader->room_len, reader->rows,
                                          reader->rows_len, reader->parts, reader->parts_len);
    take_back(state);
    return !reader->limits || told == reader->block.rows;
}

/* Reads items as long as there is room. More is lent where the first does not fit. */
static bool read_block(Reader *reader) {
    if (reader->answer == LP_MORE_TEXT) pass(reader, reader->block.at);
    reader->at = 0;
    if (!read_rows(reader)) {
        PyErr_NoMemory();
        return false;
    }
    const lp_offset_row *next = reader->rows;
    if (reader->block.rows > 0 || reader->answer == LP_END) return true;
    if (reader->answer == LP_MORE_PARTS) return lend_parts(reader, (size_t)next->tags + next->fields);
    if (reader->answer == LP_MORE_ROOM) return lend_room(reader, next->room_len);
    if (reader->answer == LP_MORE_TEXT && reader->block.at > 0) return true;
    PyErr_SetString(PyExc_OverflowError, "a line has 4 GiB or more");
    return false;
}

/* A piece that was refused before it was read: its kind, the bytes that are shown, how many newlines and bytes it takes, and whether the last
 * of these is the newline that ends it. */
static PyObject *refused_of(Reader *reader, PyObject *told) {
    PyObject *kind, *refused;
    unsigned long long newlines, len;
    int is_ended;
    if (!PyArg_ParseTuple(told, "OSKKp", &kind, &refused, &newlines, &len, &is_ended)) return NULL;
    reader->items++;
    Py_INCREF(refused);
    Fault *fault = new_fault(reader, kind, LP_NEITHER, PyUnicode_FromStringAndSize("", 0), refused);
    if (fault) {
        fault->line = fault->piece_line = fault->stop_line = reader->block.line;
        fault->offset = fault->piece_offset = reader->offset;
        fault->stop_column = 1;
        fault->last_line = fault->line + newlines - (is_ended != 0);
    }
    reader->block.line += newlines;
    reader->offset += len;
    return (PyObject *)fault;
}

/* Leaves the segment that was read, and begins the next one. NULL without an error: it has begun, or none is left. */
static PyObject *next_segment(Reader *reader, bool *has_ended) {
    PyObject *segments = reader->segments, *fault = NULL, *before = reader->text;
    *has_ended = true;
    if (!segments) return NULL;
    pass(reader, reader->window.len);
    Py_INCREF(no_bytes);
    reader->text = no_bytes;
    reader->window = text_of(no_bytes);
    Py_DECREF(before);
    Py_INCREF(segments);
    PyObject *segment = PyIter_Next(segments);
    if (segment && PyBytes_Check(segment)) *has_ended = !begin(reader, segment);
    else if (segment) fault = refused_of(reader, segment);
    if (!segment || PyErr_Occurred()) Py_CLEAR(reader->segments);
    Py_XDECREF(segment);
    Py_DECREF(segments);
    return fault;
}

PyObject *next_row(Reader *reader, const lp_offset_row **row) {
    bool has_ended = false;
    *row = NULL;
    while (reader->at == reader->block.rows) {
        if (reader->answer != LP_END) {
            if (!read_block(reader)) return NULL;
        } else {
            PyObject *fault = next_segment(reader, &has_ended);
            if (fault || has_ended) return fault;
        }
    }
    *row = &reader->rows[reader->at++];
    reader->items++;
    return NULL;
}

/* The next item, or NULL without an error if none is left. If memory for it is refused, it is the next one again. */
static PyObject *next_item(Reader *reader) {
    const lp_offset_row *row;
    PyObject *item = next_row(reader, &row);
    if (!row) return item;
    item = row->answer == LP_LINE ? line_of(reader, row) : fault_of(reader, row);
    if (!item) {
        reader->at--;
        reader->items--;
    }
    return item;
}

/* The next piece, or NULL without an error if none is left. */
static PyObject *next_piece(Reader *reader) {
    lp_view piece = LP_NO_VIEW;
    return lp_lines_piece(&reader->lines, &piece) ? str_of(piece.text) : NULL;
}

bool begin_call(Reader *reader) {
    if (reader->is_busy) PyErr_SetString(PyExc_ValueError, "another call reads the next item");
    else reader->is_busy = true;
    return !PyErr_Occurred();
}
void end_call(Reader *reader) { reader->is_busy = false; }

static PyObject *reader_next(PyObject *self) {
    Reader *reader = (Reader *)self;
    if (!begin_call(reader)) return NULL;
    PyObject *item = reader->by_pieces ? next_piece(reader) : next_item(reader);
    end_call(reader);
    return item;
}

static int reader_traverse(PyObject *self, visitproc visit, void *arg) {
    Py_VISIT(((Reader *)self)->segments);
    return visit_type(self, visit, arg);
}
static int reader_clear(PyObject *self) {
    Py_CLEAR(((Reader *)self)->segments);
    return 0;
}
static void reader_dealloc(PyObject *self) {
    Reader *reader = (Reader *)self;
    PyObject_GC_UnTrack(self);
    reader_clear(self);
    Py_CLEAR(reader->text);
    for (size_t i = 0; reader->names && i < NAMES; i++) Py_XDECREF(reader->names[i].object);
    PyMem_Free(reader->names);
    PyMem_Free(reader->rows);
    PyMem_Free(reader->parts);
    PyMem_Free(reader->room);
    free_object(self);
}

/* A reader is made by `read` alone. */
static PyObject *reader_new(PyTypeObject *type, PyObject *args, PyObject *names) {
    (void)type;
    (void)args;
    (void)names;
    PyErr_SetString(PyExc_TypeError, "what is left of a source is made by parse or split, and cannot be copied");
    return NULL;
}
static PyType_Slot reader_slots[] = {
    { Py_tp_doc, "What is left of a source: its items, or its pieces." }, { Py_tp_new, reader_new }, { Py_tp_iter, PyObject_SelfIter },
    { Py_tp_iternext, reader_next }, { Py_tp_traverse, reader_traverse }, { Py_tp_clear, reader_clear },
    { Py_tp_dealloc, reader_dealloc }, { 0, NULL } };
PyType_Spec reader_spec = {
    "line_protocol._fast.Reader", sizeof(Reader), 0, Py_TPFLAGS_DEFAULT | Py_TPFLAGS_HAVE_GC, reader_slots };

Reader *new_reader(PyObject *bytes, uint32_t dialect) {
    Reader *reader = (Reader *)PyType_GenericAlloc(reader_type, 0);
    if (!reader) return NULL;
    reader->dialect = dialect;
    reader->block.line = 1;
    if (begin(reader, bytes)) return reader;
    Py_DECREF(reader);
    return NULL;
}

/* Tests whether a text is UTF-8, and begins to cut it. */
static bool begin_cuts(Reader *reader) {
    PyThreadState *state = let_go(reader->window.len);
    const bool is_begun = lp_lines_begin(reader->window.at, reader->window.len, reader->dialect, &reader->lines);
    take_back(state);
    if (!is_begun) set_decode_error(reader->window);
    return is_begun;
}

/* read(text, segments, dialect, by_pieces): what is left of a text, and of the segments after it, where these are not None. The text must be
 * UTF-8. */
PyObject *fast_read(PyObject *module, PyObject *args) {
    PyObject *text, *segments;
    unsigned int dialect;
    int by_pieces;
    (void)module;
    if (!PyArg_ParseTuple(args, "OOIp", &text, &segments, &dialect, &by_pieces)) return NULL;
    if (segments != Py_None && !PyIter_Check(segments)) {
        PyErr_SetString(PyExc_TypeError, "segments come from an iterator");
        return NULL;
    }
    PyObject *bytes = encoded(text);
    Reader *reader = bytes ? new_reader(bytes, dialect) : NULL;
    Py_XDECREF(bytes);
    if (reader && (by_pieces || !PyUnicode_Check(text)) && !begin_cuts(reader)) Py_CLEAR(reader);
    if (!reader) return NULL;
    reader->by_pieces = by_pieces;
    if (segments != Py_None) {
        Py_INCREF(segments);
        reader->segments = segments;
    }
    return (PyObject *)reader;
}
