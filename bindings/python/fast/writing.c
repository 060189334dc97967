/* Lines are written, shown and tested; texts are rebuilt.
 *
 * Pointers: the texts of a line that is handed in are those of `bytes` objects, made of its names and values, which `texts` holds until
 * `clear_handed`; no text points into the line itself, whose lists a call of checking.py may change meanwhile. `parts` is its own, and
 * moves as it grows. The literals in `spelled` are there as long as the members of the line are held: while its parts are put. */
#include "fast.h"

void clear_handed(Handed *handed) {
    while (handed->texts_len > 0) Py_DECREF(handed->texts[--handed->texts_len]);
    handed->parts_len = 0;
}
void free_handed(Handed *handed) {
    clear_handed(handed);
    PyMem_Free(handed->parts);
    PyMem_Free(handed->texts);
}

/* Makes room for one more element. */
static bool grow(void *elements, size_t *room, size_t len, size_t size) {
    void **memory = elements;
    if (len < *room) return true;
    void *more = PyMem_Realloc(*memory, (2 * *room + 16) * size);
    if (!more) {
        PyErr_NoMemory();
        return false;
    }
    *memory = more;
    *room = 2 * *room + 16;
    return true;
}

bool hold(Handed *handed, PyObject *bytes, lp_view *view) {
    if (!bytes || !grow(&handed->texts, &handed->texts_room, handed->texts_len, sizeof *handed->texts)) {
        Py_XDECREF(bytes);
        return false;
    }
    handed->texts[handed->texts_len++] = bytes;
    view->text = text_of(bytes);
    view->copied = true;
    return true;
}

bool refuse(const char *what, PyObject *key, PyObject *value) {
    PyObject *nothing = PyObject_CallFunction(given.refuse, "sOO", what, key ? key : Py_None, value ? value : Py_None);
    if (nothing) PyErr_SetString(PyExc_TypeError, what);
    Py_XDECREF(nothing);
    return false;
}

bool put_text(Handed *handed, const char *what, PyObject *key, PyObject *text, lp_view *view) {
    if (!PyUnicode_Check(text)) return refuse(what, key, text);
    return hold(handed, PyUnicode_AsUTF8String(text), view);
}

/* The literal of a finite float as Python spells it. */
static PyObject *spelling_of(double value) {
    char text[SPELLED];
    const size_t len = spell(value, text);
    return len > 0 ? PyBytes_FromStringAndSize(text, (Py_ssize_t)len) : NULL;
}

/* Takes the next literal of those that were read. It is empty where there is none. */
static lp_text take_literal(Handed *handed) {
    const lp_text left = handed->spelled, nothing = LP_NO_TEXT;
    const uint8_t *end = left.len > 0 ? memchr(left.at, '\n', left.len) : NULL;
    if (!end) return nothing;
    const lp_text literal = { left.at, (size_t)(end - left.at) };
    handed->spelled.at = end + 1;
    handed->spelled.len = left.len - literal.len - 1;
    return literal;
}

/* The next literal of those that were read, if its float is this one to the bit; else none, which is NULL without an error. */
static PyObject *kept_spelling(Handed *handed, double value) {
    const lp_text literal = take_literal(handed);
    bool is_plain;
    if (literal.len == 0) return NULL;
    const double read = double_of(literal, &is_plain);
    if (read == -1.0 && PyErr_Occurred()) return NULL;
    return memcmp(&read, &value, sizeof value) == 0 ? bytes_of(literal) : NULL;
}

static bool put_float(Handed *handed, double value, lp_part *part) {
    PyObject *literal = kept_spelling(handed, value);
    if (!literal && PyErr_Occurred()) return false;
    part->kind = LP_FLOAT;
    return hold(handed, literal ? literal : spelling_of(value), &part->text);
}

/* A value of one of the types that are read. False without an error: it is none, or out of its range. */
static bool put_plain_value(Handed *handed, PyObject *value, lp_part *part) {
    if (PyBool_Check(value)) {
        part->kind = LP_BOOLEAN;
        part->boolean = value == Py_True;
        return true;
    }
    if (PyLong_CheckExact(value)) {
        int overflow;
        part->kind = LP_INTEGER;
        part->integer = PyLong_AsLongLongAndOverflow(value, &overflow);
        return overflow == 0;
    }
    if (PyUnicode_CheckExact(value)) {
        part->kind = LP_STRING;
        return hold(handed, PyUnicode_AsUTF8String(value), &part->text);
    }
    if (PyFloat_CheckExact(value)) {
        const double number = PyFloat_AsDouble(value);
        return number - number == 0 && put_float(handed, number, part);
    }
    if (Py_TYPE(value) == (PyTypeObject *)given.unsigned_type) {
        part->kind = LP_UNSIGNED;
        part->unsigned_integer = PyLong_AsUnsignedLongLong(value);
        if (part->unsigned_integer != (uint64_t)-1 || !PyErr_Occurred()) return true;
        if (PyErr_ExceptionMatches(PyExc_OverflowError)) PyErr_Clear();
        return false;
    }
    if (Py_TYPE(value) == (PyTypeObject *)given.float_text) {
        PyObject *text = PyObject_GetAttrString(value, "text");
        const bool is_held = text && hold(handed, PyUnicode_AsUTF8String(text), &part->text);
        take_literal(handed); /* its place among them is passed */
        Py_XDECREF(text);
        part->kind = LP_FLOAT;
        return is_held;
    }
    return false;
}

bool put_value(Handed *handed, PyObject *key, PyObject *value, lp_part *part) {
    if (put_plain_value(handed, value, part)) return true;
    if (PyErr_Occurred()) return false;
    PyObject *plain = PyObject_CallFunctionObjArgs(given.plain_value, key, value, NULL);
    const bool is_put = plain && put_plain_value(handed, plain, part);
    if (!is_put && !PyErr_Occurred()) refuse("the field", key, value);
    Py_XDECREF(plain);
    return is_put;
}

static bool put_pair(Handed *handed, bool is_tag, PyObject *key, PyObject *value) {
    static const lp_part empty = { LP_NO_VIEW, LP_NO_VIEW, 0, 0, LP_TAG, false };
    lp_part part = empty;
    if (!put_text(handed, is_tag ? "the key of a tag" : "the key of a field", NULL, key, &part.key)) return false;
    if (is_tag ? !put_text(handed, "the value of the tag", key, value, &part.text) : !put_value(handed, key, value, &part)) return false;
    if (!grow(&handed->parts, &handed->parts_room, handed->parts_len, sizeof *handed->parts)) return false;
    handed->parts[handed->parts_len++] = part;
    return true;
}

PyObject *element_of(PyObject *elements, Py_ssize_t at) {
    PyObject *element = NULL;
    if (PyList_Check(elements)) element = at < PyList_Size(elements) ? PyList_GetItem(elements, at) : NULL;
    else if (PyTuple_Check(elements)) element = at < PyTuple_Size(elements) ? PyTuple_GetItem(elements, at) : NULL;
    Py_XINCREF(element);
    return element;
}

/* The pairs of the tags or of the fields, which are a list or a tuple of such, or a dict. Calls of `checking` may change a list meanwhile. */
static bool put_pairs(Handed *handed, bool is_tag, PyObject *pairs) {
    const char *what = is_tag ? "tags" : "fields";
    if (PyDict_Check(pairs)) {
        PyObject *items = PyDict_Items(pairs);
        const bool are_put = items && put_pairs(handed, is_tag, items);
        Py_XDECREF(items);
        return are_put;
    }
    if (!PyList_Check(pairs) && !PyTuple_Check(pairs)) return refuse(what, NULL, pairs);
    PyObject *pair;
    for (Py_ssize_t i = 0; (pair = element_of(pairs, i)) != NULL; i++) {
        PyObject *key = element_of(pair, 0), *value = element_of(pair, 1), *third = element_of(pair, 2);
        const bool is_put = key && value && !third ? put_pair(handed, is_tag, key, value) : refuse(what, Py_True, pair);
        Py_XDECREF(key);
        Py_XDECREF(value);
        Py_XDECREF(third);
        Py_DECREF(pair);
        if (!is_put) return false;
    }
    return true;
}

bool put_timestamp(Handed *handed, PyObject *timestamp) {
    int overflow = 1;
    if (timestamp == Py_None) return true;
    handed->line.has_timestamp = true;
    if (PyLong_CheckExact(timestamp)) handed->line.timestamp = PyLong_AsLongLongAndOverflow(timestamp, &overflow);
    if (!overflow) return true;
    PyObject *plain = PyObject_CallFunctionObjArgs(given.plain_timestamp, timestamp, NULL);
    if (!plain) return false;
    handed->line.timestamp = PyLong_AsLongLong(plain);
    Py_DECREF(plain);
    return handed->line.timestamp != -1 || !PyErr_Occurred();
}

/* Says that an object is no line, where a member is missing. */
static void refuse_line(PyObject *line) {
    if (PyErr_Occurred() && !PyErr_ExceptionMatches(PyExc_AttributeError)) return;
    PyErr_Clear();
    refuse("a line", NULL, line);
}

/* The members of what is handed in as a line, each a new reference: NULL where they are not wanted. */
typedef struct { PyObject *measurement, *tags, *fields, *timestamp, *spelled; } Members;

static void free_members(Members *members) {
    Py_XDECREF(members->measurement);
    Py_XDECREF(members->tags);
    Py_XDECREF(members->fields);
    Py_XDECREF(members->timestamp);
    Py_XDECREF(members->spelled);
}

/* Takes the members of a line, or of what has members of the same names. */
static bool take_members(Members *members, PyObject *line, bool is_series) {
    if (Py_TYPE(line) == (PyTypeObject *)given.line) {
        const Line *own = (Line *)line;
        Members taken = { own->measurement, own->tags, is_series ? NULL : own->fields, is_series ? NULL : own->timestamp, own->spelled };
        Py_XINCREF(taken.measurement);
        Py_XINCREF(taken.tags);
        Py_XINCREF(taken.fields);
        Py_XINCREF(taken.timestamp);
        Py_XINCREF(taken.spelled);
        *members = taken;
    } else if ((members->measurement = PyObject_GetAttrString(line, "measurement")) != NULL &&
               (members->tags = PyObject_GetAttrString(line, "tags")) != NULL && !is_series &&
               (members->fields = PyObject_GetAttrString(line, "fields")) != NULL) {
        members->timestamp = PyObject_GetAttrString(line, "timestamp");
        members->spelled = PyObject_TypeCheck(line, line_base) ? ((Line *)line)->spelled : NULL;
        Py_XINCREF(members->spelled);
    }
    if (members->measurement && members->tags && (is_series || (members->fields && members->timestamp))) return true;
    refuse_line(line);
    return false;
}

/* Hands in the members of a line. */
static bool put_members(Handed *handed, const Members *members, bool is_series) {
    const lp_text nothing = LP_NO_TEXT;
    if (!put_text(handed, "the measurement", NULL, members->measurement, &handed->line.measurement)) return false;
    if (!put_pairs(handed, true, members->tags)) return false;
    handed->line.tags = handed->parts_len;
    handed->line.has_tag_set = handed->parts_len > 0;
    if (is_series) return true;
    handed->spelled = members->spelled && PyBytes_Check(members->spelled) ? text_of(members->spelled) : nothing;
    if (!put_pairs(handed, false, members->fields) || !put_timestamp(handed, members->timestamp)) return false;
    handed->line.fields = handed->parts_len - handed->line.tags;
    return handed->line.fields > 0 || refuse("no field", NULL, members->measurement);
}

/* Hands in a line; without fields and timestamp, where the series is all that counts. */
static bool put_line(Handed *handed, PyObject *line, bool is_series) {
    static const lp_line empty = LP_EMPTY_LINE;
    Members members = { NULL, NULL, NULL, NULL, NULL };
    clear_handed(handed);
    handed->line = empty;
    const bool is_put = take_members(&members, line, is_series) && put_members(handed, &members, is_series);
    free_members(&members);
    return is_put;
}

/* What a call says that is neither written nor put out. */
static bool set_answer_error(uint32_t answer) {
    if (answer == LP_OUT_OF_MEMORY) PyErr_SetString(PyExc_MemoryError, "a request for memory was refused");
    else PyErr_SetString(PyExc_ValueError, "the library does not take it for a line");
    return false;
}

/* Raises NotAdmitted: a function of checking.py finds which text of the line it is. */
static bool refuse_texts(uint32_t dialect, const Handed *handed) {
    static const lp_text no_text = LP_NO_TEXT;
    PyObject *texts = PyList_New(0), *nothing = NULL;
    bool are_added = texts && append(texts, str_of(handed->line.measurement.text));
    for (size_t i = 0; are_added && i < handed->parts_len; i++) {
        const lp_part *part = &handed->parts[i];
        const bool has_text = part->kind == LP_TAG || part->kind == LP_STRING;
        are_added = append(texts, str_of(part->key.text)) && append(texts, str_of(has_text ? part->text.text : no_text));
    }
    if (are_added) nothing = PyObject_CallFunction(given.refuse_texts, "OnI", texts, (Py_ssize_t)handed->line.tags, dialect);
    if (nothing) PyErr_SetString(PyExc_ValueError, "the line is not admitted");
    Py_XDECREF(nothing);
    Py_XDECREF(texts);
    return false;
}

bool make_room(Out *out, size_t wanted) {
    if (out->room - out->len >= wanted) return true;
    uint8_t *more = PyMem_Realloc(out->at, 2 * out->room + wanted);
    if (!more) {
        PyErr_NoMemory();
        return false;
    }
    out->at = more;
    out->room = 2 * out->room + wanted;
    return true;
}

uint32_t put_out(PutsOut *call, uint32_t dialect, const Handed *handed, Out *out) {
    static const lp_part no_parts[1] = { { LP_NO_VIEW, LP_NO_VIEW, 0, 0, LP_TAG, false } };
    const lp_part *parts = handed->parts_len > 0 ? handed->parts : no_parts;
    for (size_t wanted = 256;;) {
        if (!make_room(out, wanted)) return 0;
        const uint32_t answer = call(dialect, &handed->line, parts, handed->parts_len, out->at + out->len, out->room - out->len, &wanted);
        if (answer == LP_WRITTEN || answer == LP_FAULT) {
            out->len += wanted;
            return answer;
        }
        if (answer == LP_NOT_ADMITTED) return refuse_texts(dialect, handed);
        if (answer != LP_MORE_ROOM) return set_answer_error(answer);
    }
}

PyObject *str_of_out(Out *out, bool is_written) {
    PyObject *text = is_written ? PyUnicode_FromStringAndSize((const char *)out->at, (Py_ssize_t)out->len) : NULL;
    PyMem_Free(out->at);
    return text;
}

/* The calls for which no dialect counts. */
static uint32_t put_shown(uint32_t dialect, const lp_line *line, const lp_part *parts, size_t parts_len, uint8_t *out, size_t room,
                          size_t *len) {
    (void)dialect;
    return lp_line_show(line, parts, parts_len, out, room, len);
}
static uint32_t put_base(uint32_t dialect, const lp_line *line, const lp_part *parts, size_t parts_len, uint8_t *out, size_t room,
                         size_t *len) {
    (void)dialect;
    return lp_line_base(line, parts, parts_len, out, room, len);
}
static uint32_t put_key(uint32_t dialect, const lp_line *line, const lp_part *parts, size_t parts_len, uint8_t *out, size_t room,
                        size_t *len) {
    (void)dialect;
    return lp_line_key(line, parts, parts_len, out, room, len);
}

PyObject *key_of_row(const Reader *reader, const lp_offset_row *row) {
    Handed handed = { .line = LP_EMPTY_LINE, .parts = zeroed(row->tags + 1, sizeof *handed.parts) };
    Out out = { NULL, 0, 0 };
    if (!handed.parts) return PyErr_NoMemory();
    handed.line.measurement.text = text_at(reader, row->measurement, row->measurement_copied);
    handed.line.measurement.copied = true; /* so that no text of the series is looked for */
    handed.line.tags = row->tags;
    handed.line.has_tag_set = row->tags > 0;
    for (; handed.parts_len < row->tags; handed.parts_len++) {
        const lp_offset_part *tag = &reader->parts[row->parts_at + handed.parts_len];
        handed.parts[handed.parts_len].key.text = text_at(reader, tag->key, tag->key_copied);
        handed.parts[handed.parts_len].text.text = text_at(reader, tag->text, tag->text_copied);
    }
    PyObject *key = str_of_out(&out, put_out(put_key, LP_CRATE, &handed, &out) != 0);
    free_handed(&handed);
    return key;
}

/* What a call puts out for one line. */
static PyObject *put_out_one(PutsOut *call, uint32_t dialect, PyObject *line) {
    Handed handed = { 0 };
    Out out = { NULL, 0, 0 };
    const bool is_series = call == put_base || call == put_key;
    const uint32_t answer = put_line(&handed, line, is_series) ? put_out(call, dialect, &handed, &out) : 0;
    free_handed(&handed);
    PyObject *text = str_of_out(&out, answer != 0);
    if (!text || answer == LP_WRITTEN) return text;
    PyErr_SetObject(given.duplicate_tag, text);
    Py_DECREF(text);
    return NULL;
}

/* write(line, dialect): a line as the builder writes it. */
PyObject *fast_write(PyObject *module, PyObject *args) {
    PyObject *line;
    unsigned int dialect;
    (void)module;
    return PyArg_ParseTuple(args, "OI", &line, &dialect) ? put_out_one(lp_line_write, dialect, line) : NULL;
}
PyObject *fast_show(PyObject *module, PyObject *line) { (void)module; return put_out_one(put_shown, LP_CRATE, line); }

/* Whether a tag is a pair of str. */
static bool is_plain_tag(PyObject *tag) {
    return PyTuple_CheckExact(tag) && PyTuple_Size(tag) == 2 && PyUnicode_CheckExact(PyTuple_GetItem(tag, 0)) &&
           PyUnicode_CheckExact(PyTuple_GetItem(tag, 1));
}

/* Whether tags are pairs of str, of which each key is greater than the one before it. Code points are in the order of their UTF-8. */
static bool is_rising(PyObject *tags) {
    PyObject *before = NULL;
    for (Py_ssize_t i = 0; i < PyList_Size(tags); i++) {
        PyObject *tag = PyList_GetItem(tags, i);
        if (!is_plain_tag(tag)) return false;
        PyObject *key = PyTuple_GetItem(tag, 0);
        if (before && PyUnicode_Compare(before, key) >= 0) return false;
        before = key;
    }
    return true;
}

/* Puts a name after a mark into a tuple, and gives whether there was memory for it. */
static bool put_piece(PyObject *pieces, Py_ssize_t at, const char *mark, PyObject *name) {
    PyObject *str = PyUnicode_FromString(mark);
    if (!str) return false;
    Py_INCREF(name);
    PyTuple_SetItem(pieces, at, str);
    PyTuple_SetItem(pieces, at + 1, name);
    return true;
}

/* The measurement and the tags in their order, unescaped. */
static PyObject *joined(PyObject *measurement, PyObject *tags) {
    const Py_ssize_t count = PyList_Size(tags);
    PyObject *pieces = PyTuple_New(2 + 4 * count), *none = pieces ? PyUnicode_FromString("") : NULL;
    bool is_put = none && put_piece(pieces, 0, "", measurement);
    for (Py_ssize_t i = 0; is_put && i < count; i++) {
        PyObject *tag = PyList_GetItem(tags, i);
        is_put = put_piece(pieces, 2 + 4 * i, ",", PyTuple_GetItem(tag, 0)) && put_piece(pieces, 4 + 4 * i, "=", PyTuple_GetItem(tag, 1));
    }
    PyObject *text = is_put ? PyUnicode_Join(none, pieces) : NULL;
    Py_XDECREF(none);
    Py_XDECREF(pieces);
    return text;
}

/* The base of a line whose keys rise: its names joined, with no call of the library, and its UTF-8 in `bytes`. NULL without an error: it
 * is no such line, or a name of it is not UTF-8. */
static PyObject *rising_base(PyObject *line, PyObject **bytes) {
    const Line *own = (Line *)line;
    *bytes = NULL;
    if (Py_TYPE(line) != (PyTypeObject *)given.line || !own->measurement || !PyUnicode_CheckExact(own->measurement)) return NULL;
    if (!own->tags || !PyList_CheckExact(own->tags) || !is_rising(own->tags)) return NULL;
    PyObject *text = joined(own->measurement, own->tags);
    *bytes = text ? PyUnicode_AsUTF8String(text) : NULL;
    if (text && !*bytes) {
        Py_DECREF(text);
        text = NULL;
        if (PyErr_ExceptionMatches(PyExc_UnicodeEncodeError)) PyErr_Clear();
    }
    return text;
}

/* Whether the base of a series with so many tags is its key: no name of it has a byte that takes a backslash. */
static bool is_key(PyObject *base, Py_ssize_t tags) {
    const char *at = PyBytes_AsString(base), *end = at + PyBytes_Size(base);
    Py_ssize_t commas = 0, equals = 0;
    for (; at < end; at++) {
        if (*at == ' ' || *at == '\\') return false;
        commas += *at == ',';
        equals += *at == '=' && commas > 0; /* a measurement may have one */
    }
    return commas == tags && equals == tags;
}

PyObject *fast_base(PyObject *module, PyObject *line) {
    (void)module;
    PyObject *bytes, *base = rising_base(line, &bytes);
    Py_XDECREF(bytes);
    return base || PyErr_Occurred() ? base : put_out_one(put_base, LP_CRATE, line);
}
PyObject *fast_key(PyObject *module, PyObject *line) {
    (void)module;
    PyObject *bytes, *base = rising_base(line, &bytes);
    const bool stands = base && is_key(bytes, PyList_Size(((Line *)line)->tags));
    Py_XDECREF(bytes);
    if (stands || PyErr_Occurred()) return base;
    Py_XDECREF(base);
    return put_out_one(put_key, LP_CRATE, line);
}

/* write_many(lines, dialect): all lines of an iterable, one after another. */
PyObject *fast_write_many(PyObject *module, PyObject *args) {
    Handed handed = { 0 };
    Out out = { NULL, 0, 0 };
    PyObject *lines, *iterator, *line;
    unsigned int dialect;
    (void)module;
    if (!PyArg_ParseTuple(args, "OI", &lines, &dialect) || !(iterator = PyObject_GetIter(lines))) return NULL;
    bool is_written = true;
    while (is_written && (line = PyIter_Next(iterator)) != NULL) {
        is_written = put_line(&handed, line, false) && put_out(lp_line_write, dialect, &handed, &out) == LP_WRITTEN;
        Py_DECREF(line);
    }
    Py_DECREF(iterator);
    free_handed(&handed);
    if (!out.at && !PyErr_Occurred()) return PyUnicode_FromStringAndSize("", 0);
    return str_of_out(&out, !PyErr_Occurred());
}

/* Whether a line is admitted in a dialect, or, of a series alone, whether its base is safe. */
static PyObject *tell_of(uint32_t dialect, PyObject *line, bool is_series) {
    static const lp_part no_parts[1] = { { LP_NO_VIEW, LP_NO_VIEW, 0, 0, LP_TAG, false } };
    Handed handed = { 0 };
    bool told = false;
    if (put_line(&handed, line, is_series)) {
        const lp_part *parts = handed.parts_len > 0 ? handed.parts : no_parts;
        const uint32_t answer = is_series ? lp_line_is_base_safe(&handed.line, parts, handed.parts_len, &told)
                                          : lp_line_is_admitted(dialect, &handed.line, parts, handed.parts_len, &told);
        if (answer != LP_WRITTEN) set_answer_error(answer);
    }
    free_handed(&handed);
    return PyErr_Occurred() ? NULL : PyBool_FromLong(told);
}
PyObject *fast_is_base_safe(PyObject *module, PyObject *line) { (void)module; return tell_of(LP_CRATE, line, true); }

/* is_admitted(line, dialect): whether a line would be written. */
PyObject *fast_is_admitted(PyObject *module, PyObject *args) {
    PyObject *line;
    unsigned int dialect;
    (void)module;
    return PyArg_ParseTuple(args, "OI", &line, &dialect) ? tell_of(dialect, line, false) : NULL;
}

/* Rebuilds a text into two rooms, which are bytearrays, as long as they are long enough. */
static uint32_t rebuild_into(lp_text text, uint32_t dialect, PyObject *const *rooms, lp_counts *counts) {
    uint8_t *batch = (uint8_t *)PyByteArray_AsString(rooms[0]), *faults = (uint8_t *)PyByteArray_AsString(rooms[1]);
    const size_t batch_len = (size_t)PyByteArray_Size(rooms[0]), faults_len = (size_t)PyByteArray_Size(rooms[1]);
    PyThreadState *state = let_go(text.len);
    const uint32_t answer = lp_rebuild(dialect, text.at, text.len, batch, batch_len, faults, faults_len, counts);
    take_back(state);
    return answer;
}

/* Makes a room at least so long. */
static bool lengthen(PyObject *room, size_t len) {
    if (len > PY_SSIZE_T_MAX) {
        PyErr_NoMemory();
        return false;
    }
    return PyByteArray_Size(room) >= (Py_ssize_t)len || PyByteArray_Resize(room, (Py_ssize_t)len) == 0;
}

/* What was rebuilt, as str or as bytes. */
static PyObject *rebuilt_of(PyObject *const *rooms, const lp_counts *counts, bool is_str) {
    const lp_text batch = { (const uint8_t *)PyByteArray_AsString(rooms[0]), counts->batch_len };
    const lp_text faults = { (const uint8_t *)PyByteArray_AsString(rooms[1]), counts->faults_len };
    PyObject *(*make)(lp_text) = is_str ? str_of : bytes_of;
    return Py_BuildValue("NNnn", make(batch), make(faults), (Py_ssize_t)counts->carried, (Py_ssize_t)counts->refused);
}

/* rebuild(text, dialect, room, room): the batch and the faults, as bytes, or as str if the text is a str, and how many lines are carried
 * and refused. The rooms, which are bytearrays that no one else has, are written to, and made longer where that is needed. */
PyObject *fast_rebuild(PyObject *module, PyObject *args) {
    PyObject *text, *rooms[2], *rebuilt = NULL;
    unsigned int dialect;
    (void)module;
    if (!PyArg_ParseTuple(args, "OIYY", &text, &dialect, &rooms[0], &rooms[1])) return NULL;
    PyObject *bytes = encoded(text);
    if (!bytes) return NULL;
    const lp_text read = text_of(bytes);
    lp_counts counts = { read.len + read.len / 2 + 64, read.len + read.len / 2 + 64, 0, 0 };
    uint32_t answer = LP_MORE_ROOM;
    while (answer == LP_MORE_ROOM && lengthen(rooms[0], counts.batch_len) && lengthen(rooms[1], counts.faults_len))
        answer = rebuild_into(read, dialect, rooms, &counts);
    if (answer == LP_WRITTEN) rebuilt = rebuilt_of(rooms, &counts, PyUnicode_Check(text));
    else if (answer == LP_NOT_UTF8) set_decode_error(read);
    else if (answer != LP_MORE_ROOM) set_answer_error(answer);
    Py_DECREF(bytes);
    return rebuilt;
}
