/* Columns become lines: one for each row that has a field.
 *
 * Rows are written block by block. First the cells that are objects are read, with Python's lock: each becomes a number or a text. Then the lock
 * is let go, and the lines are written, until one needs Python: there is no room for it, it is refused, or it has a float that Python's own
 * function has to spell. That row is written with the lock, as are the rows after such a float, since many are likely to come. So a block costs
 * memory for its cells and their texts, and the lock is not asked for more often than the processor can do with.
 *
 * Pointers: keys, cells, numbers and `missing` of a column belong to the tuple of its table, which is held until the table is left. The
 * names are of `bytes` objects that a column and the table hold themselves. The text of a cell is of a `bytes` object that is kept, or held
 * as long as the block; that of a float among numbers is in its column until the next row. An object in a cell is held while it is looked at. */
#include "fast.h"

enum { TEXTS = 1024 };                                 /* So many texts are kept. */
enum { ROWS = 1 << 14, CELLS = 1 << 16, HELD = 1 << 20 }; /* A block has so many rows, objects, and bytes of their texts, or a row more. */
enum { WITH_LOCK = 1024 };                             /* So many rows are written with the lock after a float that Python spells. */
enum { MISSING = UINT32_MAX };                         /* The kind of a cell that is None. */

/* A str that came in a cell, and its bytes. */
typedef struct { PyObject *object, *bytes; lp_text text; } Text;

/* An object of a cell, as it was read: its kind, and its number, or its text with the length in the place of a number. */
typedef struct { const uint8_t *at; uint64_t number; uint32_t kind; } Cell;

/* A column that is handed in. A cell is missing if its byte of `missing` is not 0, or if its object is None. */
typedef struct {
    PyObject *key, *cells, *name; /* `name` has the bytes of the key, and is this struct's own; the others are its caller's */
    const uint8_t *numbers;       /* eight bytes for each, or one for a boolean; NULL for objects */
    const uint8_t *missing;       /* NULL: none is */
    Cell *read;                   /* of objects: those of the rows of the block */
    lp_part part;                 /* what all its parts have in common: the key and the kind */
    bool is_time;
    char spelled[SPELLED];        /* the literal of the float that came last */
} Given;

/* The table that is written, the line of the row that is handed in, and all lines so far. */
typedef struct {
    Given *columns;
    size_t columns_len, rows, row;
    Cell *cells;
    size_t block, first, held;    /* so many rows a block has at most; its first row; and how many bytes its texts have */
    bool has_lock;
    PyObject *measurement, *name; /* `name` has the bytes of the measurement */
    lp_view measurement_view;
    Handed handed;
    uint32_t dialect;
    Out out;
    Text *texts;
} Rows;

/* The text of a str in a cell: that which was kept of the same object. A text that is kept no longer is held as long as the block. */
static bool put_kept(Rows *rows, PyObject *object, lp_view *view) {
    Text *kept = &rows->texts[((uintptr_t)object >> 4) % TEXTS];
    if (kept->object != object) {
        PyObject *bytes = PyUnicode_AsUTF8String(object), *bytes_before = kept->bytes, *object_before = kept->object;
        if (!bytes) return false;
        Py_INCREF(object);
        kept->object = object;
        kept->bytes = bytes;
        kept->text = text_of(bytes);
        Py_XDECREF(object_before);
        if (bytes_before && !hold(&rows->handed, bytes_before, view)) return false;
    }
    view->text = kept->text;
    view->copied = true;
    return true;
}

static void free_texts(Rows *rows) {
    for (size_t i = 0; rows->texts && i < TEXTS; i++) {
        Py_XDECREF(rows->texts[i].object);
        Py_XDECREF(rows->texts[i].bytes);
    }
    PyMem_Free(rows->texts);
}

/* A cell that is an object becomes a part, or the timestamp of the line. */
static bool put_object(Rows *rows, const Given *column, PyObject *object, lp_part *part) {
    if (column->key == Py_None) return put_timestamp(&rows->handed, object);
    if (column->part.kind != LP_TAG) return put_value(&rows->handed, column->key, object, part);
    return PyUnicode_Check(object) ? put_kept(rows, object, &part->text) : refuse("the value of the tag", column->key, object);
}

/* Reads a cell that is an object, which stays there while it is read. */
static bool read_object(Rows *rows, const Given *column, PyObject *object, Cell *cell) {
    lp_part part = column->part;
    Py_INCREF(object);
    const bool is_read = put_object(rows, column, object, &part);
    Py_DECREF(object);
    if (column->key == Py_None) {
        part.kind = LP_INTEGER;
        part.integer = rows->handed.line.timestamp;
    }
    cell->kind = part.kind;
    cell->at = part.text.text.at;
    cell->number = part.kind == LP_INTEGER    ? (uint64_t)part.integer
                   : part.kind == LP_UNSIGNED ? part.unsigned_integer
                   : part.kind == LP_BOOLEAN  ? part.boolean
                                              : part.text.text.len;
    rows->held += is_number(part.kind) && part.kind != LP_FLOAT ? 0 : part.text.text.len;
    return is_read;
}

/* Reads the objects of a row. */
static bool read_row(Rows *rows, size_t row) {
    for (size_t i = 0; i < rows->columns_len; i++) {
        const Given *column = &rows->columns[i];
        if (column->numbers) continue;
        Cell *cell = &column->read[row - rows->first];
        cell->kind = MISSING;
        if (column->missing && column->missing[row]) continue;
        PyObject *object = PyList_GetItem(column->cells, (Py_ssize_t)row);
        if (!object || (object != Py_None && !read_object(rows, column, object, cell))) return false;
    }
    return true;
}

/* Reads the objects of the next rows, and gives where the block ends: before a row that is refused, and then there is an error. */
static size_t read_block(Rows *rows) {
    size_t row = rows->first = rows->row;
    const size_t left = rows->rows - row, end = row + (left < rows->block ? left : rows->block);
    clear_handed(&rows->handed);
    rows->held = 0;
    while (row < end && rows->held < HELD && read_row(rows, row)) row++;
    return row;
}

/* A cell that is a float: one that has no literal is refused as an object. False without the lock: Python has to look at it. */
static bool put_float(Rows *rows, Given *column, const uint8_t *at, lp_part *part) {
    double value;
    memcpy(&value, at, sizeof value);
    const bool is_finite = value - value == 0;
    size_t len = is_finite ? spell_own(value, column->spelled) : 0;
    if (len == 0 && !rows->has_lock) return false;
    if (!is_finite) {
        PyObject *object = PyFloat_FromDouble(value);
        const bool is_put = object && put_value(&rows->handed, column->key, object, part);
        Py_XDECREF(object);
        return is_put;
    }
    if (len == 0) len = spell(value, column->spelled);
    part->text.text.at = (const uint8_t *)column->spelled;
    part->text.text.len = len;
    return len > 0;
}

/* A cell that is a number. */
static bool put_number(Rows *rows, Given *column, lp_part *part) {
    const uint8_t *at = column->numbers + rows->row * (column->part.kind == LP_BOOLEAN ? 1 : 8);
    if (part->kind == LP_FLOAT) return put_float(rows, column, at, part);
    if (part->kind == LP_BOOLEAN) {
        part->boolean = *at != 0;
    } else {
        memcpy(&part->integer, at, sizeof part->integer);
        memcpy(&part->unsigned_integer, at, sizeof part->unsigned_integer);
    }
    return true;
}

/* A cell that was an object. */
static void put_read(const Cell *cell, lp_part *part) {
    part->kind = cell->kind;
    part->integer = (int64_t)cell->number;
    part->unsigned_integer = cell->number;
    part->boolean = cell->number != 0;
    part->text.text.at = cell->at;
    part->text.text.len = cell->number;
}

/* The cell of a column, which becomes a part, or the timestamp, unless it is missing. */
static bool put_cell(Rows *rows, Given *column) {
    lp_part part = column->part;
    const Cell *cell = column->numbers ? NULL : &column->read[rows->row - rows->first];
    if ((column->missing && column->missing[rows->row]) || (cell && cell->kind == MISSING)) return true;
    if (cell) put_read(cell, &part);
    else if (!put_number(rows, column, &part)) return false;
    if (column->is_time) {
        rows->handed.line.timestamp = part.integer;
        rows->handed.line.has_timestamp = true;
    } else {
        rows->handed.parts[rows->handed.parts_len++] = part;
        rows->handed.line.tags += part.kind == LP_TAG;
    }
    return true;
}

/* Makes the line of a row. */
static bool make_line(Rows *rows) {
    static const lp_line empty = LP_EMPTY_LINE;
    lp_line *line = &rows->handed.line;
    *line = empty;
    line->measurement = rows->measurement_view;
    rows->handed.parts_len = 0;
    for (size_t i = 0; i < rows->columns_len; i++)
        if (!put_cell(rows, &rows->columns[i])) return false;
    line->has_tag_set = line->tags > 0;
    line->fields = rows->handed.parts_len - line->tags;
    return true;
}

/* Writes a row, if it has a field. */
static bool put_row(Rows *rows) {
    return make_line(rows) && (rows->handed.line.fields == 0 || put_out(lp_line_write, rows->dialect, &rows->handed, &rows->out) == LP_WRITTEN);
}

/* Writes rows up to this one, without the lock, as long as none needs Python. True: it is a float that does. If the library is refused memory,
 * there is an error. */
static bool write_rows(Rows *rows, size_t end) {
    const Handed *handed = &rows->handed;
    Out *out = &rows->out;
    PyThreadState *state = let_go((end - rows->row) * rows->columns_len * sizeof(uint64_t));
    uint32_t answer = LP_WRITTEN;
    bool is_made = true;
    rows->has_lock = !state;
    while (rows->row < end && answer == LP_WRITTEN && (is_made = make_line(rows))) {
        size_t len = 0;
        if (handed->line.fields > 0)
            answer = lp_line_write(rows->dialect, &handed->line, handed->parts, handed->parts_len, out->at + out->len, out->room - out->len, &len);
        if (answer != LP_WRITTEN) break;
        out->len += len;
        rows->row++;
    }
    take_back(state);
    rows->has_lock = true;
    if (answer == LP_OUT_OF_MEMORY) PyErr_NoMemory();
    return !is_made;
}

/* Writes rows up to this one. False: there is an error, of the row at which it stopped. */
static bool put_rows(Rows *rows, size_t end) {
    size_t with_lock = rows->row; /* up to here rows are written with the lock */
    while (rows->row < end) {
        if (rows->row >= with_lock) {
            if (!make_room(&rows->out, 256 + (end - rows->row) * rows->columns_len * 16)) return false;
            if (write_rows(rows, end)) with_lock = rows->row + WITH_LOCK;
            if (PyErr_Occurred()) return false;
        }
        if (rows->row < end) {
            if (!put_row(rows)) return false;
            rows->row++;
        }
    }
    return true;
}

/* Writes the next rows. False: there is an error, of the row at which it stopped. */
static bool put_block(Rows *rows) {
    PyObject *type, *value, *trace;
    const size_t end = read_block(rows);
    PyErr_Fetch(&type, &value, &trace);
    if (put_rows(rows, end)) {
        PyErr_Restore(type, value, trace);
        return !PyErr_Occurred();
    }
    Py_XDECREF(type);
    Py_XDECREF(value);
    Py_XDECREF(trace);
    return false;
}

/* The bytes of a name, which must be a str. */
static PyObject *name_in(const char *what, PyObject *name) {
    if (PyUnicode_Check(name)) return PyUnicode_AsUTF8String(name);
    refuse(what, NULL, name);
    return NULL;
}

/* Whether cells, and what says which of them are missing, are of the right types and lengths. */
static bool are_cells(PyObject *cells, PyObject *missing, unsigned kind, size_t rows) {
    const size_t width = is_number(kind) && kind != LP_BOOLEAN ? 8 : 1;
    if (is_number(kind) ? !PyBytes_Check(cells) : !PyList_Check(cells)) return false;
    const size_t len = (size_t)(is_number(kind) ? PyBytes_Size(cells) : PyList_Size(cells));
    if (missing != Py_None && (!PyBytes_Check(missing) || (size_t)PyBytes_Size(missing) != rows)) return false;
    return len / width == rows && len % width == 0;
}

/* Takes a column: its key, or None if it has the times, its kind, its cells, and which of them are missing. */
static bool take_column(Rows *rows, PyObject *told) {
    static const lp_part empty = LP_EMPTY_PART;
    Given *column = &rows->columns[rows->columns_len++];
    PyObject *missing;
    unsigned kind;
    column->part = empty;
    if (!PyArg_ParseTuple(told, "OIOO", &column->key, &kind, &column->cells, &missing)) return false;
    const bool is_time = column->is_time = column->key == Py_None;
    if (!are_cells(column->cells, missing, kind, rows->rows) || (is_time && is_number(kind) && kind != LP_INTEGER)) {
        PyErr_SetString(PyExc_TypeError, "a column has other cells than its kind and its table say");
        return false;
    }
    column->part.kind = kind;
    column->part.text.copied = true;
    column->numbers = is_number(kind) ? text_of(column->cells).at : NULL;
    column->missing = missing == Py_None ? NULL : text_of(missing).at;
    if (is_time) return true;
    column->name = name_in(kind == LP_TAG ? "the key of a tag" : "the key of a field", column->key);
    if (!column->name) return false;
    column->part.key.text = text_of(column->name);
    column->part.key.copied = true;
    return true;
}

/* Lends cells for the objects of a block. */
static bool lend_cells(Rows *rows) {
    size_t objects = 0;
    for (size_t i = 0; i < rows->columns_len; i++) objects += !rows->columns[i].numbers;
    rows->block = objects > CELLS / ROWS ? (objects < CELLS ? CELLS / objects : 1) : ROWS;
    if (rows->block > rows->rows) rows->block = rows->rows;
    rows->cells = zeroed(rows->block * objects + 1, sizeof *rows->cells);
    Cell *cells = rows->cells;
    for (size_t i = 0; cells && i < rows->columns_len; i++) {
        rows->columns[i].read = cells;
        cells += rows->columns[i].numbers ? 0 : rows->block;
    }
    if (!rows->cells) PyErr_NoMemory();
    return rows->cells != NULL;
}

/* Begins a table: its measurement, how many rows it has, and its columns, those of the tags before those of the fields. */
static bool take_table(Rows *rows, PyObject *told) {
    Py_ssize_t count;
    PyObject *columns;
    if (!PyArg_ParseTuple(told, "OnO!", &rows->measurement, &count, &PyTuple_Type, &columns)) return false;
    const size_t len = (size_t)PyTuple_Size(columns);
    rows->rows = (size_t)count;
    rows->name = name_in("the measurement", rows->measurement);
    rows->columns = zeroed(len + 1, sizeof *rows->columns);
    rows->handed.parts = zeroed(len + 1, sizeof *rows->handed.parts);
    if (!rows->columns || !rows->handed.parts) PyErr_NoMemory();
    for (size_t i = 0; i < len && !PyErr_Occurred(); i++) take_column(rows, PyTuple_GetItem(columns, (Py_ssize_t)i));
    if (PyErr_Occurred()) return false;
    rows->measurement_view.text = text_of(rows->name);
    rows->measurement_view.copied = true;
    return lend_cells(rows);
}

/* Ends a table. */
static void leave_table(Rows *rows) {
    for (size_t i = 0; i < rows->columns_len; i++) Py_XDECREF(rows->columns[i].name);
    PyMem_Free(rows->columns);
    PyMem_Free(rows->cells);
    Py_CLEAR(rows->name);
    free_handed(&rows->handed);
    memset(&rows->handed, 0, sizeof rows->handed);
    rows->columns = NULL;
    rows->cells = NULL;
    rows->columns_len = 0;
}

/* Appends the measurement and the number of the row that is refused to a list. The error stays, unless memory for that is refused. */
static void tell_row(const Rows *rows, PyObject *refused) {
    PyObject *type, *value, *trace;
    PyErr_Fetch(&type, &value, &trace);
    PyObject *told = Py_BuildValue("(On)", rows->measurement, (Py_ssize_t)rows->row);
    const bool is_told = told && PyList_Append(refused, told) == 0;
    Py_XDECREF(told);
    if (is_told) {
        PyErr_Restore(type, value, trace);
        return;
    }
    Py_XDECREF(type);
    Py_XDECREF(value);
    Py_XDECREF(trace);
}

/* Writes the rows of a table. */
static bool put_table(Rows *rows, PyObject *told, PyObject *refused) {
    bool is_put = take_table(rows, told);
    rows->row = 0;
    while (is_put && rows->row < rows->rows) {
        is_put = put_block(rows);
        if (!is_put) tell_row(rows, refused);
    }
    leave_table(rows);
    return is_put;
}

/* write_columns(tables, dialect, refused): the lines of the rows of tables. The row that is refused is appended to a list. */
PyObject *fast_write_columns(PyObject *module, PyObject *args) {
    PyObject *tables, *refused, *table;
    Rows rows = { 0 };
    unsigned int dialect;
    (void)module;
    if (!PyArg_ParseTuple(args, "OIO!", &tables, &dialect, &PyList_Type, &refused) || !(tables = PyObject_GetIter(tables))) return NULL;
    rows.dialect = dialect;
    rows.has_lock = true;
    bool is_put = (rows.texts = zeroed(TEXTS, sizeof *rows.texts)) != NULL;
    if (!is_put) PyErr_NoMemory();
    while (is_put && (table = PyIter_Next(tables)) != NULL) {
        is_put = put_table(&rows, table, refused);
        Py_DECREF(table);
    }
    Py_DECREF(tables);
    free_texts(&rows);
    if (!rows.out.at && !PyErr_Occurred()) return PyUnicode_FromStringAndSize("", 0);
    return str_of_out(&rows.out, !PyErr_Occurred());
}
