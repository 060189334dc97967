/* Lines become columns: for each measurement its times, its tags and its fields.
 *
 * Pointers: a row, its texts and its parts are those of the reader, and are there until the next row is asked for (reading.c). Tables and
 * columns own all that they point to. A pointer to a table is good until `table_of` is called again, and one to a column until `column_of`
 * is called again for its table, since these may move them. */
#include "fast.h"

/* A column: numbers, or objects in a list. A cell is missing where its line has no such part. */
typedef struct {
    PyObject *key;     /* a str; NULL for the times */
    uint8_t *name;     /* its bytes */
    size_t name_len;
    uint32_t kind;
    uint64_t *numbers; /* NULL for tags, strings and mixed values */
    uint8_t *missing;  /* 1 where it is missing */
    PyObject *objects; /* NULL for numbers */
    size_t len, room, missing_count;
} Column;

/* The lines of a measurement. Column 0 has the times. */
typedef struct {
    PyObject *measurement;
    PyObject *places[2]; /* by whether it is a tag: a dict from keys to the numbers of columns */
    Column *columns;
    size_t columns_len, columns_room, rows;
    Column series; /* the numbers of the series of the rows, if they are asked for */
} Table;

/* All of them, in the order in which their measurements came. */
typedef struct {
    PyObject *places; /* a dict from measurements to the numbers of tables */
    PyObject *faults;
    Table *tables;
    size_t len, room;
    PyObject *keys;     /* the key of each series, by its number; NULL if the numbers are not asked for */
    PyObject *by_key;   /* a dict from keys to numbers */
    PyObject *by_text;  /* a dict from the texts of series to the numbers: a line whose series came in the same text needs no key */
} Tables;

/* Memory for `len` + 1 elements of this size. */
static bool grow(void *elements, size_t *room, size_t len, size_t size) {
    void **memory = elements;
    const size_t wanted = 2 * len + 16;
    if (len < *room) return true;
    void *more = wanted > PY_SSIZE_T_MAX / size ? NULL : PyMem_Realloc(*memory, wanted * size);
    if (!more) {
        PyErr_NoMemory();
        return false;
    }
    *memory = more;
    *room = wanted;
    return true;
}

/* The number of an object in a dict, or -1, also after an error. */
static Py_ssize_t number_in(PyObject *places, PyObject *key) {
    PyObject *number = PyDict_GetItemWithError(places, key);
    return number ? PyLong_AsSsize_t(number) : -1;
}

/* Puts a new number under a key. */
static bool put_number(PyObject *places, PyObject *key, size_t number) {
    PyObject *object = PyLong_FromSize_t(number);
    const bool is_put = object && PyDict_SetItem(places, key, object) == 0;
    Py_XDECREF(object);
    return is_put;
}

static void free_column(Column *column) {
    Py_XDECREF(column->key);
    Py_XDECREF(column->objects);
    PyMem_Free(column->name);
    PyMem_Free(column->numbers);
    PyMem_Free(column->missing);
}
static void free_tables(Tables *tables) {
    for (size_t i = 0; i < tables->len; i++) {
        Table *table = &tables->tables[i];
        for (size_t k = 0; k < table->columns_len; k++) free_column(&table->columns[k]);
        free_column(&table->series);
        Py_XDECREF(table->measurement);
        Py_XDECREF(table->places[0]);
        Py_XDECREF(table->places[1]);
        PyMem_Free(table->columns);
    }
    PyMem_Free(tables->tables);
    Py_XDECREF(tables->places);
    Py_XDECREF(tables->faults);
    Py_XDECREF(tables->keys);
    Py_XDECREF(tables->by_key);
    Py_XDECREF(tables->by_text);
}

/* Appends a column of this kind; `key` is NULL for the times. */
static bool add_column(Table *table, PyObject *key, lp_text name, uint32_t kind) {
    if (!grow(&table->columns, &table->columns_room, table->columns_len, sizeof *table->columns)) return false;
    Column *column = &table->columns[table->columns_len++];
    memset(column, 0, sizeof *column);
    column->kind = kind;
    column->name_len = name.len;
    column->name = PyMem_Malloc(name.len + 1);
    column->objects = is_number(kind) ? NULL : PyList_New(0);
    if (!column->name || (!column->objects && !is_number(kind))) {
        PyErr_NoMemory();
        return false;
    }
    memcpy(column->name, name.at, name.len);
    if (!key) return true;
    Py_INCREF(key);
    column->key = key;
    return put_number(table->places[kind == LP_TAG], key, table->columns_len - 1);
}

/* The table of a measurement, which is perhaps new. NULL after an error. */
static Table *table_of(Tables *tables, PyObject *measurement) {
    const Py_ssize_t place = number_in(tables->places, measurement);
    if (place >= 0 || PyErr_Occurred()) return place >= 0 ? &tables->tables[place] : NULL;
    if (!grow(&tables->tables, &tables->room, tables->len, sizeof *tables->tables)) return NULL;
    Table *table = &tables->tables[tables->len++];
    const lp_text nothing = LP_NO_TEXT;
    memset(table, 0, sizeof *table);
    Py_INCREF(measurement);
    table->measurement = measurement;
    table->places[0] = PyDict_New();
    table->places[1] = PyDict_New();
    table->series.kind = LP_INTEGER;
    if (!table->places[0] || !table->places[1] || !add_column(table, NULL, nothing, LP_INTEGER)) return NULL;
    return put_number(tables->places, measurement, tables->len - 1) ? table : NULL;
}

/* The column of a part, which is perhaps new: at first the column at this place is looked at. NULL after an error. */
static Column *column_of(Reader *reader, Table *table, const lp_offset_part *part, size_t place) {
    const lp_text name = text_at(reader, part->key, part->key_copied);
    const bool is_tag = part->kind == LP_TAG;
    if (place < table->columns_len) {
        Column *column = &table->columns[place];
        const bool is_alike = (column->kind == LP_TAG) == is_tag && column->name_len == name.len;
        if (is_alike && memcmp(column->name, name.at, name.len) == 0) return column;
    }
    PyObject *key = name_of(reader, name);
    Py_ssize_t found = key ? number_in(table->places[is_tag], key) : -1;
    if (key && found < 0 && !PyErr_Occurred() && add_column(table, key, name, part->kind)) found = (Py_ssize_t)table->columns_len - 1;
    Py_XDECREF(key);
    return found < 0 ? NULL : &table->columns[found];
}

/* The cell of a column of numbers as an object. */
static PyObject *cell_of(const Column *column, size_t row) {
    lp_offset_part part = { .kind = column->kind, .number = column->numbers[row] };
    double value;
    bool is_plain;
    if (column->missing[row]) Py_RETURN_NONE;
    memcpy(&value, &column->numbers[row], sizeof value);
    if (column->kind == LP_FLOAT) return PyFloat_FromDouble(value);
    return value_of(NULL, &part, &is_plain); /* which has no text */
}

/* Makes a column one of mixed values, which are objects. */
static bool mix(Column *column) {
    if (column->numbers) {
        PyObject *objects = PyList_New((Py_ssize_t)column->len);
        for (size_t i = 0; objects && i < column->len; i++) {
            PyObject *cell = cell_of(column, i);
            if (cell) PyList_SetItem(objects, (Py_ssize_t)i, cell);
            else Py_CLEAR(objects);
        }
        if (!objects) return false;
        PyMem_Free(column->numbers);
        column->numbers = NULL;
        column->objects = objects;
    }
    column->kind = MIXED;
    return true;
}

/* Appends a missing cell: its number is 0, its object None. */
static bool put_missing(Column *column) {
    size_t room = column->room;
    if (!grow(&column->missing, &room, column->len, sizeof *column->missing)) return false;
    if (!column->objects && !grow(&column->numbers, &column->room, column->len, sizeof *column->numbers)) return false;
    column->room = room;
    if (column->objects && PyList_Append(column->objects, Py_None) != 0) return false;
    if (!column->objects) column->numbers[column->len] = 0;
    column->missing[column->len++] = 1;
    column->missing_count++;
    return true;
}

/* A value as an object: a float is no FloatText, as it is none among numbers. */
static PyObject *object_of(Reader *reader, const lp_offset_part *part) {
    bool is_plain;
    const lp_text text = text_at(reader, part->text, part->text_copied);
    if (part->kind == LP_TAG) return name_of(reader, text);
    if (part->kind != LP_FLOAT) return value_of(reader, part, &is_plain);
    const double value = double_of(text, &is_plain);
    return value == -1.0 && PyErr_Occurred() ? NULL : PyFloat_FromDouble(value);
}

/* Puts the value of a part into the cell of a row, which is there. */
static bool put_cell(Reader *reader, Column *column, size_t row, const lp_offset_part *part) {
    bool is_plain;
    if (column->kind != part->kind && column->kind != MIXED && !mix(column)) return false;
    if (column->missing[row]) column->missing_count--;
    column->missing[row] = 0;
    if (column->objects) {
        PyObject *object = object_of(reader, part);
        return object && PyList_SetItem(column->objects, (Py_ssize_t)row, object) == 0;
    }
    if (part->kind == LP_FLOAT) {
        const double value = double_of(text_at(reader, part->text, part->text_copied), &is_plain);
        if (value == -1.0 && PyErr_Occurred()) return false;
        memcpy(&column->numbers[row], &value, sizeof value);
    } else {
        column->numbers[row] = part->number;
    }
    return true;
}

/* Appends missing cells until a column has so many. */
static bool fill_up(Column *column, size_t len) {
    while (column->len < len)
        if (!put_missing(column)) return false;
    return true;
}

/* Puts a line into its table. Of a key that comes twice the last value counts. */
static bool put_row(Reader *reader, Table *table, const lp_offset_row *line) {
    const size_t row = table->rows++;
    const lp_offset_part time = { .kind = LP_INTEGER, .number = (uint64_t)line->timestamp }, *parts = reader->parts + line->parts_at;
    if (!fill_up(table->columns, row + 1) || (line->has_timestamp && !put_cell(reader, table->columns, row, &time))) return false;
    for (size_t i = 0; i < (size_t)line->tags + line->fields; i++) {
        Column *column = column_of(reader, table, &parts[i], i + 1);
        if (!column || !fill_up(column, row + 1) || !put_cell(reader, column, row, &parts[i])) return false;
    }
    return true;
}

/* The number of a series by its key, which is perhaps new. -1 after an error. */
static Py_ssize_t number_of_key(Tables *tables, PyObject *key) {
    const Py_ssize_t found = number_in(tables->by_key, key), fresh = PyList_Size(tables->keys);
    if (found >= 0 || PyErr_Occurred()) return found;
    return PyList_Append(tables->keys, key) == 0 && put_number(tables->by_key, key, (size_t)fresh) ? fresh : -1;
}

/* The measurement and the tags of a line that was read, as they came: up to the first bare space, which each line has. */
static lp_text series_of(const Reader *reader, const lp_offset_row *line) {
    const uint8_t *start = reader->window.at + line->line_at, *at = start;
    while (*at != ' ') at += *at == '\\' ? 2 : 1;
    const lp_text series = { start, (size_t)(at - start) };
    return series;
}

/* The number of a line's series: lines have one number exactly if their series have one key. -1 after an error. */
static Py_ssize_t number_of_series(const Reader *reader, Tables *tables, const lp_offset_row *line) {
    PyObject *text = bytes_of(series_of(reader, line)), *key = NULL;
    Py_ssize_t number = text ? number_in(tables->by_text, text) : -1;
    if (text && number < 0 && !PyErr_Occurred() && (key = key_of_row(reader, line))) {
        number = number_of_key(tables, key);
        if (number >= 0 && !put_number(tables->by_text, text, (size_t)number)) number = -1;
    }
    Py_XDECREF(key);
    Py_XDECREF(text);
    return number;
}

/* Puts the number of a line's series into its table. */
static bool put_series(Reader *reader, Tables *tables, Table *table, const lp_offset_row *line) {
    const Py_ssize_t found = number_of_series(reader, tables, line);
    const lp_offset_part number = { .kind = LP_INTEGER, .number = (uint64_t)found };
    return found >= 0 && fill_up(&table->series, table->rows) && put_cell(reader, &table->series, table->rows - 1, &number);
}

/* Reads all items that are left. */
static bool read_all(Reader *reader, Tables *tables) {
    const lp_offset_row *row;
    for (;;) {
        PyObject *fault = next_row(reader, &row);
        if (row && row->answer != LP_LINE) fault = fault_of(reader, row);
        if (fault) {
            if (!append(tables->faults, fault)) return false;
        } else if (row && row->answer == LP_LINE) {
            PyObject *measurement = name_of(reader, text_at(reader, row->measurement, row->measurement_copied));
            Table *table = measurement ? table_of(tables, measurement) : NULL;
            Py_XDECREF(measurement);
            if (!table || !put_row(reader, table, row) || (tables->keys && !put_series(reader, tables, table, row))) return false;
        } else {
            return !PyErr_Occurred();
        }
    }
}

/* A column as a tuple: its key, its kind, its numbers or its objects, and where it has missing cells, or None. The column keeps no cells. */
static PyObject *told_column(Column *column, size_t rows) {
    if (!fill_up(column, rows)) return NULL;
    PyObject *cells = column->objects, *missing = Py_None;
    if (!cells) cells = PyByteArray_FromStringAndSize((const char *)column->numbers, (Py_ssize_t)(8 * rows));
    column->objects = NULL;
    PyMem_Free(column->numbers);
    column->numbers = NULL;
    if (column->missing_count > 0) missing = PyByteArray_FromStringAndSize((const char *)column->missing, (Py_ssize_t)rows);
    else Py_INCREF(missing);
    PyMem_Free(column->missing);
    column->missing = NULL;
    return Py_BuildValue("OINN", column->key ? column->key : Py_None, (unsigned)column->kind, cells, missing);
}

/* A table as a tuple: its measurement, how many rows it has, its columns, and that of the numbers of its series, or None. */
static PyObject *told_table(Table *table, bool has_series) {
    PyObject *columns = PyList_New((Py_ssize_t)table->columns_len), *series = Py_None;
    if (has_series) series = told_column(&table->series, table->rows);
    else Py_INCREF(series);
    if (!series) Py_CLEAR(columns);
    for (size_t i = 0; columns && i < table->columns_len; i++) {
        PyObject *column = told_column(&table->columns[i], table->rows);
        if (column) PyList_SetItem(columns, (Py_ssize_t)i, column);
        else Py_CLEAR(columns);
    }
    if (columns) return Py_BuildValue("OnNN", table->measurement, (Py_ssize_t)table->rows, columns, series);
    Py_XDECREF(series);
    return NULL;
}

/* columns(reader, series): the tables of all items that are left, the faults, and the keys of the series if `series` asks for their
 * numbers, or else None. */
PyObject *fast_columns(PyObject *module, PyObject *args) {
    PyObject *read, *told = NULL;
    int series;
    Tables tables = { PyDict_New(), PyList_New(0), NULL, 0, 0, NULL, NULL, NULL };
    (void)module;
    bool is_given = PyArg_ParseTuple(args, "O!p", reader_type, &read, &series) && tables.places && tables.faults;
    if (is_given && series) {
        tables.keys = PyList_New(0);
        tables.by_key = PyDict_New();
        tables.by_text = PyDict_New();
        is_given = tables.keys && tables.by_key && tables.by_text;
    }
    if (is_given && ((Reader *)read)->by_pieces) PyErr_SetString(PyExc_TypeError, "pieces are no lines");
    else if (is_given && begin_call((Reader *)read)) {
        const bool is_read = read_all((Reader *)read, &tables);
        end_call((Reader *)read);
        told = is_read ? PyList_New((Py_ssize_t)tables.len) : NULL;
    }
    for (size_t i = 0; told && i < tables.len; i++) {
        PyObject *table = told_table(&tables.tables[i], tables.keys != NULL);
        if (table) PyList_SetItem(told, (Py_ssize_t)i, table);
        else Py_CLEAR(told);
    }
    PyObject *all = told ? Py_BuildValue("NOO", told, tables.faults, tables.keys ? tables.keys : Py_None) : NULL;
    free_tables(&tables);
    return all;
}
