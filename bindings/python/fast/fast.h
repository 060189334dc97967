/* What the package line_protocol calls: the library of include/influxdb_line_protocol.h as Python sees it, on CPython's stable ABI, so that
 * one file serves Python 3.8 and all later ones.
 *
 * Here is nothing that can as well be said in Python: sources are cut into segments by sources.py, and what is no plain value is tested, or
 * refused, by the functions of checking.py, which `setup` hands in. The module keeps what it was handed: an interpreter has one.
 *
 * Pointers: an object that is handed in is borrowed from the caller, who holds it during the call. An object that is given back is a new
 * reference, or NULL with an error. A function says so if it takes a reference, or gives NULL without an error. The bytes of an lp_text
 * belong to something else: the head of each file says to what, and how long they are there. Python's lock is held, but between `let_go`
 * and `take_back`, where no object is looked at: the bytes of a `bytes` object stay as they are as long as someone holds it. */
#ifndef FAST_H
#define FAST_H
#define Py_LIMITED_API 0x03080000
#define PY_SSIZE_T_CLEAN
#include <Python.h>
#include <structmember.h>

#include "influxdb_line_protocol.h"
#include <stdlib.h>
#include <string.h>

/* What `setup` hands in. */
struct given {
    PyObject *line, *fault, *unsigned_type, *float_text, *new_int, *kinds, *sides, *duplicate_tag;
    PyObject *plain_value, *plain_timestamp, *refuse, *refuse_texts;
};
extern struct given given;

/* A line. `spelled` is NULL, or the literals of its floats as they were read, each before a newline. The numbers are 0 if it was not read. */
typedef struct {
    PyObject_HEAD PyObject *measurement, *tags, *fields, *timestamp, *spelled;
    unsigned long long line, offset, last_line;
} Line;
typedef struct {
    PyObject_HEAD PyObject *kind, *text, *side, *refused;
    unsigned long long item, line, offset, piece_line, piece_offset, stop_line, stop_column, last_line;
} Fault;
extern PyTypeObject *line_base, *reader_type;
extern PyObject *no_bytes; /* b"" */

enum { MIXED = 100 }; /* The kind of a column whose fields are of several kinds. */

/* Whether a column of this kind has numbers, and no objects. */
static inline bool is_number(uint32_t kind) {
    return kind == LP_INTEGER || kind == LP_UNSIGNED || kind == LP_FLOAT || kind == LP_BOOLEAN;
}
enum { NAMES = 1024, NAME = 46 }; /* So many names are kept, each of at most so many bytes. */

/* A name that was read, or a pair `key=value`, of which the value begins at `split`: its bytes, and the object made of them. */
typedef struct { uint16_t len, split; char bytes[NAME]; PyObject *object; } Name;

/* What is left of a source, and the items that were read last. */
typedef struct {
    PyObject_HEAD
    PyObject *text;     /* the segment that is read, as bytes */
    PyObject *segments; /* an iterator of what comes after it: segments, and pieces that are refused; or NULL */
    lp_lines lines;     /* what is left of a text that is cut, and not read */
    lp_text window;     /* the end of the segment, in which rows and parts have their places */
    lp_block block;     /* where the next rows begin in it, and how many there are of the last ones */
    lp_offset_row *rows;
    lp_offset_part *parts;
    uint8_t *room;
    Name *names; /* NULL where the segment is short */
    size_t rows_len, parts_len, room_len, at;
    unsigned long long items, offset; /* how many items came; and the bytes before the window */
    const lp_limits *limits;          /* rows tell their verdicts by these limits; or NULL */
    uint32_t answer, dialect;
    bool by_pieces, is_busy;
} Reader;

/* A text of a row or a part. */
static inline lp_text text_at(const Reader *reader, lp_span place, uint16_t is_copied) {
    const lp_text text = { (is_copied ? reader->room : reader->window.at) + place.at, place.len };
    return text;
}

/* Memory of so many elements of this size, which is all 0: PyMem_Calloc, which the headers of Python 3.8 do not show. */
static inline void *zeroed(size_t count, size_t size) {
    void *memory = count > PY_SSIZE_T_MAX / size ? NULL : PyMem_Malloc(count * size);
    return memory ? memset(memory, 0, count * size) : NULL;
}

/* Lets Python's lock go while a text of so many bytes is read, if it is long enough that this pays, and takes it again. */
static inline PyThreadState *let_go(size_t len) { return len < 1 << 14 ? NULL : PyEval_SaveThread(); }
static inline void take_back(PyThreadState *state) {
    if (state) PyEval_RestoreThread(state);
}

/* module.c */

/* Visits the type of an object, and frees the object; its type is made at run time. */
int visit_type(PyObject *self, visitproc visit, void *arg);
void free_object(PyObject *self);

/* The bytes of a text, which is a str or what lends its bytes. */
PyObject *encoded(PyObject *text);

/* A str, or bytes, of a text; and the text of bytes, which live as long as these. */
PyObject *str_of(lp_text text);
PyObject *bytes_of(lp_text text);
lp_text text_of(PyObject *bytes);

/* Appends an object to a list, which it takes. */
bool append(PyObject *list, PyObject *object);

/* Sets the UnicodeDecodeError that says where bytes are no UTF-8. */
void set_decode_error(lp_text text);

/* numbers.c */

/* The float nearest to a literal, and whether `float.__repr__` is sure to spell it so. A byte follows that is in no literal. -1 and a
 * Python error where it fails. */
double double_of(lp_text literal, bool *is_plain);

/* Spells a finite float as `float.__repr__` does, in at most SPELLED bytes, and gives how many these are. 0 and a Python error where it
 * fails. */
enum { SPELLED = 32 };
size_t spell(double value, char *out);

/* The same without Python, and so without its lock: 0 if only Python can spell it so. */
size_t spell_own(double value, char *out);

/* reading.c */

/* The object for a name that was read: that which was made of the same bytes, if it is kept. */
PyObject *name_of(Reader *reader, lp_text name);

/* The value of a field. `is_plain` becomes false where it is a float whose literal has to be kept. */
PyObject *value_of(const Reader *reader, const lp_offset_part *part, bool *is_plain);

/* A reader of bytes, which need not be UTF-8. */
Reader *new_reader(PyObject *bytes, uint32_t dialect);

/* The next row, or a fault that came before it was read. `row` is NULL at the end, after a fault, and after an error. */
PyObject *next_row(Reader *reader, const lp_offset_row **row);

/* The fault of a row that has no line. */
PyObject *fault_of(const Reader *reader, const lp_offset_row *row);

/* Begins and ends a call that reads: false, and an error, where another call reads. */
bool begin_call(Reader *reader);
void end_call(Reader *reader);

/* writing.c */

/* A line that is handed in: its parts, and the bytes objects that hold its texts. */
typedef struct {
    lp_line line;
    lp_part *parts;
    PyObject **texts;
    size_t parts_len, parts_room, texts_len, texts_room;
    lp_text spelled; /* what is left of the literals that were read */
} Handed;

/* Lets its texts go, for a line that comes after it; and all of it. */
void clear_handed(Handed *handed);
void free_handed(Handed *handed);

/* Keeps a bytes object, which it takes, also where it fails, and gives its text. */
bool hold(Handed *handed, PyObject *bytes, lp_view *view);

/* Lets `refuse` of checking.py raise. */
bool refuse(const char *what, PyObject *key, PyObject *value);

/* A text, which must be a str; the value of a field, and a timestamp. What is none of the types that are read, a function of checking.py
 * makes one of, or raises. */
bool put_text(Handed *handed, const char *what, PyObject *key, PyObject *text, lp_view *view);
bool put_value(Handed *handed, PyObject *key, PyObject *value, lp_part *part);
bool put_timestamp(Handed *handed, PyObject *timestamp);

/* What calls put out: one text after another. */
typedef struct { uint8_t *at; size_t len, room; } Out;
typedef uint32_t PutsOut(uint32_t dialect, const lp_line *, const lp_part *, size_t, uint8_t *, size_t, size_t *);

/* Makes room for so many bytes more. */
bool make_room(Out *out, size_t wanted);

/* Appends what a call puts out for the line that was handed in, and gives its answer; 0 after an error, which is NotAdmitted if the line
 * is not admitted in the dialect. */
uint32_t put_out(PutsOut *call, uint32_t dialect, const Handed *handed, Out *out);

/* Makes a str of all that was put out, where there was no error, and frees it. */
PyObject *str_of_out(Out *out, bool is_written);

/* The key of the series of a line that was read. */
PyObject *key_of_row(const Reader *reader, const lp_offset_row *row);

/* An element of a list or a tuple, as a new reference. NULL without an error: there is none. */
PyObject *element_of(PyObject *elements, Py_ssize_t at);

/* The functions and the slots of the type that Python calls. */
extern PyType_Spec reader_spec;
PyObject *fast_read(PyObject *module, PyObject *args);
PyObject *fast_cut(PyObject *module, PyObject *args);
PyObject *fast_skip(PyObject *module, PyObject *args);
PyObject *fast_part_ends(PyObject *module, PyObject *args);
PyObject *fast_columns(PyObject *module, PyObject *args);
PyObject *fast_write_columns(PyObject *module, PyObject *args);
PyObject *fast_write(PyObject *module, PyObject *args);
PyObject *fast_write_many(PyObject *module, PyObject *args);
PyObject *fast_show(PyObject *module, PyObject *line);
PyObject *fast_base(PyObject *module, PyObject *line);
PyObject *fast_key(PyObject *module, PyObject *line);
PyObject *fast_is_base_safe(PyObject *module, PyObject *line);
PyObject *fast_is_admitted(PyObject *module, PyObject *args);
PyObject *fast_rebuild(PyObject *module, PyObject *args);
PyObject *fast_limits(PyObject *module, PyObject *nothing);
PyObject *fast_verdict(PyObject *module, PyObject *args);
PyObject *fast_verdicts(PyObject *module, PyObject *args);
#endif
