/* Which clauses of what is portable lines break: what portable.py asks.
 *
 * Pointers: the text is that of a `bytes` object which the call, or its reader, holds. Limits are the call's own. */
#include "fast.h"

/* Limits as portable.py hands them in. */
static int limits_from(PyObject *given, void *place) {
    lp_limits *limits = place;
    Py_ssize_t line, tags;
    long long earliest, latest;
    if (!PyArg_ParseTuple(given, "nnLL", &line, &tags, &earliest, &latest)) return 0;
    limits->line = (size_t)line;
    limits->tags = (size_t)tags;
    limits->earliest = earliest;
    limits->latest = latest;
    return 1;
}

/* limits(): those of servers whose options are as they come. */
PyObject *fast_limits(PyObject *module, PyObject *nothing) {
    (void)module;
    (void)nothing;
    lp_limits limits;
    lp_limits_default(&limits);
    return Py_BuildValue("nnLL", (Py_ssize_t)limits.line, (Py_ssize_t)limits.tags, (long long)limits.earliest, (long long)limits.latest);
}

/* verdict(text, limits): the bits of the clauses that a text breaks, without the newline at its end. One that is too long for a row is no
 * line. */
PyObject *fast_verdict(PyObject *module, PyObject *args) {
    PyObject *given;
    lp_limits limits;
    lp_offset_row row = { 0 };
    size_t told = 0;
    (void)module;
    if (!PyArg_ParseTuple(args, "OO&", &given, limits_from, &limits)) return NULL;
    PyObject *bytes = encoded(given);
    if (!bytes) return NULL;
    lp_text text = text_of(bytes);
    if (text.len > 0 && text.at[text.len - 1] == '\n') text.len--;
    row.answer = text.len > UINT32_MAX ? LP_FAULT : LP_LINE;
    row.piece.len = (uint32_t)text.len;
    PyThreadState *state = let_go(text.len);
    const uint32_t answer = lp_offsets_verdicts(text.at, text.len, &row, 1, &limits, &told);
    take_back(state);
    Py_DECREF(bytes);
    return answer == LP_WRITTEN ? PyLong_FromUnsignedLongLong(row.verdict) : PyErr_NoMemory();
}

/* verdicts(text, dialect, limits): the text of each line, as str if the text is a str, else as bytes; and of each the bits of the clauses
 * that it breaks. */
PyObject *fast_verdicts(PyObject *module, PyObject *args) {
    PyObject *text;
    unsigned int dialect;
    lp_limits limits;
    const lp_offset_row *row = NULL;
    (void)module;
    if (!PyArg_ParseTuple(args, "OIO&", &text, &dialect, limits_from, &limits)) return NULL;
    PyObject *bytes = encoded(text), *pieces = PyList_New(0), *verdicts = PyList_New(0);
    Reader *reader = bytes && pieces && verdicts ? new_reader(bytes, dialect) : NULL;
    bool goes_on = reader != NULL;
    if (reader) reader->limits = &limits;
    while (goes_on && (next_row(reader, &row), row)) {
        const lp_text piece = text_at(reader, row->piece, 0);
        goes_on = append(pieces, PyUnicode_Check(text) ? str_of(piece) : bytes_of(piece)) && append(verdicts, PyLong_FromUnsignedLongLong(row->verdict));
    }
    PyObject *told = PyErr_Occurred() ? NULL : PyTuple_Pack(2, pieces, verdicts);
    Py_XDECREF(reader);
    Py_XDECREF(verdicts);
    Py_XDECREF(pieces);
    Py_XDECREF(bytes);
    return told;
}
