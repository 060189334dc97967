/* What sources.py and parts.py ask of bytes.
 *
 * Pointers: each text is that of a `bytes` object which the caller holds during the call, or which the call holds itself until the text is
 * no longer needed. The pieces of a text are parts of it. */
#include "fast.h"

/* Passes the pieces of a text up to one of more bytes than the limit, or to the last one. False: no newline ends that. */
static bool pass_pieces(lp_cuts *cuts, lp_text *left, lp_text *piece, size_t limit) {
    bool is_ended;
    PyThreadState *state = let_go(left->len);
    do {
        size_t cut = 0;
        is_ended = lp_cuts_next(cuts, left->at, left->len, &cut) == LP_PIECE;
        *piece = *left;
        piece->len = cut;
        left->at += cut + is_ended;
        left->len -= cut + is_ended;
    } while (is_ended && piece->len <= limit);
    take_back(state);
    return is_ended;
}

/* cut(text, dialect, limit): how many bytes the pieces take that a newline ends, and start and end of each of these that has more bytes than
 * the limit. */
PyObject *fast_cut(PyObject *module, PyObject *args) {
    PyObject *bytes, *found = PyList_New(0);
    unsigned int dialect;
    Py_ssize_t limit;
    (void)module;
    if (!found || !PyArg_ParseTuple(args, "SIn", &bytes, &dialect, &limit)) {
        Py_XDECREF(found);
        return NULL;
    }
    lp_text left = text_of(bytes), piece;
    const uint8_t *start = left.at;
    lp_cuts cuts = LP_NO_CUTS;
    lp_cuts_begin(dialect, SIZE_MAX, &cuts);
    bool goes_on = true;
    while (goes_on && pass_pieces(&cuts, &left, &piece, (size_t)limit))
        goes_on = append(found, Py_BuildValue("nn", (Py_ssize_t)(piece.at - start), (Py_ssize_t)(piece.at + piece.len - start)));
    if (!goes_on) Py_CLEAR(found);
    return found ? Py_BuildValue("nN", (Py_ssize_t)(piece.at - start), found) : NULL;
}

/* skip(bytes, state, dialect): goes on with a piece, of which the state says what came before. Gives where the newline is that ends it,
 * or -1, and its new state, which are the members of an lp_cuts that the library looks at. It begins with (0, 0, 0, 0, 0, False). */
PyObject *fast_skip(PyObject *module, PyObject *args) {
    PyObject *bytes;
    unsigned long long len, equals, commas;
    unsigned int begins, part, dialect;
    int escaped;
    size_t cut = 0;
    (void)module;
    if (!PyArg_ParseTuple(args, "S(KKKIIp)I", &bytes, &len, &equals, &commas, &begins, &part, &escaped, &dialect)) return NULL;
    lp_cuts cuts = { SIZE_MAX, (size_t)len, (size_t)equals, (size_t)commas, begins, part, dialect, escaped };
    const lp_text text = text_of(bytes);
    PyThreadState *state = let_go(text.len);
    const bool ends = lp_cuts_next(&cuts, text.at, text.len, &cut) == LP_PIECE;
    take_back(state);
    return Py_BuildValue("n(KKKIIO)", ends ? (Py_ssize_t)cut : (Py_ssize_t)-1, (unsigned long long)cuts.len,
                         (unsigned long long)cuts.equals, (unsigned long long)cuts.commas, cuts.begins, cuts.part,
                         cuts.escaped ? Py_True : Py_False);
}

/* A walk over a source from cut to cut, block by block. A cut is directly after a newline that ends a piece. */
typedef struct {
    lp_cuts cuts;
    uint64_t given; /* how many bytes came before the block */
    uint64_t cut;   /* the last cut, or 0 */
    uint64_t size, count, place; /* what is cut, into how many parts; and where the next part ends if all have one length */
    uint64_t *ends;
    size_t found;   /* so many ends are known */
} Walk;

/* Whether the end of a part is not known yet. That of the last part is where the source ends. */
static bool goes_on(const Walk *walk) { return walk->found + 1 < walk->count; }

/* Finds where the next part ends if all have one length. None ends at the start. */
static void find_place(Walk *walk) {
    const uint64_t even = (uint64_t)((unsigned __int128)(walk->found + 1) * walk->size / walk->count);
    walk->place = even > 0 ? even : 1;
}

/* Takes a cut: all parts end there whose places come before it, or are there. */
static void take_cut(Walk *walk, uint64_t cut) {
    walk->cut = cut;
    while (goes_on(walk) && walk->place <= cut) {
        walk->ends[walk->found++] = cut;
        find_place(walk);
    }
}

/* Takes each cut of a block. */
static void walk_block(Walk *walk, lp_text block) {
    size_t at = 0, cut = 0;
    while (at < block.len && lp_cuts_next(&walk->cuts, block.at + at, block.len - at, &cut) == LP_PIECE) {
        at += cut + 1;
        take_cut(walk, walk->given + at);
    }
    walk->given += block.len;
}

/* The ends of all parts. If no cut comes any more, parts end at the last cut; the last part ends with the source. */
static PyObject *told_ends(const Walk *walk) {
    PyObject *ends = PyList_New((Py_ssize_t)walk->count);
    for (size_t i = 0; ends && i < walk->count; i++) {
        PyObject *end = PyLong_FromUnsignedLongLong(i + 1 == walk->count ? walk->size : i < walk->found ? walk->ends[i] : walk->cut);
        if (end) PyList_SetItem(ends, (Py_ssize_t)i, end);
        else Py_CLEAR(ends);
    }
    return ends;
}

/* Takes blocks as long as ends are looked for. False: there is an error. */
static bool walk_all(Walk *walk, PyObject *blocks) {
    PyObject *block = NULL;
    find_place(walk);
    while (goes_on(walk) && (block = PyIter_Next(blocks)) != NULL && PyBytes_Check(block)) {
        const lp_text text = text_of(block);
        PyThreadState *thread = let_go(text.len);
        walk_block(walk, text);
        take_back(thread);
        Py_CLEAR(block);
    }
    if (block) PyErr_SetString(PyExc_TypeError, "blocks are bytes");
    Py_XDECREF(block);
    return !PyErr_Occurred();
}

/* part_ends(blocks, size, count, dialect): where so many parts end, of bytes of this size that come in blocks. */
PyObject *fast_part_ends(PyObject *module, PyObject *args) {
    PyObject *blocks, *ends = NULL;
    Py_ssize_t size, count;
    unsigned int dialect;
    (void)module;
    if (!PyArg_ParseTuple(args, "OnnI", &blocks, &size, &count, &dialect)) return NULL;
    if (!PyIter_Check(blocks) || size < 0 || count < 1) {
        PyErr_SetString(PyExc_TypeError, "blocks come from an iterator, and are cut into one part at least");
        return NULL;
    }
    Walk walk = { LP_NO_CUTS, 0, 0, (uint64_t)size, (uint64_t)count, 0, NULL, 0 };
    lp_cuts_begin(dialect, SIZE_MAX, &walk.cuts);
    walk.ends = (size_t)count > PY_SSIZE_T_MAX / sizeof *walk.ends ? NULL : PyMem_Malloc((size_t)count * sizeof *walk.ends);
    if (!walk.ends) return PyErr_NoMemory();
    if (walk_all(&walk, blocks)) ends = told_ends(&walk);
    PyMem_Free(walk.ends);
    return ends;
}
