/* The module, and the members of lines and faults.
 *
 * Pointers: what `given`, the types and `no_bytes` point to is held by the module as long as the process lives. A text of `text_of` is
 * there as long as its `bytes` object. The members of a line or a fault are its own references; a member is NULL if it was deleted. */
#include "fast.h"

struct given given;
PyTypeObject *line_base, *reader_type;
PyObject *no_bytes;

/* Since 3.9 an object visits its type, where that is made at run time. */
static bool visits_type;

int visit_type(PyObject *self, visitproc visit, void *arg) {
    if (visits_type) Py_VISIT(Py_TYPE(self));
    return 0;
}

/* Frees an object of a type that is made at run time. */
void free_object(PyObject *self) {
    PyTypeObject *type = Py_TYPE(self);
    PyObject_GC_Del(self);
    Py_DECREF(type);
}

PyObject *str_of(lp_text text) { return PyUnicode_FromStringAndSize((const char *)text.at, (Py_ssize_t)text.len); }
PyObject *bytes_of(lp_text text) { return PyBytes_FromStringAndSize((const char *)text.at, (Py_ssize_t)text.len); }
lp_text text_of(PyObject *bytes) {
    lp_text text = { (const uint8_t *)PyBytes_AsString(bytes), (size_t)PyBytes_Size(bytes) };
    return text;
}

bool append(PyObject *list, PyObject *object) {
    const bool is_there = object && PyList_Append(list, object) == 0;
    Py_XDECREF(object);
    return is_there;
}

/* Sets the UnicodeDecodeError that says where bytes are no UTF-8. */
void set_decode_error(lp_text text) {
    PyObject *decoded = PyUnicode_DecodeUTF8((const char *)text.at, (Py_ssize_t)text.len, NULL);
    if (!decoded) return;
    Py_DECREF(decoded);
    PyErr_SetString(PyExc_ValueError, "the text is no UTF-8");
}

/* The bytes of a text, which is a str or what lends its bytes. */
PyObject *encoded(PyObject *text) {
    if (PyUnicode_Check(text)) return PyUnicode_AsUTF8String(text);
    if (PyBytes_CheckExact(text)) {
        Py_INCREF(text);
        return text;
    }
    PyObject *lent = PyMemoryView_FromObject(text), *bytes = lent ? PyBytes_FromObject(lent) : NULL;
    Py_XDECREF(lent);
    return bytes;
}

enum { LINE_MEMBERS = 5, FAULT_MEMBERS = 4 };

static int members_visit(PyObject *self, size_t count, visitproc visit, void *arg) {
    PyObject **members = &((Line *)self)->measurement;
    for (size_t i = 0; i < count; i++) Py_VISIT(members[i]);
    return visit_type(self, visit, arg);
}
static int members_clear(PyObject *self, size_t count) {
    PyObject **members = &((Line *)self)->measurement;
    for (size_t i = 0; i < count; i++) Py_CLEAR(members[i]);
    return 0;
}
static int line_traverse(PyObject *self, visitproc visit, void *arg) { return members_visit(self, LINE_MEMBERS, visit, arg); }
static int fault_traverse(PyObject *self, visitproc visit, void *arg) { return members_visit(self, FAULT_MEMBERS, visit, arg); }
static int line_clear(PyObject *self) { return members_clear(self, LINE_MEMBERS); }
static int fault_clear(PyObject *self) { return members_clear(self, FAULT_MEMBERS); }
static void line_dealloc(PyObject *self) {
    PyObject_GC_UnTrack(self);
    line_clear(self);
    free_object(self);
}
static void fault_dealloc(PyObject *self) {
    PyObject_GC_UnTrack(self);
    fault_clear(self);
    free_object(self);
}

#define MEMBER(type, name) { #name, T_OBJECT_EX, offsetof(type, name), 0, NULL }
#define NUMBER(type, name) { #name, T_ULONGLONG, offsetof(type, name), 0, NULL }
static PyMemberDef line_members[] = {
    MEMBER(Line, measurement), MEMBER(Line, tags), MEMBER(Line, fields), MEMBER(Line, timestamp),
    NUMBER(Line, line), NUMBER(Line, offset), NUMBER(Line, last_line), { "_spelled", T_OBJECT, offsetof(Line, spelled), 0, NULL },
    { NULL, 0, 0, 0, NULL } };
static PyMemberDef fault_members[] = {
    MEMBER(Fault, kind), MEMBER(Fault, text), MEMBER(Fault, side), MEMBER(Fault, refused), NUMBER(Fault, item), NUMBER(Fault, line),
    NUMBER(Fault, offset), NUMBER(Fault, piece_line), NUMBER(Fault, piece_offset), NUMBER(Fault, stop_line), NUMBER(Fault, stop_column),
    NUMBER(Fault, last_line), { NULL, 0, 0, 0, NULL } };

static PyType_Slot line_slots[] = {
    { Py_tp_doc, "The members of a Line." }, { Py_tp_members, line_members }, { Py_tp_traverse, line_traverse },
    { Py_tp_clear, line_clear }, { Py_tp_dealloc, line_dealloc }, { 0, NULL } };
static PyType_Slot fault_slots[] = {
    { Py_tp_doc, "The members of a Fault." }, { Py_tp_members, fault_members }, { Py_tp_traverse, fault_traverse },
    { Py_tp_clear, fault_clear }, { Py_tp_dealloc, fault_dealloc }, { 0, NULL } };
static PyType_Spec line_spec = {
    "line_protocol._fast.LineMembers", sizeof(Line), 0, Py_TPFLAGS_DEFAULT | Py_TPFLAGS_BASETYPE | Py_TPFLAGS_HAVE_GC, line_slots };
static PyType_Spec fault_spec = {
    "line_protocol._fast.FaultMembers", sizeof(Fault), 0, Py_TPFLAGS_DEFAULT | Py_TPFLAGS_BASETYPE | Py_TPFLAGS_HAVE_GC, fault_slots };


/* version(): the version of the library, 30000 for 3.0.0. */
static PyObject *fast_version(PyObject *module, PyObject *nothing) {
    (void)module;
    (void)nothing;
    return PyLong_FromUnsignedLong(lp_version());
}

/* setup(..): what the module takes from the package. */
static PyObject *fast_setup(PyObject *module, PyObject *args) {
    (void)module;
    PyObject **all[] = { &given.line, &given.fault, &given.unsigned_type, &given.float_text, &given.new_int, &given.kinds, &given.sides,
                         &given.duplicate_tag, &given.plain_value, &given.plain_timestamp, &given.refuse, &given.refuse_texts };
    const Py_ssize_t count = (Py_ssize_t)(sizeof all / sizeof *all);
    PyObject *line = PyTuple_Size(args) == count ? PyTuple_GetItem(args, 0) : Py_None;
    if (!PyType_Check(line) || !PyType_IsSubtype((PyTypeObject *)line, line_base)) {
        PyErr_SetString(PyExc_TypeError, "setup takes what the package line_protocol hands in");
        return NULL;
    }
    for (Py_ssize_t i = 0; i < count; i++) {
        PyObject *before = *all[i];
        *all[i] = PyTuple_GetItem(args, i);
        Py_INCREF(*all[i]);
        Py_XDECREF(before);
    }
    Py_RETURN_NONE;
}

static PyMethodDef functions[] = {
    { "read", fast_read, METH_VARARGS, NULL }, { "cut", fast_cut, METH_VARARGS, NULL },
    { "skip", fast_skip, METH_VARARGS, NULL },
    { "columns", fast_columns, METH_VARARGS, NULL }, { "write_columns", fast_write_columns, METH_VARARGS, NULL },
    { "part_ends", fast_part_ends, METH_VARARGS, NULL },
    { "write", fast_write, METH_VARARGS, NULL }, { "write_many", fast_write_many, METH_VARARGS, NULL }, { "show", fast_show, METH_O, NULL },
    { "base", fast_base, METH_O, NULL }, { "key", fast_key, METH_O, NULL }, { "is_base_safe", fast_is_base_safe, METH_O, NULL },
    { "is_admitted", fast_is_admitted, METH_VARARGS, NULL }, { "rebuild", fast_rebuild, METH_VARARGS, NULL },
    { "limits", fast_limits, METH_NOARGS, NULL }, { "verdict", fast_verdict, METH_VARARGS, NULL },
    { "verdicts", fast_verdicts, METH_VARARGS, NULL },
    { "version", fast_version, METH_NOARGS, NULL }, { "setup", fast_setup, METH_VARARGS, NULL }, { NULL, NULL, 0, NULL } };
static struct PyModuleDef definition = {
    PyModuleDef_HEAD_INIT, "line_protocol._fast", "The library, as the package line_protocol calls it.", -1, functions, NULL, NULL, NULL,
    NULL };

/* Makes a type, and adds it to the module under its name. */
static PyTypeObject *add_type(PyObject *module, PyType_Spec *spec, const char *name) {
    PyObject *type = PyType_FromSpec(spec);
    if (!type) return NULL;
    Py_INCREF(type);
    if (PyModule_AddObject(module, name, type) == 0) return (PyTypeObject *)type;
    Py_DECREF(type);
    Py_DECREF(type);
    return NULL;
}

PyMODINIT_FUNC PyInit__fast(void) {
    PyObject *module = PyModule_Create(&definition), *hex = PySys_GetObject("hexversion");
    if (!module) return NULL;
    visits_type = hex && PyLong_AsLong(hex) >= 0x03090000;
    no_bytes = PyBytes_FromStringAndSize("", 0);
    line_base = add_type(module, &line_spec, "LineMembers");
    reader_type = add_type(module, &reader_spec, "Reader");
    if (no_bytes && line_base && reader_type && add_type(module, &fault_spec, "FaultMembers")) return module;
    Py_DECREF(module);
    return NULL;
}
