/* The module `indexset._speedups`. */
#include "speedups.h"

PyObject *kinds;
struct names names;

static PyMethodDef functions[] = {
    {"are_alike", are_alike, METH_O, "Returns whether all items of a list are of exactly one type."},
    {"keep", (PyCFunction)(void (*)(void))keep, METH_FASTCALL,
     "Keeps the items of a list that are in a set, or those that are not, and removes the others."},
    {0},
};

static struct PyModuleDef module = {
    PyModuleDef_HEAD_INIT,
    .m_name = "indexset._speedups",
    .m_doc = "The compiled classes that order keys, as in `indexset._ctypes`.",
    .m_size = -1,
    .m_methods = functions,
};

static int make_names(void) {
    const char *texts[] = {"_add",        "_bisect",     "bound",   "code",     "codes_of",
                           "_contains",   "_discard",    "find",    "flipped",  "_found",
                           "_found_from", "_order_keys", "_placed", "_settled", "_slice"};
    PyObject **places = (PyObject **)&names;
    for (size_t i = 0; i < sizeof texts / sizeof texts[0]; i++)
        if ((places[i] = PyUnicode_InternFromString(texts[i])) == NULL) return 0;
    return 1;
}

static int add_types(PyObject *made) {
    PyTypeObject *types[] = {&NumbersType, &CodedType, &MultiType, &BlocksType, &FrontType, &DictFrontType};
    const char *names[] = {"Numbers", "Coded", "Multi", "Blocks", "IndexedBase", "DictBase"};
    DictFrontType.tp_base = &PyDict_Type;
    DictFrontType.tp_as_mapping->mp_subscript = PyDict_Type.tp_as_mapping->mp_subscript;
    if (PyType_Ready(&WalkType) < 0 || PyType_Ready(&PlaceType) < 0) return 0;
    for (size_t i = 0; i < sizeof types / sizeof types[0]; i++) {
        if (PyType_Ready(types[i]) < 0) return 0;
        Py_INCREF(types[i]);
        if (PyModule_AddObject(made, names[i], (PyObject *)types[i]) < 0) return 0;
    }
    return PyModule_AddStringConstant(made, "BACKEND", "extension") == 0;
}

PyMODINIT_FUNC PyInit__speedups(void) {
    kinds = PyImport_ImportModule("indexset._kinds");
    PyObject *made = kinds && make_names() ? PyModule_Create(&module) : NULL;
    if (made != NULL && !add_types(made)) Py_CLEAR(made);
    return made;
}
