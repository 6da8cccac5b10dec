/* The module mmrepo._native: calls the shared library for C (docs/C.md) from Python, over the stable ABI of Python 3.8. A Library is the
   file of a library, and a Session is one that a Library opened. Each call that prints returns the text that it printed. */
#define PY_SSIZE_T_CLEAN
#define Py_LIMITED_API 0x03080000
#include <Python.h>

#include <dlfcn.h>
#include <mmrepo.h>
#include <string.h>

#define ROOM 1024              /* bytes of a buffer on the stack for a text; a longer one is allocated */
#define LONG_CALL (64 * 1024)  /* from so many bytes on other threads run during a call */

typedef struct {
    PyObject_HEAD
    void *handle;
    uint32_t (*open)(mmrepo_session *, const char *, size_t);
    uint32_t (*line)(mmrepo_session *, const char *, size_t);
    size_t (*text)(mmrepo_session *, char *, size_t);
    void (*close)(mmrepo_session *);
    uint32_t (*list_length)(mmrepo_session *, bool, uint32_t, const char *, size_t);
    uint32_t (*list_value)(mmrepo_session *, bool, uint32_t, const char *, size_t, uint32_t);
    uint32_t (*load)(mmrepo_session *, uint32_t, const char *, size_t);
} Library;

typedef struct {
    PyObject_HEAD
    Library *library;
    mmrepo_session session;
} Session;

static PyObject *session_type;
static PyObject *repository_closed;  /* the error mmrepo.errors.RepositoryClosed */

/* Looks a function up; sets an error if the library lacks it. */
static int find(Library *self, void **place, const char *name) {
    *place = dlsym(self->handle, name);
    if (*place == NULL) {
        PyErr_Format(PyExc_OSError, "the library has no %s", name);
        return -1;
    }
    return 0;
}

static PyObject *library_new(PyTypeObject *type, PyObject *args, PyObject *Py_UNUSED(words)) {
    PyObject *path;
    if (!PyArg_ParseTuple(args, "O&", PyUnicode_FSConverter, &path)) {
        return NULL;
    }
    allocfunc alloc = (allocfunc)PyType_GetSlot(type, Py_tp_alloc);
    Library *self = (Library *)alloc(type, 0);
    if (self != NULL) {
        self->handle = dlopen(PyBytes_AsString(path), RTLD_NOW | RTLD_LOCAL);
        if (self->handle == NULL) {
            PyErr_SetString(PyExc_OSError, dlerror());
        }
        if (self->handle == NULL || find(self, (void **)&self->open, "mmrepo_open") || find(self, (void **)&self->line, "mmrepo_line") ||
            find(self, (void **)&self->text, "mmrepo_text") || find(self, (void **)&self->close, "mmrepo_close")) {
            Py_CLEAR(self);
        } else {
            *(void **)&self->list_length = dlsym(self->handle, "mmrepo_list_length");
            *(void **)&self->list_value = dlsym(self->handle, "mmrepo_list_value");
            *(void **)&self->load = dlsym(self->handle, "mmrepo_load");
        }
    }
    Py_DECREF(path);
    return (PyObject *)self;
}

/* A library stays in memory, so that a session that outlives it can be closed. */
static void any_dealloc(PyObject *self) {
    PyTypeObject *type = Py_TYPE(self);
    freefunc release = (freefunc)PyType_GetSlot(type, Py_tp_free);
    release(self);
    Py_DECREF(type);
}

static PyObject *library_session(PyObject *self, PyObject *Py_UNUSED(none)) {
    allocfunc alloc = (allocfunc)PyType_GetSlot((PyTypeObject *)session_type, Py_tp_alloc);
    Session *made = (Session *)alloc((PyTypeObject *)session_type, 0);
    if (made != NULL) {
        const mmrepo_session closed = MMREPO_CLOSED_SESSION;
        made->session = closed;
        Py_INCREF(self);
        made->library = (Library *)self;
    }
    return (PyObject *)made;
}

static PyObject *library_has_calls(PyObject *self, void *Py_UNUSED(none)) {
    const Library *library = (Library *)self;
    return PyBool_FromLong(library->list_length != NULL && library->list_value != NULL && library->load != NULL);
}

static void session_dealloc(PyObject *object) {
    Session *self = (Session *)object;
    self->library->close(&self->session);
    Py_DECREF(self->library);
    any_dealloc(object);
}

/* The text of the last call. */
static PyObject *text_of(Session *self) {
    char room[ROOM];
    const size_t size = self->library->text(&self->session, room, sizeof room);
    if (size <= sizeof room) {
        return PyUnicode_FromStringAndSize(room, (Py_ssize_t)size);
    }
    char *text = PyMem_Malloc(size);
    if (text == NULL) {
        return PyErr_NoMemory();
    }
    self->library->text(&self->session, text, size);
    PyObject *found = PyUnicode_FromStringAndSize(text, (Py_ssize_t)size);
    PyMem_Free(text);
    return found;
}

/* What a call printed, or an error by its status. */
static PyObject *answer(Session *self, uint32_t status) {
    switch (status) {
    case MMREPO_OK:
    case MMREPO_BLANK:
    case MMREPO_BAD:
    case MMREPO_REFUSED:
    case MMREPO_LOST:
        return text_of(self);
    case MMREPO_MEMORY:
        return PyErr_NoMemory();
    case MMREPO_TOO_LONG:
        PyErr_SetString(PyExc_ValueError, "the line is too long");
        return NULL;
    case MMREPO_CLOSED:
        PyErr_SetString(repository_closed, "memory was refused to the library, which closed the session");
        return NULL;
    default:
        PyErr_Format(PyExc_RuntimeError, "the library returned the status %u", (unsigned int)status);
        return NULL;
    }
}

static PyObject *session_open(PyObject *object, PyObject *document) {
    Session *self = (Session *)object;
    char *data;
    Py_ssize_t size;
    if (PyBytes_AsStringAndSize(document, &data, &size) < 0) {
        return NULL;
    }
    uint32_t status;
    Py_BEGIN_ALLOW_THREADS
    status = self->library->open(&self->session, data, (size_t)size);
    Py_END_ALLOW_THREADS
    return PyLong_FromUnsignedLong(status);
}

static PyObject *session_line(PyObject *object, PyObject *line) {
    Session *self = (Session *)object;
    PyObject *bytes = PyUnicode_AsUTF8String(line);
    if (bytes == NULL) {
        return NULL;
    }
    const char *data = PyBytes_AsString(bytes);
    const Py_ssize_t size = PyBytes_Size(bytes);
    uint32_t status = MMREPO_TOO_LONG;
    if (memchr(data, '\n', (size_t)size) != NULL) {
        PyErr_SetString(PyExc_ValueError, "a line has no newline");
    } else if (size > MMREPO_INPUT_BYTES) {
        PyErr_Format(PyExc_ValueError, "a line has at most %d bytes, and this one %zd", MMREPO_INPUT_BYTES, size);
    } else if (size < LONG_CALL) {
        status = self->library->line(&self->session, data, (size_t)size);
    } else {
        Py_BEGIN_ALLOW_THREADS
        status = self->library->line(&self->session, data, (size_t)size);
        Py_END_ALLOW_THREADS
    }
    Py_DECREF(bytes);
    return PyErr_Occurred() ? NULL : answer(self, status);
}

static PyObject *session_list_length(PyObject *object, PyObject *args) {
    Session *self = (Session *)object;
    int is_resource;
    unsigned int number;
    const char *name;
    Py_ssize_t size;
    if (!PyArg_ParseTuple(args, "pIs#", &is_resource, &number, &name, &size)) {
        return NULL;
    }
    return answer(self, self->library->list_length(&self->session, is_resource != 0, number, name, (size_t)size));
}

static PyObject *session_list_value(PyObject *object, PyObject *args) {
    Session *self = (Session *)object;
    int is_resource;
    unsigned int number, index;
    const char *name;
    Py_ssize_t size;
    if (!PyArg_ParseTuple(args, "pIs#I", &is_resource, &number, &name, &size, &index)) {
        return NULL;
    }
    return answer(self, self->library->list_value(&self->session, is_resource != 0, number, name, (size_t)size, index));
}

static PyObject *session_load(PyObject *object, PyObject *args) {
    Session *self = (Session *)object;
    unsigned int resource;
    const char *data;
    Py_ssize_t size;
    if (!PyArg_ParseTuple(args, "Iy#", &resource, &data, &size)) {
        return NULL;
    }
    uint32_t status;
    Py_BEGIN_ALLOW_THREADS
    status = self->library->load(&self->session, resource, data, (size_t)size);
    Py_END_ALLOW_THREADS
    return answer(self, status);
}

static PyObject *session_close(PyObject *object, PyObject *Py_UNUSED(none)) {
    Session *self = (Session *)object;
    self->library->close(&self->session);
    Py_RETURN_NONE;
}

/* Leaves the memory of the session as it is. This is for the child of a fork, whose copy may be in the middle of a call. */
static PyObject *session_abandon(PyObject *object, PyObject *Py_UNUSED(none)) {
    const mmrepo_session closed = MMREPO_CLOSED_SESSION;
    ((Session *)object)->session = closed;
    Py_RETURN_NONE;
}

static PyMethodDef library_methods[] = {
    {"session", library_session, METH_NOARGS, "A session that is closed."},
    {NULL, NULL, 0, NULL},
};

static PyGetSetDef library_members[] = {
    {"has_calls", library_has_calls, NULL, "Whether it has the calls that no line makes.", NULL},
    {NULL, NULL, NULL, NULL, NULL},
};

static PyMethodDef session_methods[] = {
    {"open", session_open, METH_O, "Opens it over a metamodel, and returns the status."},
    {"line", session_line, METH_O, "Runs a line, and returns what it prints."},
    {"list_length", session_list_length, METH_VARARGS, "How many values a list has, as a text."},
    {"list_value", session_list_value, METH_VARARGS, "The value at an index of a list, as a text."},
    {"load", session_load, METH_VARARGS, "Loads a document, and returns what that prints."},
    {"close", session_close, METH_NOARGS, "Closes it, and frees what it has."},
    {"abandon", session_abandon, METH_NOARGS, "Closes it, and frees nothing."},
    {NULL, NULL, 0, NULL},
};

static PyType_Slot library_slots[] = {
    {Py_tp_new, library_new}, {Py_tp_dealloc, any_dealloc}, {Py_tp_methods, library_methods}, {Py_tp_getset, library_members}, {0, NULL},
};

static PyType_Slot session_slots[] = {
    {Py_tp_dealloc, session_dealloc}, {Py_tp_methods, session_methods}, {0, NULL},
};

static PyType_Spec library_spec = {"mmrepo._native.Library", sizeof(Library), 0, Py_TPFLAGS_DEFAULT, library_slots};
static PyType_Spec session_spec = {"mmrepo._native.Session", sizeof(Session), 0, Py_TPFLAGS_DEFAULT, session_slots};

static struct PyModuleDef module = {PyModuleDef_HEAD_INIT, "mmrepo._native", "The shared library of mmrepo.", -1, NULL, NULL, NULL, NULL, NULL};

PyMODINIT_FUNC PyInit__native(void) {
    PyObject *errors = PyImport_ImportModule("mmrepo.errors");
    if (errors == NULL) {
        return NULL;
    }
    repository_closed = PyObject_GetAttrString(errors, "RepositoryClosed");
    Py_DECREF(errors);
    PyObject *made = PyModule_Create(&module);
    PyObject *library_type = PyType_FromSpec(&library_spec);
    session_type = PyType_FromSpec(&session_spec);
    if (repository_closed == NULL || made == NULL || library_type == NULL || session_type == NULL ||
        PyModule_AddObject(made, "Library", library_type) < 0) {
        Py_XDECREF(made);
        return NULL;
    }
    return made;
}
