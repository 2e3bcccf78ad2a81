/* CPython's codec, in this process. Its results are objects of its own, which each run makes anew. */
#define PY_SSIZE_T_CLEAN
#include <Python.h>

#include "contender.h"

#include <string.h>

#define NAME "CPython " PY_VERSION

static PyObject *last;

static int start(void)
{
    PyConfig config;
    PyStatus status;

    if (Py_IsInitialized())
        return 1;
    PyConfig_InitIsolatedConfig(&config);
    config.site_import = 0;
    status = Py_InitializeFromConfig(&config);
    PyConfig_Clear(&config);
    return !PyStatus_Exception(status);
}

static size_t python_read(const void *in, size_t len, void *out, size_t room)
{
    (void)out;
    (void)room;
    Py_XDECREF(last);
    last = PyUnicode_DecodeUTF8(in, (Py_ssize_t)len, "surrogateescape");
    return last ? (size_t)PyUnicode_GET_LENGTH(last) : 0;
}

static void fetch_codes(void *out, size_t room)
{
    PyUnicode_AsUCS4(last, out, (Py_ssize_t)room, 0);
}

/* A str, which has 1, 2 or 4 bytes a code. */
static const void *str_of(const void *codes, size_t len)
{
    return PyUnicode_FromKindAndData(PyUnicode_4BYTE_KIND, codes, (Py_ssize_t)len);
}

static size_t python_write(const void *in, size_t len, void *out, size_t room)
{
    (void)len;
    (void)out;
    (void)room;
    Py_XDECREF(last);
    last = PyUnicode_AsEncodedString((PyObject *)in, "utf-8", "surrogateescape");
    return last ? (size_t)PyBytes_GET_SIZE(last) : 0;
}

static void fetch_bytes(void *out, size_t room)
{
    size_t len = (size_t)PyBytes_GET_SIZE(last);

    memcpy(out, PyBytes_AS_STRING(last), len < room ? len : room);
}

const struct contender python_reader = {
    .name = NAME, .is_apart = 1, .start = start, .run = python_read, .fetch = fetch_codes};
const struct contender python_writer = {
    .name = NAME, .is_apart = 1, .start = start, .prepare = str_of, .run = python_write, .fetch = fetch_bytes};
