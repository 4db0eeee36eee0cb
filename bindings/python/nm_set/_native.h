/* What the C files of this module share. */
#ifndef NM_SET_NATIVE_H
#define NM_SET_NATIVE_H

#define PY_SSIZE_T_CLEAN
#include <Python.h>
#include <stdint.h>

#include "nm_map.h"

#ifdef Py_GIL_DISABLED
#error "The calls in C need the interpreter's lock. Without it the module makes them by ctypes."
#endif

#define MOST_KEY (UINT64_MAX - 3)
#define HERE __attribute__((visibility("hidden")))

/* Writes the key that an object equals. Returns -1 after an exception, else 0. */
HERE int key_of(PyObject *object, uint64_t *key);

/* Raises an exception, and releases it. If it is NULL, making it has raised another one. Returns
 * NULL. */
HERE PyObject *raise_made(PyObject *made);

/* Returns the time in nanoseconds. */
HERE uint64_t now(void);

/* Returns a list of keys, or NULL after an exception. */
HERE PyObject *list_of(const uint64_t *keys, size_t count);

/* What _native_map.c has: the type of maps, and the function of the module that stores what its
 * calls need. */
HERE extern PyType_Spec map_spec;
HERE PyObject *bind_map(PyObject *module, PyObject *args);

#endif
