/* The calls of a map in C: those that _map_calls.py makes by ctypes, with the same names and
 * meanings.
 *
 * The library keeps a number under each key. Here it is the number of a cell, which has the map's
 * reference to the object. A cell is emptied when the library has reclaimed its number. Each call
 * of the library that changes the map, or reclaims, is made under the lock of the interpreter. So a
 * call that gets a number takes its reference to the object before another thread can empty the
 * cell. It does so before it makes an object of Python, because that may collect garbage, which may
 * run any code.
 *
 * A reference is ended by code that may do anything, such as call the map again. So each call ends
 * its references after its worker has been returned and its result is complete.
 */
#include "_native.h"

#include <stdlib.h>
#include <string.h>
#include <structmember.h>
#include <time.h>

enum {
    ROOM = 64,     /* how many numbers one call reclaims */
    SCANNED = 1024 /* the most keys of one scan, and of one look-up of several keys */
};

#define NO_CELL UINT32_MAX
#define SHORTEST 20000  /* nanoseconds: the first pause of a wait for a worker */
#define LONGEST 1000000 /* nanoseconds: the longest pause */

/* The functions of the library, which bind_map finds by their names. */
static nm_outcome (*new_of)(nm_handle *, uint32_t, uint32_t);
static nm_outcome (*drop_of)(nm_handle *);
static nm_outcome (*attach_of)(nm_handle *, nm_handle *, uint32_t);
static nm_outcome (*pin_of)(nm_handle *, const nm_options *, uint64_t *);
static nm_outcome (*unpin_of)(nm_handle *);
static nm_outcome (*get_of)(nm_handle *, uint64_t, const nm_options *, uint64_t *);
static nm_outcome (*get_many_of)(nm_handle *, nm_map_lookup *, size_t, const nm_options *);
static nm_outcome (*insert_of)(nm_handle *, uint64_t, uint64_t, const nm_options *);
static nm_outcome (*put_of)(nm_handle *, uint64_t, uint64_t, const nm_options *, uint64_t *);
static nm_outcome (*replace_of)(nm_handle *, uint64_t, uint64_t, const nm_options *, uint64_t *);
static nm_outcome (*compare_replace_of)(nm_handle *, uint64_t, uint64_t, uint64_t,
                                        const nm_options *, uint64_t *);
static nm_outcome (*remove_of)(nm_handle *, uint64_t, const nm_options *, uint64_t *);
static nm_outcome (*remove_if_of)(nm_handle *, uint64_t, uint64_t, const nm_options *, uint64_t *);
typedef nm_outcome (*entry_call)(nm_handle *, uint64_t, const nm_options *, uint64_t *, uint64_t *);
static entry_call pop_first_of, pop_last_of, at_least_of, at_most_of;
typedef nm_outcome (*keys_call)(nm_handle *, uint64_t, uint64_t, uint64_t *, size_t, size_t *,
                                uint64_t *, const nm_options *);
static keys_call keys_of, keys_back_of;
typedef nm_outcome (*items_call)(nm_handle *, uint64_t, uint64_t, nm_entry *, size_t, size_t *,
                                 uint64_t *, const nm_options *);
static items_call items_of, items_back_of;
static nm_outcome (*count_of)(nm_handle *, uint64_t, uint64_t, uint64_t *, const nm_options *);
static nm_outcome (*reclaim_of)(nm_handle *, uint64_t *, size_t, uint64_t *, uint32_t *);
static nm_outcome (*queue_len_of)(nm_handle *, uint64_t *);

/* What the modules in Python give: the object of an absent key, and number_of of _keys.py. */
static PyObject *missing, *number_of_other;

/* The map's reference to an object. If the cell is free: twice the number of the next free cell,
 * and 1. */
typedef union {
    PyObject *object;
    uintptr_t link;
} Cell;

/* A worker, which is in a call or in the stack of those that are idle. */
typedef struct {
    nm_handle handle;
    uint64_t waiting; /* how many nodes wait with it */
} Worker;

/* A map. `keys` is how many there are, `used` how many cells were ever used, and `free` the first
 * free one of these. Python reads `keys` and the last four, and writes `waits` and `is_open`. */
typedef struct {
    PyObject_HEAD
    nm_handle handle;
    nm_options options;
    Cell *cells;
    uint64_t keys;
    uint32_t used, free;
    uint32_t timeout_ms;
    Worker *workers;
    uint32_t most_workers, attached, idle;
    unsigned char stack[64];
    unsigned waits;  /* how many calls wait for a key */
    unsigned behind; /* the worker that held others back in the last reclaim */
    char is_open, is_forked;
} Map;

/* ---- faults ---- */

/* Raises the exception of a call that failed, with the key that it has found. Returns NULL. */
static PyObject *raise_fault_at(Map *self, nm_outcome outcome, uint64_t key) {
    return raise_made(PyObject_CallMethod((PyObject *)self, "_fault", "iK", (int)outcome,
                                          (unsigned long long)key));
}

static PyObject *raise_fault(Map *self, nm_outcome outcome) {
    return raise_fault_at(self, outcome, 0);
}

static PyObject *raise_key_error(PyObject *key) {
    PyObject *words = PyTuple_Pack(1, key);
    if (words) {
        PyErr_SetObject(PyExc_KeyError, words);
        Py_DECREF(words);
    }
    return NULL;
}

/* Returns 1 if the map is open, and otherwise 0 after an exception. */
static int is_open(Map *self) {
    if (self->is_open && !self->is_forked) {
        return 1;
    }
    raise_fault(self, self->is_forked ? NM_FORKED : NM_CLOSED);
    return 0;
}

/* ---- cells ---- */

/* Takes a free cell for an object, and the map's reference to it. There is one, because each cell
 * that is in use has a node, except that of the call that is in progress. */
static uint32_t new_cell(Map *self, PyObject *object) {
    uint32_t number = self->free;
    if (number == NO_CELL) {
        number = self->used++;
    } else {
        self->free = (uint32_t)(self->cells[number].link >> 1);
    }
    Py_INCREF(object);
    self->cells[number].object = object;
    return number;
}

/* Frees a cell, and returns its object with the map's reference. */
static PyObject *emptied(Map *self, uint64_t number) {
    PyObject *object = self->cells[number].object;
    self->cells[number].link = (uintptr_t)self->free << 1 | 1;
    self->free = (uint32_t)number;
    return object;
}

static int is_free(Cell cell) { return (cell.link & 1) != 0; }

/* Returns a new reference to the object of a cell. */
static PyObject *object_of(Map *self, uint64_t number) {
    PyObject *object = self->cells[number].object;
    Py_INCREF(object);
    return object;
}

/* ---- a worker for a call ---- */

/* Attaches a worker. Returns NULL after an exception. */
static Worker *attached(Map *self) {
    Worker *worker = &self->workers[self->attached];
    nm_outcome outcome = attach_of(&self->handle, &worker->handle, 0);
    if (outcome < 0) {
        raise_fault(self, outcome);
        return NULL;
    }
    self->attached++;
    return worker;
}

/* Sleeps while other threads run. */
static void slept(long nanoseconds) {
    struct timespec time = {0, nanoseconds};
    Py_BEGIN_ALLOW_THREADS
    nanosleep(&time, NULL);
    Py_END_ALLOW_THREADS
}

/* Waits until a worker is idle. Returns 0, or -1 after an exception. */
static int wait_for_worker(Map *self) {
    uint64_t end = now() + self->timeout_ms * (uint64_t)1000000;
    long pause = SHORTEST;
    while (self->idle == 0) {
        if (now() >= end) {
            raise_fault(self, NM_NO_WORKER);
            return -1;
        }
        slept(pause);
        if (PyErr_CheckSignals() < 0 || !is_open(self)) {
            return -1;
        }
        pause = 2 * pause < LONGEST ? 2 * pause : LONGEST;
    }
    return 0;
}

/* Takes a worker that is idle, or else attaches one, or waits for one. Returns NULL after an
 * exception. */
static Worker *take(Map *self) {
    if (!is_open(self)) {
        return NULL;
    }
    if (self->idle == 0) {
        if (self->attached < self->most_workers) {
            return attached(self);
        }
        if (wait_for_worker(self) < 0) {
            return NULL;
        }
    }
    return &self->workers[self->stack[--self->idle]];
}

static void put_back(Map *self, Worker *worker) {
    self->stack[self->idle++] = (unsigned char)(worker - self->workers);
}

/* Frees the cells that a worker reclaims, at most ROOM. Writes their objects, and returns how many
 * there are. */
static uint64_t reclaim(Map *self, Worker *worker, PyObject **ended) {
    uint64_t numbers[ROOM], count = 0;
    uint32_t behind = NM_NOBODY;
    if (reclaim_of(&worker->handle, numbers, ROOM, &count, &behind) < 0) {
        return 0;
    }
    (void)queue_len_of(&worker->handle, &worker->waiting);
    self->behind = behind;
    for (uint64_t at = 0; at < count; at++) {
        ended[at] = emptied(self, numbers[at]);
    }
    return count;
}

static void reclaim_and_put_back(Map *self, Worker *worker) {
    PyObject *ended[ROOM];
    uint64_t count = reclaim(self, worker, ended);
    put_back(self, worker);
    for (uint64_t at = 0; at < count; at++) {
        Py_DECREF(ended[at]);
    }
}

/* Returns the worker of a call that changed the map, after a reclaim if enough nodes wait. Ends the
 * references to the objects of these. */
static void tend(Map *self, Worker *worker) {
    if (worker->waiting >= self->options.collect_after) {
        reclaim_and_put_back(self, worker);
    } else {
        put_back(self, worker);
    }
}

/* ---- a look-up ---- */

/* Writes the key that an object equals. Returns 1, or 0 if it is none, or -1 after an exception. */
static int number_of(PyObject *object, uint64_t *number) {
    if (PyLong_CheckExact(object)) {
        *number = PyLong_AsUnsignedLongLong(object);
        if (*number <= MOST_KEY) {
            return 1;
        }
        PyErr_Clear();
        return 0;
    }
    PyObject *key = PyObject_CallFunctionObjArgs(number_of_other, object, NULL);
    if (!key) {
        return -1;
    }
    int is_key = key != Py_None;
    *number = is_key ? PyLong_AsUnsignedLongLong(key) : 0;
    Py_DECREF(key);
    return is_key;
}

/* Finds the object of a key, and takes a reference to it. Returns 1, or 0 if the key is absent, or
 * -1 after an exception. */
static int found(Map *self, PyObject *key, PyObject **object) {
    uint64_t number, cell;
    int is_key = number_of(key, &number);
    if (is_key <= 0) {
        return is_key < 0 || !is_open(self) ? -1 : 0;
    }
    Worker *worker = take(self);
    if (!worker) {
        return -1;
    }
    nm_outcome outcome = get_of(&worker->handle, number, &self->options, &cell);
    if (outcome == NM_YES) {
        *object = object_of(self, cell);
    }
    put_back(self, worker);
    if (outcome < 0) {
        raise_fault(self, outcome);
        return -1;
    }
    return outcome == NM_YES;
}

static PyObject *map_subscript(PyObject *self, PyObject *key) {
    PyObject *object;
    int is_found = found((Map *)self, key, &object);
    if (is_found == 0) {
        raise_key_error(key);
    }
    return is_found > 0 ? object : NULL;
}

static int map_contains(PyObject *self, PyObject *key) {
    PyObject *object;
    int is_found = found((Map *)self, key, &object);
    if (is_found > 0) {
        Py_DECREF(object);
    }
    return is_found;
}

/* Returns the object of a key, or another one if it is absent. */
static PyObject *found_or(PyObject *self, PyObject *key, PyObject *other) {
    PyObject *object;
    int is_found = found((Map *)self, key, &object);
    if (is_found == 0) {
        Py_INCREF(other);
        return other;
    }
    return is_found > 0 ? object : NULL;
}

static PyObject *map_get_or_missing(PyObject *self, PyObject *key) {
    return found_or(self, key, missing);
}

/* Takes a key and, by place or by name, a default. */
static PyObject *map_get(PyObject *self, PyObject *const *args, Py_ssize_t count,
                         PyObject *names) {
    Py_ssize_t named = names ? PyTuple_Size(names) : 0;
    if (count < 1 || count + named > 2 ||
        (named && PyUnicode_CompareWithASCIIString(PyTuple_GetItem(names, 0), "default") != 0)) {
        PyErr_SetString(PyExc_TypeError, "get() takes a key, and a default for an absent key");
        return NULL;
    }
    return found_or(self, args[0], count + named == 2 ? args[1] : Py_None);
}

/* ---- a call that gives the map an object ---- */

enum kind { INSERT, PUT, REPLACE, REPLACE_IF };

/* Such a call. `expected` is the object that is to be replaced, or NULL for any; `cell` is that of
 * the new object, and `old` that of the replaced one. */
typedef struct {
    enum kind kind;
    uint64_t key, cell, old;
    PyObject *value, *expected;
} Change;

/* Finds the cell of a key, if it has the expected object. A cell may have been emptied, and taken
 * for another object, after its object was read. So this compares the object of the cell that the
 * key has now. Returns NM_YES, NM_ABSENT, NM_OTHER or an error. */
static nm_outcome cell_of(Map *self, Worker *worker, uint64_t key, const PyObject *expected,
                          uint64_t *cell) {
    nm_outcome outcome = get_of(&worker->handle, key, &self->options, cell);
    if (outcome == NM_YES) {
        return self->cells[*cell].object == expected ? NM_YES : NM_OTHER;
    }
    return outcome == NM_NO ? NM_ABSENT : outcome;
}

/* Replaces an object if it is the expected one. */
static nm_outcome replace_if(Map *self, Worker *worker, Change *change) {
    uint64_t cell;
    nm_outcome outcome = cell_of(self, worker, change->key, change->expected, &cell);
    if (outcome != NM_YES) {
        return outcome;
    }
    return compare_replace_of(&worker->handle, change->key, cell, change->cell, &self->options,
                              &change->old);
}

/* Makes the call of the library, and returns its outcome. */
static nm_outcome make(Map *self, Worker *worker, Change *change) {
    nm_handle *by = &worker->handle;
    switch (change->kind) {
    case INSERT: return insert_of(by, change->key, change->cell, &self->options);
    case PUT: return put_of(by, change->key, change->cell, &self->options, &change->old);
    case REPLACE: return replace_of(by, change->key, change->cell, &self->options, &change->old);
    default: return replace_if(self, worker, change);
    }
}

/* Makes the call once, and writes its outcome. Writes the replaced object, if there is one and it
 * is wanted. Returns -1 after an exception, else 0. */
static int change_once(Map *self, Change *change, nm_outcome *outcome, PyObject **old) {
    Worker *worker = take(self);
    if (!worker) {
        return -1;
    }
    change->cell = new_cell(self, change->value);
    *outcome = make(self, worker, change);
    if (*outcome == NM_REPLACED) {
        worker->waiting++;
        if (old) {
            *old = object_of(self, change->old);
        }
    } else if (*outcome == NM_YES || *outcome == NM_INSERTED) {
        self->keys++;
    } else {
        Py_DECREF(emptied(self, change->cell)); /* the caller has another reference */
    }
    tend(self, worker);
    return 0;
}

/* Wakes the calls that wait for a key. Returns -1 after an exception, else 0. */
static int wake(Map *self) {
    PyObject *woken = PyObject_CallMethod((PyObject *)self, "_wake", NULL);
    Py_XDECREF(woken);
    return woken ? 0 : -1;
}

/* Repeats a put that found no nodes. Returns -1 after an exception, else 0. */
static int put_later(Map *self, Change *change) {
    PyObject *given = PyObject_CallMethod((PyObject *)self, "_give_later", "iKOO", (int)PUT,
                                          (unsigned long long)change->key, change->value, Py_None);
    Py_XDECREF(given);
    return given ? 0 : -1;
}

static int put(Map *self, PyObject *key, PyObject *value) {
    Change change = {.kind = PUT, .value = value};
    nm_outcome outcome;
    if (key_of(key, &change.key) < 0 || change_once(self, &change, &outcome, NULL) < 0) {
        return -1;
    }
    if (outcome == NM_FULL) {
        return put_later(self, &change);
    }
    if (outcome < 0) {
        raise_fault(self, outcome);
        return -1;
    }
    return outcome == NM_INSERTED && self->waits != 0 ? wake(self) : 0;
}

static PyObject *map_change(PyObject *self, PyObject *args) {
    int kind;
    unsigned long long key;
    Change change = {.kind = INSERT};
    nm_outcome outcome;
    PyObject *old = NULL;
    if (!PyArg_ParseTuple(args, "iKOO", &kind, &key, &change.value, &change.expected)) {
        return NULL;
    }
    change.kind = (enum kind)kind;
    change.key = key;
    if (change_once((Map *)self, &change, &outcome, &old) < 0) {
        return NULL;
    }
    return old ? Py_BuildValue("iN", (int)outcome, old)
               : Py_BuildValue("iO", (int)outcome, missing);
}

/* ---- a call that removes a key ---- */

/* Counts a key that a worker has removed, or will remove and no other worker. */
static void count_removed(Map *self, Worker *worker) {
    self->keys--;
    worker->waiting += 2;
}

/* Removes a key if it has the expected object, whose cell it writes. */
static nm_outcome remove_if(Map *self, Worker *worker, uint64_t key, const PyObject *expected,
                            uint64_t *cell) {
    uint64_t other;
    nm_outcome outcome = cell_of(self, worker, key, expected, cell);
    if (outcome != NM_YES) {
        return outcome;
    }
    return remove_if_of(&worker->handle, key, *cell, &self->options, &other);
}

/* Removes a key if it has the expected object, or any if that is NULL, and takes a reference to its
 * object. Returns 1, or 0 if the key is absent or has another object, or -1 after an exception. */
static int removed(Map *self, uint64_t key, const PyObject *expected, PyObject **object) {
    uint64_t cell;
    Worker *worker = take(self);
    if (!worker) {
        return -1;
    }
    nm_outcome outcome = expected ? remove_if(self, worker, key, expected, &cell)
                                  : remove_of(&worker->handle, key, &self->options, &cell);
    int is_removed = outcome == NM_YES || outcome == NM_UNFINISHED;
    if (is_removed) {
        count_removed(self, worker);
        *object = object_of(self, cell);
    }
    tend(self, worker);
    if (outcome < 0 && !is_removed) {
        raise_fault(self, outcome);
        return -1;
    }
    return is_removed;
}

/* Removes the key that an object equals, in the same way. Returns 0 too if the object is no key. */
static int removed_key(Map *self, PyObject *key, PyObject **object) {
    uint64_t number;
    int is_key = number_of(key, &number);
    if (is_key <= 0) {
        return is_key < 0 || !is_open(self) ? -1 : 0;
    }
    return removed(self, number, NULL, object);
}

static int map_assign(PyObject *self, PyObject *key, PyObject *value) {
    PyObject *object;
    if (value) {
        return put((Map *)self, key, value);
    }
    int is_removed = removed_key((Map *)self, key, &object);
    if (is_removed > 0) {
        Py_DECREF(object);
        return 0;
    }
    if (is_removed == 0) {
        raise_key_error(key);
    }
    return -1;
}

static PyObject *map_pop(PyObject *self, PyObject *key) {
    PyObject *object = missing;
    int is_removed = removed_key((Map *)self, key, &object);
    if (is_removed == 0) {
        Py_INCREF(missing);
    }
    return is_removed < 0 ? NULL : object;
}

/* Removes a key if it has an object. Returns whether it did. */
static PyObject *map_remove_if(PyObject *self, PyObject *args) {
    unsigned long long key;
    PyObject *expected, *object;
    if (!PyArg_ParseTuple(args, "KO", &key, &expected)) {
        return NULL;
    }
    int is_removed = removed((Map *)self, key, expected, &object);
    if (is_removed > 0) {
        Py_DECREF(object);
    }
    return is_removed < 0 ? NULL : PyBool_FromLong(is_removed);
}

/* Returns a key with its object, whose reference it takes; or NULL after an exception. */
static PyObject *entry_of(uint64_t key, PyObject *object) {
    PyObject *number = PyLong_FromUnsignedLongLong(key);
    PyObject *entry = number ? PyTuple_New(2) : NULL;
    if (!entry) {
        Py_XDECREF(number);
        Py_DECREF(object);
        return NULL;
    }
    PyTuple_SetItem(entry, 0, number);
    PyTuple_SetItem(entry, 1, object);
    return entry;
}

/* Removes a key at one end of a range. Returns it with its object, or None. */
static PyObject *map_pop_from(PyObject *object, PyObject *args) {
    Map *self = (Map *)object;
    unsigned long long bound;
    int is_last;
    uint64_t key = 0, cell = 0;
    PyObject *old = NULL;
    if (!PyArg_ParseTuple(args, "pK", &is_last, &bound)) {
        return NULL;
    }
    Worker *worker = take(self);
    if (!worker) {
        return NULL;
    }
    entry_call pop = is_last ? pop_last_of : pop_first_of;
    nm_outcome outcome = pop(&worker->handle, bound, &self->options, &key, &cell);
    if (outcome == NM_YES || outcome == NM_UNFINISHED) {
        count_removed(self, worker);
    }
    if (outcome == NM_YES) {
        old = object_of(self, cell);
    }
    tend(self, worker);
    if (outcome < 0) {
        return raise_fault_at(self, outcome, key);
    }
    if (!old) {
        Py_RETURN_NONE;
    }
    return entry_of(key, old);
}

/* ---- in order ---- */

static PyObject *map_nearest(PyObject *object, PyObject *args) {
    Map *self = (Map *)object;
    unsigned long long number;
    int is_below;
    uint64_t key = 0, cell = 0;
    PyObject *near = NULL;
    if (!PyArg_ParseTuple(args, "pK", &is_below, &number)) {
        return NULL;
    }
    Worker *worker = take(self);
    if (!worker) {
        return NULL;
    }
    entry_call find = is_below ? at_most_of : at_least_of;
    nm_outcome outcome = find(&worker->handle, number, &self->options, &key, &cell);
    if (outcome == NM_YES) {
        near = object_of(self, cell);
    }
    put_back(self, worker);
    if (outcome < 0) {
        return raise_fault(self, outcome);
    }
    if (!near) {
        Py_RETURN_NONE;
    }
    return entry_of(key, near);
}

/* A scan of a range, at most `room` keys. `rest` is where the next scan goes on. */
typedef struct {
    unsigned long long first, below;
    Py_ssize_t room;
    int is_back;
    size_t count;
    uint64_t rest;
    nm_outcome outcome;
} Scan;

static int scan_of(PyObject *args, Scan *scan) {
    if (!PyArg_ParseTuple(args, "KKnp", &scan->first, &scan->below, &scan->room, &scan->is_back)) {
        return -1;
    }
    if (scan->room < 1 || scan->room > SCANNED) {
        scan->room = SCANNED;
    }
    return 0;
}

/* Returns what a scan has read, whose reference it takes, and where the next one goes on, or None.
 */
static PyObject *scanned(const Scan *scan, PyObject *read) {
    if (!read) {
        return NULL;
    }
    return scan->outcome == NM_YES ? Py_BuildValue("NK", read, (unsigned long long)scan->rest)
                                   : Py_BuildValue("NO", read, Py_None);
}

/* Reads keys, while other threads run. */
static PyObject *map_scan(PyObject *object, PyObject *args) {
    Map *self = (Map *)object;
    uint64_t keys[SCANNED];
    Scan scan = {.count = 0};
    Worker *worker = scan_of(args, &scan) < 0 ? NULL : take(self);
    if (!worker) {
        return NULL;
    }
    keys_call call = scan.is_back ? keys_back_of : keys_of;
    Py_BEGIN_ALLOW_THREADS
    scan.outcome = call(&worker->handle, scan.first, scan.below, keys, (size_t)scan.room,
                        &scan.count, &scan.rest, &self->options);
    Py_END_ALLOW_THREADS
    put_back(self, worker);
    return scan.outcome < 0 ? raise_fault(self, scan.outcome)
                            : scanned(&scan, list_of(keys, scan.count));
}

/* Returns a list of objects, whose references it takes; with their keys if there are entries. */
static PyObject *objects_list(PyObject **objects, const nm_entry *entries, size_t count) {
    PyObject *list = PyList_New((Py_ssize_t)count);
    for (size_t at = 0; at < count; at++) {
        PyObject *item = objects[at];
        if (!list) {
            Py_DECREF(item);
        } else if (entries && !(item = entry_of(entries[at].key, item))) {
            Py_CLEAR(list);
        } else {
            PyList_SetItem(list, (Py_ssize_t)at, item);
        }
    }
    return list;
}

/* Reads keys with their objects. Other threads wait, so that no object ends meanwhile. */
static PyObject *map_scan_items(PyObject *object, PyObject *args) {
    Map *self = (Map *)object;
    nm_entry entries[SCANNED];
    PyObject *objects[SCANNED];
    Scan scan = {.count = 0};
    Worker *worker = scan_of(args, &scan) < 0 ? NULL : take(self);
    if (!worker) {
        return NULL;
    }
    items_call call = scan.is_back ? items_back_of : items_of;
    scan.outcome = call(&worker->handle, scan.first, scan.below, entries, (size_t)scan.room,
                        &scan.count, &scan.rest, &self->options);
    for (size_t at = 0; at < scan.count; at++) {
        objects[at] = object_of(self, entries[at].value);
    }
    put_back(self, worker);
    return scan.outcome < 0 ? raise_fault(self, scan.outcome)
                            : scanned(&scan, objects_list(objects, entries, scan.count));
}

/* Counts the keys of a range, while other threads run. */
static PyObject *map_count(PyObject *object, PyObject *args) {
    Map *self = (Map *)object;
    unsigned long long first, below;
    uint64_t count = 0;
    nm_outcome outcome;
    Worker *worker = PyArg_ParseTuple(args, "KK", &first, &below) ? take(self) : NULL;
    if (!worker) {
        return NULL;
    }
    Py_BEGIN_ALLOW_THREADS
    outcome = count_of(&worker->handle, first, below, &count, &self->options);
    Py_END_ALLOW_THREADS
    put_back(self, worker);
    return outcome < 0 ? raise_fault(self, outcome) : PyLong_FromUnsignedLongLong(count);
}

/* Looks keys up, which are words in memory. Writes their objects, with references. */
static nm_outcome look_up(Map *self, Worker *worker, const uint64_t *keys, size_t count,
                          PyObject *other, PyObject **objects) {
    nm_map_lookup lookups[SCANNED];
    for (size_t at = 0; at < count; at++) {
        lookups[at] = (nm_map_lookup){.key = keys[at]};
    }
    nm_outcome outcome = get_many_of(&worker->handle, lookups, count, &self->options);
    for (size_t at = 0; at < count && outcome >= 0; at++) {
        objects[at] = lookups[at].found ? self->cells[lookups[at].value].object : other;
        Py_INCREF(objects[at]);
    }
    return outcome;
}

static PyObject *map_get_some(PyObject *object, PyObject *args) {
    Map *self = (Map *)object;
    Py_buffer keys;
    PyObject *other, *objects[SCANNED];
    if (!PyArg_ParseTuple(args, "y*O", &keys, &other)) {
        return NULL;
    }
    size_t count = (size_t)keys.len / sizeof(uint64_t);
    count = count < SCANNED ? count : SCANNED;
    Worker *worker = take(self);
    if (!worker) {
        PyBuffer_Release(&keys);
        return NULL;
    }
    nm_outcome outcome = look_up(self, worker, keys.buf, count, other, objects);
    put_back(self, worker);
    PyBuffer_Release(&keys);
    return outcome < 0 ? raise_fault(self, outcome) : objects_list(objects, NULL, count);
}

/* ---- of itself ---- */

static Py_ssize_t map_length(PyObject *object) {
    Map *self = (Map *)object;
    return is_open(self) ? (Py_ssize_t)self->keys : -1;
}

static PyObject *map_waiting(PyObject *object, PyObject *unused) {
    Map *self = (Map *)object;
    uint64_t waiting = 0;
    (void)unused;
    for (uint32_t number = 0; number < self->attached; number++) {
        waiting += self->workers[number].waiting;
    }
    return PyLong_FromUnsignedLongLong(waiting);
}

/* Appends the objects that a worker reclaims to a list. Returns -1 after an exception, else 0. */
static int append_reclaimed(Map *self, Worker *worker, PyObject *list) {
    PyObject *ended[ROOM];
    uint64_t count = ROOM;
    int result = 0;
    while (count == ROOM) {
        count = reclaim(self, worker, ended);
        for (uint64_t at = 0; at < count; at++) {
            result |= PyList_Append(list, ended[at]);
            Py_DECREF(ended[at]);
        }
    }
    return result;
}

/* Reclaims by each worker that is idle. Returns the objects, whose references are those that the
 * map had: they end with the list. */
static PyObject *map_reclaimed(PyObject *object, PyObject *unused) {
    Map *self = (Map *)object;
    PyObject *list = is_open(self) ? PyList_New(0) : NULL;
    int result = 0;
    (void)unused;
    for (uint32_t at = 0; list && at < self->idle; at++) {
        result |= append_reclaimed(self, &self->workers[self->stack[at]], list);
    }
    if (result < 0) {
        Py_CLEAR(list);
    }
    return list;
}

static PyObject *map_check_open(PyObject *self, PyObject *unused) {
    (void)unused;
    if (!is_open((Map *)self)) {
        return NULL;
    }
    Py_RETURN_NONE;
}

/* ---- workers for the tests ---- */

/* Takes a worker out of the idle ones, and returns its place. */
static PyObject *map_take(PyObject *object, PyObject *unused) {
    Worker *worker = take((Map *)object);
    (void)unused;
    return worker ? PyLong_FromSsize_t(worker - ((Map *)object)->workers) : NULL;
}

/* Returns the worker of a place, or NULL after an exception, such as if all workers are idle. */
static Worker *worker_at(Map *self, PyObject *place) {
    unsigned long at = PyLong_AsUnsignedLong(place);
    if (at < self->attached && self->idle < self->attached) {
        return &self->workers[at];
    }
    if (!PyErr_Occurred()) {
        PyErr_SetString(PyExc_IndexError, "no such worker was taken");
    }
    return NULL;
}

static PyObject *map_pin(PyObject *object, PyObject *place) {
    Map *self = (Map *)object;
    Worker *worker = worker_at(self, place);
    uint64_t epoch;
    if (!worker) {
        return NULL;
    }
    nm_outcome outcome = pin_of(&worker->handle, &self->options, &epoch);
    if (outcome < 0) {
        return raise_fault(self, outcome);
    }
    Py_RETURN_NONE;
}

/* Unpins a worker that was taken, if it is pinned, and returns it. */
static PyObject *map_put_back(PyObject *object, PyObject *place) {
    Worker *worker = worker_at((Map *)object, place);
    if (!worker) {
        return NULL;
    }
    (void)unpin_of(&worker->handle);
    put_back((Map *)object, worker);
    Py_RETURN_NONE;
}

/* ---- the beginning and the end ---- */

/* Takes memory for the workers and the cells. Returns NM_DONE or NM_NO_MEMORY. */
static nm_outcome take_memory(Map *self, uint32_t nodes) {
    self->workers = calloc(self->most_workers, sizeof(Worker));
    self->cells = calloc((size_t)nodes + 1, sizeof(Cell));
    return self->workers && self->cells ? NM_DONE : NM_NO_MEMORY;
}

/* Ends the map, and the references to all objects. Each worker is idle. In a forked child it does
 * nothing, because the objects are those of the parent. */
static void end(Map *self) {
    Cell *cells = self->cells;
    uint32_t used = self->used;
    if (self->is_forked) {
        return;
    }
    for (uint32_t number = 0; number < self->attached; number++) {
        (void)drop_of(&self->workers[number].handle);
    }
    (void)drop_of(&self->handle);
    free(self->workers);
    self->workers = NULL;
    self->cells = NULL;
    self->keys = self->used = self->attached = self->idle = self->is_open = 0;
    for (uint32_t at = 0; at < used; at++) {
        if (!is_free(cells[at])) {
            Py_DECREF(cells[at].object);
        }
    }
    free(cells);
}

static PyObject *map_begin(PyObject *object, PyObject *args) {
    Map *self = (Map *)object;
    unsigned nodes, workers;
    nm_options *options = &self->options;
    if (self->cells) {
        PyErr_SetString(PyExc_TypeError, "a map is made once");
        return NULL;
    }
    if (!PyArg_ParseTuple(args, "IIIIII", &nodes, &workers, &options->tries, &options->rounds,
                          &options->collect_after, &self->timeout_ms)) {
        return NULL;
    }
    self->most_workers = workers;
    self->free = NO_CELL;
    self->behind = NM_NOBODY;
    nm_outcome outcome = new_of(&self->handle, nodes, workers);
    if (outcome == NM_DONE) {
        outcome = take_memory(self, nodes);
    }
    if (outcome < 0) {
        end(self);
        return raise_fault(self, outcome);
    }
    self->is_open = 1;
    Py_RETURN_NONE;
}

/* Ends the map, if each worker is idle. Returns the outcome. */
static PyObject *map_end(PyObject *object, PyObject *unused) {
    Map *self = (Map *)object;
    int is_idle = self->idle == self->attached;
    (void)unused;
    if (is_idle) {
        end(self);
    }
    return PyLong_FromLong(is_idle ? NM_DONE : NM_IN_USE);
}

static PyObject *map_forget(PyObject *self, PyObject *unused) {
    (void)unused;
    ((Map *)self)->is_forked = 1;
    Py_RETURN_NONE;
}

/* Shows the collector of garbage each reference to an object. In a forked child it shows none, so
 * that no object of the parent is ended there. */
static int map_traverse(PyObject *object, visitproc visit, void *arg) {
    Map *self = (Map *)object;
    uint32_t used = self->is_forked ? 0 : self->used;
    Py_VISIT(Py_TYPE(object));
    for (uint32_t at = 0; at < used; at++) {
        if (!is_free(self->cells[at])) {
            Py_VISIT(self->cells[at].object);
        }
    }
    return 0;
}

/* Ends a map that only garbage refers to. No call is in progress. */
static int map_clear(PyObject *self) {
    end((Map *)self);
    return 0;
}

static void map_dealloc(PyObject *self) {
    PyTypeObject *type = Py_TYPE(self);
    freefunc give_back = (freefunc)PyType_GetSlot(type, Py_tp_free);
    PyObject_GC_UnTrack(self);
    end((Map *)self);
    give_back(self);
    Py_DECREF(type);
}

/* ---- the type ---- */

static PyMethodDef map_methods[] = {
    {"_begin", map_begin, METH_VARARGS, NULL},
    {"_change", map_change, METH_VARARGS, NULL},
    {"_check_open", map_check_open, METH_NOARGS, NULL},
    {"_count", map_count, METH_VARARGS, NULL},
    {"_end", map_end, METH_NOARGS, NULL},
    {"_forget", map_forget, METH_NOARGS, NULL},
    {"_get", map_get_or_missing, METH_O, NULL},
    {"_get_some", map_get_some, METH_VARARGS, NULL},
    {"_nearest", map_nearest, METH_VARARGS, NULL},
    {"_pin", map_pin, METH_O, NULL},
    {"_pop", map_pop, METH_O, NULL},
    {"_pop_from", map_pop_from, METH_VARARGS, NULL},
    {"_put_back", map_put_back, METH_O, NULL},
    {"_reclaimed", map_reclaimed, METH_NOARGS, NULL},
    {"_remove_if", map_remove_if, METH_VARARGS, NULL},
    {"_scan", map_scan, METH_VARARGS, NULL},
    {"_scan_items", map_scan_items, METH_VARARGS, NULL},
    {"_take", map_take, METH_NOARGS, NULL},
    {"_waiting", map_waiting, METH_NOARGS, NULL},
    {"get", (PyCFunction)(void (*)(void))map_get, METH_FASTCALL | METH_KEYWORDS,
     "get($self, key, default=None)\n--\n\nReturns the object of a key, or the default."},
    {NULL, NULL, 0, NULL},
};

static PyMemberDef map_members[] = {
    {"_behind", T_UINT, offsetof(Map, behind), READONLY, NULL},
    {"_is_forked", T_BOOL, offsetof(Map, is_forked), READONLY, NULL},
    {"_is_open", T_BOOL, offsetof(Map, is_open), 0, NULL},
    {"_keys", T_ULONGLONG, offsetof(Map, keys), READONLY, NULL},
    {"_waits", T_UINT, offsetof(Map, waits), 0, NULL},
    {NULL, 0, 0, 0, NULL},
};

static PyType_Slot map_slots[] = {
    {Py_tp_dealloc, map_dealloc},
    {Py_tp_traverse, map_traverse},
    {Py_tp_clear, map_clear},
    {Py_tp_methods, map_methods},
    {Py_tp_members, map_members},
    {Py_mp_subscript, map_subscript},
    {Py_mp_ass_subscript, map_assign},
    {Py_mp_length, map_length},
    {Py_sq_contains, map_contains},
    {0, NULL},
};

PyType_Spec map_spec = {
    "nm_set._native.MapCalls", sizeof(Map), 0,
    Py_TPFLAGS_DEFAULT | Py_TPFLAGS_BASETYPE | Py_TPFLAGS_HAVE_GC, map_slots,
};

/* Where the address of each function is stored. */
static const struct {
    const char *name;
    void *to;
} functions[] = {
    {"nm_map_new", &new_of},
    {"nm_drop", &drop_of},
    {"nm_map_wait_attach", &attach_of},
    {"nm_map_hold", &pin_of},
    {"nm_map_unpin", &unpin_of},
    {"nm_map_get", &get_of},
    {"nm_map_get_many", &get_many_of},
    {"nm_map_insert", &insert_of},
    {"nm_map_put", &put_of},
    {"nm_map_replace", &replace_of},
    {"nm_map_compare_replace", &compare_replace_of},
    {"nm_map_remove", &remove_of},
    {"nm_map_remove_if", &remove_if_of},
    {"nm_map_pop_first_below", &pop_first_of},
    {"nm_map_pop_last_from", &pop_last_of},
    {"nm_map_at_least", &at_least_of},
    {"nm_map_at_most", &at_most_of},
    {"nm_map_read_keys", &keys_of},
    {"nm_map_read_keys_back", &keys_back_of},
    {"nm_map_read_entries", &items_of},
    {"nm_map_read_entries_back", &items_back_of},
    {"nm_map_count", &count_of},
    {"nm_map_reclaim", &reclaim_of},
    {"nm_map_queue_len", &queue_len_of},
};

PyObject *bind_map(PyObject *module, PyObject *args) {
    PyObject *address_of;
    (void)module;
    if (!PyArg_ParseTuple(args, "OOO", &address_of, &missing, &number_of_other)) {
        return NULL;
    }
    for (size_t at = 0; at < sizeof functions / sizeof *functions; at++) {
        PyObject *number = PyObject_CallFunction(address_of, "s", functions[at].name);
        void *address = number ? PyLong_AsVoidPtr(number) : NULL;
        Py_XDECREF(number);
        if (!address) {
            return NULL;
        }
        memcpy(functions[at].to, &address, sizeof address);
    }
    Py_INCREF(missing);
    Py_INCREF(number_of_other);
    Py_RETURN_NONE;
}
