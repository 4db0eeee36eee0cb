/* The calls for the keys of a set in C: the calls that _calls.py makes by ctypes, with the same
 * names and meanings; and what gives up a pool or a worker when its owner ends. _native_map.c has
 * the calls of a map.
 *
 * _library.py finds the library, and gives the addresses of its functions to `bind`. A call for one
 * key is first made without a wait, in which other threads of Python wait. A call for several keys,
 * and a call that waits, let them go on. No step of Python runs in the middle of a call here, and
 * so no signal handler does, except between two parts of a wait.
 */
#include "_native.h"

#include <time.h>

#define SEVERAL 64   /* the number of keys that one call of the library looks up */
#define SOME 4096    /* the most keys of one call of a method named `.._some` */
#define SCANNED 1024 /* the most keys of one scan */
#define PART 20u     /* milliseconds: the longest part of a wait */

typedef nm_outcome (*key_call)(nm_pool *, uint32_t, uint64_t, uint32_t);
typedef nm_outcome (*pop_call)(nm_pool *, uint32_t, uint64_t *, uint32_t);
typedef nm_outcome (*pop_many_call)(nm_pool *, uint32_t, uint64_t, uint64_t *, size_t, size_t *,
                                    uint32_t);
typedef nm_outcome (*near_call)(nm_pool *, uint32_t, uint64_t, uint64_t *, uint32_t);
typedef nm_outcome (*scan_call)(nm_pool *, uint32_t, uint64_t, uint64_t, uint64_t *, size_t,
                                size_t *, uint64_t *, uint32_t);
typedef nm_outcome (*count_call)(nm_pool *, uint32_t, uint64_t, uint64_t, uint64_t *, uint32_t);
typedef nm_outcome (*many_call)(nm_pool *, uint32_t, nm_lookup *, size_t, uint32_t);
typedef nm_outcome (*change_call)(nm_pool *, uint32_t, const uint64_t *, size_t, unsigned char *,
                                  size_t *, uint32_t);
typedef nm_outcome (*size_call)(nm_pool *, uint64_t *);
typedef nm_outcome (*drop_call)(nm_handle *);
typedef nm_outcome (*detach_call)(nm_pool *, uint32_t *, uint32_t);
typedef void (*free_call)(nm_pool *);

static key_call contains_of, insert_of, remove_of;
static pop_call pop_first_of, pop_last_of;
static near_call next_of, prev_of, pop_first_below_of, pop_last_from_of;
static pop_many_call pop_first_many_of;
static scan_call scan_of, scan_back_of;
static count_call count_of;
static many_call contains_many_of;
static change_call insert_many_of, remove_many_of;
static size_call size_of;
static drop_call drop_of;
static detach_call detach_of;
static free_call free_of;

/* The functions of _faults.py that make the exceptions. */
static PyObject *fault_of, *key_fault_of;

/* A pool, and the number of a worker there or NM_ANY. Both are in memory of ctypes. */
typedef struct {
    PyObject_HEAD
    PyObject *cell;
    Py_buffer pool, worker;
    uint32_t timeout_ms;
} Calls;

static nm_pool *pool_of(Calls *self) { return *(nm_pool **)self->pool.buf; }

static uint32_t worker_of(Calls *self) { return *(uint32_t *)self->worker.buf; }

PyObject *raise_made(PyObject *made) {
    if (made) {
        PyErr_SetObject((PyObject *)Py_TYPE(made), made);
        Py_DECREF(made);
    }
    return NULL;
}

/* Raises the exception of a call that failed, and returns NULL. */
static PyObject *raise_fault(Calls *self, nm_outcome outcome) {
    return raise_made(PyObject_CallFunction(fault_of, "iOI", (int)outcome, self->cell,
                                            (unsigned)worker_of(self)));
}

int key_of(PyObject *object, uint64_t *key) {
    PyObject *number = PyNumber_Index(object);
    if (!number) {
        return -1;
    }
    *key = PyLong_AsUnsignedLongLong(number);
    if (PyErr_Occurred()) {
        if (!PyErr_ExceptionMatches(PyExc_OverflowError)) {
            Py_DECREF(number);
            return -1;
        }
        PyErr_Clear();
        *key = UINT64_MAX;
    }
    int is_key = *key <= MOST_KEY;
    if (!is_key) {
        raise_made(PyObject_CallFunctionObjArgs(key_fault_of, number, NULL));
    }
    Py_DECREF(number);
    return is_key ? 0 : -1;
}

/* ---- a call, and how it waits ---- */

/* A call of the pool: one of these functions, with what it takes and writes. */
typedef struct {
    key_call by_key;
    near_call near;
    pop_call pop;
    scan_call scan;
    count_call count;
    pop_many_call pop_many;
    uint64_t key, below, found;
    uint64_t *keys;
    size_t room, written;
} Call;

static nm_outcome make(Calls *self, Call *call, uint32_t timeout_ms) {
    if (call->by_key) {
        return call->by_key(pool_of(self), worker_of(self), call->key, timeout_ms);
    }
    if (call->near) {
        return call->near(pool_of(self), worker_of(self), call->key, &call->found, timeout_ms);
    }
    if (call->scan) {
        return call->scan(pool_of(self), worker_of(self), call->key, call->below, call->keys,
                          call->room, &call->written, &call->found, timeout_ms);
    }
    if (call->pop_many) {
        return call->pop_many(pool_of(self), worker_of(self), call->below, call->keys, call->room,
                              &call->written, timeout_ms);
    }
    if (call->count) {
        return call->count(pool_of(self), worker_of(self), call->key, call->below, &call->found,
                           timeout_ms);
    }
    return call->pop(pool_of(self), worker_of(self), &call->found, timeout_ms);
}

static int is_to_wait(nm_outcome outcome) {
    return outcome == NM_FULL || outcome == NM_IN_USE || outcome == NM_NO_WORKER;
}

uint64_t now(void) {
    struct timespec time = {0, 0};
    clock_gettime(CLOCK_MONOTONIC, &time);
    return (uint64_t)time.tv_sec * 1000000000u + (uint64_t)time.tv_nsec;
}

/* Returns the milliseconds of the next part of a wait: as many as are left, but not too many. */
static uint32_t part_of(uint64_t begun, uint64_t end) {
    uint64_t left = begun < end ? (end - begun + 999999u) / 1000000u : 0;
    return left < PART ? (uint32_t)left : PART;
}

/* Makes a call in parts until its time is over. Other threads run meanwhile, and the handlers of
 * signals between two parts. A part that ends before its time has its final outcome: the keys of a
 * full set take all nodes. Returns -1 after an exception, else 0. */
static int make_later(Calls *self, Call *call, nm_outcome *outcome) {
    uint64_t begun = now(), end = begun + self->timeout_ms * (uint64_t)1000000;
    int is_late = 1;
    while (is_to_wait(*outcome) && is_late && begun < end) {
        uint32_t part = part_of(begun, end);
        if (PyErr_CheckSignals() < 0) {
            return -1;
        }
        Py_BEGIN_ALLOW_THREADS
        *outcome = make(self, call, part);
        Py_END_ALLOW_THREADS
        is_late = now() - begun >= part * (uint64_t)1000000;
        begun = now();
    }
    return 0;
}

/* Makes a call, and writes its outcome. Returns -1 after an exception, else 0. */
static int made(Calls *self, Call *call, nm_outcome *outcome) {
    *outcome = make(self, call, 0);
    return is_to_wait(*outcome) ? make_later(self, call, outcome) : 0;
}

/* Makes a call for several keys, in which other threads run from the beginning. */
static int made_apart(Calls *self, Call *call, nm_outcome *outcome) {
    Py_BEGIN_ALLOW_THREADS
    *outcome = make(self, call, 0);
    Py_END_ALLOW_THREADS
    return is_to_wait(*outcome) ? make_later(self, call, outcome) : 0;
}

static PyObject *by_key(PyObject *object, PyObject *key, key_call by_key) {
    Calls *self = (Calls *)object;
    Call call = {.by_key = by_key};
    nm_outcome outcome;
    if (key_of(key, &call.key) < 0 || made(self, &call, &outcome) < 0) {
        return NULL;
    }
    return outcome < 0 ? raise_fault(self, outcome) : PyBool_FromLong(outcome != NM_NO);
}

static PyObject *calls_contains(PyObject *self, PyObject *key) {
    return by_key(self, key, contains_of);
}

static PyObject *calls_add(PyObject *self, PyObject *key) { return by_key(self, key, insert_of); }

static PyObject *calls_remove(PyObject *self, PyObject *key) {
    return by_key(self, key, remove_of);
}

/* Makes a call that writes a key; returns the key, or None after NM_NO. It returns a key whose
 * remove is unfinished too: this call will remove it, and no other call will. */
static PyObject *found_by(Calls *self, Call *call) {
    nm_outcome outcome;
    if (made(self, call, &outcome) < 0) {
        return NULL;
    }
    if (outcome < 0 && outcome != NM_UNFINISHED) {
        return raise_fault(self, outcome);
    }
    if (outcome == NM_NO) {
        Py_RETURN_NONE;
    }
    return PyLong_FromUnsignedLongLong(call->found);
}

static PyObject *nearest(PyObject *self, PyObject *key, near_call near) {
    Call call = {.near = near};
    return key_of(key, &call.key) < 0 ? NULL : found_by((Calls *)self, &call);
}

static PyObject *calls_at_least(PyObject *self, PyObject *key) {
    return nearest(self, key, next_of);
}

static PyObject *calls_at_most(PyObject *self, PyObject *key) {
    return nearest(self, key, prev_of);
}

static PyObject *calls_pop_first(PyObject *self, PyObject *unused) {
    Call call = {.pop = pop_first_of};
    (void)unused;
    return found_by((Calls *)self, &call);
}

static PyObject *calls_pop_last(PyObject *self, PyObject *unused) {
    Call call = {.pop = pop_last_of};
    (void)unused;
    return found_by((Calls *)self, &call);
}

/* Makes a call that removes a key on one side of a bound, which is a number below 2^64. */
static PyObject *pop_by(PyObject *self, PyObject *bound, near_call pop) {
    Call call = {.near = pop, .key = PyLong_AsUnsignedLongLong(bound)};
    return PyErr_Occurred() ? NULL : found_by((Calls *)self, &call);
}

static PyObject *calls_pop_first_below(PyObject *self, PyObject *below) {
    return pop_by(self, below, pop_first_below_of);
}

static PyObject *calls_pop_last_from(PyObject *self, PyObject *least) {
    return pop_by(self, least, pop_last_from_of);
}

static PyObject *calls_keys(PyObject *object, PyObject *unused) {
    Calls *self = (Calls *)object;
    uint64_t keys = 0;
    nm_outcome outcome = size_of(pool_of(self), &keys);
    (void)unused;
    return outcome < 0 ? raise_fault(self, outcome) : PyLong_FromUnsignedLongLong(keys);
}

/* ---- several keys ---- */

PyObject *list_of(const uint64_t *keys, size_t count) {
    PyObject *list = PyList_New((Py_ssize_t)count);
    for (size_t at = 0; list && at < count; at++) {
        PyObject *key = PyLong_FromUnsignedLongLong(keys[at]);
        if (!key || PyList_SetItem(list, (Py_ssize_t)at, key) < 0) {
            Py_DECREF(list);
            return NULL;
        }
    }
    return list;
}

static PyObject *calls_scan(PyObject *object, PyObject *args) {
    Calls *self = (Calls *)object;
    unsigned long long first, below;
    Py_ssize_t room;
    int is_back;
    nm_outcome outcome;
    uint64_t keys[SCANNED];
    if (!PyArg_ParseTuple(args, "KKnp", &first, &below, &room, &is_back)) {
        return NULL;
    }
    Call call = {.scan = scan_of, .key = first, .below = below};
    if (is_back) {
        call = (Call){.scan = scan_back_of, .key = below, .below = first};
    }
    call.keys = keys;
    call.room = room > 0 && room < SCANNED ? (size_t)room : SCANNED;
    if (made_apart(self, &call, &outcome) < 0) {
        return NULL;
    }
    if (outcome < 0) {
        return raise_fault(self, outcome);
    }
    PyObject *list = list_of(call.keys, call.written);
    if (!list) {
        return NULL;
    }
    return outcome == NM_YES ? Py_BuildValue("NK", list, (unsigned long long)call.found)
                             : Py_BuildValue("NO", list, Py_None);
}

static PyObject *calls_pop_some(PyObject *object, PyObject *args) {
    Calls *self = (Calls *)object;
    unsigned long long below;
    Py_ssize_t room;
    nm_outcome outcome;
    uint64_t keys[SCANNED];
    if (!PyArg_ParseTuple(args, "Kn", &below, &room)) {
        return NULL;
    }
    Call call = {.pop_many = pop_first_many_of, .below = below, .keys = keys};
    call.room = room > 0 && room < SCANNED ? (size_t)room : SCANNED;
    if (made_apart(self, &call, &outcome) < 0) {
        return NULL;
    }
    return outcome < 0 ? raise_fault(self, outcome) : list_of(call.keys, call.written);
}

static PyObject *calls_count(PyObject *object, PyObject *args) {
    Calls *self = (Calls *)object;
    unsigned long long first, below;
    nm_outcome outcome;
    if (!PyArg_ParseTuple(args, "KK", &first, &below)) {
        return NULL;
    }
    Call call = {.count = count_of, .key = first, .below = below};
    if (made_apart(self, &call, &outcome) < 0) {
        return NULL;
    }
    return outcome < 0 ? raise_fault(self, outcome) : PyLong_FromUnsignedLongLong(call.found);
}

/* Keys in a buffer, from an index on, and how many there are. */
typedef struct {
    Py_buffer buffer;
    const uint64_t *from;
    Py_ssize_t first, count;
} Keys;

static int keys_of(PyObject *object, Py_ssize_t first, Keys *keys) {
    if (PyObject_GetBuffer(object, &keys->buffer, PyBUF_SIMPLE) < 0) {
        return -1;
    }
    Py_ssize_t count = keys->buffer.len / (Py_ssize_t)sizeof(uint64_t) - first;
    if (first < 0 || count < 0) {
        PyBuffer_Release(&keys->buffer);
        PyErr_SetString(PyExc_IndexError, "there are no keys from that index on");
        return -1;
    }
    keys->from = (const uint64_t *)keys->buffer.buf + first;
    keys->first = first;
    keys->count = count < SOME ? count : SOME;
    return 0;
}

/* What a thread does with keys while other threads go on. It writes its answer for each key to
 * `answers`. */
typedef struct {
    unsigned char *answers;
    Py_ssize_t done, changed;
    nm_outcome outcome;
} Work;

/* Keys that one call of the library looks up. */
typedef struct {
    nm_lookup each[SEVERAL];
    Py_ssize_t count;
} Group;

/* Takes a group of keys, and looks it up. */
static nm_outcome look_up(Calls *self, const Keys *keys, Py_ssize_t first, Group *group,
                          uint32_t timeout_ms) {
    Py_ssize_t left = keys->count - first;
    group->count = left < SEVERAL ? left : SEVERAL;
    for (Py_ssize_t at = 0; at < group->count; at++) {
        group->each[at].key = keys->from[first + at];
        group->each[at].found = 0;
    }
    return contains_many_of(pool_of(self), worker_of(self), group->each, (size_t)group->count,
                            timeout_ms);
}

static void look_up_each(Calls *self, const Keys *keys, Work *work, uint32_t timeout_ms) {
    Group group;
    work->done = 0;
    do {
        work->outcome = look_up(self, keys, work->done, &group, timeout_ms);
        if (work->outcome < 0) {
            return;
        }
        for (Py_ssize_t at = 0; at < group.count; at++) {
            work->answers[work->done + at] = group.each[at].found != 0;
        }
        work->done += group.count;
    } while (work->done < keys->count);
}

/* Gets the buffer of answers, which must have room for the answers of these keys. Returns -1 after
 * an exception, else 0. */
static int answers_of(PyObject *object, const Keys *keys, Py_buffer *answers) {
    if (PyObject_GetBuffer(object, answers, PyBUF_WRITABLE) < 0) {
        return -1;
    }
    if (answers->len < keys->first + keys->count) {
        PyBuffer_Release(answers);
        PyErr_SetString(PyExc_IndexError, "there is no room for the answers");
        return -1;
    }
    return 0;
}

/* Adds or removes some of these keys while other threads run, without a wait. */
static void change_each(Calls *self, const Keys *keys, change_call call, Work *work) {
    size_t done = 0;
    Py_BEGIN_ALLOW_THREADS
    work->outcome = call(pool_of(self), worker_of(self), keys->from, (size_t)keys->count,
                         work->answers, &done, 0);
    Py_END_ALLOW_THREADS
    work->done = (Py_ssize_t)done;
    for (Py_ssize_t at = 0; at < work->done; at++) {
        work->changed += work->answers[at];
    }
}

static PyObject *change_some(Calls *self, PyObject *args, change_call call) {
    PyObject *object, *out;
    Py_ssize_t first;
    Keys keys;
    Py_buffer answers;
    unsigned char own[SOME];
    Work work = {.answers = own};
    if (!PyArg_ParseTuple(args, "OnO", &object, &first, &out) ||
        keys_of(object, first, &keys) < 0) {
        return NULL;
    }
    if (out != Py_None) {
        if (answers_of(out, &keys, &answers) < 0) {
            PyBuffer_Release(&keys.buffer);
            return NULL;
        }
        work.answers = (unsigned char *)answers.buf + first;
    }
    change_each(self, &keys, call, &work);
    PyBuffer_Release(&keys.buffer);
    if (out != Py_None) {
        PyBuffer_Release(&answers);
    }
    return Py_BuildValue("nni", work.done, work.changed, (int)work.outcome);
}

static PyObject *calls_add_some(PyObject *self, PyObject *args) {
    return change_some((Calls *)self, args, insert_many_of);
}

static PyObject *calls_remove_some(PyObject *self, PyObject *args) {
    return change_some((Calls *)self, args, remove_many_of);
}

/* Looks keys up while other threads run. If no worker is free, it waits in parts, as a call for one
 * key does. Returns -1 after an exception, else 0. */
static int look_up_some(Calls *self, const Keys *keys, Work *work) {
    uint64_t begun = now(), end = begun + self->timeout_ms * (uint64_t)1000000;
    uint32_t part = 0;
    do {
        Py_BEGIN_ALLOW_THREADS
        look_up_each(self, keys, work, part);
        Py_END_ALLOW_THREADS
        if (PyErr_CheckSignals() < 0) {
            return -1;
        }
        begun = now();
        part = part_of(begun, end);
    } while (!work->done && is_to_wait(work->outcome) && begun < end);
    return 0;
}

static PyObject *calls_contains_some(PyObject *object, PyObject *args) {
    Calls *self = (Calls *)object;
    PyObject *asked, *out;
    Py_ssize_t first;
    Keys keys;
    Py_buffer answers;
    Work work = {.outcome = NM_DONE};
    if (!PyArg_ParseTuple(args, "OnO", &asked, &first, &out) || keys_of(asked, first, &keys) < 0) {
        return NULL;
    }
    if (answers_of(out, &keys, &answers) < 0) {
        PyBuffer_Release(&keys.buffer);
        return NULL;
    }
    work.answers = (unsigned char *)answers.buf + first;
    int told = look_up_some(self, &keys, &work);
    PyBuffer_Release(&keys.buffer);
    PyBuffer_Release(&answers);
    if (told < 0) {
        return NULL;
    }
    if (work.outcome < 0 && !work.done) {
        return raise_fault(self, work.outcome);
    }
    return PyLong_FromSsize_t(work.done);
}

/* ---- the type, and the module ---- */

/* Gets the memory of a value of ctypes of a size. Returns -1 after an exception, else 0. */
static int memory_of(PyObject *object, size_t size, Py_buffer *memory) {
    if (PyObject_GetBuffer(object, memory, PyBUF_WRITABLE) < 0) {
        memory->buf = NULL;
        return -1;
    }
    if ((size_t)memory->len == size) {
        return 0;
    }
    PyErr_SetString(PyExc_TypeError, "that is no pool, or no number of a worker");
    return -1;
}

static PyObject *calls_new(PyTypeObject *type, PyObject *args, PyObject *named) {
    PyObject *pool, *worker;
    unsigned timeout_ms;
    (void)named;
    if (!PyArg_ParseTuple(args, "OOI", &pool, &worker, &timeout_ms)) {
        return NULL;
    }
    allocfunc alloc = (allocfunc)PyType_GetSlot(type, Py_tp_alloc);
    Calls *self = (Calls *)alloc(type, 0);
    if (!self) {
        return NULL;
    }
    Py_INCREF(pool);
    self->cell = pool;
    self->timeout_ms = timeout_ms;
    if (memory_of(pool, sizeof(nm_pool *), &self->pool) < 0 ||
        memory_of(worker, sizeof(uint32_t), &self->worker) < 0) {
        Py_DECREF(self);
        return NULL;
    }
    return (PyObject *)self;
}

static void calls_dealloc(PyObject *object) {
    Calls *self = (Calls *)object;
    PyTypeObject *type = Py_TYPE(object);
    freefunc give_back = (freefunc)PyType_GetSlot(type, Py_tp_free);
    if (self->pool.buf) {
        PyBuffer_Release(&self->pool);
    }
    if (self->worker.buf) {
        PyBuffer_Release(&self->worker);
    }
    Py_XDECREF(self->cell);
    give_back(object);
    Py_DECREF(type);
}

static PyMethodDef calls_methods[] = {
    {"contains", calls_contains, METH_O, NULL},
    {"add", calls_add, METH_O, NULL},
    {"remove", calls_remove, METH_O, NULL},
    {"at_least", calls_at_least, METH_O, NULL},
    {"at_most", calls_at_most, METH_O, NULL},
    {"pop_first", calls_pop_first, METH_NOARGS, NULL},
    {"pop_last", calls_pop_last, METH_NOARGS, NULL},
    {"pop_first_below", calls_pop_first_below, METH_O, NULL},
    {"pop_last_from", calls_pop_last_from, METH_O, NULL},
    {"pop_some", calls_pop_some, METH_VARARGS, NULL},
    {"scan", calls_scan, METH_VARARGS, NULL},
    {"count", calls_count, METH_VARARGS, NULL},
    {"contains_some", calls_contains_some, METH_VARARGS, NULL},
    {"add_some", calls_add_some, METH_VARARGS, NULL},
    {"remove_some", calls_remove_some, METH_VARARGS, NULL},
    {"keys", calls_keys, METH_NOARGS, NULL},
    {NULL, NULL, 0, NULL},
};

static PyType_Slot calls_slots[] = {
    {Py_tp_new, calls_new},
    {Py_tp_dealloc, calls_dealloc},
    {Py_tp_methods, calls_methods},
    {0, NULL},
};

static PyType_Spec calls_spec = {
    "nm_set._native.Calls", sizeof(Calls), 0, Py_TPFLAGS_DEFAULT, calls_slots,
};

static PyObject *first_wrong(PyObject *module, PyObject *args) {
    PyObject *object;
    int is_signed;
    Keys keys;
    (void)module;
    if (!PyArg_ParseTuple(args, "Op", &object, &is_signed) || keys_of(object, 0, &keys) < 0) {
        return NULL;
    }
    uint64_t most = is_signed ? INT64_MAX : MOST_KEY;
    Py_ssize_t count = keys.buffer.len / (Py_ssize_t)sizeof(uint64_t), at = 0;
    while (at < count && keys.from[at] <= most) {
        at++;
    }
    PyBuffer_Release(&keys.buffer);
    return PyLong_FromSsize_t(at < count ? at : -1);
}

/* Returns for each byte whether it is not 0. */
static PyObject *answers(PyObject *module, PyObject *object) {
    Py_buffer found;
    (void)module;
    if (PyObject_GetBuffer(object, &found, PyBUF_SIMPLE) < 0) {
        return NULL;
    }
    const unsigned char *bytes = found.buf;
    PyObject *list = PyList_New(found.len);
    for (Py_ssize_t at = 0; list && at < found.len; at++) {
        PyList_SetItem(list, at, PyBool_FromLong(bytes[at]));
    }
    PyBuffer_Release(&found);
    return list;
}

/* ---- what is given up when its owner ends ---- */

#define LONGEST 10000u /* milliseconds: how long the end of a worker waits for a call by it */

static PyObject *parts_name; /* "parts" */

/* Returns the address that a part of a lease is, which may be NULL. */
static void *address_of(PyObject *parts, Py_ssize_t number) {
    return PyLong_AsVoidPtr(PyTuple_GetItem(parts, number));
}

/* The callback of a lease (_leases.py), with the addresses of a handle, a pool and a worker, 0 for
 * what there is not, and the set of all leases as its parts. It gives them up, and forgets the
 * lease. It takes no memory, so that an owner may end while memory is refused. */
static PyObject *give_up(PyObject *module, PyObject *lease) {
    PyObject *parts = PyObject_GetAttr(lease, parts_name);
    (void)module;
    if (!parts) {
        return NULL;
    }
    nm_handle *handle = address_of(parts, 0);
    nm_pool **pool = address_of(parts, 1);
    uint32_t *worker = address_of(parts, 2);
    Py_BEGIN_ALLOW_THREADS
    if (worker) {
        (void)detach_of(*pool, worker, LONGEST);
    } else if (pool) {
        free_of(*pool);
    }
    if (handle) {
        (void)drop_of(handle);
    }
    Py_END_ALLOW_THREADS
    Py_INCREF(lease);
    int is_forgotten = PySet_Discard(PyTuple_GetItem(parts, 3), lease) >= 0;
    Py_DECREF(lease);
    Py_DECREF(parts);
    if (!is_forgotten) {
        return NULL;
    }
    Py_RETURN_NONE;
}

/* Stores the addresses of the library's functions, and the functions that make the exceptions. */
static PyObject *bind(PyObject *module, PyObject *args) {
    unsigned long long contains, insert, remove, pop_first, pop_last, next, prev;
    unsigned long long pop_first_below, pop_last_from, pop_first_many;
    unsigned long long scan, scan_back, count, many, insert_many, remove_many, size;
    unsigned long long detach, free, drop;
    (void)module;
    parts_name = PyUnicode_InternFromString("parts");
    if (!parts_name ||
        !PyArg_ParseTuple(args, "KKKKKKKKKKKKKKKKKKKKOO", &contains, &insert, &remove, &pop_first,
                          &pop_last, &next, &prev, &pop_first_below, &pop_last_from,
                          &pop_first_many, &scan, &scan_back, &count, &many,
                          &insert_many, &remove_many, &size, &detach, &free, &drop, &fault_of,
                          &key_fault_of)) {
        return NULL;
    }
    contains_of = (key_call)(uintptr_t)contains;
    insert_of = (key_call)(uintptr_t)insert;
    remove_of = (key_call)(uintptr_t)remove;
    pop_first_of = (pop_call)(uintptr_t)pop_first;
    pop_last_of = (pop_call)(uintptr_t)pop_last;
    next_of = (near_call)(uintptr_t)next;
    prev_of = (near_call)(uintptr_t)prev;
    pop_first_below_of = (near_call)(uintptr_t)pop_first_below;
    pop_last_from_of = (near_call)(uintptr_t)pop_last_from;
    pop_first_many_of = (pop_many_call)(uintptr_t)pop_first_many;
    scan_of = (scan_call)(uintptr_t)scan;
    scan_back_of = (scan_call)(uintptr_t)scan_back;
    count_of = (count_call)(uintptr_t)count;
    contains_many_of = (many_call)(uintptr_t)many;
    insert_many_of = (change_call)(uintptr_t)insert_many;
    remove_many_of = (change_call)(uintptr_t)remove_many;
    size_of = (size_call)(uintptr_t)size;
    detach_of = (detach_call)(uintptr_t)detach;
    free_of = (free_call)(uintptr_t)free;
    drop_of = (drop_call)(uintptr_t)drop;
    Py_INCREF(fault_of);
    Py_INCREF(key_fault_of);
    Py_RETURN_NONE;
}

static PyMethodDef functions[] = {
    {"answers", answers, METH_O, NULL},
    {"bind", bind, METH_VARARGS, NULL},
    {"bind_map", bind_map, METH_VARARGS, NULL},
    {"first_wrong", first_wrong, METH_VARARGS, NULL},
    {"give_up", give_up, METH_O, NULL},
    {NULL, NULL, 0, NULL},
};

/* Returns whether this is the first interpreter of the process, and otherwise sets an exception.
 * The module keeps its exceptions for the whole process: a second interpreter would replace those
 * of the first. */
static int is_first_interpreter(void) {
    if (PyInterpreterState_GetID(PyInterpreterState_Get()) == 0) {
        return 1;
    }
    PyErr_SetString(PyExc_ImportError,
                    "nm_set can be imported by the first interpreter of a process alone, and this"
                    " is another one: use processes or threads in place of subinterpreters");
    return 0;
}

/* Adds a type to the module. Returns -1 after an exception, else 0. */
static int add_type(PyObject *module, const char *name, PyType_Spec *spec) {
    PyObject *type = PyType_FromSpec(spec);
    int result = type ? PyObject_SetAttrString(module, name, type) : -1;
    Py_XDECREF(type);
    return result;
}

/* Fills the module, for each interpreter that imports it. */
static int fill(PyObject *module) {
    return is_first_interpreter() && add_type(module, "Calls", &calls_spec) == 0 &&
                   add_type(module, "MapCalls", &map_spec) == 0
               ? 0
               : -1;
}

static PyModuleDef_Slot slots[] = {
    {Py_mod_exec, fill},
    {0, NULL},
};

static struct PyModuleDef definition = {
    PyModuleDef_HEAD_INIT, "nm_set._native", NULL, 0, functions, slots, NULL, NULL, NULL,
};

PyMODINIT_FUNC PyInit__native(void) { return PyModuleDef_Init(&definition); }
