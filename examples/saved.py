"""Saves a map to a file while a thread changes it, and makes a map of the file.

`copy` returns a dict of Python, which can be pickled, and of which a map can be made. It takes no
snapshot: the file has each key that stays in the map meanwhile, once and with its object. A key that
is inserted or removed meanwhile may be in the file or not.
"""

import pickle
import tempfile
import threading

import nm_set

found = nm_set.Map({key: key / 3 for key in range(0, 20_000, 2)})
is_over = threading.Event()


def change() -> None:
    while not is_over.is_set():
        for key in range(1, 20_000, 200):
            if not found.insert(key, 0.0):
                found.pop(key)


changes = threading.Thread(target=change)
changes.start()
with tempfile.TemporaryFile() as file:
    pickle.dump(found.copy(), file)
    is_over.set()
    changes.join()
    file.seek(0)
    loaded = nm_set.Map(pickle.load(file))
for each in (found, loaded):
    each.retain(lambda key, _: key % 2 == 0)
print(f"{len(loaded)} entries stayed; equal: {found == loaded:d}, {loaded[19_998]:g}")
