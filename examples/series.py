"""Time series: threads append points to several series, a reader computes over ranges of time
meanwhile, and old points are removed.

A key is a series and a time. So the points of a series are one range of the map, ascending, and a
part of them is a view that keeps its bounds.
"""

from concurrent.futures import ThreadPoolExecutor
from statistics import fmean

import nm_set

LENGTH = 10_000  # points of a series

points: nm_set.MapOf = nm_set.MapOf(nm_set.pairs(16, 48), 4 * 4 * LENGTH)


def append(series: int) -> None:
    """Appends the points of a series, one each second: its number and a part of a cycle of 60
    seconds."""
    for time in range(LENGTH):
        points.insert((series, time), series + time % 60 / 60)


def between(series: int, first: int, below: int) -> nm_set.SubMap:
    """Returns a view of the points of a series that are not before a time and are before another
    one."""
    return points.sub_map((series, first), (series, below), (True, False))


with ThreadPoolExecutor() as threads:
    writers = [threads.submit(append, series) for series in range(1, 5)]
    while not all(writer.done() for writer in writers):
        assert all(2 <= value < 3 for value in between(2, 0, LENGTH).values())
    assert all(writer.result() is None for writer in writers)

third = between(3, 0, LENGTH)
print(f"{len(third)} points of series 3, the last at {third.last()[0][1]}")
print(f"the mean of a minute is {fmean(between(3, 600, 660).values()):g}")
(_, time), value = between(3, 0, 1_000).last()  # the point before a time
print(f"before 1000: {value:g} at {time}")
last = [str(time) for _, time in reversed(between(3, LENGTH - 3, LENGTH).keys())]
print(f"the last three, in descending order: {' '.join(last)}")
removed = between(3, 0, LENGTH - 100).discard_range()
print(f"removed {removed}, left {len(third)}")
