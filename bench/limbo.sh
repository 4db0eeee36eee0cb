#!/bin/sh
# Passes 10,000,000 items, or the number of the argument, through a BlockQueue and through a
# VecDeque, each of which always has 900 items. It does so three times, and prints the times. Fails
# if the queue took more than twice the deque's time.
set -e
cd "$(dirname "$0")"
./program set_bench "${1:-10000000}" 0 1 16 1 1 2>&1 | awk '
    / percent$/ { print; percent = $(NF - 1); if (least == "" || percent < least) least = percent }
    END { if (least == "") { print "no time was printed"; exit 1 } exit least > 200 }'
