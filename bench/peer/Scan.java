import java.util.Scanner;
import java.util.concurrent.ConcurrentSkipListSet;

/** Java's ConcurrentSkipListSet for bench/scan, with the rows and answers of scan.cpp. */
public final class Scan {
    private static volatile boolean isOver;
    private static long seed = 88172645463325252L;

    private static long next(long seed) {
        seed ^= seed << 13;
        seed ^= seed >>> 7;
        return seed ^ seed << 17;
    }

    private static long scattered(long number) {
        return number * 0x9E3779B97F4A7C15L >>> 1;
    }

    private static long someKey(int count) {
        seed = next(seed);
        return scattered(Long.remainderUnsigned(seed, 2L * count));
    }

    private static Thread writer(ConcurrentSkipListSet<Long> set, int number, int count) {
        return new Thread(() -> {
            long own = 1111L * number;
            while (!isOver) {
                own = next(own);
                long key = scattered(Long.remainderUnsigned(own, 2L * count / 3) * 3 + number - 1);
                if (!set.remove(key)) set.add(key);
            }
        });
    }

    private static int scan(ConcurrentSkipListSet<Long> set, long from, long[] keys) {
        int read = 0;
        for (Long key : set.tailSet(from)) {
            if (read == keys.length) break;
            keys[read++] = key;
        }
        return read;
    }

    /** Makes scans for a quarter of a second or more, and returns the nanoseconds a key. */
    private static double scanned(ConcurrentSkipListSet<Long> set, int length, int count) {
        long[] keys = new long[Math.min(length, 2 * count)];
        long begun = System.nanoTime(), total = 0;
        while (System.nanoTime() - begun < 250_000_000L)
            total += scan(set, length < count ? someKey(count) : 0, keys);
        return (double) (System.nanoTime() - begun) / total;
    }

    private static double timed(int length, int count, int writers) throws InterruptedException {
        ConcurrentSkipListSet<Long> set = new ConcurrentSkipListSet<>();
        for (int made = 0; made < count; ) if (set.add(someKey(count))) made++;
        scanned(set, length, count); // the compiler warms up
        isOver = false;
        Thread[] threads = new Thread[writers];
        for (int number = 0; number < writers; number++) {
            threads[number] = writer(set, number + 1, count);
            threads[number].start();
        }
        double taken = scanned(set, length, count);
        isOver = true;
        for (Thread thread : threads) thread.join();
        return taken;
    }

    public static void main(String[] words) throws InterruptedException {
        Scanner rows = new Scanner(System.in);
        while (rows.hasNextInt())
            System.out.printf("%.1f%n", timed(rows.nextInt(), rows.nextInt(), rows.nextInt()));
    }
}
