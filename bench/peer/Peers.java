import java.util.Scanner;
import java.util.concurrent.ConcurrentSkipListSet;
import java.util.concurrent.CountDownLatch;

/** Java's ConcurrentSkipListSet for bench/peers, with the rows and answers of peers.cpp. */
public final class Peers {
    private static volatile boolean ends;

    private static long scattered(long index) {
        return index * 0x9E3779B97F4A7C15L >>> 1;
    }

    private static double rate(int keys, int lookups, int threads, int millis)
            throws InterruptedException {
        ConcurrentSkipListSet<Long> set = new ConcurrentSkipListSet<>();
        CountDownLatch ready = new CountDownLatch(threads), begins = new CountDownLatch(1);
        long[] calls = new long[threads * 16];
        Thread[] all = new Thread[threads];
        ends = false;
        for (int t = 0; t < threads; t++) {
            int number = t;
            all[t] = new Thread(() -> {
                long seed = 88172645463325252L + number * 1000003L, made = 0;
                for (int i = number; i < keys; i += threads) {
                    do seed = next(seed);
                    while (!set.add(scattered(Long.remainderUnsigned(seed, 2L * keys))));
                }
                ready.countDown();
                try {
                    begins.await();
                } catch (InterruptedException stopped) {
                    return;
                }
                for (; !ends; made++) {
                    seed = next(seed);
                    long key = scattered(Long.remainderUnsigned(seed, 2L * keys));
                    int kind = (int) ((seed >>> 40) % 200);
                    if (kind < 2 * lookups) set.contains(key);
                    else if ((kind & 1) != 0) set.add(key);
                    else set.remove(key);
                }
                calls[number * 16] = made;
            });
            all[t].start();
        }
        ready.await();
        long begun = System.nanoTime();
        begins.countDown();
        Thread.sleep(millis);
        ends = true;
        double micros = (System.nanoTime() - begun) / 1e3;
        long sum = 0;
        for (Thread thread : all) thread.join();
        for (long made : calls) sum += made;
        return sum / micros;
    }

    private static long next(long seed) {
        seed ^= seed << 13;
        seed ^= seed >>> 7;
        return seed ^ seed << 17;
    }

    public static void main(String[] words) throws InterruptedException {
        Scanner rows = new Scanner(System.in);
        while (rows.hasNextInt()) {
            double found = rate(rows.nextInt(), rows.nextInt(), rows.nextInt(), rows.nextInt());
            System.out.printf(java.util.Locale.ROOT, "%.4f%n", found);
            System.out.flush();
        }
    }
}
