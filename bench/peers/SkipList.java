import java.nio.file.Files;
import java.nio.file.Path;
import java.util.HashMap;
import java.util.Map;
import java.util.concurrent.ConcurrentSkipListMap;
import java.util.concurrent.atomic.AtomicLong;

/**
 * The calls that bench/tree.sh makes on try_bench, on Java's ConcurrentSkipListMap. It takes the options of try_bench. The plan runs
 * three times on new maps, since the first runs are compiled meanwhile; the last run is printed.
 */
public class SkipList {
    static long mixed(long number) {
        number = (number ^ (number >>> 30)) * 0xbf58476d1ce4e5b9L;
        number = (number ^ (number >>> 27)) * 0x94d049bb133111ebL;
        return number ^ (number >>> 31);
    }

    /** The key as a long whose order is that of the unsigned key. */
    static long key(String spread, long number) {
        long key = switch (spread) {
            case "uniform" -> mixed(number);
            case "rising" -> number;
            default -> (mixed(number / 1024) & ~1023L) | number % 1024;
        };
        return key ^ Long.MIN_VALUE;
    }

    /** User and system time of all threads, in ticks of ten milliseconds. */
    static long ticks() throws Exception {
        String line = Files.readString(Path.of("/proc/self/stat"));
        String[] fields = line.substring(line.lastIndexOf(')') + 2).split(" ");
        return Long.parseLong(fields[11]) + Long.parseLong(fields[12]);
    }

    public static void main(String[] words) throws Exception {
        Map<String, String> given = new HashMap<>();
        for (int it = 0; it + 1 < words.length; it += 2) given.put(words[it], words[it + 1]);
        String said = null;
        for (int it = 0; it < 3; it++) said = measure(given);
        System.out.println(said);
    }

    static long number(Map<String, String> given, String name, long otherwise) {
        return Long.parseLong(given.getOrDefault(name, "" + otherwise));
    }

    static String measure(Map<String, String> given) throws Exception {
        String spread = given.getOrDefault("--spread", "uniform");
        long seed = number(given, "--seed", 1), calls = number(given, "--calls", 1000000);
        long puts = number(given, "--puts", 0), removes = number(given, "--removes", 0), finds = number(given, "--finds", 1);
        long keys = number(given, "--keys", 1000), span = number(given, "--span", keys), all = puts + removes + finds;
        Thread[] threads = new Thread[(int) number(given, "--threads", 1)];
        ConcurrentSkipListMap<Long, Long> map = new ConcurrentSkipListMap<>();
        for (long it = 0; it < keys; it++) map.put(key(spread, it), it);
        AtomicLong found = new AtomicLong();
        long before = ticks(), began = System.nanoTime();
        for (int thread = 0; thread < threads.length; thread++) {
            long start = seed + mixed(thread + 0x9e3779b97f4a7c15L);
            threads[thread] = new Thread(() -> {
                long at = start, mine = 0;
                for (long it = 0; it < calls; it++) {
                    long drawn = Long.remainderUnsigned(mixed(at += 0x9e3779b97f4a7c15L), all);
                    long drawnKey = Long.remainderUnsigned(mixed(at += 0x9e3779b97f4a7c15L), span);
                    long key = key(spread, drawnKey);
                    Long had;
                    if (drawn < puts) had = map.put(key, drawnKey);
                    else if (drawn < puts + removes) had = map.remove(key);
                    else had = map.get(key);
                    if (had != null) mine++;
                }
                found.addAndGet(mine);
            });
            threads[thread].start();
        }
        for (Thread it : threads) it.join();
        long elapsed = System.nanoTime() - began, spent = (ticks() - before) * 10_000_000, made = calls * threads.length;
        return spent / made + " processor ns a call, " + (long) (made * 1e9 / elapsed) + " calls a second: " + made + " calls, " + found + " found";
    }
}
