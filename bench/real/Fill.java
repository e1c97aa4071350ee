import com.sun.management.HotSpotDiagnosticMXBean;
import java.lang.management.ManagementFactory;
import java.util.ArrayList;
import java.util.HashMap;
import java.util.List;
import java.util.Map;
import java.util.Random;
import java.util.TreeMap;

/** Fills its heap with objects of many kinds, and dumps it: Fill FILE MEGABYTES. */
public class Fill {
    static class Base {
        boolean flag;
        char letter = 'x';
        Object next;
    }

    static class Point extends Base {
        static int made;
        static final long LIMIT = 1L << 40;
        byte small = -1;
        short few = 300;
        int x;
        long y;
        float ratio = 0.5f;
        double exact = 1e300;
        int[] numbers;

        Point(int x) {
            this.x = x;
            this.y = -x;
            made++;
        }
    }

    enum Colour { RED, GREEN, BLUE }

    static final List<Object> KEPT = new ArrayList<>();
    static final Random RANDOM = new Random(1);

    static Object next(int kind, int number) {
        switch (kind) {
            case 0: {
                Point point = new Point(number);
                point.next = KEPT.isEmpty() ? null : KEPT.get(RANDOM.nextInt(KEPT.size()));
                point.numbers = new int[number % 7];
                return point;
            }
            case 1: return "text " + number;
            case 2: return new byte[number % 50];
            case 3: return new long[] {number, -number};
            case 4: return new Object[] {Colour.values()[number % 3], null, "shared"};
            case 5: return new String[][] {{"a" + number}, {}};
            case 6: return new double[number % 4];
            case 7: return Integer.valueOf(number);
            case 8: {
                Map<Integer, String> map = new HashMap<>();
                map.put(number, "value");
                return map;
            }
            case 9: {
                Map<String, Object> map = new TreeMap<>();
                map.put("k" + number, KEPT);
                return map;
            }
            case 10: return new char[] {'a', (char) number};
            case 11: return new boolean[] {true, false, number % 2 == 0};
            case 12: return new short[number % 3];
            case 13: return new float[] {number};
            default: {
                int captured = number;
                return (Runnable) () -> System.out.println(captured);
            }
        }
    }

    public static void main(String[] words) throws Exception {
        long wanted = Long.parseLong(words[1]) << 20;
        Runtime runtime = Runtime.getRuntime();
        // About what an object of these kinds takes in the dump.
        long objects = wanted / 130;
        for (int number = 0; number < objects; number++) {
            KEPT.add(next(RANDOM.nextInt(15), number));
        }
        Thread waiting = new Thread(() -> {
            Object local = new Point(7);
            synchronized (local) {
                try {
                    Thread.sleep(600_000);
                } catch (InterruptedException end) {
                    System.err.println(local);
                }
            }
        });
        waiting.setDaemon(true);
        waiting.start();
        Thread.sleep(100);
        ManagementFactory.getPlatformMXBean(HotSpotDiagnosticMXBean.class).dumpHeap(words[0], false);
    }
}
