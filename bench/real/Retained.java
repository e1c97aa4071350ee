// The retained sizes of all instances of a dump, by VisualVM's heap library (Debian's package visualvm).
//
//   javac -cp JAR Retained.java && java -Xmx3g -cp JAR:. Retained DUMP [ID..]
//
// JAR is /usr/share/visualvm/visualvm/modules/org-graalvm-visualvm-lib-jfluid-heap.jar. It prints the seconds that reading the dump and
// asking for all retained sizes take, the number of instances, and the retained size of each ID, which is hexadecimal.
import java.io.File;
import java.util.Iterator;
import org.graalvm.visualvm.lib.jfluid.heap.Heap;
import org.graalvm.visualvm.lib.jfluid.heap.HeapFactory;
import org.graalvm.visualvm.lib.jfluid.heap.Instance;

public class Retained {
    public static void main(String[] words) throws Exception {
        long start = System.nanoTime();
        Heap heap = HeapFactory.createHeap(new File(words[0]));
        long read = System.nanoTime();
        long count = 0, sum = 0;
        for (Iterator<Instance> all = heap.getAllInstancesIterator(); all.hasNext(); count++) {
            sum += all.next().getRetainedSize();
        }
        long end = System.nanoTime();
        System.out.printf("read %.2f s, retained sizes %.2f s, %d instances, sum %d%n",
                (read - start) / 1e9, (end - read) / 1e9, count, sum);
        for (int place = 1; place < words.length; place++) {
            Instance one = heap.getInstanceByID(Long.parseUnsignedLong(words[place], 16));
            System.out.println(words[place] + " " + (one == null ? "none" : one.getRetainedSize()));
        }
    }
}
