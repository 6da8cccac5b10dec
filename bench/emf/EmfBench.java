import java.io.IOException;
import java.util.Locale;
import org.eclipse.emf.common.util.URI;
import org.eclipse.emf.ecore.resource.Resource;
import org.eclipse.emf.ecore.xmi.impl.XMIResourceImpl;

/**
 * Does the work of a workload of {@code bench/work} by EMF, and prints how many calls this took.
 *
 * <pre>
 * EmfBench WORKLOAD SIZE                   does the work once
 * EmfBench WORKLOAD SIZE WARMUPS TURNS     does it WARMUPS times and then TURNS times, and prints the least time of a turn
 * EmfBench ecore FILE                      writes the metamodel as an Ecore file
 * </pre>
 *
 * <p>A turn is the work alone. The metamodel is made before it, once for all turns.
 */
public final class EmfBench {
  private EmfBench() {}

  /** Does what the arguments say. */
  public static void main(String[] words) throws IOException {
    Library metamodel = new Library();
    if (words[0].equals("ecore")) {
      write(metamodel, words[1]);
      return;
    }
    boolean isWarmed = words.length > 2;
    int warmups = isWarmed ? Integer.parseInt(words[2]) : 0;
    int turns = isWarmed ? Integer.parseInt(words[3]) : 1;
    long least = Long.MAX_VALUE;
    for (int turn = 0; turn < warmups + turns; turn++) {
      long nanoseconds = run(metamodel, words[0], Integer.parseInt(words[1]), turn == 0);
      least = turn < warmups ? least : Math.min(least, nanoseconds);
    }
    if (isWarmed) {
      System.out.printf(Locale.ROOT, "%.6f s%n", least / 1e9);
    }
  }

  /** Does the work once; returns its time in nanoseconds. If {@code prints}, prints the number of its calls. */
  private static long run(Library metamodel, String workload, int size, boolean prints) throws IOException {
    long began = System.nanoTime();
    Session session = new Session(metamodel);
    new Workloads(metamodel, session).run(workload, size);
    long nanoseconds = System.nanoTime() - began;
    if (prints) {
      System.out.println(session.commands() + " calls");
    }
    return nanoseconds;
  }

  private static void write(Library metamodel, String file) throws IOException {
    Resource resource = new XMIResourceImpl(URI.createFileURI(file));
    resource.getContents().add(metamodel.all);
    resource.save(null);
  }
}
