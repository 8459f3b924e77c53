import org.apache.jena.graph.Graph;
import org.apache.jena.riot.RDFDataMgr;
import org.apache.jena.shacl.ShaclValidator;
import org.apache.jena.shacl.Shapes;
import org.apache.jena.shacl.ValidationReport;

/** Reads and validates the same files so often by Apache Jena, and prints the best round. */
public final class ValidateRounds {
    public static void main(String[] words) {
        double read = Double.MAX_VALUE;
        double both = Double.MAX_VALUE;
        int results = 0;
        for (int round = 0; round < Integer.parseInt(words[2]); round++) {
            long start = System.nanoTime();
            Graph data = RDFDataMgr.loadGraph(words[0]);
            long middle = System.nanoTime();
            Shapes shapes = Shapes.parse(RDFDataMgr.loadGraph(words[1]));
            ValidationReport report = ShaclValidator.get().validate(shapes, data);
            long end = System.nanoTime();
            results = report.getEntries().size();
            read = Math.min(read, (middle - start) / 1e6);
            both = Math.min(both, (end - start) / 1e6);
        }
        System.out.printf("  Jena, warm: %.0f ms, of which %.0f for reading the data, %d results%n", both, read, results);
    }
}
