import java.nio.file.Files;
import java.nio.file.Path;
import org.apache.jena.query.QueryExecution;
import org.apache.jena.query.QueryExecutionFactory;
import org.apache.jena.query.ResultSet;
import org.apache.jena.rdf.model.Model;
import org.apache.jena.riot.RDFDataMgr;

/** Asks the queries of a file, one per line after a name, so often of the same data by Apache Jena, and prints the best round of each. */
public final class JoinRounds {
    public static void main(String[] words) throws Exception {
        Model data = RDFDataMgr.loadModel(words[0]);
        for (String line : Files.readAllLines(Path.of(words[1]))) {
            int at = line.indexOf(' ');
            double best = Double.MAX_VALUE;
            long answers = 0;
            for (int round = 0; round < Integer.parseInt(words[2]); round++) {
                long start = System.nanoTime();
                answers = 0;
                try (QueryExecution asked = QueryExecutionFactory.create(line.substring(at + 1), data)) {
                    for (ResultSet found = asked.execSelect(); found.hasNext(); found.next()) {
                        answers++;
                    }
                }
                best = Math.min(best, (System.nanoTime() - start) / 1e6);
            }
            System.out.printf("  %-10s %8.1f ms, %d answers%n", line.substring(0, at), best, answers);
        }
    }
}
