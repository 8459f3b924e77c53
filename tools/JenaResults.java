import java.io.BufferedReader;
import java.io.InputStreamReader;
import java.nio.charset.StandardCharsets;
import java.util.TreeSet;
import org.apache.jena.graph.Node;
import org.apache.jena.riot.RDFDataMgr;
import org.apache.jena.shacl.ShaclValidator;
import org.apache.jena.shacl.Shapes;
import org.apache.jena.shacl.validation.ReportEntry;

/** For each line of standard input, the names of a data file and a shapes file: the results of Apache Jena, a line each, and a line `end`. */
public final class JenaResults {
    private static String text(Node node) {
        if (node == null) {
            return "-";
        }
        if (node.isBlank()) {
            return "_:";
        }
        if (node.isURI()) {
            return "<" + node.getURI() + ">";
        }
        String tag = node.getLiteralLanguage();
        return "\"" + node.getLiteralLexicalForm() + "\"" + (tag.isEmpty() ? "^^<" + node.getLiteralDatatypeURI() + ">" : "@" + tag.toLowerCase());
    }

    public static void main(String[] words) throws Exception {
        BufferedReader lines = new BufferedReader(new InputStreamReader(System.in, StandardCharsets.UTF_8));
        for (String line = lines.readLine(); line != null; line = lines.readLine()) {
            String[] names = line.split(" ");
            TreeSet<String> results = new TreeSet<>();
            try {
                Shapes shapes = Shapes.parse(RDFDataMgr.loadGraph(names[1]));
                for (ReportEntry entry : ShaclValidator.get().validate(shapes, RDFDataMgr.loadGraph(names[0])).getEntries()) {
                    results.add(String.join(" ", text(entry.source()), text(entry.focusNode()), text(entry.sourceConstraintComponent()), text(entry.value())));
                }
            } catch (Exception fault) {
                results.add("fault " + fault.toString().replace('\n', ' '));
            }
            results.forEach(System.out::println);
            System.out.println("end");
            System.out.flush();
        }
    }
}
