import java.io.File;
import java.io.IOException;
import java.nio.file.Files;
import java.nio.file.Path;
import java.util.List;
import java.util.stream.Collectors;
import java.util.stream.Stream;
import javax.xml.XMLConstants;
import javax.xml.parsers.DocumentBuilderFactory;
import javax.xml.transform.dom.DOMSource;
import javax.xml.transform.stream.StreamSource;
import javax.xml.validation.SchemaFactory;
import org.w3c.dom.Document;
import org.w3c.dom.Element;
import org.w3c.dom.bootstrap.DOMImplementationRegistry;
import org.w3c.dom.ls.DOMImplementationLS;
import org.w3c.dom.ls.LSInput;
import org.xml.sax.SAXException;

/**
 * Checks each descriptor below a folder against the schema that its root element names, where that is in a folder of schemas:
 * {@code java Schemas.java SCHEMAS FOLDER}. It prints a line for each, and ends with 1 where one isn't valid.
 */
public final class Schemas {
    private static final String INSTANCE = "http://www.w3.org/2001/XMLSchema-instance";

    private Schemas() {}

    public static void main(String[] words) throws Exception {
        Path schemas = Path.of(words[0]);
        Path folder = Path.of(words[1]);
        boolean valid = true;
        for (Path file : descriptors(folder)) {
            valid &= check(schemas, folder, file);
        }
        System.exit(valid ? 0 : 1);
    }

    private static List<Path> descriptors(Path folder) throws IOException {
        try (Stream<Path> files = Files.walk(folder)) {
            return files.filter(it -> it.toString().matches(".*\\.(xml|tld)")).sorted().collect(Collectors.toList());
        }
    }

    private static boolean check(Path schemas, Path folder, Path file) throws Exception {
        String name = folder.relativize(file).toString().replace(File.separatorChar, '/');
        try {
            Element root = read(file).getDocumentElement();
            String location = root.getAttributeNS(INSTANCE, "schemaLocation").trim();
            if (location.isEmpty()) {
                System.out.println("no schema is named: " + name);
                return true;
            }
            String schema = location.substring(location.lastIndexOf('/') + 1);
            if (!Files.isRegularFile(schemas.resolve(schema))) {
                System.out.println("no schema is here: " + name + " " + schema);
                return true;
            }
            validate(schemas, schemas.resolve(schema), root);
            System.out.println("valid: " + name + " " + schema);
            return true;
        } catch (SAXException fault) {
            System.out.println("invalid: " + name + ": " + fault.getMessage());
            return false;
        }
    }

    private static Document read(Path file) throws Exception {
        DocumentBuilderFactory factory = DocumentBuilderFactory.newInstance();
        factory.setNamespaceAware(true);
        factory.setFeature("http://apache.org/xml/features/nonvalidating/load-external-dtd", false);
        return factory.newDocumentBuilder().parse(file.toFile());
    }

    private static void validate(Path schemas, Path schema, Element root) throws Exception {
        SchemaFactory factory = SchemaFactory.newInstance(XMLConstants.W3C_XML_SCHEMA_NS_URI);
        DOMImplementationLS inputs =
                (DOMImplementationLS) DOMImplementationRegistry.newInstance().getDOMImplementation("LS");
        factory.setResourceResolver((type, namespace, publicId, systemId, base) -> {
            Path named = schemas.resolve(systemId.substring(systemId.lastIndexOf('/') + 1));
            LSInput input = inputs.createLSInput();
            input.setSystemId(named.toUri().toString());
            try {
                input.setByteStream(Files.newInputStream(named));
            } catch (IOException missing) {
                return null;
            }
            return input;
        });
        factory.newSchema(new StreamSource(schema.toFile())).newValidator().validate(new DOMSource(root));
    }
}
