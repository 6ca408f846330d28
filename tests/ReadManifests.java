import java.io.ByteArrayInputStream;
import java.io.IOException;
import java.lang.reflect.Method;
import java.nio.charset.StandardCharsets;
import java.nio.file.Files;
import java.nio.file.Path;
import java.util.ArrayList;
import java.util.List;
import java.util.Map;
import java.util.TreeMap;
import java.util.jar.Attributes;
import java.util.jar.JarFile;
import java.util.jar.Manifest;
import java.util.stream.Stream;

/**
 * Reads manifests as a JDK does.
 *
 * <p>{@code collect OUT FOLDER..}: writes the manifest of each jar below the folders to {@code OUT/N.jar/META-INF/MANIFEST.MF},
 * each text once, and says how many. {@code say FOLDER}: prints each attribute of each manifest below the folder, a line each, and
 * where bnd is on the class path each clause of the OSGi headers as bnd reads it.
 */
public final class ReadManifests {
    private static final List<String> LISTS =
            List.of("Import-Package", "Export-Package", "DynamicImport-Package", "Require-Bundle", "Fragment-Host");

    public static void main(String[] words) throws Exception {
        if (words[0].equals("collect")) {
            collect(words);
        } else {
            say(Path.of(words[1]));
        }
    }

    private static List<Path> filesBelow(Path folder, String end) throws IOException {
        try (Stream<Path> paths = Files.walk(folder)) {
            return paths.filter(path -> path.toString().endsWith(end) && Files.isRegularFile(path)).sorted().toList();
        }
    }

    private static void collect(String[] words) throws IOException {
        Path out = Path.of(words[1]);
        List<Path> jars = new ArrayList<>();
        for (int i = 2; i < words.length; i++) {
            jars.addAll(filesBelow(Path.of(words[i]), ".jar"));
        }
        Map<String, byte[]> manifests = new TreeMap<>();
        for (Path jar : jars) {
            try (JarFile file = new JarFile(jar.toFile())) {
                var entry = file.getEntry("META-INF/MANIFEST.MF");
                if (entry != null) {
                    byte[] bytes = file.getInputStream(entry).readAllBytes();
                    manifests.put(new String(bytes, StandardCharsets.ISO_8859_1), bytes);
                }
            } catch (IOException broken) {
                System.err.println("not read: " + jar);
            }
        }
        int number = 0;
        for (byte[] bytes : manifests.values()) {
            Path path = out.resolve("%04d.jar/META-INF/MANIFEST.MF".formatted(number));
            Files.createDirectories(path.getParent());
            Files.write(path, bytes);
            number += 1;
        }
        System.out.println(number);
    }

    private static void say(Path folder) throws Exception {
        for (Path path : filesBelow(folder, "MANIFEST.MF")) {
            System.out.println("manifest " + folder.relativize(path));
            Manifest manifest;
            try {
                manifest = new Manifest(new ByteArrayInputStream(Files.readAllBytes(path)));
            } catch (IOException refused) {
                System.out.println("  refused");
                continue;
            }
            sayAttributes("main", manifest.getMainAttributes());
            Map<String, Attributes> sections = new TreeMap<>(manifest.getEntries());
            for (Map.Entry<String, Attributes> section : sections.entrySet()) {
                sayAttributes("section " + section.getKey(), section.getValue());
            }
            sayClauses(manifest.getMainAttributes());
        }
    }

    private static void sayAttributes(String section, Attributes attributes) {
        Map<String, String> sorted = new TreeMap<>();
        attributes.forEach((name, value) -> sorted.put(name.toString(), value.toString()));
        sorted.forEach((name, value) -> System.out.println("  " + section + " | " + name + " | " + value));
    }

    private static void sayClauses(Attributes attributes) throws Exception {
        Method parse;
        Class<?> parameters;
        try {
            parameters = Class.forName("aQute.bnd.header.Parameters");
            parse = parameters.getMethod("entrySet");
        } catch (ClassNotFoundException absent) {
            return;
        }
        for (String name : LISTS) {
            String value = attributes.getValue(name);
            if (value == null) {
                continue;
            }
            List<String> lines = new ArrayList<>();
            Object read = parameters.getConstructor(String.class).newInstance(value);
            for (Object clause : (Iterable<?>) parse.invoke(read)) {
                Map.Entry<?, ?> entry = (Map.Entry<?, ?>) clause;
                lines.add("  clause " + name + " | " + entry.getKey() + " | " + new TreeMap<>((Map<?, ?>) entry.getValue()));
            }
            lines.forEach(System.out::println);
        }
    }
}
