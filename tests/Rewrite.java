import java.io.IOException;
import java.nio.file.Files;
import java.nio.file.Path;
import java.util.List;
import java.util.stream.Stream;
import org.objectweb.asm.ClassReader;
import org.objectweb.asm.ClassWriter;

/**
 * Copies the files below a folder to another, and writes each class file again with ASM.
 *
 * <p>{@code Rewrite FROM TO}: what ASM reads goes to a writer that knows nothing of the old file, so the constant pool is arranged
 * anew. {@code Rewrite FROM TO constants}: numbers, strings and classes stand first in the pool, in the order from its end.
 */
public final class Rewrite {
    public static void main(String[] words) throws IOException {
        Path from = Path.of(words[0]);
        Path to = Path.of(words[1]);
        boolean constantsFirst = words.length > 2;
        List<Path> files;
        try (Stream<Path> paths = Files.walk(from)) {
            files = paths.filter(Files::isRegularFile).sorted().toList();
        }
        for (Path file : files) {
            Path target = to.resolve(from.relativize(file));
            Files.createDirectories(target.getParent());
            byte[] bytes = Files.readAllBytes(file);
            Files.write(target, file.toString().endsWith(".class") ? again(bytes, constantsFirst) : bytes);
        }
    }

    private static byte[] again(byte[] bytes, boolean constantsFirst) {
        ClassReader reader = new ClassReader(bytes);
        ClassWriter writer = new ClassWriter(0);
        if (constantsFirst) {
            putConstants(reader, writer);
        }
        reader.accept(writer, 0);
        return writer.toByteArray();
    }

    private static void putConstants(ClassReader reader, ClassWriter writer) {
        char[] buffer = new char[reader.getMaxStringLength()];
        for (int index = reader.getItemCount() - 1; index > 0; index--) {
            // Where the content of the entry begins; the second index of a long or double number has none.
            int place = reader.getItem(index);
            int tag = place == 0 ? 0 : reader.readByte(place - 1);
            if (tag >= 3 && tag <= 8) {
                writer.newConst(reader.readConst(index, buffer));
            }
        }
    }
}
