import java.nio.file.Files;
import java.nio.file.Path;

/** The outside judge of root and logarithm: StrictMath.log is fdlibm's. One line for each word: root, ln. */
class Numbers {
    static String bits(double x) {
        return String.format("%016x", Double.doubleToLongBits(x));
    }

    public static void main(String[] args) throws Exception {
        StringBuilder out = new StringBuilder();
        for (String word : Files.readString(Path.of(args[0])).trim().split("\\s+")) {
            double x = Double.longBitsToDouble(Long.parseUnsignedLong(word, 16));
            out.append(bits(StrictMath.sqrt(x))).append(' ').append(bits(StrictMath.log(x))).append('\n');
        }
        System.out.print(out);
    }
}
