// StrictMath.log of each bit pattern of standard input; patterns and answers are 8 bytes, low byte first, and every NaN is 7ff8000000000000.
import java.nio.ByteBuffer;
import java.nio.ByteOrder;

public class Log {
    public static void main(String[] args) throws Exception {
        ByteBuffer words = ByteBuffer.wrap(System.in.readAllBytes()).order(ByteOrder.LITTLE_ENDIAN);
        for (int at = 0; at < words.capacity(); at += 8) {
            words.putLong(at, Double.doubleToLongBits(StrictMath.log(Double.longBitsToDouble(words.getLong(at)))));
        }
        System.out.write(words.array());
        System.out.flush();
    }
}
