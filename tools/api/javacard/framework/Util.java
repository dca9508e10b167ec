package javacard.framework;

/** Work on arrays of bytes. */
public class Util {
    private Util() {
    }

    /** Copies bytes, and gives the end of the destination. */
    public static short arrayCopy(byte[] from, short fromOffset, byte[] to, short toOffset, short length) {
        return 0;
    }

    /** Copies bytes, and gives the end of the destination. */
    public static short arrayCopyNonAtomic(byte[] from, short fromOffset, byte[] to, short toOffset, short length) {
        return 0;
    }

    /** Fills a range with a byte, and gives its end. */
    public static short arrayFillNonAtomic(byte[] array, short offset, short length, byte value) {
        return 0;
    }

    /** Gives -1, 0 or 1, by the first bytes that differ, without sign. */
    public static byte arrayCompare(byte[] one, short oneOffset, byte[] other, short otherOffset, short length) {
        return 0;
    }

    /** Gives the short of two bytes of an array, the high one first. */
    public static short getShort(byte[] array, short offset) {
        return 0;
    }

    /** Writes the two bytes of a short into an array, and gives the offset behind them. */
    public static short setShort(byte[] array, short offset, short value) {
        return 0;
    }

    /** Gives the short of two bytes. */
    public static short makeShort(byte high, byte low) {
        return 0;
    }
}
