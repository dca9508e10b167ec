package javacard.framework;

/** The name of an applet: 5 to 16 bytes. */
public class AID {
    /** Keeps 5 to 16 bytes of an array. */
    public AID(byte[] array, short offset, byte length) {
    }

    /** Whether the other object is an AID of the same bytes. */
    public boolean equals(Object other) {
        return false;
    }

    /** Whether a range of an array is exactly the bytes. */
    public boolean equals(byte[] array, short offset, byte length) {
        return false;
    }

    /** Writes the bytes into an array, and gives how many they are. */
    public byte getBytes(byte[] to, short offset) {
        return 0;
    }
}
