package javacard.framework;

/** The command that is at hand, and its answer. */
public class APDU {
    public static final byte STATE_INITIAL = 0;
    public static final byte STATE_PARTIAL_INCOMING = 1;
    public static final byte STATE_FULL_INCOMING = 2;
    public static final byte STATE_OUTGOING = 3;
    public static final byte STATE_OUTGOING_LENGTH_KNOWN = 4;
    public static final byte STATE_PARTIAL_OUTGOING = 5;
    public static final byte STATE_FULL_OUTGOING = 6;
    public static final byte STATE_ERROR_NO_T0_GETRESPONSE = -1;
    public static final byte STATE_ERROR_T1_IFD_ABORT = -2;
    public static final byte STATE_ERROR_IO = -3;
    public static final byte STATE_ERROR_NO_T0_REISSUE = -4;

    public static final byte PROTOCOL_T0 = 0;
    public static final byte PROTOCOL_T1 = 1;
    public static final byte PROTOCOL_TYPE_MASK = 0x0F;
    public static final byte PROTOCOL_MEDIA_MASK = (byte) 0xF0;
    public static final byte PROTOCOL_MEDIA_DEFAULT = 0;
    public static final byte PROTOCOL_MEDIA_CONTACTLESS_TYPE_A = (byte) 0x80;
    public static final byte PROTOCOL_MEDIA_CONTACTLESS_TYPE_B = (byte) 0x90;
    public static final byte PROTOCOL_MEDIA_USB = (byte) 0xA0;

    private APDU() {
    }

    /** Gives the buffer; its first five bytes are the header. */
    public byte[] getBuffer() {
        return null;
    }

    /** Puts the data into the buffer, at offset 5, and gives how many bytes they are. */
    public short setIncomingAndReceive() {
        return 0;
    }

    /** Begins the answer, and gives how many bytes are expected. */
    public short setOutgoing() {
        return 0;
    }

    /** Says how many bytes the answer has. */
    public void setOutgoingLength(short length) {
    }

    /** Sends bytes of the buffer. */
    public void sendBytes(short offset, short length) {
    }

    /** Sends bytes of any array. */
    public void sendBytesLong(byte[] from, short offset, short length) {
    }

    /** Begins the answer, says its length, and sends it from the buffer. */
    public void setOutgoingAndSend(short offset, short length) {
    }
}
