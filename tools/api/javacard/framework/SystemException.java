package javacard.framework;

/** What the runtime refuses. */
public class SystemException extends CardRuntimeException {
    public static final short ILLEGAL_VALUE = 1;
    public static final short NO_TRANSIENT_SPACE = 2;
    public static final short ILLEGAL_TRANSIENT = 3;
    public static final short ILLEGAL_AID = 4;
    public static final short NO_RESOURCE = 5;
    public static final short ILLEGAL_USE = 6;

    /** Sets the reason. */
    public SystemException(short reason) {
        super(reason);
    }

    /** Throws the card's own exception of this class, with a reason. */
    public static void throwIt(short reason) {
    }
}
