package javacard.framework;

/** Ends a command with a status, its reason. */
public class ISOException extends CardRuntimeException {
    /** Sets the reason. */
    public ISOException(short reason) {
        super(reason);
    }

    /** Throws the card's own exception of this class, with a reason. */
    public static void throwIt(short reason) {
    }
}
