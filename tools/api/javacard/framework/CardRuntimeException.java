package javacard.framework;

/** What the card throws, with a reason. */
public class CardRuntimeException extends RuntimeException {
    /** Sets the reason. */
    public CardRuntimeException(short reason) {
    }

    /** Gives the reason. */
    public short getReason() {
        return 0;
    }

    /** Sets the reason. */
    public void setReason(short reason) {
    }
}
