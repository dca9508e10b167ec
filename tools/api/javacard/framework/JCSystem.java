package javacard.framework;

/** What applets ask of the runtime. */
public final class JCSystem {
    public static final byte NOT_A_TRANSIENT_OBJECT = 0;
    public static final byte CLEAR_ON_RESET = 1;
    public static final byte CLEAR_ON_DESELECT = 2;

    public static final byte MEMORY_TYPE_PERSISTENT = 0;
    public static final byte MEMORY_TYPE_TRANSIENT_RESET = 1;
    public static final byte MEMORY_TYPE_TRANSIENT_DESELECT = 2;

    private JCSystem() {
    }

    /** Gives the AID of the applet that is active, or null. */
    public static AID getAID() {
        return null;
    }

    /** Gives the AID object of the applet's instance with these bytes, or null. */
    public static AID lookupAID(byte[] array, short offset, byte length) {
        return null;
    }

    /** Gives the AID of the applet that called over the firewall, or null. */
    public static AID getPreviousContextAID() {
        return null;
    }

    /** Asks another applet for the object that it shares. */
    public static Shareable getAppletShareableInterfaceObject(AID server, byte parameter) {
        return null;
    }

    /** Makes an array that is cleared on an event. */
    public static boolean[] makeTransientBooleanArray(short length, byte event) {
        return null;
    }

    /** Makes an array that is cleared on an event. */
    public static byte[] makeTransientByteArray(short length, byte event) {
        return null;
    }

    /** Makes an array that is cleared on an event. */
    public static short[] makeTransientShortArray(short length, byte event) {
        return null;
    }

    /** Makes an array that is cleared on an event. */
    public static Object[] makeTransientObjectArray(short length, byte event) {
        return null;
    }
}
