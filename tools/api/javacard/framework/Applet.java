package javacard.framework;

/** What all applets extend. */
public abstract class Applet {
    /** Does nothing. */
    protected Applet() {
    }

    /** Registers this object under the applet's AID. */
    protected final void register() {
    }

    /** Registers this object under an AID. */
    protected final void register(byte[] array, short offset, byte length) {
    }

    /** Is called when the applet is selected; false refuses. */
    public boolean select() {
        return true;
    }

    /** Is called before another applet is selected. */
    public void deselect() {
    }

    /** Answers a command. */
    public abstract void process(APDU apdu);

    /** Whether the command at hand is the SELECT that selected the applet. */
    protected final boolean selectingApplet() {
        return false;
    }

    /** Gives the object that other packages may call, or null. */
    public Shareable getShareableInterfaceObject(AID client, byte parameter) {
        return null;
    }
}
