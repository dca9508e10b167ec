package loyalty;

import javacard.framework.*;

/** Gives a point for every ten that are paid. Each wallet has points of its own. */
public class Loyalty extends Applet implements Points {
    private static final byte MOST = 4; // wallets

    private final AID[] wallets = new AID[MOST];
    private final short[] points = new short[MOST];

    public static void install(byte[] array, short offset, byte length) {
        new Loyalty().register();
    }

    /** Shares itself with whoever asks for 1. */
    public Shareable getShareableInterfaceObject(AID client, byte parameter) {
        return parameter == 1 ? this : null;
    }

    public short paid(short amount) {
        byte at = place();
        points[at] += amount / 10;
        return points[at];
    }

    public short points() {
        return points[place()];
    }

    /** The place of the wallet that calls. The AID is an object of the runtime's, so it may be kept. */
    private byte place() {
        AID caller = JCSystem.getPreviousContextAID();
        for (byte at = 0; at < MOST; at++) {
            if (wallets[at] == null) {
                wallets[at] = caller;
            }
            if (wallets[at].equals(caller)) {
                return at;
            }
        }
        ISOException.throwIt(ISO7816.SW_FILE_FULL);
        return 0;
    }

    /** Answers all points, two bytes for each wallet. */
    public void process(APDU apdu) {
        if (selectingApplet()) {
            return;
        }
        byte[] buffer = apdu.getBuffer();
        short end = 0;
        for (byte at = 0; at < MOST && wallets[at] != null; at++) {
            end = Util.setShort(buffer, end, points[at]);
        }
        apdu.setOutgoingAndSend((short) 0, end);
    }
}
