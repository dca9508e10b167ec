package wallet;

import javacard.framework.*;
import loyalty.Points;

/** Holds money, pays, and tells the loyalty applet, whose AID it gets at its install, of what was paid. */
public class Wallet extends Applet {
    private static final byte LOAD = 1; // two bytes of data
    private static final byte PAY = 2; // two bytes of data; answers balance and points
    private static final byte BALANCE = 3;
    private static final byte LAST = 4; // the last four that were paid, the newest first

    private static final short SW_TOO_MUCH = 0x6A90;
    private static final short SW_TOO_LITTLE = 0x6A91;
    private static final byte LAST_ONES = 4;

    private final byte[] loyalty;
    private final short[] paid = new short[LAST_ONES];
    private short balance;
    private byte next;

    private Wallet(byte[] array, short offset, byte length) {
        loyalty = new byte[length];
        Util.arrayCopy(array, offset, loyalty, (short) 0, length);
    }

    public static void install(byte[] array, short offset, byte length) {
        short data = (short) (offset + array[offset] + 2);
        new Wallet(array, (short) (data + 1), array[data]).register(array, (short) (offset + 1), array[offset]);
    }

    public void process(APDU apdu) {
        if (selectingApplet()) {
            return;
        }
        byte[] buffer = apdu.getBuffer();
        switch (buffer[ISO7816.OFFSET_INS]) {
            case LOAD:
                load(amount(apdu));
                break;
            case PAY:
                short points = pay(amount(apdu));
                Util.setShort(buffer, Util.setShort(buffer, (short) 0, balance), points);
                apdu.setOutgoingAndSend((short) 0, (short) 4);
                break;
            case BALANCE:
                Util.setShort(buffer, (short) 0, balance);
                apdu.setOutgoingAndSend((short) 0, (short) 2);
                break;
            case LAST:
                apdu.setOutgoingAndSend((short) 0, last(buffer));
                break;
            default:
                ISOException.throwIt(ISO7816.SW_INS_NOT_SUPPORTED);
        }
    }

    private short amount(APDU apdu) {
        if (apdu.setIncomingAndReceive() != 2) {
            ISOException.throwIt(ISO7816.SW_WRONG_LENGTH);
        }
        short amount = Util.getShort(apdu.getBuffer(), ISO7816.OFFSET_CDATA);
        if (amount <= 0) {
            ISOException.throwIt(ISO7816.SW_WRONG_DATA);
        }
        return amount;
    }

    private void load(short amount) {
        if ((short) (balance + amount) < 0) {
            ISOException.throwIt(SW_TOO_MUCH);
        }
        balance += amount;
    }

    /** Gives the points, or -1 where there is no loyalty applet. */
    private short pay(short amount) {
        if (amount > balance) {
            ISOException.throwIt(SW_TOO_LITTLE);
        }
        balance -= amount;
        paid[next] = amount;
        next = (byte) ((next + 1) % LAST_ONES);
        Points points = service();
        return points == null ? -1 : points.paid(amount);
    }

    private Points service() {
        AID server = JCSystem.lookupAID(loyalty, (short) 0, (byte) loyalty.length);
        if (server == null) {
            return null;
        }
        return (Points) JCSystem.getAppletShareableInterfaceObject(server, (byte) 1);
    }

    private short last(byte[] buffer) {
        short end = 0;
        byte at = next;
        do {
            at = (byte) (at == 0 ? LAST_ONES - 1 : at - 1);
            end = Util.setShort(buffer, end, paid[at]);
        } while (at != next);
        return end;
    }
}
