package counter;

import javacard.framework.*;

/** Counts up to a limit, which may be said at its install, and answers what it has counted to. */
public class Counter extends Applet {
    private static final byte CLA = (byte) 0x80;
    private static final byte ADD = 1; // P1, from 0 to 255
    private static final byte ADD_ALL = 2; // the sum of the data's bytes, as numbers from -128 to 127
    private static final byte TELL = 3; // two bytes
    private static final byte NAME = 4;

    private static final byte[] name = {'C', 'o', 'u', 'n', 't', 'e', 'r'};

    private final short most;
    private short count;

    private Counter(short most) {
        this.most = most;
    }

    /** The array has the length of the instance's AID, the AID, 0, the length of the data, and the data. */
    public static void install(byte[] array, short offset, byte length) {
        short data = (short) (offset + array[offset] + 2);
        short most = array[data] == 2 ? Util.getShort(array, (short) (data + 1)) : 1000;
        new Counter(most).register(array, (short) (offset + 1), array[offset]);
    }

    public void process(APDU apdu) {
        if (selectingApplet()) {
            return;
        }
        byte[] buffer = apdu.getBuffer();
        if (buffer[ISO7816.OFFSET_CLA] != CLA) {
            ISOException.throwIt(ISO7816.SW_CLA_NOT_SUPPORTED);
        }
        switch (buffer[ISO7816.OFFSET_INS]) {
            case ADD:
                add((short) (buffer[ISO7816.OFFSET_P1] & 0xFF));
                break;
            case ADD_ALL:
                add(sum(buffer, apdu.setIncomingAndReceive()));
                break;
            case TELL:
                Util.setShort(buffer, (short) 0, count);
                apdu.setOutgoingAndSend((short) 0, (short) 2);
                break;
            case NAME:
                apdu.setOutgoing();
                apdu.setOutgoingLength((short) name.length);
                apdu.sendBytesLong(name, (short) 0, (short) name.length);
                break;
            default:
                ISOException.throwIt(ISO7816.SW_INS_NOT_SUPPORTED);
        }
    }

    private static short sum(byte[] buffer, short length) {
        short sum = 0;
        for (short at = ISO7816.OFFSET_CDATA; at < (short) (ISO7816.OFFSET_CDATA + length); at++) {
            sum += buffer[at];
        }
        return sum;
    }

    private void add(short some) {
        short next = (short) (count + some);
        if (next < 0 || next > most) {
            ISOException.throwIt(ISO7816.SW_CONDITIONS_NOT_SATISFIED);
        }
        count = next;
    }
}
