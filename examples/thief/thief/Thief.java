package thief;

import javacard.framework.*;
import vault.Box;
import vault.Door;
import vault.Vault;

/** Tries to get at what the vault has, in ways that compile. The card allows it what the vault shares, no more. */
public class Thief extends Applet {
    private static final byte[] VAULT = {(byte) 0xF0, 0x01, 0x01, 0x04, 0x01};

    private byte[] loot;

    public static void install(byte[] array, short offset, byte length) {
        new Thief().register();
    }

    public void process(APDU apdu) {
        if (selectingApplet()) {
            return;
        }
        byte[] buffer = apdu.getBuffer();
        AID vault = JCSystem.lookupAID(VAULT, (short) 0, (byte) VAULT.length);
        Door door = (Door) JCSystem.getAppletShareableInterfaceObject(vault, (byte) 0);
        short found = 0;
        try {
            found = steal(buffer[ISO7816.OFFSET_INS], door, buffer);
        } catch (SecurityException e) {
            ISOException.throwIt(ISO7816.SW_SECURITY_STATUS_NOT_SATISFIED);
        }
        Util.setShort(buffer, (short) 0, found);
        apdu.setOutgoingAndSend((short) 0, (short) 2);
    }

    private short steal(byte how, Door door, byte[] buffer) {
        switch (how) {
            case 1: // what is shared may be called
                return door.knock();
            case 2: // a reference may be had and kept
                loot = door.secret();
                return (short) (loot == null ? 0 : 1);
            case 3: // but what it refers to may not be read
                return loot[0];
            case 4: // nor written
                loot[0] = 0;
                return 0;
            case 5: // nor measured
                return (short) loot.length;
            case 6: // nor copied by the runtime
                return Util.arrayCopy(loot, (short) 0, buffer, (short) 0, (short) 1);
            case 7: // the vault isn't called but through what it shares
                return ((Vault) door).open();
            case 8: // nor is another object of it
                return ((Box) door.box()).take();
            case 9: // the vault can't write into an array of the thief
                door.write(new byte[8]);
                return 0;
            case 10: // but into the buffer, which is everybody's
                door.write(buffer);
                return Util.getShort(buffer, (short) 0);
            case 11: // and that one can't be kept
                loot = buffer;
                return 0;
            default:
                ISOException.throwIt(ISO7816.SW_INS_NOT_SUPPORTED);
                return 0;
        }
    }
}
