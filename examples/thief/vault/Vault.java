package vault;

import javacard.framework.*;

/** Keeps a secret, the data of its install. */
public class Vault extends Applet implements Door {
    public short opened;

    private final byte[] secret;

    private Vault(byte[] array, short offset, byte length) {
        secret = new byte[length];
        Util.arrayCopy(array, offset, secret, (short) 0, length);
    }

    public static void install(byte[] array, short offset, byte length) {
        short data = (short) (offset + array[offset] + 2);
        new Vault(array, (short) (data + 1), array[data]).register();
    }

    public Shareable getShareableInterfaceObject(AID client, byte parameter) {
        return this;
    }

    public short knock() {
        return (short) secret.length;
    }

    public byte[] secret() {
        return secret;
    }

    public Object box() {
        return new Box();
    }

    public void write(byte[] to) {
        Util.arrayCopy(secret, (short) 0, to, (short) 0, (short) secret.length);
    }

    /** Not of a shared interface. */
    public short open() {
        opened++;
        return secret[0];
    }

    /** Answers the secret to a reader who has selected the vault. */
    public void process(APDU apdu) {
        if (selectingApplet()) {
            return;
        }
        byte[] buffer = apdu.getBuffer();
        write(buffer);
        apdu.setOutgoingAndSend((short) 0, (short) secret.length);
    }
}
