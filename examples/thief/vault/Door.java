package vault;

import javacard.framework.Shareable;

/** What the vault shares. */
public interface Door extends Shareable {
    /** Gives the length of the secret. */
    short knock();

    /** Gives the array with the secret: a reference, and no right to use it. */
    byte[] secret();

    /** Gives an object of the vault that isn't shared. */
    Object box();

    /** Writes the secret into an array. */
    void write(byte[] to);
}
