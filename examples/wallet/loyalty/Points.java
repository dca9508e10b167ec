package loyalty;

import javacard.framework.Shareable;

/** What the loyalty applet does for wallets. */
public interface Points extends Shareable {
    /** Says that the wallet has paid so much; gives the points that it has now. */
    short paid(short amount);

    /** Gives the points that the wallet has. */
    short points();
}
