package vault;

/** An object of the vault. */
public class Box {
    public short worth = 100;

    public short take() {
        short taken = worth;
        worth = 0;
        return taken;
    }
}
