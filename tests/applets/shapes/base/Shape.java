package base;

/** Leaves methods of its interface to the classes below it. */
public abstract class Shape implements Named {
    public static final byte[] LETTERS = {'a', 'b', 'c'};
    public static short made;
    protected static byte level = 7;
    static short hidden = 1000;

    protected short side;
    protected Shape next;
    private byte serial;

    protected Shape(short side) {
        this.side = side;
        serial = (byte) ++made;
    }

    /** Package-visible: classes of other packages can't override it. */
    short secret() {
        return (short) (hidden + serial);
    }

    public final short told() {
        return secret();
    }

    public short grown(byte by) {
        side += by;
        return size();
    }

    protected abstract Shape copy();

    public final Shape chained(Shape other) {
        Shape made = copy();
        made.next = other;
        return made;
    }

    public short sum() {
        return (short) (size() + (next == null ? 0 : next.sum()));
    }
}
