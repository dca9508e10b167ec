package over;

import base.Shape;
import base.Square;

class Cube extends Square {
    private static short count = 3;
    private static final boolean[] flags = new boolean[3];

    Cube(short side) {
        super(side);
        count++;
    }

    public short size() {
        return (short) (super.size() * side);
    }

    public byte name() {
        return (byte) ('a' + flags.length - 1);
    }

    short counted() {
        return (short) (super.secret() - count);
    }

    protected Shape copy() {
        Shape made = super.copy();
        flags[2] = true;
        level += 2;
        return made;
    }

    static short levels() {
        return (short) (flags[2] && !flags[1] ? level : -level);
    }
}
