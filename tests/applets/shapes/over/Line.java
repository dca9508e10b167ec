package over;

import base.Shape;

/** Has a method of the same name as a package-visible one above it. */
class Line extends Shape {
    Line(short side) {
        super(side);
    }

    public short size() {
        return side;
    }

    public byte name() {
        return 'b';
    }

    short secret() {
        return -1;
    }

    protected Shape copy() {
        return new Line((short) (side + 1));
    }

    short own() {
        return secret();
    }
}
