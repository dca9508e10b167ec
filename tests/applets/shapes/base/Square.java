package base;

public class Square extends Shape {
    public Square(short side) {
        super(side);
    }

    public short size() {
        return (short) (side * side);
    }

    public byte name() {
        return 'a';
    }

    /** Public here, and package-visible above. */
    public final short secret() {
        return (short) (super.secret() + 5000);
    }

    protected Shape copy() {
        return new Square(side);
    }
}
