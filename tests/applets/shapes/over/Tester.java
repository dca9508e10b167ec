package over;

import base.Named;
import base.Shape;
import base.Sized;
import base.Square;
import javacard.framework.*;

/** The first parameter chooses a shape, and the instruction what it is asked for. */
public class Tester extends Applet {
    private final Shape[] shapes = {new Line((short) 5), new Square((short) 6), new Cube((short) 7)};

    private byte[] kept;

    public static void install(byte[] array, short offset, byte length) {
        new Tester().register();
    }

    public void process(APDU apdu) {
        if (selectingApplet()) {
            return;
        }
        byte[] buffer = apdu.getBuffer();
        Util.setShort(buffer, (short) 0, asked(buffer[1], shapes[buffer[2]], buffer[3]));
        apdu.setOutgoingAndSend((short) 0, (short) 2);
    }

    private short asked(byte what, Shape shape, byte by) {
        Sized sized = shape;
        switch (what) {
            case 1:
                return sized.size();
            case 2:
                return sized.grown(by);
            case 3:
                return ((Named) sized).name();
            case 4:
                return shape.told();
            case 5:
                return secret(shape);
            case 6:
                return shape.chained(shapes[by]).chained(shape).sum();
            case 7:
                return Cube.levels();
            case 8:
                return (short) (Sizes.SIZES[by] + Sized.LIMIT);
            case 9:
                Shape.made -= 100;
                return Shape.made;
            case 10:
                return (short) (sized == shape && shape.equals(sized) && !shape.equals(this) ? 1 : 0);
            case 11: // an array of the library's
                return Shape.LETTERS[by];
            case 13:
                kept = Shape.LETTERS;
                return 0;
            default:
                return (short) (what > 13 && (Object) shapes instanceof Shape[] ? shapes.length : 0);
        }
    }

    private static short secret(Shape shape) {
        if (shape instanceof Line) {
            return ((Line) shape).own();
        }
        return shape instanceof Cube ? ((Cube) shape).counted() : ((Square) shape).secret();
    }
}
