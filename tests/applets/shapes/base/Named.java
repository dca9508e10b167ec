package base;

public interface Named extends Sized {
    byte name();

    short size();
}
