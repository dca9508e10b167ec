package base;

public interface Sized {
    byte LIMIT = 100;

    short size();

    short grown(byte by);
}
