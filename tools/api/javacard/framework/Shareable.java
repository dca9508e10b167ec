package javacard.framework;

/** Marks interfaces whose objects other packages may call. */
public interface Shareable {
}
