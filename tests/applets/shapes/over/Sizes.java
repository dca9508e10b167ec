package over;

interface Sizes {
    short[] SIZES = {1, -2, 300};
}
