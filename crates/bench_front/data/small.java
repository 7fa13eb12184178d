/** A file with a token of each sort. */
class Small { // thirty-one tokens
    String s = "a\tb";

    int twice(int x) { return x < 0 ? -x * 2 : x + x; }
}
