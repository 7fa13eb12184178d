class Counter {
    int start;
    int step;
    int value = start;
    int last = value;

    int lowest = start;
    int highest = value;
}
