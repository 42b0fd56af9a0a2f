/* Functions in sections of their own, and more that are not used. */

int twice(int);
int unused_two(int);

__attribute__((section(".text.cold"))) int rare(int x) {
    return x - 1000;
}

__attribute__((section(".other"))) int elsewhere(int x) {
    return x + 1;
}

int twice(int x) {
    return x > 500 ? rare(x) : elsewhere(x) + x - 1;
}

int unused_two(int x) {
    return twice(x) + 7;
}

int unused_three(void) {
    return 3;
}
