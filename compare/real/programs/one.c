/* Functions that are used, one that is not, and the entry of a program without a library. */

int twice(int);
int chosen(int, const char *);

static volatile int kept = 3;

int unused_one(int x) {
    return x ^ 0x55;
}

int add(int x, int y) {
    return x + y;
}

int start(void) {
    int sum = 0;
    for (int i = 0; i < kept; i++)
        sum = add(sum, twice(i));
    return chosen(sum, "start");
}

int main(void) {
    return start();
}
