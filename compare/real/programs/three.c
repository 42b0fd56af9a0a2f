/* A function and data, of which some is not used. */

int numbers[8] = {1, 1, 2, 3, 5, 8, 13, 21};
const char *const unused_text = "text";
int unused_zeros[100];

int chosen(int which, const char *text) {
    int found = 0;
    for (const char *at = text; *at; at++)
        found += numbers[(*at + which) & 7];
    return found;
}
