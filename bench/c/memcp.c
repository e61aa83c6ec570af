/* Fills, copies, adds and compares bytes, one by one and by words, as a library does. The status is 0 where as many differ as do on
   another computer. */
enum { COUNT = 16384, ROUNDS = 200, WANTED = 0x30fd00 };

static long left_words[COUNT / 8], right_words[COUNT / 8];

int main(void)
{
    char *left = (char *)left_words, *right = (char *)right_words;
    long differ = 0;
    for (int round = 0; round < ROUNDS; round++) {
        for (int at = 0; at < COUNT; at++)
            left[at] = at * round;
        for (int at = 0; at < COUNT; at++)
            right[at] = left[at];
        for (int at = 0; at < COUNT / 8; at++)
            left_words[at] += right_words[at];
        for (int at = 0; at < COUNT; at++)
            differ += left[at] != right[at];
    }
    return differ != WANTED;
}
