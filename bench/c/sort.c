/* Sorts numbers by parts, and short parts by moving each number to where it belongs. The status is 0 where the numbers are in order
   and their sum is what it was. */
enum { COUNT = 20000, SHORT = 12, ROUNDS = 18 };

static unsigned numbers[COUNT];

/* Puts each number where it belongs among those before it. */
static void insert_each(unsigned *first, int count)
{
    for (int at = 1; at < count; at++) {
        unsigned number = first[at];
        int to = at;
        while (to > 0 && first[to - 1] > number) {
            first[to] = first[to - 1];
            to--;
        }
        first[to] = number;
    }
}

static void sort(unsigned *first, int count)
{
    while (count > SHORT) {
        unsigned middle = first[count / 2];
        int low = 0, high = count - 1;
        while (low <= high) {
            while (first[low] < middle)
                low++;
            while (first[high] > middle)
                high--;
            if (low <= high) {
                unsigned number = first[low];
                first[low++] = first[high];
                first[high--] = number;
            }
        }
        if (high + 1 < count - low) {
            sort(first, high + 1);
            first += low;
            count -= low;
        } else {
            sort(first + low, count - low);
            count = high + 1;
        }
    }
    insert_each(first, count);
}

int main(void)
{
    unsigned random = 12345;
    for (int round = 0; round < ROUNDS; round++) {
        unsigned sum = 0;
        for (int at = 0; at < COUNT; at++) {
            random = random * 1103515245u + 12345u;
            numbers[at] = random;
            sum += random;
        }
        sort(numbers, COUNT);
        for (int at = 1; at < COUNT; at++)
            if (numbers[at - 1] > numbers[at])
                return 1;
        for (int at = 0; at < COUNT; at++)
            sum -= numbers[at];
        if (sum != 0)
            return 1;
    }
    return 0;
}
