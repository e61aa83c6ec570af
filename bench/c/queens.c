/* Counts the ways to put queens on a board, one in each row, so that none attacks another. The status is 0 where they are as
   many as is known. */
enum { SIZE = 11, ALL = (1 << SIZE) - 1, ROUNDS = 6, WANTED = 2680 };

/* In how many ways the rows from the next one on can be filled: a bit is set for each column that has a queen, and that one
   attacks in this row from the left and from the right. */
static int ways(unsigned columns, unsigned left, unsigned right)
{
    if (columns == ALL)
        return 1;
    int count = 0;
    unsigned free = ALL & ~(columns | left | right);
    while (free) {
        unsigned queen = free & -free;
        free -= queen;
        count += ways(columns | queen, (left | queen) << 1, (right | queen) >> 1);
    }
    return count;
}

int main(void)
{
    long total = 0;
    for (int round = 0; round < ROUNDS; round++)
        total += ways(0, 0, 0);
    return total != ROUNDS * WANTED;
}
