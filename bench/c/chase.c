/* Goes along a list whose cells lie here and there in 200 pages. The status is 0 where the sum of the cells is as it has to be. */
enum { COUNT = 25600, STEP = 9973, LOOPS = 400 };

static struct cell {
    struct cell *next;
    long number;
    long more[2];
} cells[COUNT];

/* Links the cells to a ring, each to that which lies STEP farther on. */
static void link_cells(void)
{
    unsigned at = 0;
    for (int number = 0; number < COUNT; number++) {
        unsigned next = (at + STEP) % COUNT;
        cells[at].next = &cells[next];
        cells[at].number = number;
        at = next;
    }
}

int main(void)
{
    link_cells();
    long sum = 0;
    struct cell *cell = cells;
    for (int step = 0; step < LOOPS * COUNT; step++) {
        sum += cell->number;
        cell = cell->next;
    }
    return sum != LOOPS * (COUNT * (COUNT - 1L) / 2);
}
