/* Counts the rounds that the points of a grid take to leave the circle of radius 2, in numbers with 24 bits after the point.
   The status is 0 where they are as many as the same loop takes on another computer. */
enum { COLUMNS = 192, ROWS = 128, MOST = 256, BITS = 24, WANTED = 1730067 };

/* How often a point is squared and moved on before it leaves the circle, at most MOST times. */
static int rounds_of(long left, long up)
{
    long x = 0, y = 0;
    for (int round = 0; round < MOST; round++) {
        long x_squared = x * x >> BITS, y_squared = y * y >> BITS;
        if (x_squared + y_squared > 4L << BITS)
            return round;
        y = (x * y >> (BITS - 1)) + up;
        x = x_squared - y_squared + left;
    }
    return MOST;
}

int main(void)
{
    long total = 0;
    for (int row = 0; row < ROWS; row++)
        for (int column = 0; column < COLUMNS; column++) {
            long left = (3L * column << BITS) / COLUMNS - (2L << BITS);
            long up = (2L * row << BITS) / ROWS - (1L << BITS);
            total += rounds_of(left, up);
        }
    return total != WANTED;
}
