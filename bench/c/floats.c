/* Adds, multiplies, divides and compares numbers with a floating point, each by a routine of the compiler's, since the machine
   has no instructions for them. The status is 0 where the last one has the bits that it has on another computer. */
enum { ROUNDS = 100000 };

static const unsigned long WANTED = 0x40e6e8437a069ef9;

int main(void)
{
    union {
        double number;
        unsigned long bits;
    } sum = {0};
    double point = 0.5;
    for (int round = 1; round <= ROUNDS; round++) {
        point = 3.9 * point * (1 - point);
        if (point < 0.5)
            sum.number -= point / round;
        else
            sum.number += point;
    }
    return sum.bits != WANTED;
}
