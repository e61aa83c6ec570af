/* Interprets a loop of byte codes, each an operation and its number: the switch is a table of jumps. The status is 0 where the last
   number is that of another computer. */
enum { ADD, MIX, TAKE, NEXT, TURN, TIMES, COUNT, AGAIN };
enum { LOOPS = 320000 };

static const unsigned char CODE[] = {ADD, 0, MIX, 1, TAKE, 3, TURN, 1, TIMES, 2, NEXT, 7, COUNT, 1, AGAIN, 0};
static const unsigned long WANTED = 0x4e7dac56aa1041b4;

int main(void)
{
    unsigned long left = 0, right = 0;
    long count = LOOPS;
    for (unsigned pc = 0;; pc += 2) {
        unsigned long number = CODE[pc + 1];
        switch (CODE[pc]) {
        case ADD:
            left += number + 3;
            break;
        case MIX:
            right ^= left << number;
            break;
        case TAKE:
            left -= right >> number;
            break;
        case NEXT:
            right += number;
            break;
        case TURN:
            left ^= number;
            break;
        case TIMES:
            right = right * 3 + number;
            break;
        case COUNT:
            count -= number;
            break;
        case AGAIN:
            if (count == 0)
                return left + right != WANTED;
            pc = number - 2;
            break;
        }
    }
}
