/* Looks whether a table of multiplications and divisions holds where this program runs. Standard input is the table, as
   crates/multiply_rows/rows.py writes it; how many rows hold is printed, and the first that does not. */
#include <stdio.h>
#include <string.h>

typedef unsigned long number;

#define TRY(mnemonic) \
    if (strcmp(name, #mnemonic) == 0) { \
        number result; \
        __asm__(#mnemonic " %0, %1, %2" : "=r"(result) : "r"(a), "r"(b)); \
        return result; \
    }

static number given(const char *name, number a, number b)
{
    TRY(mul) TRY(mulh) TRY(mulhsu) TRY(mulhu) TRY(div) TRY(divu) TRY(rem) TRY(remu)
    TRY(mulw) TRY(divw) TRY(divuw) TRY(remw) TRY(remuw)
    return 0xbad;
}

int main(void)
{
    char name[16];
    number word, a, b, wanted;
    int count = 0;
    while (scanf("%15s %lx %lx %lx %lx", name, &word, &a, &b, &wanted) == 5) {
        number result = given(name, a, b);
        if (result != wanted) {
            printf("%s %lx %lx: %lx, and not %lx\n", name, a, b, result, wanted);
            return 1;
        }
        count++;
    }
    printf("%d rows\n", count);
    return 0;
}
