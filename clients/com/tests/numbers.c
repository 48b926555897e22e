/* Reads floating-point numbers from standard input, one a line: the type (4 or 5), its bits in
   hexadecimal digits, and the type that is declared for it. Prints the type of what the bridge
   makes of it and its content, a decimal as digits and scale, or the code where it makes
   nothing. */
#include "../values.h"

#include <stdio.h>
#include <stdlib.h>
#include <string.h>

static void print_decimal(const DECIMAL *number)
{
    printf("14 %s%x%016llx %u\n", number->sign ? "-" : "", (unsigned)number->Hi32,
           (unsigned long long)number->Lo64, number->scale);
}

int main(void)
{
    unsigned long long bits;
    unsigned type, declared;

    while (scanf("%u %llx %u", &type, &bits, &declared) == 3) {
        VARIANT value, made;
        HRESULT result;

        memset(&value, 0, sizeof value);
        V_UI8(&value) = bits;
        V_VT(&value) = (VARTYPE)type;
        result = number_as(&value, (VARTYPE)declared, &made);
        if (result != S_OK)
            printf("%08x\n", (unsigned)result);
        else if (V_VT(&made) == VT_I4)
            printf("3 %d\n", V_I4(&made));
        else if (V_VT(&made) == VT_DECIMAL)
            print_decimal(&V_DECIMAL(&made));
        else
            printf("%u %lld\n", V_VT(&made), (long long)V_I8(&made));
    }
    return 0;
}
