/* Calls the library for what stands on standard input, and prints what each call gives, in hexadecimal, on a line: for
   a text, written as its length, a colon and its bytes, zimorgal_constant; for 'a+b', two numbers, zimorgal_join; for
   'a&b:' and the bytes of a question of length a and of rows of length b, zimorgal_judge; for '0?' zimorgal_version. */
#include <inttypes.h>
#include <stdio.h>

#include "zimorgal.h"

static uint8_t text[1 << 20], rows[1 << 20];

/* Reads so many bytes, and says whether they were there and had room. */
static int take(uint8_t *bytes, uint32_t length) {
    return length <= sizeof text && fread(bytes, 1, length, stdin) == length;
}

/* What the call behind a number and a sign gives, and whether there is one. */
static int call(uint32_t number, char sign, uint64_t *given) {
    uint32_t other;
    if (sign == ':') {
        if (!take(text, number)) return 0;
        *given = zimorgal_constant(text, number);
    } else if (sign == '+') {
        if (scanf("%" SCNu32, &other) != 1) return 0;
        *given = zimorgal_join(number, other);
    } else if (sign == '?') {
        *given = zimorgal_version();
    } else {
        if (sign != '&' || scanf("%" SCNu32 "%c", &other, &sign) != 2 || sign != ':') return 0;
        if (!take(text, number) || !take(rows, other)) return 0;
        *given = zimorgal_judge(text, number, rows, other);
    }
    return 1;
}

int main(void) {
    uint32_t number;
    uint64_t given;
    char sign;
    while (scanf("%" SCNu32 "%c", &number, &sign) == 2) {
        if (!call(number, sign, &given)) return 1;
        printf("%" PRIx64 "\n", given);
    }
    return !feof(stdin);
}
