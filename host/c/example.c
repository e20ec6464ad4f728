/* The shortest use of Safeteal from C: lettering of gain 2 and offset 10 is lifted off a plane of one pixel, then a
   call is refused. chain.c beside it has the whole chain.

   To build it, in the project's root: cc -Ihost host/c/example.c target/staticlib/libhost.a -o example */
#include <stdio.h>

#include "safeteal.h"

static void tell(uint64_t answer) {
    enum safeteal_refusal number = safeteal_number(answer);
    printf("number %d (%s), count %d\n", (int)number, safeteal_refusal_words(number), (int)safeteal_count(answer));
}

int main(void) {
    /* Gain 8192 / 4096, offset 640 / 64; in the second half of chroma2 the cell's distance, 1. Little-endian. */
    const uint8_t luma[] = {0x00, 0x20, 0x80, 0x02};
    const uint8_t chroma[] = {0, 0, 1, 0};
    const uint8_t raw[] = {110};
    uint8_t output[] = {0};

    uint64_t answer = safeteal_peel(luma, 4, chroma, 4, chroma, 4, 1, 1, 1, 1, 1, 0, output, 1, 1, raw, 1, 1);
    tell(answer);
    printf("the byte %d became %d\n", raw[0], output[0]);

    /* Ratio 2 does not divide width 5. */
    uint64_t refused = safeteal_peel(luma, 4, chroma, 4, chroma, 4, 1, 1, 5, 1, 2, 0, output, 1, 1, raw, 1, 1);
    tell(refused);

    return safeteal_number(answer) == SAFETEAL_ACCEPTED && safeteal_count(answer) == 1 && output[0] == 50 &&
                   safeteal_number(refused) == SAFETEAL_REFUSED_RATIO
               ? 0
               : 1;
}
