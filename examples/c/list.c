/*
 * Hands a layout over as text and prints the listing of its plan: what the
 * program walklist does, from C.
 */
#include <inttypes.h>
#include <stdio.h>
#include <string.h>

#include "gougelily.h"

/* Two operands of 2 x 3 numbers of 8 bytes. */
static const char text[] = "L,P,2,2,-\nE,2,3\nO,8,1,2\nO,8,3,1\n";

static uint8_t room[65536];

int main(void)
{
    const int64_t answer = gougelily_walklist((const uint8_t *)text, strlen(text), room, sizeof room);
    if (answer < 0) {
        fprintf(stderr, "refused with %" PRId64 ", %s\n", -answer, gougelily_refusal_text(answer));
        return 1;
    }
    return fwrite(room, 1, (size_t)answer, stdout) == (size_t)answer ? 0 : 1;
}
