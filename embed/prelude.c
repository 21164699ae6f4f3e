/* Evaluates call y with the definitions id = \x. x and call = \x. id x.   cc prelude.c libglow.a -o prelude && ./prelude */
#include "glow.h"
#include <stdio.h>

static uint8_t tags[16384], out_tags[16384];
static uint16_t args[16384], codes[16384], owns[16384], nexts[16384], places[32768], renumber[32768], out_args[16384];

int main(void) {
    const uint8_t prelude[] = {
        2, 0,                                                       /* two definitions */
        0, 0, 2, 0, 1, 0, 0, 0, 0, 0,                               /* for the name 0: l0 v0 */
        1, 0, 4, 0, 1, 2, 0, 0, 1, 0, 1, 0, 0, 0, 1, 0              /* for the name 1: l1 a1 v0 v1 */
    };
    const uint8_t file[] = {3, 0, 3, 0, 2, 0, 0, 1, 0, 1, 0, 2, 0}; /* a1 v1 v2, with f = 3 */
    uint64_t report[GLOW_REPORT_LEN] = {0};
    uint32_t status = glow_evaluate_with(GLOW_FIRST, prelude, sizeof prelude, file, sizeof file, 1000000, tags, 16384, args, 16384,
        codes, 16384, owns, 16384, nexts, 16384, places, 32768, renumber, 32768, out_tags, 16384, out_args, 16384, report, GLOW_REPORT_LEN);
    printf("status %u refusal %llu beta %llu term", status, (unsigned long long)report[GLOW_REFUSAL], (unsigned long long)report[GLOW_BETA]);
    for (uint64_t i = 0; status == GLOW_NORMAL && i < report[GLOW_WRITTEN]; i++)
        printf(" %c%u", "vla"[out_tags[i]], out_args[i]);
    puts("");
    return status == GLOW_NORMAL ? 0 : 1;
}
