/* Prints the stack that glow.h tells for stores of many lengths and other numbers of the header, and makes calls with null pointers. */
#include "glow.h"
#include <stdio.h>

int main(void) {
    const size_t lengths[] = {0, 1, 3, 4, 7, 8, 63, 64, 1000, 16384, 32767, 32768, 32772, 100000};
    const uint8_t variable[] = {1, 0, 1, 0, 0, 0, 0}, identity[] = {0x20}, none[] = {0, 0}, one[] = {1, 0, 0, 0, 2, 0, 1, 0, 0, 0, 0, 0};
    const size_t count = sizeof lengths / sizeof *lengths;
    uint8_t tag = 9, out_tag = 9;
    uint16_t arg = 9, place = 9, number = 9, out_arg = 9;
    uint64_t report[GLOW_REPORT_LEN];
    uint32_t status;

    for (size_t i = 0; i < count; i++)
        for (size_t k = 0; k < count; k++)
            printf("%zu %zu %zu\n", lengths[i], lengths[k], GLOW_STACK_NEEDED(lengths[i], lengths[k]));
    printf("%zu %zu\n", GLOW_STACK_NEEDED(16384, 16384), GLOW_MOST_STACK_NEEDED);
    for (size_t i = 0; i < count; i++)
        printf("%zu\n", GLOW_STACK_NEEDED(lengths[i], lengths[i]));

    printf("%d %d %d\n", GLOW_FIRST, GLOW_ON_DEMAND, GLOW_NO_SUCH_MACHINE);
    printf("%u\n", glow_evaluate(GLOW_ON_DEMAND + 1, NULL, 0, 5, NULL, 0, NULL, 0, NULL, 0, NULL, 0, NULL, 0, NULL, 0, NULL, 0, NULL, 0, NULL, 0, NULL, 0));
    for (uint32_t machine = GLOW_FIRST; machine <= GLOW_ON_DEMAND; machine++) {
        printf("%u\n", glow_evaluate(machine, NULL, 0, 5, NULL, 0, NULL, 0, NULL, 0, NULL, 0, NULL, 0, NULL, 0, NULL, 0, NULL, 0, NULL, 0, NULL, 0));
        status = glow_evaluate(machine, NULL, 0, 5, NULL, 0, NULL, 0, NULL, 0, NULL, 0, NULL, 0, NULL, 0, NULL, 0, NULL, 0, NULL, 0, report, GLOW_REPORT_LEN);
        printf("%u %u\n", status, (unsigned)report[GLOW_REFUSAL]);
        status = glow_evaluate(machine, variable, sizeof variable, 5, NULL, 0, NULL, 0, NULL, 0, NULL, 0, NULL, 0, NULL, 0, NULL, 0, NULL, 0, NULL, 0, report, GLOW_REPORT_LEN);
        printf("%u %u\n", status, (unsigned)report[GLOW_REFUSAL]);
        status = glow_evaluate(machine, variable, sizeof variable, 5, &tag, 1, &arg, 1, NULL, 0, NULL, 0, NULL, 0, &place, 1, &number, 1, &out_tag, 1, &out_arg, 1, report, GLOW_REPORT_LEN);
        printf("%u %u\n", status, (unsigned)report[GLOW_WRITTEN]);
    }

    printf("%d %d %d\n", GLOW_PRELUDE_BYTES, GLOW_PRELUDE_NOT_ABSTRACTION, GLOW_PRELUDE_PLACE);
    printf("%u\n", glow_evaluate_with(GLOW_ON_DEMAND + 1, NULL, 0, NULL, 0, 5, NULL, 0, NULL, 0, NULL, 0, NULL, 0, NULL, 0, NULL, 0, NULL, 0, NULL, 0, NULL, 0, NULL, 0));
    for (uint32_t machine = GLOW_FIRST; machine <= GLOW_ON_DEMAND; machine++) {
        printf("%u\n", glow_evaluate_with(machine, NULL, 0, NULL, 0, 5, NULL, 0, NULL, 0, NULL, 0, NULL, 0, NULL, 0, NULL, 0, NULL, 0, NULL, 0, NULL, 0, NULL, 0));
        status = glow_evaluate_with(machine, NULL, 0, NULL, 0, 5, NULL, 0, NULL, 0, NULL, 0, NULL, 0, NULL, 0, NULL, 0, NULL, 0, NULL, 0, NULL, 0, report, GLOW_REPORT_LEN);
        printf("%u %u\n", status, (unsigned)report[GLOW_REFUSAL]);
        status = glow_evaluate_with(machine, NULL, 0, variable, sizeof variable, 5, NULL, 0, NULL, 0, NULL, 0, NULL, 0, NULL, 0, NULL, 0, NULL, 0, NULL, 0, NULL, 0, report, GLOW_REPORT_LEN);
        printf("%u %u\n", status, (unsigned)report[GLOW_REFUSAL]);
        status = glow_evaluate_with(machine, one, sizeof one, variable, sizeof variable, 5, NULL, 0, NULL, 0, NULL, 0, NULL, 0, NULL, 0, NULL, 0, NULL, 0, NULL, 0, NULL, 0, report, GLOW_REPORT_LEN);
        printf("%u %u\n", status, (unsigned)report[GLOW_REFUSAL]);
        status = glow_evaluate_with(machine, none, sizeof none, variable, sizeof variable, 5, &tag, 1, &arg, 1, NULL, 0, NULL, 0, NULL, 0, &place, 1, &number, 1, &out_tag, 1, &out_arg, 1, report, GLOW_REPORT_LEN);
        printf("%u %u\n", status, (unsigned)report[GLOW_WRITTEN]);
    }

    printf("%d %d %d %d %d\n", GLOW_EXCHANGE_REPORT_LEN, GLOW_STACK_FOR_AN_EXCHANGE, GLOW_MOST_IMPORTED, GLOW_MOST_EXPORTED, GLOW_MOST_FILE_NODES);
    printf("%d %d %d\n", GLOW_BITS_TOO_SHORT, GLOW_BITS_PADDING, GLOW_BITS_LIMITS);
    printf("%d %d %d\n", GLOW_EXCHANGE_WRITTEN, GLOW_EXCHANGE_REFUSED, GLOW_EXCHANGE_REPORT_TOO_SHORT);
    printf("%u %u\n", glow_import(NULL, 0, 0, NULL, 0, NULL, 0), glow_export(NULL, 0, NULL, 0, NULL, 0));
    status = glow_import(NULL, 0, 0, NULL, 0, report, GLOW_EXCHANGE_REPORT_LEN);
    printf("%u %u\n", status, (unsigned)report[GLOW_REFUSAL]);
    status = glow_import(identity, sizeof identity, 0, NULL, 0, report, GLOW_EXCHANGE_REPORT_LEN);
    printf("%u %u\n", status, (unsigned)report[GLOW_REFUSAL]);
    status = glow_export(NULL, 0, NULL, 0, report, GLOW_EXCHANGE_REPORT_LEN);
    printf("%u %u\n", status, (unsigned)report[GLOW_REFUSAL]);
    status = glow_export(variable, sizeof variable, NULL, 0, report, GLOW_EXCHANGE_REPORT_LEN);
    printf("%u %u\n", status, (unsigned)report[GLOW_REFUSAL]);
    return out_tag == GLOW_VARIABLE && out_arg == 0 ? 0 : 1;
}
