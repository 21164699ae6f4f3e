/* Imports \x. x from bits and exports it back.   cc exchange.c libglow.a -o exchange && ./exchange */
#include "glow.h"
#include <stdio.h>

/* What a call answers: its status, and the bytes that it wrote. */
static void show(const char *what, uint32_t status, const uint64_t *report, const uint8_t *out) {
    printf("%s: status %u refusal %llu bytes", what, status, (unsigned long long)report[GLOW_REFUSAL]);
    for (uint64_t i = 0; i < report[GLOW_WRITTEN]; i++)
        printf(" %02x", out[i]);
    puts("");
}

int main(void) {
    const uint8_t bits[] = {0x20}; /* 00, an abstraction; 10, the variable that it binds; padding */
    uint8_t file[64], back[64];
    uint64_t report[GLOW_EXCHANGE_REPORT_LEN] = {0};
    uint32_t status = glow_import(bits, sizeof bits, 0, file, sizeof file, report, GLOW_EXCHANGE_REPORT_LEN);
    show("import", status, report, file);
    if (status != GLOW_EXCHANGE_WRITTEN) return 1;
    status = glow_export(file, (size_t)report[GLOW_WRITTEN], back, sizeof back, report, GLOW_EXCHANGE_REPORT_LEN);
    show("export", status, report, back);
    return status == GLOW_EXCHANGE_WRITTEN ? 0 : 1;
}
