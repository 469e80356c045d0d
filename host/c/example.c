/*
 * example.c: exercise A of document 01 from C. Writes the sheet, checks it, runs it, and says what the report holds. What it
 * prints stands in example.out.
 */
#include "vachodien.h"

#include <stdio.h>

static const vachodien_command commands[] = {
    {1, 1, {25}},      /* GENERATE: a key that wraps, decrypts and can be wrapped */
    {1, 1, {16}},      /* GENERATE: a key that can be wrapped */
    {2, 2, {0, 1}},    /* WRAP handle 1 under handle 0: term 2 */
    {5, 3, {0, 0, 2}}, /* DECRYPT term 2 by handle 0: the key itself */
};

static unsigned two(const uint8_t *bytes) {
    return 256u * bytes[0] + bytes[1];
}

static int refused(const char *what, uint32_t number) {
    fprintf(stderr, "%s: answer %u, place %u\n", what, VACHODIEN_ANSWER(number), VACHODIEN_LOW(number));
    return 1;
}

int main(void) {
    static uint8_t sheet[VACHODIEN_LONGEST_SHEET];
    static uint8_t report[VACHODIEN_LONGEST_REPORT];

    uint32_t number = vachodien_write(0, 4, (const uint8_t *)commands, sizeof commands, sheet, sizeof sheet);
    if (VACHODIEN_ANSWER(number) != VACHODIEN_DONE)
        return refused("write", number);
    size_t length = VACHODIEN_LOW(number);
    printf("sheet of %zu bytes:", length);
    for (size_t i = 0; i < length; i++)
        printf(" %02X", sheet[i]);
    printf("\n");

    number = vachodien_check(sheet, length);
    if (VACHODIEN_ANSWER(number) != VACHODIEN_DONE)
        return refused("check", number);
    printf("good, %u commands\n", VACHODIEN_LOW(number));

    number = vachodien_report(sheet, length, report, sizeof report);
    if (VACHODIEN_ANSWER(number) != VACHODIEN_DONE)
        return refused("report", number);
    unsigned n = two(report), m = two(report + 2);
    printf("report of %u bytes\n", VACHODIEN_LOW(number));
    for (unsigned i = 0; i < n; i++)
        printf("command %u: answer %u, value %u\n", i + 1, report[4 + 3 * i], two(report + 5 + 3 * i));
    for (unsigned k = 0; k < m; k++)
        printf("key %u is known\n", two(report + 4 + 3 * n + 2 * k));

    /* A byte is missing: the last entry's body passes the end. */
    number = vachodien_report(sheet, length - 1, report, sizeof report);
    printf("cut short: answer %u, place %u\n", VACHODIEN_ANSWER(number), VACHODIEN_LOW(number));
    return 0;
}
