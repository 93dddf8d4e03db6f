#include <stdio.h>

#include "fram.h"

static const uint8_t dump[] = {0x27, 0x9C, 1, 2, 3, 4, 5, 6, 7}; /* of any length; nobody writes to it */

int main(void)
{
    const uint8_t script[] = {3, 5, 0, 0, 1}; /* size; read eight cells from 1 on */
    uint8_t answers[9 * 2];                   /* nine bytes for each step */
    fram_report report = fram_dump_run(dump, sizeof dump, script, sizeof script, answers, sizeof answers);
    if (report.refusal != 0) {
        return 1;
    }
    for (size_t i = 0; i < report.answer_bytes; i++) {
        printf("%02X ", answers[i]); /* 83 00 00 09 85 9C 01 02 03 04 05 06 07: nine cells; those from 1 on */
    }
    printf("\n");
    return 0;
}
