#include <stdio.h>

#include "fram.h"

static uint8_t memory[8192]; /* an MB85RS64VY has 8,192 cells */

int main(void)
{
    const uint8_t script[] = {3, 7, 0, 0x1F, 0xFF, 0x55}; /* size; write 55h at 1FFFh */
    uint8_t answers[9 * 2];                               /* nine bytes for each step */
    fram_report report = fram_board_run(0x03, 0x02, 0, 1, 0, 0x00, memory, sizeof memory,
                                        script, sizeof script, answers, sizeof answers);
    if (report.refusal != 0) {
        return 1;
    }
    for (size_t i = 0; i < report.answer_bytes; i++) {
        printf("%02X ", answers[i]); /* 83 00 20 00 86: 8,192 cells; written */
    }
    printf("%02X\n", memory[0x1FFF]); /* 55 */
    return 0;
}
