/* A library that answers what the memory says, whatever is asked: the tests show with it that the program reads nothing which
 * it was not given, and ends with an error where an answer does not fit its script. The first five bytes of the memory are
 * the report, where FF stands for the greatest number; the bytes behind them are put to the front of the answers. It never
 * writes past the answer buffer.
 */
#include "fram.h"

enum { REFUSAL, PLACE, STEPS, ANSWER_BYTES, STORED, REPORT_BYTES };

static uint64_t number(uint8_t byte)
{
    return byte == 0xFF ? UINT64_MAX : byte;
}

static fram_report answer(const uint8_t *memory, size_t memory_len, uint8_t *answers, size_t answers_len)
{
    fram_report report = {.refusal = FRAM_MEMORY_LENGTH};
    if (memory_len < REPORT_BYTES) {
        return report;
    }
    size_t count = memory_len - REPORT_BYTES < answers_len ? memory_len - REPORT_BYTES : answers_len;
    for (size_t i = 0; i < count; i++) {
        answers[i] = memory[REPORT_BYTES + i];
    }
    report.refusal = memory[REFUSAL];
    report.place = number(memory[PLACE]);
    report.steps = number(memory[STEPS]);
    report.answer_bytes = number(memory[ANSWER_BYTES]);
    report.stored = memory[STORED];
    return report;
}

fram_report fram_chip_run(uint8_t t, uint8_t f, uint8_t drop, uint8_t sleep, uint8_t fast, uint8_t stored, uint8_t *memory,
                          size_t memory_len, const uint8_t *script, size_t script_len, uint8_t *answers, size_t answers_len)
{
    (void)t, (void)f, (void)drop, (void)sleep, (void)fast, (void)stored, (void)script, (void)script_len;
    return answer(memory, memory_len, answers, answers_len);
}

fram_report fram_board_run(uint8_t t, uint8_t f, uint8_t drop, uint8_t sleep, uint8_t fast, uint8_t stored, uint8_t *memory,
                           size_t memory_len, const uint8_t *script, size_t script_len, uint8_t *answers, size_t answers_len)
{
    (void)t, (void)f, (void)drop, (void)sleep, (void)fast, (void)stored, (void)script, (void)script_len;
    return answer(memory, memory_len, answers, answers_len);
}

fram_report fram_dump_run(const uint8_t *memory, size_t memory_len, const uint8_t *script, size_t script_len, uint8_t *answers,
                          size_t answers_len)
{
    (void)script, (void)script_len;
    return answer(memory, memory_len, answers, answers_len);
}
