/* Script runs on a model of the SPI FRAM chips MB85RS64VY, MB85RS128TY and MB85RS256B, on the memory board over such a chip,
 * and on a dump: memory that was read off a board and that nobody may write.
 *
 * The chip run and the board run power a chip over the caller's memory, carry out a script on it, and take power away again:
 * memory holds what the chip would hold, and the report says which stored status bits it has. The dump run writes nothing to
 * memory.
 *
 * Link with libfram.a (docs/LIBRARY.md has the commands). The functions keep nothing between calls, take no memory of their own,
 * and may be called from several threads at once. What is passed as const is only read, and may be shared by them: scripts, and
 * the memory of a dump. Other memory and the answers are each thread's own. Nobody may change what is passed while a call runs,
 * another process over a file that is mapped into memory included.
 */
#ifndef FRAM_H
#define FRAM_H

#include <stddef.h>
#include <stdint.h>

#ifdef __cplusplus
extern "C" {
#endif

/* A board has so many cells at the most; of a dump that is longer, the first bytes are its cells. */
enum { FRAM_MOST_CELLS = 1048576 };

/* What a run answers besides the bytes in `answers`. */
typedef struct fram_report {
    uint32_t refusal;       /* 0, or the number of the refusal */
    uint64_t place;         /* refused by 8 or 9: the place of the kind byte in the script, from 0; else 0 */
    uint64_t steps;         /* steps that were run; 0 when refused */
    uint64_t answer_bytes;  /* bytes that were put to the front of `answers`; 0 when refused */
    uint8_t  stored;        /* stored status bits 7 to 2 afterwards; when refused, those that were given; bits 1 and 0 are 0;
                               of a dump run 0 */
} fram_report;

/* The refusals of a run, in the order in which they are looked for. A refused run changes nothing. A step that chip, board or
 * dump refuses is no refusal of the run: it is answered 7Fh and a number, and the steps after it run. That number is 3 for a
 * byte that is no sample, 4 for cells that board or dump does not have, 5 for a write to a protected cell. */
enum {
    FRAM_NO_SHEET = 1,       /* d, the low five bits of t, is not from 1 to 5; never of a dump run */
    FRAM_MEMORY_LENGTH = 2,  /* memory has not exactly 2^(10 + d) bytes; never of a dump run */
    FRAM_UNKNOWN_KIND = 8,   /* a kind byte that the run does not know */
    FRAM_SHORT_STEP = 9,     /* the script ends inside a step */
    FRAM_SHORT_BUFFER = 10   /* answers has fewer than 9 bytes for each step */
};

/* The chip run and the board run take
 *
 *   t, f               the third and fourth byte of the chip's ID
 *   drop, sleep, fast  its marks, each no at 0 and yes at any other value:
 *                        drop   the write latch falls at the end of a WRSR or WRITE session
 *                        sleep  the chip has the command SLEEP
 *                        fast   the chip has the command FSTRD
 *   stored             the stored status bits 7 to 2 (7 WPEN, 3 BP1, 2 BP0); bits 1 and 0 are dropped
 *   memory             the cells of the chip, 2^(10 + d) bytes
 *   script             the steps (docs/FORMATS.md)
 *   answers            receives the answers, at its front; what it held past them stays. 9 bytes for each step are enough
 *
 * and the dump run takes script and answers as they do, and
 *
 *   memory             the bytes of the dump, as many as there are, also none; the first 1,048,576 of them are its cells
 *
 * A pointer must be good for its length, and not NULL, also where the length is 0; what is not const overlaps with nothing
 * else that is passed. Any values else are good, and what comes of them is said above.
 */

/* The chip run: kinds 1 (sample) and 2 (power cycle), on the pins of the chip. */
fram_report fram_chip_run(uint8_t t, uint8_t f, uint8_t drop, uint8_t sleep, uint8_t fast, uint8_t stored,
                          uint8_t *memory, size_t memory_len, const uint8_t *script, size_t script_len,
                          uint8_t *answers, size_t answers_len);

/* The board run: kinds 3 (size), 4 (fence question), 5 (read eight), 6 (write eight) and 7 (write one), on the board that a
 * driver makes of the chip. */
fram_report fram_board_run(uint8_t t, uint8_t f, uint8_t drop, uint8_t sleep, uint8_t fast, uint8_t stored,
                           uint8_t *memory, size_t memory_len, const uint8_t *script, size_t script_len,
                           uint8_t *answers, size_t answers_len);

/* The dump run: kinds 3 (size) and 5 (read eight), on a dump. It is refused by 8, 9 or 10 only; by 8 for every other kind,
 * those of the other runs too. */
fram_report fram_dump_run(const uint8_t *memory, size_t memory_len, const uint8_t *script, size_t script_len,
                          uint8_t *answers, size_t answers_len);

#ifdef __cplusplus
}
#endif

#endif
