/* The table check of the frame controller, for C firmware.
 *
 * The check is a proved function: for any bytes its answer is the one that the
 * table format defines (docs/table-format.md), the same that the controller's
 * own load gives. It reads the bytes and nothing else, keeps no state, and
 * needs no heap; its stack is a few hundred bytes.
 */
#ifndef STATION_TABLE_H
#define STATION_TABLE_H

#include <stddef.h>
#include <stdint.h>

#ifdef __cplusplus
extern "C" {
#endif

/* The refusals: the number of the question that was answered no, negated. */
enum station_table_refusal {
    STATION_TABLE_NOT_A_TABLE = -1,  /* fewer than 6 bytes, or no mark */
    STATION_TABLE_TASK_COUNT = -2,   /* not 1 to 384 tasks */
    STATION_TABLE_WRONG_LENGTH = -3, /* not 6 + 11 * tasks bytes */
    STATION_TABLE_NO_SUCH_CORE = -4, /* a row's core is not one of the table's */
    STATION_TABLE_BAD_SPAN = -5,     /* a row does not start before it ends, or ends after the frame */
    STATION_TABLE_OUT_OF_ORDER = -6, /* a row starts before the row before it on its core ends */
    STATION_TABLE_BAD_INPUTS = -7    /* a data bit names no other core on which a row ends in time */
};

/* The number of tasks of the table in the first `length` bytes from `bytes` on,
 * 1 to 384, or one of the refusals above. `bytes` is not NULL, even where
 * `length` is 0.
 */
int32_t station_table_check(const uint8_t *bytes, size_t length);

#ifdef __cplusplus
}
#endif

#endif
