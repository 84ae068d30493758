/* The planner for C: a table's bytes in, a report or the line of a fault out, in the caller's buffer.
 *
 * Each call returns a status, as the program mrp ends with one, and writes a text:
 *
 *   0  the text is the report, byte by byte what mrp writes to standard output
 *   1  the table or a name is refused; the text is the line that mrp writes to standard error
 *   2  a name of mrp_schedule isn't UTF-8; the text is "mrp: a name is not UTF-8\n", whatever the table
 *   3  out of memory; the text is "mrp: Memory\n". The contracts allow the line of a failed read too,
 *      "mrp: row N: ReadFault\n": a table in memory can't fail to be read, but no clause says so
 *
 * *size is the length of the text in bytes; there is no 0 behind it. Where *size is at most buffer_size, the buffer
 * begins with the text, and the bytes behind the text are as they were. Else the whole buffer is as it was: call again
 * with a buffer of *size bytes.
 *
 * No pointer is null, also where a length is 0, and neither the buffer nor *size overlaps with anything else that is
 * handed in. A call plans on one thread and keeps nothing: several threads may call at once, each with buffers of its
 * own. It takes memory by malloc and gives it back; it isn't for a signal handler, nor for the forked child of a
 * process with threads.
 *
 * `reading` says how the table is to be read. With `header` the names of the columns stand above the rows. That status and text are these is proved of the library
 * that a caller links (crates/mrp_c_api); that a caller keeps to this page isn't.
 */
#ifndef MRP_H
#define MRP_H

#include <stdbool.h>
#include <stddef.h>
#include <stdint.h>

#ifdef __cplusplus
extern "C" {
#endif

/* How a table is to be read. With `whole` it has to end with an `end` row, as with mrp's option --whole: one without it was
 * cut off, and is refused. */
typedef struct mrp_reading {
    bool whole;
} mrp_reading;

/* The plan, as mrp plan: a row for each pair and period, then a row for each late order. */
uint32_t mrp_plan(const uint8_t *table, size_t table_size, const mrp_reading *reading,
                  uint8_t *buffer, size_t buffer_size, size_t *size);

/* The planned and firm orders, as mrp orders: where `limited` those alone that are released in period `until`, counted from 0,
 * or before it. */
uint32_t mrp_orders(const uint8_t *table, size_t table_size, const mrp_reading *reading,
                    bool limited, uint64_t until, bool header,
                    uint8_t *buffer, size_t buffer_size, size_t *size);

/* The delivery schedules, as mrp schedule: from the plant or the vendor `from` alone and to the plant `to` alone, where
 * their names aren't empty. */
uint32_t mrp_schedule(const uint8_t *table, size_t table_size, const mrp_reading *reading,
                      const uint8_t *from, size_t from_size, const uint8_t *to, size_t to_size, bool header,
                      uint8_t *buffer, size_t buffer_size, size_t *size);

/* The low-level code of each pair, as mrp check. */
uint32_t mrp_check(const uint8_t *table, size_t table_size, const mrp_reading *reading, bool header,
                   uint8_t *buffer, size_t buffer_size, size_t *size);

/* Until which period the gross requirements of each pair, and its releases, are whole, whatever is wanted behind the horizon,
 * as mrp check --reach. */
uint32_t mrp_reach(const uint8_t *table, size_t table_size, const mrp_reading *reading, bool header,
                   uint8_t *buffer, size_t buffer_size, size_t *size);

/* The cumulative figures of the lanes between plants, as mrp cums. */
uint32_t mrp_cums(const uint8_t *table, size_t table_size, const mrp_reading *reading, bool header,
                  uint8_t *buffer, size_t buffer_size, size_t *size);

/* Which open orders to expedite, to defer and to cancel, as mrp advice: where `limited` those alone that come in period
 * `until`, counted from 0, or before it. With `reach` as mrp advice --reach: a message that holds only as long as nothing is
 * wanted behind the horizon is told as `beyond`, or not at all where the order comes beyond it too. */
uint32_t mrp_advice(const uint8_t *table, size_t table_size, const mrp_reading *reading,
                    bool limited, uint64_t until, bool reach, bool header,
                    uint8_t *buffer, size_t buffer_size, size_t *size);

/* Which requirements of period 0 lack parts, and how many pieces, as mrp shortages. */
uint32_t mrp_shortages(const uint8_t *table, size_t table_size, const mrp_reading *reading, bool header,
                       uint8_t *buffer, size_t buffer_size, size_t *size);

/* Each as the call of that name without _large, for tables up to 1,000 plants, 1,000,000 pairs and 520 periods: as with mrp's
 * option --large. */
uint32_t mrp_plan_large(const uint8_t *table, size_t table_size, const mrp_reading *reading,
                        uint8_t *buffer, size_t buffer_size, size_t *size);

uint32_t mrp_orders_large(const uint8_t *table, size_t table_size, const mrp_reading *reading,
                          bool limited, uint64_t until, bool header,
                          uint8_t *buffer, size_t buffer_size, size_t *size);

uint32_t mrp_schedule_large(const uint8_t *table, size_t table_size, const mrp_reading *reading,
                            const uint8_t *from, size_t from_size, const uint8_t *to, size_t to_size, bool header,
                            uint8_t *buffer, size_t buffer_size, size_t *size);

uint32_t mrp_check_large(const uint8_t *table, size_t table_size, const mrp_reading *reading, bool header,
                         uint8_t *buffer, size_t buffer_size, size_t *size);

uint32_t mrp_reach_large(const uint8_t *table, size_t table_size, const mrp_reading *reading, bool header,
                         uint8_t *buffer, size_t buffer_size, size_t *size);

uint32_t mrp_cums_large(const uint8_t *table, size_t table_size, const mrp_reading *reading, bool header,
                        uint8_t *buffer, size_t buffer_size, size_t *size);

uint32_t mrp_advice_large(const uint8_t *table, size_t table_size, const mrp_reading *reading,
                          bool limited, uint64_t until, bool reach, bool header,
                          uint8_t *buffer, size_t buffer_size, size_t *size);

uint32_t mrp_shortages_large(const uint8_t *table, size_t table_size, const mrp_reading *reading, bool header,
                             uint8_t *buffer, size_t buffer_size, size_t *size);

#ifdef __cplusplus
}
#endif

#endif
