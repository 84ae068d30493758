/* A library that answers a line, as that for C does. */
#include <stdbool.h>
#include <stddef.h>
#include <stdint.h>
#include <stdio.h>
#include <string.h>
typedef struct mrp_reading {
    bool whole;
} mrp_reading;

uint32_t mrp_cums(const uint8_t *table, size_t table_size, const mrp_reading *reading, bool header,
                  uint8_t *buffer, size_t buffer_size, size_t *size)
{
    *size = 9;
    return memcpy(buffer, "mrp: one\n", 9), 1;
}

uint32_t mrp_plan(void)
{
    return 0;
}

uint32_t mrp_orders(void)
{
    return 0;
}

uint32_t mrp_schedule(void)
{
    return 0;
}

uint32_t mrp_check(void)
{
    return 0;
}

uint32_t mrp_shortages(void)
{
    return 0;
}

uint32_t mrp_reach(const uint8_t *table, size_t table_size, const mrp_reading *reading, bool header,
                   uint8_t *buffer, size_t buffer_size, size_t *size)
{
    *size = snprintf((char *)buffer, buffer_size, "mrp: reach %d, whole %d\n", header, reading->whole);
    return 1;
}

uint32_t mrp_advice(const uint8_t *table, size_t table_size, const mrp_reading *reading,
                    bool limited, uint64_t until, bool reach, bool header,
                    uint8_t *buffer, size_t buffer_size, size_t *size)
{
    *size = snprintf((char *)buffer, buffer_size, "mrp: until %d %d, %d, reach %d, whole %d\n", limited, (int)until, header, reach, reading->whole);
    return 1;
}
