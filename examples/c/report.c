/* Answers as mrp does, by the library:
 *
 *   report plan|orders|schedule|check|reach|cums|advice|shortages [--whole] [--header] < table
 *
 * `reach` is mrp check --reach. Advice is that of all messages, as without --reach.
 *
 * The report goes to standard output, the line of a fault to standard error, and the status is that of the call, 2 for other
 * words, or 3 where standard input can't be read or standard output not be written.
 */
#include "mrp.h"

#include <stdio.h>
#include <stdlib.h>
#include <string.h>

struct bytes {
    uint8_t *at;
    size_t size;
};

/* Gives the bytes more room, and ends the program where there is none. */
static void grow(struct bytes *bytes, size_t room)
{
    uint8_t *at = realloc(bytes->at, room);
    if (!at) {
        fputs("report: out of memory\n", stderr);
        exit(3);
    }
    bytes->at = at;
}

/* Reads a file to its end. */
static struct bytes read_all(FILE *file)
{
    struct bytes read = {NULL, 0};
    size_t room = 1 << 16;
    for (;;) {
        grow(&read, room);
        read.size += fread(read.at + read.size, 1, room - read.size, file);
        if (ferror(file)) {
            fputs("report: the table can't be read\n", stderr);
            exit(3);
        }
        if (read.size < room)
            return read;
        room *= 2;
    }
}

/* Makes the call of that name. */
static uint32_t call(const char *name, const mrp_reading *reading, bool header, struct bytes table, struct bytes buffer,
                     size_t *size)
{
    const uint8_t none[1] = {0};
    if (!strcmp(name, "plan"))
        return mrp_plan(table.at, table.size, reading, buffer.at, buffer.size, size);
    if (!strcmp(name, "orders"))
        return mrp_orders(table.at, table.size, reading, false, 0, header, buffer.at, buffer.size, size);
    if (!strcmp(name, "schedule"))
        return mrp_schedule(table.at, table.size, reading, none, 0, none, 0, header, buffer.at, buffer.size, size);
    if (!strcmp(name, "check"))
        return mrp_check(table.at, table.size, reading, header, buffer.at, buffer.size, size);
    if (!strcmp(name, "reach"))
        return mrp_reach(table.at, table.size, reading, header, buffer.at, buffer.size, size);
    if (!strcmp(name, "cums"))
        return mrp_cums(table.at, table.size, reading, header, buffer.at, buffer.size, size);
    if (!strcmp(name, "advice"))
        return mrp_advice(table.at, table.size, reading, false, 0, false, header, buffer.at, buffer.size, size);
    if (!strcmp(name, "shortages"))
        return mrp_shortages(table.at, table.size, reading, header, buffer.at, buffer.size, size);
    fprintf(stderr, "report: no report is called %s\n", name);
    exit(2);
}

int main(int count, char **words)
{
    mrp_reading reading = {count > 2 && !strcmp(words[2], "--whole")};
    bool header = count > 2 + reading.whole && !strcmp(words[2 + reading.whole], "--header");
    if (count < 2 || count > 2 + reading.whole + header) {
        fputs("report: give it the name of a report, --whole where the table has to end with an end row, and --header where"
              " names of columns are wanted\n", stderr);
        return 2;
    }
    struct bytes table = read_all(stdin), text = {NULL, 0};
    size_t size = 1 << 12;
    uint32_t status;
    do {
        text.size = size;
        grow(&text, size);
        status = call(words[1], &reading, header, table, text, &size);
    } while (size > text.size);
    FILE *out = status ? stderr : stdout;
    if (fwrite(text.at, 1, size, out) < size || fflush(out)) {
        fputs("report: the report can't be written\n", stderr);
        status = 3;
    }
    free(table.at);
    free(text.at);
    return (int)status;
}
