/* Runs a schedule from C: once with room for its output, once without. See docs/EMBEDDING.md. */
#include <inttypes.h>
#include <stdio.h>
#include <string.h>

#include "polungaw.h"

static const char SCHEDULE[] =
    "clock\n"
    "B 0\n"
    "R 0 5\n"
    "B 1\n"
    "W 1 5 -7\n"
    "C 1\n"
    "R 0 5\n"
    "C 0\n";

static uint8_t reply[256];

/* Whether nothing is left in the reply. */
static int is_clear(void)
{
    for (size_t i = 0; i < sizeof reply; i++) {
        if (reply[i] != 0) {
            return 0;
        }
    }
    return 1;
}

int main(void)
{
    const uint8_t *text = (const uint8_t *)SCHEDULE;
    size_t length = strlen(SCHEDULE);

    int64_t printed = polungaw_run(text, length, reply, sizeof reply);
    if (printed == POLUNGAW_NO_ROOM) {
        return 1;
    }
    fwrite(reply, 1, (size_t)printed, stdout);
    printf("printed %" PRId64 " bytes; never more than %zu for a text of this length\n", printed, polungaw_room(length));

    int64_t refused = polungaw_run(text, length, reply, (size_t)printed - 1);
    reply[printed - 1] = 0; /* the last byte of the first reply lies past the second */
    printf("one byte less: %" PRId64 ", reply %s\n", refused, is_clear() ? "clear" : "NOT CLEAR");

    printf("the table takes %zu bytes\n", polungaw_table_bytes());
    return 0;
}
