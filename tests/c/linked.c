/* Audits the sheet that its argument names, by the library it is linked with: prints the C audit's answer. The sheet lies
 * with its start, and then with its end, against a page that can't be read. */
#define _DEFAULT_SOURCE /* MAP_ANONYMOUS */
#include "heat_battery.h"
#include "pages.h"
#include <inttypes.h>
#include <string.h>

enum { ROOM = 16 * PAGE };

int main(int argc, char **argv) {
    FILE *file = argc == 2 ? fopen(argv[1], "rb") : NULL;
    if (file == NULL)
        ended("usage: linked SHEET");
    uint8_t *room = pages(ROOM);
    size_t length = fread(room, 1, ROOM, file);
    uint8_t *at_end = room + ROOM - length;
    uint64_t answer = heat_battery_audit(room, length);
    memmove(at_end, room, length);
    if (heat_battery_audit(at_end, length) != answer)
        ended("another answer at another place");
    printf("%" PRIu64 "\n", answer);
    return 0;
}
