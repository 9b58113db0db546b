/* The audit of any length: `whole SHEET..`. On each stored sheet, cut at every length and with a bit of every byte flipped,
 * it says what the audit with the limit says, where that one looks at the lines. Then the entries write a sheet of megabytes
 * for the first one's card, which is accepted, and refused where it is damaged far behind the limit. What is lent lies against
 * a page that can't be read, with its end, and in a second run with its start. Ends with 0 where all is as it should be. */
#define _DEFAULT_SOURCE /* MAP_ANONYMOUS */
#include "heat_battery.h"
#include "pages.h"
#include <string.h>

enum { LIMIT = 65536, MOST_STORED = 1 << 20, DAMAGED_EVERYWHERE = 8192, LINES = 40000 };

static unsigned long audits, wrong;
static uint8_t kept[MOST_STORED]; /* a stored sheet */

static int at_start; /* whether what is lent lies against the page before it */

struct room {
    uint8_t *bytes;
    size_t size;
};

/* Room for so many bytes and less. */
static struct room room_for(size_t length) {
    size_t size = (length + PAGE - 1) / PAGE * PAGE;
    struct room room = {pages(size), size};
    return room;
}

/* Where so many bytes lie in it. */
static uint8_t *lent(struct room room, size_t length) {
    return at_start ? room.bytes : room.bytes + room.size - length;
}

static void expect(int is_so, const char *what) {
    audits++;
    if (!is_so && wrong++ < 20)
        fprintf(stderr, "%s\n", what);
}

static int says(struct heat_battery_verdict verdict, uint8_t refusal, uint64_t line) {
    return verdict.refusal == refusal && verdict.line == line;
}

/* Within the limit both audits agree; above it one refuses with 44, the other never. */
static void compare(const uint8_t *sheet, size_t length, const char *name) {
    uint64_t word = heat_battery_audit(sheet, length);
    struct heat_battery_verdict verdict = heat_battery_audit_whole(sheet, length);
    if (length <= LIMIT)
        expect(verdict.line * 256 + verdict.refusal == word, name);
    else
        expect(word == HEAT_BATTERY_TOO_LONG && verdict.refusal != HEAT_BATTERY_TOO_LONG, name);
}

static void stored(const char *name, struct room room) {
    FILE *file = fopen(name, "rb");
    if (file == NULL)
        ended(name);
    size_t length = fread(kept, 1, sizeof kept, file);
    fclose(file);
    uint8_t *sheet = lent(room, length);
    memcpy(sheet, kept, length);
    compare(sheet, length, name);
    if (length > DAMAGED_EVERYWHERE)
        return;
    for (size_t at = 0; at < length; at++) {
        sheet[at] ^= (uint8_t)(1 << at % 8);
        compare(sheet, length, name);
        sheet[at] = kept[at];
        memcpy(lent(room, at), kept, at);
        compare(lent(room, at), at, name);
        memcpy(sheet, kept, length);
    }
}

/* A sheet of a version: a loss, a closing and a state of charge in turn, LINES in all. A call is lent what lies behind the
 * last line, or where its start is to lie against a page, room for its own line. */
static void long_sheet(uint8_t version, const uint8_t *own_card) {
    /* 4 regular, 256 direct; then the flag of version 4 */
    static const uint8_t rest[HEAT_BATTERY_SERVICES_LENGTH(2) + HEAT_BATTERY_FLOOR_LENGTH] = {2, 0, 4, 1, 1, 0, 3, 1};
    size_t more = version < 3 ? 0 : version < 4 ? HEAT_BATTERY_SERVICES_LENGTH(2) : sizeof rest;
    size_t card_size = HEAT_BATTERY_CARD_LENGTH + more;
    size_t size = HEAT_BATTERY_RECORD_LENGTH(own_card[0]) + more, opening = HEAT_BATTERY_OPENING_LENGTH + more;
    size_t line = HEAT_BATTERY_LINE_LENGTH(own_card[0], HEAT_BATTERY_BARE_LENGTH), length = opening + LINES * line;
    struct room room = room_for(length), front = room_for(line);
    uint8_t *sheet = lent(room, length), *end = sheet + length, *at = sheet + opening;
    uint8_t *card = lent(room_for(card_size), card_size), *record = lent(room_for(size), size);
    uint8_t *kind = lent(room_for(1), 1);
    memcpy(card, own_card, HEAT_BATTERY_CARD_LENGTH);
    memcpy(card + HEAT_BATTERY_CARD_LENGTH, rest, more);
    if (heat_battery_open(version, card, card_size, record, size, sheet, length) != HEAT_BATTERY_ANSWERED)
        ended("the card is refused");
    for (int i = 0; i < LINES; i++, at += line) {
        *kind = (uint8_t)(4 + i % 3);
        uint8_t *free = at_start ? front.bytes : at;
        if (heat_battery_call(version, record, size, kind, 1, free, at_start ? line : (size_t)(end - at)) != HEAT_BATTERY_ANSWERED)
            ended("a call is refused");
        if (at_start)
            memcpy(at, free, line);
    }
    expect(says(heat_battery_audit_whole(sheet, length), 0, LINES), "the long sheet isn't accepted");
    expect(heat_battery_audit(sheet, length) == HEAT_BATTERY_TOO_LONG, "the audit with the limit takes it");
    end[-1] ^= 1; /* in the last total of the last line */
    expect(says(heat_battery_audit_whole(sheet, length), HEAT_BATTERY_DISAGREES, LINES), "an altered last line");
    end[-1] ^= 1;
    memmove(lent(room, length - 1), sheet, length - 1);
    expect(says(heat_battery_audit_whole(lent(room, length - 1), length - 1), HEAT_BATTERY_BAD_LINE, LINES), "a last line cut short");
    printf("unreadable %s, version %d: %zu bytes, %d lines\n", at_start ? "before" : "behind", version, length, LINES);
}

int main(int argc, char **argv) {
    struct room room = room_for(MOST_STORED);
    uint8_t card[HEAT_BATTERY_CARD_LENGTH];
    if (argc < 2)
        ended("usage: whole SHEET..");
    for (at_start = 0; at_start <= 1; at_start++) {
        for (int i = 1; i < argc; i++) {
            stored(argv[i], room);
            if (i == 1)
                memcpy(card, kept + 3, sizeof card);
        }
        for (int version = HEAT_BATTERY_OLDEST_VERSION; version <= HEAT_BATTERY_NEWEST_VERSION; version++)
            long_sheet((uint8_t)version, card);
    }
    printf("%lu audits, %lu wrong\n", audits, wrong);
    return wrong != 0;
}
