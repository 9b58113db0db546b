/* Replays the oracle's cases on the library: `replay FILE`. Every result and every lent byte is compared,
 * and each call is made on the caller's own record too. All that is lent lies against a page that can't be read:
 * with its end, and in a second run with its start. Ends with 0 where all agree. */
#define _DEFAULT_SOURCE /* MAP_ANONYMOUS */
#include "heat_battery.h"
#include "pages.h"
#include <string.h>

enum { OPEN = 1, CALL = 2, AUDIT = 3, WHOLE = 4, GUARD = 64, ROOM = 40 * PAGE };

struct slice {
    uint8_t *bytes; /* a page that can't be read on one side, guards on the other */
    size_t length;
};

static FILE *file;
static int at_start; /* the side of that page: 0 the end of what is lent, 1 its start */
static uint8_t *rooms[3]; /* for the slices of a case */
static unsigned long own_calls; /* on the caller's own record */
static unsigned long listing_calls; /* of these, with a version from 3 on, in which it lists services */
static unsigned long floored_calls; /* of these, with a version from 4 on and the floor */
static uint8_t *page; /* for that record */

static void read_bytes(void *to, size_t length) {
    if (length > 0 && fread(to, 1, length, file) != length)
        ended("the file is cut short");
}

static uint64_t read_number(int width) {
    uint8_t bytes[8];
    uint64_t number = 0;
    read_bytes(bytes, (size_t)width);
    for (int i = 0; i < width; i++)
        number = number << 8 | bytes[i];
    return number;
}

static uint8_t *guards(struct slice s) { return at_start ? s.bytes + s.length : s.bytes - GUARD; }

static struct slice read_slice(int room) {
    struct slice s;
    s.length = (size_t)read_number(4);
    if (s.length + GUARD > ROOM)
        ended("a slice is too long");
    s.bytes = at_start ? rooms[room] : rooms[room] + ROOM - s.length;
    memset(guards(s), 0xa5, GUARD);
    read_bytes(s.bytes, s.length);
    return s;
}

static int guarded(struct slice s) {
    for (int i = 0; i < GUARD; i++)
        if (guards(s)[i] != 0xa5)
            return 0;
    return 1;
}

/* Whether the file's next bytes are the slice's. */
static int as_expected(struct slice s) {
    uint8_t *expected = malloc(s.length + 1);
    if (expected == NULL)
        ended("no memory");
    read_bytes(expected, s.length);
    int same = memcmp(expected, s.bytes, s.length) == 0 && guarded(s);
    free(expected);
    return same;
}

/* ---- the caller's own record */

static double number_at(const uint8_t *bytes) {
    uint64_t bits = 0;
    double number;
    for (int i = 0; i < 8; i++)
        bits = bits << 8 | bytes[i];
    memcpy(&number, &bits, 8);
    return number;
}

/* The length of the card at the front of a record; 0 where it has none. */
static size_t card_length(uint8_t version, const uint8_t *record, size_t length) {
    if (version < 3)
        return length < HEAT_BATTERY_CARD_LENGTH ? 0 : HEAT_BATTERY_CARD_LENGTH;
    if (length <= HEAT_BATTERY_CARD_LENGTH)
        return 0;
    size_t listed = HEAT_BATTERY_CARD_LENGTH + HEAT_BATTERY_SERVICES_LENGTH(record[HEAT_BATTERY_CARD_LENGTH]);
    return version < 4 ? listed : listed + HEAT_BATTERY_FLOOR_LENGTH;
}

/* The list of a card from version 3 on, as far as there are places for it; what isn't read holds anything. */
static void services_from(struct heat_battery *b, uint8_t version, const uint8_t *record) {
    const uint8_t *entry = record + HEAT_BATTERY_CARD_LENGTH + 1;
    b->services = 0xe7;
    memset(b->numbers, 0xe7, sizeof b->numbers);
    memset(b->classes, 0xe7, sizeof b->classes);
    if (version < 3)
        return;
    b->services = record[HEAT_BATTERY_CARD_LENGTH];
    for (int i = 0; i < b->services && i < HEAT_BATTERY_MOST_SERVICES; i++, entry += 3) {
        b->numbers[i] = (uint16_t)(entry[0] << 8 | entry[1]);
        b->classes[i] = entry[2];
    }
}

/* The flag of a card of version 4, its last byte; before, 1 or what none may be, by the card. */
static uint8_t floor_from(uint8_t version, const uint8_t *record, const uint8_t *state) {
    return version < 4 ? (uint8_t)(record[5] % 2 ? 1 : 0xe7) : state[-1];
}

static void battery_from(struct heat_battery *b, uint8_t version, const uint8_t *record, size_t length) {
    double *card = &b->card.substep, *totals = &b->total;
    const uint8_t *state = record + card_length(version, record, length);
    memset(b, 0, sizeof *b);
    services_from(b, version, record);
    b->floor = floor_from(version, record, state);
    b->card.layers = record[0];
    b->card.units = (uint16_t)(record[1] << 8 | record[2]);
    b->card.simultaneous = record[3];
    b->card.budget = (uint16_t)(record[4] << 8 | record[5]);
    b->count = record[0];
    for (int i = 0; i < 19; i++)
        card[i] = number_at(record + 6 + 8 * i);
    for (int i = 0; i < b->count; i++)
        b->zones[i] = number_at(state + 8 * i);
    for (int i = 0; i < 5; i++)
        totals[i] = number_at(state + 8 * b->count + 8 * i);
}

/* Places above the count may hold anything: NaNs with a payload, an infinity, -0. */
static void fill_above(struct heat_battery *b) {
    static const uint64_t any[4] = {0x7ff0000000000001, 0xfff8dead0000beef, 0x7ff0000000000000, 0x8000000000000000};
    for (int i = b->count; i < HEAT_BATTERY_MOST_LAYERS; i++)
        memcpy(&b->zones[i], &any[i % 4], sizeof any[0]);
}

static void allow(int access) {
    if (mprotect(page, PAGE, access) != 0)
        ended("no such access to a page");
}

static int is_record(uint8_t version, const uint8_t *record, size_t length) {
    size_t card = card_length(version, record, length);
    return card > 0 && record[0] <= HEAT_BATTERY_MOST_LAYERS && length == card + 8 * (size_t)record[0] + 40;
}

static int same_battery(const struct heat_battery *x, const struct heat_battery *y) {
    return memcmp(&x->card.substep, &y->card.substep, 19 * sizeof(double)) == 0
        && x->card.layers == y->card.layers && x->card.units == y->card.units
        && x->card.simultaneous == y->card.simultaneous && x->card.budget == y->card.budget
        && x->count == y->count && memcmp(x->zones, y->zones, sizeof x->zones) == 0
        && memcmp(&x->total, &y->total, 5 * sizeof(double)) == 0 && x->services == y->services
        && memcmp(x->numbers, y->numbers, sizeof x->numbers) == 0 && memcmp(x->classes, y->classes, sizeof x->classes) == 0
        && x->floor == y->floor;
}

/* Whether an answer is the one on a line, whose refusal is at `line`; with 10 and 40 there is no line. */
static int same_answer(struct heat_battery_shown shown, uint8_t result, const uint8_t *line) {
    static const uint8_t none[30];
    int written = result != HEAT_BATTERY_BAD_CALL && result != HEAT_BATTERY_NO_VERSION;
    const uint8_t *head = (written ? line : none) + 1;
    uint32_t substeps = (uint32_t)head[25] << 24 | (uint32_t)head[26] << 16 | (uint32_t)head[27] << 8 | head[28];
    double numbers[3] = {number_at(head), number_at(head + 9), number_at(head + 17)};
    double answers[3] = {shown.energy, shown.outlet, shown.time};
    return shown.refusal == result && shown.mark == head[8] && shown.substeps == substeps
        && memcmp(numbers, answers, sizeof numbers) == 0;
}

/* The own record gives the byte entry's answer and battery; it knows no 11, and no record of another length. */
static int own_record_agrees(uint8_t version, const uint8_t *before, size_t length, struct slice call, uint8_t result,
                             struct slice after, struct slice sheet) {
    struct heat_battery b, expected;
    if (result == HEAT_BATTERY_NO_ROOM || !is_record(version, before, length))
        return 1;
    battery_from(&b, version, before, length);
    battery_from(&expected, version, after.bytes, length);
    fill_above(&b);
    fill_above(&expected);
    own_calls++;
    listing_calls += version >= 3;
    floored_calls += version >= 4 && b.floor == 1;
    struct heat_battery *own = (struct heat_battery *)(at_start ? page : page + PAGE - sizeof b);
    *own = b;
    allow(result == 0 ? PROT_READ | PROT_WRITE : PROT_READ); /* a refused call that stores anything ends the program */
    struct heat_battery_shown shown = heat_battery_advance(version, own, call.bytes, call.length);
    allow(PROT_READ | PROT_WRITE);
    return same_answer(shown, result, sheet.bytes + 2 + call.length) && same_battery(own, &expected);
}

/* ---- cases */

static int replay_open(void) {
    uint8_t version = (uint8_t)read_number(1);
    struct slice card = read_slice(0), record = read_slice(1), sheet = read_slice(2);
    uint8_t result =
        heat_battery_open(version, card.bytes, card.length, record.bytes, record.length, sheet.bytes, sheet.length);
    int same = result == read_number(8);
    same &= as_expected(record);
    same &= as_expected(sheet);
    same &= guarded(card);
    return same;
}

static int replay_call(void) {
    uint8_t version = (uint8_t)read_number(1);
    struct slice record = read_slice(0), call = read_slice(1), sheet = read_slice(2);
    uint8_t *before = malloc(record.length + 1);
    if (before == NULL)
        ended("no memory");
    memcpy(before, record.bytes, record.length);
    uint8_t result =
        heat_battery_call(version, record.bytes, record.length, call.bytes, call.length, sheet.bytes, sheet.length);
    int same = result == read_number(8);
    same &= as_expected(record);
    same &= as_expected(sheet);
    same &= guarded(call);
    same &= own_record_agrees(version, before, record.length, call, result, record, sheet);
    free(before);
    return same;
}

static int replay_audit(void) {
    struct slice sheet = read_slice(0);
    uint64_t result = heat_battery_audit(sheet.bytes, sheet.length);
    int same = result == read_number(8) && guarded(sheet);
    return same;
}

static int replay_whole(void) {
    struct slice sheet = read_slice(0);
    struct heat_battery_verdict verdict = heat_battery_audit_whole(sheet.bytes, sheet.length);
    return verdict.line * 256 + verdict.refusal == read_number(8) && guarded(sheet);
}

static int replay(int entry) {
    switch (entry) {
    case OPEN: return replay_open();
    case CALL: return replay_call();
    case AUDIT: return replay_audit();
    case WHOLE: return replay_whole();
    default: return 0;
    }
}

static unsigned long replay_file(void) {
    unsigned long cases = 0, wrong = 0;
    own_calls = listing_calls = floored_calls = 0;
    rewind(file);
    for (int entry = getc(file); entry != EOF; entry = getc(file)) {
        int same = replay(entry);
        cases++;
        if (!same && wrong++ < 20)
            printf("case %lu disagrees (entry %d)\n", cases, entry);
    }
    printf("unreadable %s: %lu cases, %lu calls on the own record too (%lu with services, %lu with the floor), %lu disagree\n",
           at_start ? "before" : "behind", cases, own_calls, listing_calls, floored_calls, wrong);
    return wrong;
}

int main(int argc, char **argv) {
    unsigned long wrong = 0;
    if (argc != 2 || (file = fopen(argv[1], "rb")) == NULL)
        ended("usage: replay FILE");
    page = pages(PAGE);
    for (int room = 0; room < 3; room++)
        rooms[room] = pages(ROOM);
    for (at_start = 0; at_start <= 1; at_start++)
        wrong += replay_file();
    return wrong == 0 ? 0 : 1;
}
