/* The C entries of the heat battery: opening a sheet, a call, the audit with
   and without a limit of length, and a call on the caller's own record.

   Link prebuilt/x86_64-linux/libheat_battery.a, which tools/archive.sh makes of
   the proofs. The library allocates nothing, keeps nothing between calls, and
   reads and writes only the bytes it is lent and its stack. Of C's functions it
   needs memcpy and memset. Two threads may call it at once on memory of their
   own.

   Lent memory. Each slice is a pointer and then a length in bytes. It belongs
   to the caller before, during and after the call. A pointer may be null only
   where its length is 0. The slices of one call do not overlap. A const slice
   is never written. Nothing else is asked of them: any bytes and any lengths
   get an answer or a refusal.

   Numbers are big-endian; an f64 is the 8 bytes of its IEEE 754 binary64 bits,
   the highest byte first.

   docs/RULES.md states every rule behind these figures; it restates document
   01, the customer's specification, and of document 02, the requests that
   followed, what has landed. */

#ifndef HEAT_BATTERY_H
#define HEAT_BATTERY_H

#include <stddef.h>
#include <stdint.h>

#ifdef __cplusplus
extern "C" {
#endif

/* Versions of a sheet. The version is the sheet's first byte, and the first
   number that opening, a call and the own record take. Every call of a sheet is
   given the version that it was opened with.

   1 document 01's; an answered hydronic charge shows time 0
   2 it shows how long the pump of the charging loop ran, in seconds
   3 as 2; a card lists services with numbers of their own, and the type of a
     demand has two bytes
   4 as 3; a card ends with a flag, which sets a floor of 16 degrees C for
     standing losses

   Versions 1 and 2 share all lengths and records, so no entry can tell a call
   that is given the wrong one of the two. No card or record of another version
   has the length that version 3 asks of it, nor that version 4 asks, nor the
   other way round: opening refuses such a card with 1, and a call such a record
   with 10. */
#define HEAT_BATTERY_OLDEST_VERSION 1
#define HEAT_BATTERY_NEWEST_VERSION 4

/* A card: layers (u8, 1..64), units (u16), simultaneous (u8), budget (u16),
   then 19 f64: substep s, timestep h, initial inlet, estimated outlet, max,
   ref, lower, upper, totals below, during, above, velocity, diameter, a, b,
   flow, losses, start temperature, power. In versions 1 and 2 that is all. */
#define HEAT_BATTERY_CARD_LENGTH 158

/* From version 3 on the card's services follow: a count (u8), then for each a
   number (u16) and its class (u8: 1 regular, 2 space, 3 direct). At most 32 are
   accepted, with numbers from 4 up, each above the last. The length is by the
   count, whatever that is. By this much a card, a record and an opening of
   version 3 are longer than HEAT_BATTERY_CARD_LENGTH, RECORD_LENGTH and
   OPENING_LENGTH, which are those of versions 1 and 2. */
#define HEAT_BATTERY_SERVICES_LENGTH(count) (1 + 3 * (size_t)(count))

/* In version 4 one byte more, the flag, the card's last: 1 sets a floor of 16
   degrees C for standing losses, 0 sets none. So a card, a record and an opening
   are longer by HEAT_BATTERY_SERVICES_LENGTH(count) and by this. With the floor
   no standing loss takes a zone under 16, one at or under it stays, and the loss
   counts what the zones gave. No other kind reads the flag. */
#define HEAT_BATTERY_FLOOR_LENGTH 1

#define HEAT_BATTERY_MOST_LAYERS 64
#define HEAT_BATTERY_MOST_SERVICES 32

/* A battery record: the bytes of its card, then an f64 for each zone, then five
   f64: total, pump and direct running hours, charged total, charged electric.
   The layers are the card's first byte. Services and flag are part of the card,
   in the versions that have them. */
#define HEAT_BATTERY_RECORD_LENGTH(layers) (198 + 8 * (size_t)(layers))

/* A call: its kind (u8), then its fields. Kinds and their lengths, the kind's
   byte included; the fields in order:
   1 demand             type (u8, from version 3 on u16), commit, control on
                        (u8 each), required kWh, start h, return mark (u8) and
                        temperature
   2 electric charge    power kW, target 0..1
   3 hydronic charge    inlet, hours, flow, target, limit kWh, hex a, hex b,
                        velocity, diameter m
   4 standing loss      none
   5 close timestep     none
   6 state of charge    none
   7 charge energy      mark (u8) and flow maximum, target
     demand
   A mark is 0 with eight zero bytes after it, or 1 with an f64.

   Types: 0 combi, 1 regular, 2 space, 3 direct. From version 3 on every number
   is in range: above 3 it has the class that the card lists for it, and where it
   is not listed it is taken as type 0. */
#define HEAT_BATTERY_DEMAND_LENGTH 29
#define HEAT_BATTERY_DEMAND_LENGTH_FROM_3 30 /* from version 3 on */
#define HEAT_BATTERY_ELECTRIC_LENGTH 17
#define HEAT_BATTERY_HYDRONIC_LENGTH 73
#define HEAT_BATTERY_BARE_LENGTH 1 /* kinds 4, 5 and 6 */
#define HEAT_BATTERY_ENERGY_DEMAND_LENGTH 18
#define HEAT_BATTERY_MOST_CALL_LENGTH 73

/* What opening writes at the front of the free part: the version byte and line
   0, which is the card's length (u16) and the card. */
#define HEAT_BATTERY_OPENING_LENGTH 161

/* A call line: the length of what follows it (u16), the call's own bytes,
   refusal (u8), energy kWh, outlet mark (u8) and f64, time run s (of a demand,
   and from version 2 on of a hydronic charge; else 0), substeps (u32), zones
   and totals as in the record. */
#define HEAT_BATTERY_LINE_LENGTH(layers, call_len) (72 + 8 * (size_t)(layers) + (size_t)(call_len))

/* Refusals. An entry returns the first that applies, in the order of its list;
   0 is none. */
#define HEAT_BATTERY_ANSWERED 0
#define HEAT_BATTERY_CARD_OUT_OF_RANGE 1   /* in version 4 also a flag other than 0 or 1; or a card of
                                              another length */
#define HEAT_BATTERY_LOWER_ABOVE_UPPER 2
#define HEAT_BATTERY_MAX_TOO_LOW 3         /* max at most 20 */
#define HEAT_BATTERY_NOTHING_TO_STORE 4    /* max below ref, or nearly equal */
#define HEAT_BATTERY_BAD_SERVICES 61       /* from version 3 on, after 4: more than 32 listed, numbers
                                              under 4 or not rising, a class other than 1 to 3 */
#define HEAT_BATTERY_BAD_CALL 10           /* or a bad record, its card's flag among its fields */
#define HEAT_BATTERY_NO_ROOM 11
#define HEAT_BATTERY_NO_RETURN 20          /* required above 1e-10, no return temperature */
#define HEAT_BATTERY_NO_SERVICE 21         /* committed, required above 1e-10, of type 0, or of a number
                                              that is not listed */
#define HEAT_BATTERY_OVER_BUDGET 22        /* a substep after the card's budget */
#define HEAT_BATTERY_NOT_FINITE 23         /* a zone, number or total is not finite */
#define HEAT_BATTERY_NO_LOGARITHM 24       /* its argument is not positive, normal and finite */
#define HEAT_BATTERY_OVER_FULL 25          /* state of charge above 1 + 1e-10 */
#define HEAT_BATTERY_NO_VERSION 40         /* no known version; opening, a call and the own record
                                              test it before all. From an audit: no first byte, or
                                              no known version */

/* Opens a sheet: writes the version and line 0 to the front of `sheet`, and a
   fresh battery to `record`. The bytes of `sheet` after them stay.

   Refused with 40 for an unknown version; then with 1 to 4 and 61 for the card,
   in this order; then with 10 if record_len is not the card's record length;
   then with 11 if sheet_len is below the opening's length, which is card_len
   and 3. A refused opening writes nothing. */
uint8_t heat_battery_open(uint8_t version,
                          const uint8_t *card, size_t card_len,
                          uint8_t *record, size_t record_len,
                          uint8_t *sheet, size_t sheet_len);

/* Advances the battery of `record` by a call: writes the call's line to the
   front of `sheet`, which is the free part after the last line, and renews the
   record. The bytes of `sheet` after the line stay; the next call gets the
   part after it, which starts at HEAT_BATTERY_LINE_LENGTH.

   Refused with 40 for an unknown version. Then with 10 if the record is not
   one: shorter than a card, with a card that 1 to 4 or 61 refuse, of another
   length than its card's, or with a zone or total that is not finite; or if the
   call is not one: of an unknown kind, of another length than its kind's, with
   a flag or mark other than 0 or 1, nonzero bytes under an absent mark, or a
   field not finite or out of range. Then with 11 if the line does not fit.
   These three write nothing.

   Then with 20 to 25, the first to occur: these write the call's line, with the
   refusal, energy 0, no outlet, time 0, substeps 0 and zones and totals as they
   were, and leave the record. */
uint8_t heat_battery_call(uint8_t version,
                          uint8_t *record, size_t record_len,
                          const uint8_t *call, size_t call_len,
                          uint8_t *sheet, size_t sheet_len);

/* Audits a sheet of any known version, which its first byte says: accepted with
   N call lines, N x 256; or refused with R at line K (the card's line is 0, the
   first call line 1), K x 256 + R. R is 40, with K 0, or one of these: */
#define HEAT_BATTERY_BAD_CARD 41    /* card line missing, of wrong length or refused; K is 0 */
#define HEAT_BATTERY_BAD_LINE 42    /* cut short, or not laid out as its kind, or a field that 10 refuses */
#define HEAT_BATTERY_DISAGREES 43   /* an answer is not that of the steps */
#define HEAT_BATTERY_TOO_LONG 44    /* more than 65,536 bytes; K is 0, and it is tested first */
uint64_t heat_battery_audit(const uint8_t *sheet, size_t sheet_len);

/* What the audit of any length says: the refusal and its line K; or 0, and in
   `line` the number of call lines N. */
struct heat_battery_verdict {
    uint8_t refusal;
    uint64_t line;
};

/* Audits a sheet of any length: as above, and never 44. Up to 65,536 bytes
   line x 256 + refusal is the number that heat_battery_audit returns. */
struct heat_battery_verdict heat_battery_audit_whole(const uint8_t *sheet, size_t sheet_len);

/* The caller's own record: a card and a battery as C structs. */
struct heat_battery_card {
    uint8_t layers;
    uint16_t units;
    uint8_t simultaneous;
    uint16_t budget;
    double substep, timestep;
    double inlet, outlet, max, reference, lower, upper;
    double below, during, above;
    double velocity, diameter, a, b, flow;
    double losses, start, power;
};

struct heat_battery {
    struct heat_battery_card card;
    /* the first `count` zones; the places above may hold anything, and are not written */
    double zones[HEAT_BATTERY_MOST_LAYERS];
    /* the card's layers, or 10 */
    uint8_t count;
    double total, pump, direct, charged, electric;
    /* the card's services, how many; above 32 is 10. These three are read from
       version 3 on and before may hold anything; they are never written */
    uint8_t services;
    /* of the first `services`; the places above may hold anything */
    uint16_t numbers[HEAT_BATTERY_MOST_SERVICES];
    uint8_t classes[HEAT_BATTERY_MOST_SERVICES];
    /* the card's flag: 1 sets the floor, 0 sets none, another value is 10. Read
       from version 4 on, before it may hold anything; never written */
    uint8_t floor;
};

/* What a call answers, as its line would show it. */
struct heat_battery_shown {
    uint8_t refusal;
    uint8_t mark;
    uint32_t substeps;
    double energy, outlet, time;
};

/* Advances the caller's own battery by a call, without a sheet, and gives what
   its line on a sheet of that version would show: refused with 40 for an
   unknown version, then with 10 as above, then with 20 to 25; there is no 11.
   In a refused result every other field is 0.

   `battery` is not null and is aligned as its type asks. It is the caller's
   alone until the call returns, and the call's bytes do not overlap it. Its
   fields may hold any numbers, NaNs too. An answered call stores the first
   `count` zones and the five totals, and nothing else of the record. A refused
   call stores nothing to it. */
struct heat_battery_shown heat_battery_advance(uint8_t version,
                                               struct heat_battery *battery,
                                               const uint8_t *call, size_t call_len);

#ifdef __cplusplus
}
#endif

#endif
