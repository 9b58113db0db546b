/* The engine's arithmetic in plain C, for the benchmark: kinds 1 to 5 of document 01 with its stand-ins, operation for
 * operation, and the floor of document 02. It refuses nothing: no ranges, no budget, no test for finite numbers or for the logarithm's argument, and a
 * demand must have its return temperature. */
#include <math.h>
#include <stdbool.h>
#include <stdint.h>
#include <stdlib.h>
#include <string.h>

enum { MOST_LAYERS = 64, CALL_NUMBERS = 10 };

/* Melting range, and heat capacities of one layer in kJ/K. */
struct salt {
    double lower, upper, below, during, above;
};

/* A tube with water in it; diameter in metres, flow in l/min. */
struct exchanger {
    double velocity, diameter, a, b, flow;
};

struct state {
    double zones[MOST_LAYERS];
    double running, pump, direct, charged, electric;
};

struct plain_battery {
    size_t layers;
    double units;
    bool simultaneous;
    double substep, timestep;
    double initial_inlet, estimated_outlet, max, reference;
    double losses, rated_difference, power;
    bool floor;
    struct salt salt;
    struct exchanger exchanger;
    struct state start, now;
};

/* ---- stand-ins */

static double max_zero(double p) { return p > 0.0 ? p : 0.0; }

static bool nearly_equal(double p, double q, double epsilon, double relative) {
    double gap = fabs(p - q), size = fabs(p) > fabs(q) ? fabs(p) : fabs(q);
    return p == q || (size <= 1.7976931348623157e308 && (gap <= epsilon || gap <= size * relative));
}

#define RELATIVE (1.0 / 4503599627370496.0)

/* A compensated sum. */
struct sum {
    double s, c;
};

static void add(struct sum *sum, double p) {
    double t = sum->s + p, z = t - sum->s;
    sum->c += (sum->s - (t - z)) + (p - z);
    sum->s = t;
}

/* Of a positive normal number. */
static double logarithm(double x) {
    uint64_t bits;
    memcpy(&bits, &x, sizeof bits);
    int k = (int)(bits >> 52) - 1023;
    bits = (bits & 0xfffffffffffffu) | (uint64_t)1023 << 52;
    double m;
    memcpy(&m, &bits, sizeof m);
    if (m > 1.4142135623730951) {
        m *= 0.5;
        k += 1;
    }
    double s = (m - 1.0) / (m + 1.0), w = s * s, p = 1.0 / 21.0;
    p = p * w + 1.0 / 19.0;
    p = p * w + 1.0 / 17.0;
    p = p * w + 1.0 / 15.0;
    p = p * w + 1.0 / 13.0;
    p = p * w + 1.0 / 11.0;
    p = p * w + 1.0 / 9.0;
    p = p * w + 1.0 / 7.0;
    p = p * w + 1.0 / 5.0;
    p = p * w + 1.0 / 3.0;
    p = p * w + 1.0;
    return (2.0 * s) * p + k * 0.6931471805599453;
}

/* ---- one zone */

/* Energy of a layer above the reference. */
static double stored(const struct salt *salt, double zone, double reference) {
    double lower = salt->lower, upper = salt->upper;
    if (zone <= reference)
        return 0.0;
    if (zone <= lower)
        return (zone - reference) * salt->below;
    if (reference >= upper)
        return (zone - reference) * salt->above;
    if (reference >= lower)
        return zone <= upper ? (zone - reference) * salt->during
                             : (upper - reference) * salt->during + (zone - upper) * salt->above;
    if (zone <= upper)
        return (lower - reference) * salt->below + (zone - lower) * salt->during;
    return (lower - reference) * salt->below + (upper - lower) * salt->during + (zone - upper) * salt->above;
}

/* The temperature of a charge level. */
static double temperature_at(const struct plain_battery *b, double level) {
    const struct salt *salt = &b->salt;
    if (level <= 0.0)
        return b->reference;
    if (level >= 1.0)
        return b->max;
    double energy = level * stored(salt, b->max, b->reference);
    double at_lower = stored(salt, salt->lower, b->reference), at_upper = stored(salt, salt->upper, b->reference);
    if (energy <= at_lower)
        return b->reference + energy / salt->below;
    if (energy <= at_upper)
        return salt->lower + (energy - at_lower) / salt->during;
    return salt->upper + (energy - at_upper) / salt->above;
}

/* Negative where the zone has to take energy to reach the target. */
static double to_target(const struct salt *salt, double zone, double target) {
    double lower = salt->lower, upper = salt->upper;
    if (zone >= upper)
        return salt->above * (zone - target);
    if (zone >= lower)
        return target > upper ? salt->above * (upper - target) + salt->during * (zone - upper)
                              : salt->during * (zone - target);
    if (target > upper)
        return salt->above * (upper - target) + salt->during * (lower - upper) + salt->below * (zone - lower);
    if (target > lower)
        return salt->during * (lower - target) + salt->below * (zone - lower);
    return salt->below * (zone - target);
}

/* By how much a zone cools that gives energy. */
static double fall(const struct salt *salt, double zone, double energy) {
    double in_above = 0.0, top = zone;
    if (zone < salt->lower)
        return energy / salt->below;
    if (zone >= salt->upper) {
        double heat = (zone - salt->upper) * salt->above;
        if (energy <= heat)
            return energy / salt->above;
        in_above = zone - salt->upper;
        top = salt->upper;
        energy -= heat;
    }
    double heat = (top - salt->lower) * salt->during;
    if (energy <= heat)
        return in_above + energy / salt->during;
    return in_above + (top - salt->lower) + (energy - heat) / salt->below;
}

/* The same, both negative, of a zone that takes energy. */
static double rise(const struct salt *salt, double zone, double energy) {
    double in_below = 0.0, bottom = zone;
    if (zone > salt->upper)
        return energy / salt->above;
    if (zone <= salt->lower) {
        double heat = (zone - salt->lower) * salt->below;
        if (energy >= heat)
            return energy / salt->below;
        in_below = zone - salt->lower;
        bottom = salt->lower;
        energy -= heat;
    }
    double heat = (bottom - salt->upper) * salt->during;
    if (energy >= heat)
        return energy / salt->during + in_below;
    return (energy - heat) / salt->above + (bottom - salt->upper) + in_below;
}

static double new_temperature(const struct salt *salt, double zone, double energy) {
    if (energy > 1e-6)
        return zone - fall(salt, zone, energy);
    if (energy < -1e-6)
        return zone - rise(salt, zone, energy);
    return zone;
}

/* The charger beside the water: `left` kJ as a negative number, `charged` kWh. */
struct charger {
    double left, charged;
};

/* The energy that the zone gives once the charger has done its part. */
static double with_charger(const struct salt *salt, struct charger *charger, double zone, double target, double transfer) {
    double left = charger->left;
    if (transfer >= 0.0 && (zone >= target ? -left <= transfer : -left < transfer)) {
        charger->charged += -left / 3600.0;
        charger->left = 0.0;
        return transfer + left;
    }
    if (zone >= target) {
        if (transfer < 0.0)
            return transfer;
        charger->left = left + transfer;
        charger->charged += transfer / 3600.0;
        return 0.0;
    }
    double required = to_target(salt, zone, target);
    if (transfer >= 0.0) {
        double rest = left + transfer;
        charger->charged += transfer / 3600.0;
        if (rest > required) {
            charger->charged += -rest / 3600.0;
            charger->left = 0.0;
            return rest;
        }
        charger->charged += -required / 3600.0;
        charger->left = rest - required;
        return required;
    }
    if (left + transfer > required) {
        charger->charged += -left / 3600.0;
        charger->left = 0.0;
        return left + transfer;
    }
    if (transfer >= required) {
        charger->left = left - (required - transfer);
        charger->charged += -(required - transfer) / 3600.0;
        return required;
    }
    return transfer;
}

/* ---- substeps over all zones */

#define WATER (4184.0 / 3600000.0) /* kWh per kg and kelvin */

static double charger_energy(double power, double seconds) { return -power * seconds / 3600.0 * 3600.0; }

static double reynolds(const struct exchanger *e, double inlet, double outlet) {
    double mean = (inlet + outlet) / 2.0;
    double viscosity = 0.000000000145238 * (mean * mean) - 0.0000000248238 * mean + 0.000001432;
    return (e->velocity * e->diameter) / viscosity;
}

struct substep {
    double outlet, delivered, charged; /* °C, kJ, kWh */
};

/* Water from the first zone to the last. */
static struct substep water(const struct plain_battery *b, double *zones, const struct exchanger *e, double re,
                            double inlet, double seconds, double power) {
    double ua = (e->a * logarithm(re * e->flow) + e->b) / 1000.0 / (double)b->layers;
    double flow = e->flow / 60.0 * 1.0;
    double twice = 2.0 * flow * WATER * 3600.0;
    struct charger charger = {charger_energy(power, seconds), 0.0};
    struct sum sum = {0.0, 0.0};
    for (size_t i = 0; i < b->layers; i++) {
        double zone = zones[i];
        double outlet = (2.0 * ua * zone - ua * inlet + twice * inlet) / (twice + ua);
        double transfer = WATER * 3600.0 * flow * (outlet - inlet) * seconds;
        add(&sum, transfer);
        if (charger.left < 0.0)
            transfer = with_charger(&b->salt, &charger, zone, b->reference, transfer);
        zones[i] = new_temperature(&b->salt, zone, transfer);
        inlet = outlet;
    }
    return (struct substep){inlet, sum.s + sum.c, charger.charged};
}

/* ---- calls: the energy in kWh */

static double hours_left(const struct plain_battery *b, double start) {
    return (b->timestep - b->now.running) * (1.0 - start / b->timestep);
}

static double demand(struct plain_battery *b, const double *call) {
    int service = (int)call[1];
    bool commit = call[2] > 0.0;
    double required = call[4] / b->units, inlet = call[7];
    if (call[4] <= 1e-10)
        return 0.0;
    double power = b->simultaneous && call[3] > 0.0 ? b->power : 0.0;
    double seconds_left = hours_left(b, call[5]) * 3600.0;
    double trial[MOST_LAYERS], *zones = b->now.zones;
    if (!commit)
        zones = memcpy(trial, b->now.zones, b->layers * sizeof *trial);
    double re = reynolds(&b->exchanger, b->initial_inlet, b->estimated_outlet);
    double energy = 0.0, seconds = 0.0, step = 1.0;
    while (step > 0.0) {
        struct substep done = water(b, zones, &b->exchanger, re, inlet, step, power);
        if (commit)
            b->now.electric += done.charged;
        seconds += step;
        re = reynolds(&b->exchanger, inlet, done.outlet);
        if (done.delivered < 0.0)
            break;
        double given = done.delivered / 3600.0;
        energy += given;
        if (energy > required || nearly_equal(required, energy, 1e-10, 1e-9))
            break;
        double rate = given / step;
        if (rate > 0.0)
            step = (required - energy) / rate;
        if (step > b->substep)
            step = b->substep;
        if (seconds + step > seconds_left)
            step = seconds_left - seconds;
    }
    if (commit) {
        double hours = seconds / 3600.0;
        b->now.running += hours;
        *(service == 3 ? &b->now.direct : &b->now.pump) += hours;
    }
    return energy * b->units;
}

/* From the last zone to the first. */
static double electric(struct plain_battery *b, double power, double level) {
    double target = temperature_at(b, level);
    struct charger charger = {charger_energy(power, max_zero(hours_left(b, 0.0)) * 3600.0), 0.0};
    for (size_t i = b->layers; i-- > 0 && charger.left < 0.0;) {
        double zone = b->now.zones[i];
        double transfer = with_charger(&b->salt, &charger, zone, target, 0.0);
        b->now.zones[i] = new_temperature(&b->salt, zone, transfer);
    }
    b->now.charged += charger.charged;
    b->now.electric += charger.charged;
    return charger.charged;
}

static double hydronic(struct plain_battery *b, const double *call) {
    double inlet = call[1], limit = call[5] * 3600.0, absorbed = 0.0;
    struct exchanger e = {call[8], call[9], call[6], call[7], call[3]};
    double before[MOST_LAYERS];
    size_t bytes = b->layers * sizeof *before;
    double re = reynolds(&e, b->initial_inlet, b->estimated_outlet);
    for (size_t left = (size_t)(call[2] * 3600.0 / b->substep); left > 0; left--) {
        memcpy(before, b->now.zones, bytes);
        struct substep done = water(b, b->now.zones, &e, re, inlet, b->substep, 0.0);
        re = reynolds(&e, inlet, done.outlet);
        if (done.outlet >= inlet || nearly_equal(done.outlet, inlet, 1e-10, RELATIVE))
            break;
        double taken = -done.delivered;
        absorbed += taken;
        if (absorbed > limit || nearly_equal(absorbed, limit, 1e-10, RELATIVE)) {
            if (taken > 0.0) {
                double fraction = (limit - (absorbed - taken)) / taken;
                memcpy(b->now.zones, before, bytes);
                water(b, b->now.zones, &e, re, inlet, b->substep * fraction, 0.0);
                absorbed = limit;
            }
            break;
        }
    }
    b->now.charged += absorbed / 3600.0;
    return absorbed / 3600.0;
}

#define FLOOR 16.0 /* °C */

/* A zone that loses energy but stops at the floor: what was taken. */
static double lose_to_floor(const struct salt *salt, double *place, double energy) {
    double zone = *place;
    if (zone <= FLOOR)
        return 0.0;
    double end = new_temperature(salt, zone, energy);
    if (end < FLOOR) {
        double held = stored(salt, zone, FLOOR);
        *place = FLOOR;
        return held < energy ? held : energy;
    }
    *place = end;
    return energy;
}

static double standing_loss(struct plain_battery *b) {
    double rated = -charger_energy(b->losses, b->timestep * 3600.0);
    struct sum sum = {0.0, 0.0};
    for (size_t i = 0; i < b->layers; i++) {
        double zone = b->now.zones[i];
        double energy = max_zero(rated / (double)b->layers * (zone - 16.0) / b->rated_difference);
        if (b->floor) {
            add(&sum, lose_to_floor(&b->salt, &b->now.zones[i], energy));
            continue;
        }
        add(&sum, energy);
        b->now.zones[i] = new_temperature(&b->salt, zone, energy);
    }
    return (sum.s + sum.c) / 3600.0;
}

static double close_timestep(struct plain_battery *b) {
    b->now.running = b->now.pump = b->now.direct = 0.0;
    return 0.0;
}

static double answer(struct plain_battery *b, const double *call) {
    switch ((int)call[0]) {
    case 1: return demand(b, call);
    case 2: return electric(b, call[1], call[2]);
    case 3: return hydronic(b, call);
    case 4: return standing_loss(b);
    case 5: return close_timestep(b);
    default: return NAN;
    }
}

/* ---- for the benchmark */

/* From a card's 23 numbers, five totals and 64 zones, and its floor; NULL without memory. */
struct plain_battery *plain_c_new(const double *start, bool floor) {
    struct plain_battery *b = malloc(sizeof *b);
    if (b == NULL)
        return NULL;
    const double *card = start + 4, *totals = start + 23;
    double layers = start[0];
    b->layers = (size_t)layers;
    b->units = start[1];
    b->simultaneous = start[2] > 0.0;
    b->substep = card[0];
    b->timestep = card[1];
    b->initial_inlet = card[2];
    b->estimated_outlet = card[3];
    b->max = card[4];
    b->reference = card[5];
    b->salt = (struct salt){card[6], card[7], card[8] / layers, card[9] / layers, card[10] / layers};
    b->exchanger = (struct exchanger){card[11], card[12] / 1000.0, card[13], card[14], card[15]};
    b->losses = card[16];
    b->rated_difference = b->max - 20.0;
    b->power = card[18];
    b->floor = floor;
    memcpy(b->start.zones, start + 28, sizeof b->start.zones);
    b->start.running = totals[0];
    b->start.pump = totals[1];
    b->start.direct = totals[2];
    b->start.charged = totals[3];
    b->start.electric = totals[4];
    return b;
}

void plain_c_free(struct plain_battery *b) { free(b); }

/* The list from the start on: the sum of energies and the first zone. A call is its kind and nine numbers. */
double plain_c_list(struct plain_battery *b, const double *calls, size_t count) {
    double sum = 0.0;
    b->now = b->start;
    for (size_t i = 0; i < count; i++)
        sum += answer(b, calls + CALL_NUMBERS * i);
    return sum + b->now.zones[0];
}
