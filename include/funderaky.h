/*
 * Funderaky: month figures, ratings, prices, the cheapest plan and the check of a row.
 *
 * Every call answers for whatever values it is handed, takes no memory, keeps nothing
 * and may be made from several threads at once. A caller owes what the types say and C
 * does not check:
 *
 * - a pointer is not null and points to a whole value of its type, properly aligned;
 *   a pointer to bytes points to as many bytes as the length behind it says, and is not
 *   null at length 0 either ("" will do);
 * - what `plan` points to overlaps neither the facts nor the bytes, and nobody else
 *   reads or writes it, nor writes the others, during the call.
 *
 * Units: power in tenths of a kVA, N_E and N_C in ten-thousandths, money in cents.
 */
#ifndef FUNDERAKY_H
#define FUNDERAKY_H

#include <stddef.h>
#include <stdint.h>

#ifdef __cplusplus
extern "C" {
#endif

/*
 * What a call answers beside 0, which says that all went well. Numbers below 100 are
 * those of docs/REFUSALS.md.
 */
#define FUNDERAKY_DONE 0
/* facts outside their limits */
#define FUNDERAKY_NO_FACTS 5
/* the plan asked for is not permitted, or the sheet permits none */
#define FUNDERAKY_NOT_PERMITTED 13
/* bytes that are no account's row */
#define FUNDERAKY_BROKEN_ROW 17
/* house sheet: a field is cut short or unknown, the end is missing, or bytes follow it */
#define FUNDERAKY_SHEET_LAYOUT 18
/* house sheet: a value above its limit */
#define FUNDERAKY_SHEET_VALUE 19
/* house sheet: no line, or a ninth one */
#define FUNDERAKY_SHEET_COUNT 20
/* a number that is none of the sheets below */
#define FUNDERAKY_UNKNOWN_SHEET 100

/* The sheets: the decree, the estate's own, and the protected layer over each. */
#define FUNDERAKY_DECREE 0
#define FUNDERAKY_HOUSE 1
#define FUNDERAKY_PROTECTED_DECREE 2
#define FUNDERAKY_PROTECTED_HOUSE 3

/* The facts of a period. Arrays go by circuit; docs/RULES.md has the meanings. */
typedef struct funderaky_facts {
    uint64_t customer_class; /* 0 residential, 1 professional */
    uint64_t marks;          /* a sum: 1 two-rate requested, 2 extension agreed, 4 protected (class 0 only) */
    uint64_t power;          /* 1 to 2500 tenths of a kVA */
    uint64_t exempt;         /* 0 to power: the tenths free of kVA charges */
    uint64_t kinds[6];       /* 0 unused, 1 general, 2 night-reserved, 3 interruptible */
    uint64_t day[6];         /* kWh by day, 0 to 100000; 0 on an unused circuit */
    uint64_t night[6];       /* kWh by night, the same */
    uint64_t months;         /* 1 to 12 */
    uint64_t ne_sum;         /* the sum of N_E over the months, 0 to 99999 a month */
    uint64_t nc_sum;         /* the sum of N_C over the months, 0 to 99999 a month */
} funderaky_facts;

/* A plan with its price. cents = (fixed + energy) / (120000000 * months), rounded, a half down. */
typedef struct funderaky_plan {
    uint64_t code;   /* the plan's code on its sheet */
    uint64_t fixed;  /* the fixed part, before rounding */
    uint64_t energy; /* the energy part, before rounding */
    uint64_t cents;  /* the price of the period */
} funderaky_plan;

/*
 * The N_E of a month, in ten-thousandths, from the wage index s (in units of 0.00001) and
 * the materials index mx (in units of 0.001), each 1 to 9999999, and the month's N_C (in
 * ten-thousandths, 0 to 99999), which is only checked. 0 where one of these, or the N_E
 * worked out, is outside its limits; an N_E is 4250 to 99999.
 */
uint64_t funderaky_month_ne(uint64_t s, uint64_t mx, uint64_t nc);

/*
 * The power that a circuit breaker makes available, in tenths of a kVA: network 1 (two
 * wires, 230 V), 2 (three wires, 230 V) or 3 (three wires and neutral, 400 V), 4 to 18
 * ampere. 0 for anything else.
 */
uint64_t funderaky_rating(uint64_t network, uint64_t ampere);

/*
 * The price of the plan `code` of a sheet. The bytes are the house sheet
 * (docs/FORMATS.md) for FUNDERAKY_HOUSE and FUNDERAKY_PROTECTED_HOUSE, and are not looked
 * at for the other two. The sheet is looked at first, then the facts, then the code.
 *
 * FUNDERAKY_DONE, with the plan in *plan; or 5, 13, 18, 19, 20 or 100, as above, with
 * *plan left as it was.
 */
uint64_t funderaky_price(uint64_t sheet, const uint8_t *house, size_t house_length,
                         uint64_t code, const funderaky_facts *facts, funderaky_plan *plan);

/*
 * The cheapest plan that a sheet permits, compared before rounding; of several that cost
 * the same, the one with the lowest code. All else is as for funderaky_price; 13 says
 * that the sheet permits no plan.
 */
uint64_t funderaky_choose(uint64_t sheet, const uint8_t *house, size_t house_length,
                          const funderaky_facts *facts, funderaky_plan *plan);

/*
 * Whether bytes are the row of an account (docs/FORMATS.md): FUNDERAKY_DONE if they are,
 * FUNDERAKY_BROKEN_ROW if not, also where they are not 128.
 */
uint64_t funderaky_row_check(const uint8_t *row, size_t row_length);

#ifdef __cplusplus
}
#endif

#endif
