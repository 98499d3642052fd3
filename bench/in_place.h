/*
 * The latency monitor in C, its record changed in place: what the product is measured against. The calls are those of
 * latency_monitor.h, on a record and a reading of its own. No form of the code is the fastest everywhere:
 *   as it is      the bucket is found by branches, which is quick where their order is learnt
 *   BRANCH_FREE   the bucket is a sum of comparisons, and the table of kinds is asked without a test before it
 *   LIMITS        the product's stretch given to C: the bucket is a sum of comparisons, below A included; each counter
 *                 has a latency from which on a completion has more to do than to count; what has no kind is counted
 *                 where nobody looks; and counts go on past their top, and are held where they are shown
 */
#ifndef IN_PLACE_H
#define IN_PLACE_H

#include "latency_monitor.h"

enum { KINDS = LATENCY_MONITOR_KINDS };

/* The counts of a window: those below A, the counters, and with LIMITS those of no kind. */
#ifdef LIMITS
typedef uint64_t in_place_count;
enum { NO_KIND = KINDS + LATENCY_MONITOR_COUNTERS, COUNTS = NO_KIND + 13 };
#else
typedef uint32_t in_place_count;
enum { COUNTS = KINDS + LATENCY_MONITOR_COUNTERS };
#endif

struct in_place_window {
    uint64_t stamp_ms[LATENCY_MONITOR_COUNTERS];
    in_place_count count[COUNTS];
    uint16_t latency_ms[LATENCY_MONITOR_COUNTERS];
    uint16_t stamp_units; /* bit n for counter n */
};

struct in_place {
    uint32_t threshold_us[4];
#ifdef LIMITS
    uint32_t limit_us[COUNTS]; /* from which on a completion may do more than count */
#endif
    uint8_t thresholds[4];
    uint16_t timer_threshold;
    uint16_t mode;
    uint16_t trigger;
    uint8_t minimum_window;
    bool enabled;
    bool host_set;
    bool debug_held;
    bool debug_stamp_units;
    uint8_t debug_counter;
    uint16_t debug_latency_ms;
    uint64_t debug_stamp_ms;
    uint64_t clock_ms;
    uint64_t time_ms; /* measured since settings with enable 1 were last accepted */
    uint32_t partial_ms;
    uint16_t timer;
    uint64_t load_time_ms[LATENCY_MONITOR_COUNTERS]; /* the time at the stamp's last load */
    struct in_place_window active_window;
    struct in_place_window static_window;
};

/* What a page shows. */
struct in_place_reading {
    uint8_t thresholds[4];
    uint16_t timer_threshold;
    uint16_t timer;
    uint16_t mode;
    uint16_t trigger;
    uint8_t minimum_window;
    bool enabled;
    bool debug_held;
    bool debug_stamp_units;
    uint8_t debug_counter;
    uint16_t debug_latency_ms;
    uint64_t debug_stamp_ms;
    struct in_place_window active_window;
    struct in_place_window static_window;
};

void in_place_new(struct in_place *m);
uint8_t in_place_configure(struct in_place *m, const uint8_t *settings, size_t length);
struct latency_monitor_completion_answer in_place_completion(
    struct in_place *m, struct latency_monitor_command command);
struct latency_monitor_elapsed_answer in_place_elapsed(struct in_place *m, uint32_t elapsed_ms);
uint8_t in_place_set_clock(struct in_place *m, uint64_t clock_ms);
uint8_t in_place_power_up(struct in_place *m);
struct latency_monitor_below_a in_place_active_below_a(const struct in_place *m);
struct latency_monitor_below_a in_place_static_below_a(const struct in_place *m);
uint8_t in_place_reason(const struct in_place *m, struct latency_monitor_command command);
uint8_t in_place_page(const struct in_place *m, uint8_t *page, size_t length);
uint8_t in_place_settings_back(const struct in_place *m, uint8_t *settings, size_t length);
uint8_t in_place_read_page(struct in_place_reading *r, const uint8_t *page, size_t length);

#endif
