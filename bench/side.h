/* The sides of the comparison, and what they are given: the same calls with the same inputs. */
#ifndef SIDE_H
#define SIDE_H

#include "latency_monitor.h"

/* The twelve calls, after two that do nothing: one answers as a completion does, the other a number. */
enum call {
    EMPTY_COMPLETION, EMPTY_NUMBER,
    NEW, CONFIGURE, COMPLETION, ELAPSED, SET_CLOCK, POWER_UP, ACTIVE_BELOW_A, STATIC_BELOW_A, REASON, PAGE, READ_PAGE,
    SETTINGS_BACK,
    CALLS
};

/* The settings bytes that are not reserved; all others are zero. */
struct named_settings {
    uint8_t bytes[13];
};

/* A page to be read. */
struct log_page {
    uint8_t bytes[LATENCY_MONITOR_PAGE_LENGTH];
};

/* A case: laps of so many calls of one function, with an input for each call of a lap. */
struct work {
    const char *name;
    enum call call;
    size_t calls;
    size_t orders; /* laps with inputs of their own, taken in turn */
    const struct latency_monitor_command *commands;
    const uint32_t *elapsed_ms;
    const uint64_t *clocks_ms;
    const struct named_settings *settings;
    const struct log_page *pages;
    uint16_t mode;    /* of the monitor that is called */
    uint32_t lap_ms;  /* time that passes before each lap */
    uint64_t answers; /* the sum of a lap's answers */
};

/* Where an answer has its fields, as a number to be summed; the counter or the refusal is lowest. */
enum { ENDED_AT = 8, COUNTED_AT = 16, LOADED_AT = 24, LOGGED_AT = 32, LAP_TIME_AT = 40 };

/* And where the counts below threshold A stand; the reads' is lowest. */
enum { WRITE_AT = 20, DEALLOCATE_AT = 40 };

/* One call, with what it takes. */
struct stroke {
    enum call call;
    struct latency_monitor_command command;
    uint32_t elapsed_ms;
    uint64_t clock_ms;
    struct named_settings settings;
    const struct log_page *page;
};

/* The counts below threshold A of both windows. */
struct below_a {
    struct latency_monitor_below_a active_window, static_window;
};

/* An implementation, with a record and a reading of its own. */
struct side {
    const char *title;
    size_t record_size;
    uint64_t (*once)(const struct stroke *stroke);
    uint64_t (*run)(const struct work *work, size_t first, size_t laps); /* the first lap's number, and how many */
    void (*show)(uint8_t *page, uint8_t *settings);
    struct below_a (*below_a)(void);
    uint8_t (*again)(const struct log_page *page, uint8_t *written); /* reads a page, and writes what was read */
};

struct latency_monitor_completion_answer empty_completion(
    const void *record, struct latency_monitor_command command);
uint8_t empty_number(const void *record);

/* The deepest stack of a call beyond its caller's, the return address included, in bytes. */
size_t stack_depth(const struct side *side, const struct stroke *stroke);

#endif
