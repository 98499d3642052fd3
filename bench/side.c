/* One side: its record and its reading, and the loops over its calls. It is compiled for each side, with SIDE as the
 * side's name and TITLE as what tables call it. */

#include "side.h"

#include <string.h>

#ifdef IN_PLACE
#include "in_place.h"
#define CALL(name) in_place_##name
static _Alignas(64) struct in_place record;
static _Alignas(64) struct in_place_reading reading;
#else
#define CALL(name) latency_monitor_##name
static _Alignas(64) struct latency_monitor record;
static _Alignas(64) struct latency_monitor_reading reading;
#endif

static _Alignas(64) uint8_t settings[LATENCY_MONITOR_SETTINGS_LENGTH];
static _Alignas(64) uint8_t page[LATENCY_MONITOR_PAGE_LENGTH];

/* A number is kept in a register; gcc takes a small struct through memory. */
static uint64_t completion_number(struct latency_monitor_completion_answer a)
{
    return a.counter | (uint64_t)a.counted << COUNTED_AT | (uint64_t)a.loaded << LOADED_AT
        | (uint64_t)a.debug << LOGGED_AT;
}

static uint64_t elapsed_number(struct latency_monitor_elapsed_answer a)
{
    return a.refusal | (uint64_t)a.ended << ENDED_AT;
}

static uint64_t below_a_number(struct latency_monitor_below_a a)
{
    return a.read + ((uint64_t)a.write << WRITE_AT) + ((uint64_t)a.deallocate << DEALLOCATE_AT);
}

static const uint8_t *whole(const struct named_settings *named)
{
    return memcpy(settings, named->bytes, sizeof named->bytes);
}

static uint64_t once(const struct stroke *s)
{
    switch (s->call) {
    case EMPTY_COMPLETION: return completion_number(empty_completion(&record, s->command));
    case NEW: CALL(new)(&record); return 0;
    case CONFIGURE: return CALL(configure)(&record, whole(&s->settings), sizeof settings);
    case COMPLETION: return completion_number(CALL(completion)(&record, s->command));
    case ELAPSED: return elapsed_number(CALL(elapsed)(&record, s->elapsed_ms));
    case SET_CLOCK: return CALL(set_clock)(&record, s->clock_ms);
    case POWER_UP: return CALL(power_up)(&record);
    case ACTIVE_BELOW_A: return below_a_number(CALL(active_below_a)(&record));
    case STATIC_BELOW_A: return below_a_number(CALL(static_below_a)(&record));
    case REASON: return CALL(reason)(&record, s->command);
    case PAGE: return CALL(page)(&record, page, sizeof page);
    case READ_PAGE: return CALL(read_page)(&reading, s->page->bytes, sizeof s->page->bytes);
    case SETTINGS_BACK: return CALL(settings_back)(&record, settings, sizeof settings);
    default: return empty_number(&record);
    }
}

#define LAP(name, answer)                                \
    static uint64_t name(const struct work *w, size_t i) \
    {                                                    \
        uint64_t sum = 0;                                \
                                                         \
        for (size_t end = i + w->calls; i < end; i++)    \
            sum += (answer);                             \
        return sum;                                      \
    }

LAP(empty_completion_lap, completion_number(empty_completion(&record, w->commands[i])))
LAP(empty_number_lap, empty_number(&record))
LAP(new_lap, (CALL(new)(&record), 0u))
LAP(configure_lap, CALL(configure)(&record, whole(&w->settings[i]), sizeof settings))
LAP(completion_lap, completion_number(CALL(completion)(&record, w->commands[i])))
LAP(elapsed_lap, elapsed_number(CALL(elapsed)(&record, w->elapsed_ms[i])))
LAP(set_clock_lap, CALL(set_clock)(&record, w->clocks_ms[i]))
LAP(power_up_lap, CALL(power_up)(&record))
LAP(active_below_a_lap, below_a_number(CALL(active_below_a)(&record)))
LAP(static_below_a_lap, below_a_number(CALL(static_below_a)(&record)))
LAP(reason_lap, CALL(reason)(&record, w->commands[i]))
LAP(page_lap, CALL(page)(&record, page, sizeof page))
LAP(read_page_lap, CALL(read_page)(&reading, w->pages[i].bytes, sizeof w->pages[i].bytes))
LAP(settings_back_lap, CALL(settings_back)(&record, settings, sizeof settings))

static uint64_t run(const struct work *w, size_t first, size_t laps)
{
    static uint64_t (*const lap[CALLS])(const struct work *, size_t) = {
        [EMPTY_COMPLETION] = empty_completion_lap, [EMPTY_NUMBER] = empty_number_lap, [NEW] = new_lap,
        [CONFIGURE] = configure_lap, [COMPLETION] = completion_lap, [ELAPSED] = elapsed_lap,
        [SET_CLOCK] = set_clock_lap, [POWER_UP] = power_up_lap,
        [ACTIVE_BELOW_A] = active_below_a_lap, [STATIC_BELOW_A] = static_below_a_lap, [REASON] = reason_lap,
        [PAGE] = page_lap, [READ_PAGE] = read_page_lap, [SETTINGS_BACK] = settings_back_lap
    };
    uint64_t sum = 0;

    for (size_t number = first; number < first + laps; number++) {
        if (w->lap_ms > 0)
            sum += elapsed_number(CALL(elapsed)(&record, w->lap_ms)) << LAP_TIME_AT;
        sum += lap[w->call](w, number % w->orders * w->calls);
    }
    return sum;
}

static void show(uint8_t *p, uint8_t *s)
{
    CALL(page)(&record, p, LATENCY_MONITOR_PAGE_LENGTH);
    CALL(settings_back)(&record, s, LATENCY_MONITOR_SETTINGS_LENGTH);
}

static struct below_a below_a(void)
{
    return (struct below_a){CALL(active_below_a)(&record), CALL(static_below_a)(&record)};
}

/* A record that shows what was read. */
#ifdef IN_PLACE
static void take_over(void)
{
    memcpy(record.thresholds, reading.thresholds, sizeof record.thresholds);
    record.timer_threshold = reading.timer_threshold;
    record.timer = reading.timer;
    record.mode = reading.mode;
    record.trigger = reading.trigger;
    record.minimum_window = reading.minimum_window;
    record.enabled = reading.enabled;
    record.debug_held = reading.debug_held;
    record.debug_stamp_units = reading.debug_stamp_units;
    record.debug_counter = reading.debug_counter;
    record.debug_latency_ms = reading.debug_latency_ms;
    record.debug_stamp_ms = reading.debug_stamp_ms;
    record.active_window = reading.active_window;
    record.static_window = reading.static_window;
}
#else
static void take_over(void)
{
    record.settings = reading.page.settings;
    record.timer = reading.page.timer;
    record.active_window = reading.page.active_window;
    record.static_window = reading.page.static_window;
    record.debug = reading.page.debug;
    record.debug.source = (uint16_t)((unsigned)reading.debug_held << reading.debug_counter);
}
#endif

static uint8_t again(const struct log_page *p, uint8_t *written)
{
    uint8_t refusal = CALL(read_page)(&reading, p->bytes, sizeof p->bytes);

    if (refusal == LATENCY_MONITOR_ACCEPTED) {
        take_over();
        CALL(page)(&record, written, LATENCY_MONITOR_PAGE_LENGTH);
    }
    return refusal;
}

const struct side SIDE = {TITLE, sizeof record, once, run, show, below_a, again};
