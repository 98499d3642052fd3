/* Document 01's example as firmware would play it, with what no page shows and a power cycle: prints the page as the
 * page program does, and reads it as a lab tool would, with others that are turned away. */

#include <stdio.h>
#include <stdlib.h>
#include <string.h>

#include "latency_monitor.h"

static struct latency_monitor monitor;

static void expect(bool holds, const char *what)
{
    if (!holds) {
        fprintf(stderr, "example: %s\n", what);
        exit(EXIT_FAILURE);
    }
}

static void configure(void)
{
    static const uint8_t thresholds[4] = {0, 1, 3, 9};
    static uint8_t settings[LATENCY_MONITOR_SETTINGS_LENGTH];

    settings[LATENCY_MONITOR_SETTINGS_TIMER_THRESHOLD] = 2;
    memcpy(settings + LATENCY_MONITOR_SETTINGS_THRESHOLDS, thresholds, sizeof thresholds);
    settings[LATENCY_MONITOR_SETTINGS_TRIGGER] = 1 << LATENCY_MONITOR_KIND_READ; /* of the Reads in bucket 0 */
    settings[LATENCY_MONITOR_SETTINGS_ENABLE] = 1;
    expect(latency_monitor_configure(&monitor, settings, sizeof settings) == LATENCY_MONITOR_ACCEPTED, "settings");
}

static void complete_a_read(void)
{
    const struct latency_monitor_command command = {.opcode = LATENCY_MONITOR_OPCODE_READ, .latency_us = 7500};
    const uint8_t reason = latency_monitor_reason(&monitor, command);
    const struct latency_monitor_completion_answer answer = latency_monitor_completion(&monitor, command);

    expect(reason == LATENCY_MONITOR_REASON_NONE, "nothing keeps the Read from loading its latency stamp");
    expect(answer.counted && answer.counter == LATENCY_MONITOR_KIND_READ, "the Read counts in bucket 0");
    expect(answer.loaded, "its latency stamp is loaded");
    expect(answer.debug, "a debug log is taken");
}

static void complete_without_a_counter(struct latency_monitor_command command, const char *what)
{
    expect(!latency_monitor_completion(&monitor, command).counted, what);
}

/* A slower Read would be counted, and not be seen in the stamp. */
static void ask_for_the_reason(void)
{
    const struct latency_monitor_command slower = {.opcode = LATENCY_MONITOR_OPCODE_READ, .latency_us = 9000};

    expect(latency_monitor_reason(&monitor, slower) == LATENCY_MONITOR_REASON_MODE_FIRST,
        "in mode first the stamp stays that of the first Read");
    expect(monitor.active_window.counters[0] == 1, "what is asked for is not counted");
}

/* No counter has them, and no page shows them. */
static void complete_others(void)
{
    const struct latency_monitor_command read = {.opcode = LATENCY_MONITOR_OPCODE_READ, .latency_us = 300};
    const struct latency_monitor_command write_zeroes = {
        .opcode = LATENCY_MONITOR_OPCODE_WRITE_ZEROES, .deallocate = true, .latency_us = 300};
    const struct latency_monitor_command without = {
        .opcode = LATENCY_MONITOR_OPCODE_DATASET_MANAGEMENT, .deallocate = false, .latency_us = 7500};

    complete_without_a_counter(read, "a Read below threshold A has no counter");
    complete_without_a_counter(write_zeroes, "a Deallocate below threshold A has no counter");
    complete_without_a_counter(without, "Dataset Management without its attribute is no Deallocate");
}

static void compare_counts(void)
{
    const struct latency_monitor_below_a active = latency_monitor_active_below_a(&monitor);
    const struct latency_monitor_below_a ended = latency_monitor_static_below_a(&monitor);

    expect(monitor.active_window.counters[0] == 1, "the record shows the Read");
    expect(active.read == 1 && active.write == 0, "one of two Reads was below threshold A");
    expect(active.deallocate == 1, "the Deallocate was below threshold A");
    expect(ended.read == 0 && ended.write == 0 && ended.deallocate == 0, "no window has ended");
}

/* The record is kept with its version, and copied back after the power cycle. */
static void power_cycle(void)
{
    static struct {
        uint32_t version;
        uint8_t record[sizeof monitor];
    } kept = {.version = LATENCY_MONITOR_RECORD_VERSION};

    memcpy(kept.record, &monitor, sizeof monitor);
    memset(&monitor, 0, sizeof monitor);

    expect(kept.version == LATENCY_MONITOR_RECORD_VERSION, "the record's version");
    memcpy(&monitor, kept.record, sizeof monitor);
    expect(latency_monitor_power_up(&monitor) == LATENCY_MONITOR_ACCEPTED, "power-up");
    expect(monitor.clock_ms == 0, "the clock starts anew");
}

/* A page that is turned away leaves each byte of the reading, here all 1 and so each bool true. */
static void turn_away(const uint8_t *page, size_t length, uint8_t refusal)
{
    static struct latency_monitor_reading reading;
    static uint8_t before[sizeof reading];

    memset(before, 1, sizeof before);
    memcpy(&reading, before, sizeof reading);
    expect(latency_monitor_read_page(&reading, page, length) == refusal, "the page is turned away");
    expect(memcmp(&reading, before, sizeof reading) == 0, "and the reading is left");
}

static void turn_pages_away(const uint8_t *page)
{
    static uint8_t other[LATENCY_MONITOR_PAGE_LENGTH], broken[LATENCY_MONITOR_PAGE_LENGTH];

    turn_away(page, LATENCY_MONITOR_PAGE_LENGTH - 1, LATENCY_MONITOR_REFUSED_READ_LENGTH);
    turn_away(other, sizeof other, LATENCY_MONITOR_REFUSED_READ_IDENTITY);
    memcpy(broken, page, sizeof broken);
    broken[1] = 1;
    turn_away(broken, sizeof broken, LATENCY_MONITOR_REFUSED_READ_LAYOUT);
}

static void read_back(const uint8_t *page)
{
    static struct latency_monitor_reading reading;
    const struct latency_monitor_log_page *shown = &reading.page;

    expect(latency_monitor_read_page(&reading, page, LATENCY_MONITOR_PAGE_LENGTH) == LATENCY_MONITOR_ACCEPTED,
        "the page is read");
    expect(shown->settings.enabled && shown->settings.timer_threshold == 2, "the page shows the settings");
    expect(shown->active_window.counters[0] == 1 && shown->active_window.latencies_ms[0] == 7,
        "the page shows the Read");
    expect(shown->static_window.stamps_ms[0] == LATENCY_MONITOR_UNSET, "the static window is empty");
    expect(reading.debug_held && reading.debug_counter == 0, "the page shows the debug log");
}

/* 16 bytes a line, without the lines of zeros and without the version and the GUID. */
static void print(const uint8_t *page)
{
    static const uint8_t zeros[16];

    for (int line = 0; line < 480; line += 16) {
        if (memcmp(page + line, zeros, sizeof zeros) == 0)
            continue;
        printf("%03X: ", line);
        for (int place = line; place < line + 16; place++)
            printf("%02X", page[place]);
        putchar('\n');
    }
}

int main(void)
{
    static uint8_t page[LATENCY_MONITOR_PAGE_LENGTH];
    struct latency_monitor_elapsed_answer elapsed;

    memset(&monitor, 1, sizeof monitor); /* each bool is true, and every other byte may hold anything */
    latency_monitor_new(&monitor);
    configure();
    elapsed = latency_monitor_elapsed(&monitor, 1000);
    expect(elapsed.refusal == LATENCY_MONITOR_ACCEPTED && !elapsed.ended, "the active window goes on");
    complete_a_read();
    ask_for_the_reason();
    complete_others();
    power_cycle();
    compare_counts();

    expect(latency_monitor_page(&monitor, page, sizeof page) == LATENCY_MONITOR_ACCEPTED, "the page");
    expect(latency_monitor_page(&monitor, page, sizeof page - 1) == LATENCY_MONITOR_REFUSED_PAGE_LENGTH,
        "a page of 511 bytes");
    print(page);
    read_back(page);
    turn_pages_away(page);
    return EXIT_SUCCESS;
}
