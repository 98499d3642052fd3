/* The page program in C, to measure the product's against: one unit with the monitor in C, for every compiler. */

#include "in_place.c"

#include <stdio.h>
#include <stdlib.h>
#include <unistd.h>

enum { RECORD = 16, BUFFER = 65536 };

enum { SETTINGS = 1, COMPLETION, ELAPSED, CLOCK, POWER_UP };

/* Refusals of an event file. */
enum { UNNAMED = 11, LEFT_OVER = 12 };

static unsigned configure(struct in_place *m, const uint8_t *named)
{
    static uint8_t settings[LATENCY_MONITOR_SETTINGS_LENGTH];

    memcpy(settings, named, NAMED_SETTINGS);
    return in_place_configure(m, settings, sizeof settings);
}

/* Whether a record is of a kind, and zero in the mask's bits and from byte 8 on. */
static bool is(uint64_t low, uint64_t high, uint32_t mask, unsigned kind)
{
    return (((low & (mask | 0xFF)) ^ kind) | high) == 0;
}

static unsigned rare_event(struct in_place *m, const uint8_t *record, uint64_t low, uint64_t high)
{
    switch (record[0]) {
    case CLOCK:
        if ((low & 0xFFFFFF00) | high >> 32)
            return UNNAMED;
        return in_place_set_clock(m, low >> 32 | high << 32);
    case POWER_UP:
        if (low >> 8 | high)
            return UNNAMED;
        return in_place_power_up(m);
    case SETTINGS:
        if (high >> 48)
            return UNNAMED;
        return configure(m, record + 1);
    default:
        return UNNAMED;
    }
}

/* One record: the two frequent kinds are each known by one comparison, with the zeros of what they leave unnamed. A
 * completion's attribute is 0 or 1. */
static unsigned event(struct in_place *m, const uint8_t *record)
{
    uint64_t low = get64(record), high = get64(record + 8);
    uint32_t value = (uint32_t)(low >> 32);

    if (is(low, high, 0xFFFE0000, COMPLETION)) {
        completed(m, (uint16_t)(low >> 8), value);
        return LATENCY_MONITOR_ACCEPTED;
    }
    if (is(low, high, 0xFFFFFF00, ELAPSED))
        return in_place_elapsed(m, value).refusal;
    return rare_event(m, record, low, high);
}

static void print_page(const uint8_t *p)
{
    static const uint8_t zeros[16];

    for (int at = 0; at < 480; at += 16) {
        if (memcmp(p + at, zeros, 16) == 0)
            continue;
        printf("%03X: ", (unsigned)at);
        for (int i = 0; i < 16; i++)
            printf("%02X", p[at + i]);
        putchar('\n');
    }
}

/* Reads until the buffer is full or the input ends. */
static size_t fill(uint8_t *buffer)
{
    size_t have = 0;

    while (have < BUFFER) {
        ssize_t got = read(STDIN_FILENO, buffer + have, BUFFER - have);
        if (got < 0) {
            perror("read");
            exit(EXIT_FAILURE);
        }
        if (got == 0)
            break;
        have += (size_t)got;
    }
    return have;
}

/* Writes a number's digits before a place. Gives the place of the first. */
static char *put_number(char *end, uint64_t number)
{
    do
        *--end = (char)('0' + number % 10);
    while (number /= 10);
    return end;
}

/* A line, of which printf would take more than twice the time. One thread needs no lock. */
static void refused(uint64_t number, unsigned refusal)
{
    static const char word[] = "refused ";
    char line[64], *end = line + sizeof line, *at = end;

    *--at = '\n';
    at = put_number(at, refusal);
    *--at = ' ';
    at = put_number(at, number) - (sizeof word - 1);
    memcpy(at, word, sizeof word - 1);
    fwrite_unlocked(at, 1, (size_t)(end - at), stdout);
}

int main(void)
{
    static uint8_t buffer[BUFFER], page[LATENCY_MONITOR_PAGE_LENGTH];
    static struct in_place monitor;
    uint64_t number = 0;
    size_t have;

    in_place_new(&monitor);
    do {
        have = fill(buffer);
        for (size_t at = 0; at + RECORD <= have; at += RECORD, number++) {
            unsigned refusal = event(&monitor, buffer + at);
            if (refusal)
                refused(number, refusal);
        }
    } while (have == BUFFER);
    if (have % RECORD)
        refused(number, LEFT_OVER);
    in_place_page(&monitor, page, sizeof page);
    print_page(page);
    return 0;
}
