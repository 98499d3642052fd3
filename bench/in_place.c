#include "in_place.h"

#include <endian.h>
#include <string.h>

enum { INCREMENT_MS = LATENCY_MONITOR_INCREMENT_MS, NAMED_SETTINGS = 13, VERSION = 4 };

#define CLOCK_TOP_MS (LATENCY_MONITOR_CLOCK_LIMIT_MS - 1)

/* A command as a number: its opcode, and DEALLOCATE more with the deallocate attribute or bit. */
enum {
    READ = LATENCY_MONITOR_OPCODE_READ, WRITE = LATENCY_MONITOR_OPCODE_WRITE,
    DATASET_MANAGEMENT = LATENCY_MONITOR_OPCODE_DATASET_MANAGEMENT, WRITE_ZEROES = LATENCY_MONITOR_OPCODE_WRITE_ZEROES,
    DEALLOCATE = 0x100
};

/* A command's kind, from 1 on, or 0. It comes from a table: no processor can guess the kind of the next command. */
static unsigned kind_of(unsigned command)
{
    static const uint8_t kinds[2 * DEALLOCATE] = {
        [READ] = 1, [READ + DEALLOCATE] = 1, [WRITE] = 2, [WRITE + DEALLOCATE] = 2,
        [WRITE_ZEROES + DEALLOCATE] = 3, [DATASET_MANAGEMENT + DEALLOCATE] = 3
    };

#ifndef BRANCH_FREE
    /* gcc's code is the faster for it. */
    if ((uint8_t)command > DATASET_MANAGEMENT)
        return 0;
#endif
    return kinds[command];
}

/* The place of a field's lowest bit in the answer to a completion. */
#define AT(field) (8 * offsetof(struct latency_monitor_completion_answer, field))

static const uint8_t guid[16] = {
    0x92, 0x7A, 0xC0, 0x8C, 0xD0, 0x84, 0x6C, 0x9C,
    0x70, 0x43, 0xE6, 0xD4, 0x58, 0x5E, 0xD4, 0x85
};

static uint16_t get16(const uint8_t *p)
{
    uint16_t v;
    memcpy(&v, p, sizeof v);
    return le16toh(v);
}

static uint32_t get32(const uint8_t *p)
{
    uint32_t v;
    memcpy(&v, p, sizeof v);
    return le32toh(v);
}

static uint64_t get64(const uint8_t *p)
{
    uint64_t v;
    memcpy(&v, p, sizeof v);
    return le64toh(v);
}

static void put16(uint8_t *p, uint16_t v)
{
    v = htole16(v);
    memcpy(p, &v, sizeof v);
}

static void put32(uint8_t *p, uint32_t v)
{
    v = htole32(v);
    memcpy(p, &v, sizeof v);
}

static void put64(uint8_t *p, uint64_t v)
{
    v = htole64(v);
    memcpy(p, &v, sizeof v);
}

static void empty(struct in_place_window *w)
{
    memset(w, 0, sizeof *w);
    memset(w->stamp_ms, 0xFF, sizeof w->stamp_ms);
}

/* In a new active window each counter's first completion is beyond its limit. None below A ever is, and of no kind one
 * with the largest latency. */
static void empty_active(struct in_place *m)
{
    empty(&m->active_window);
#ifdef LIMITS
    memset(m->limit_us, 0xFF, sizeof m->limit_us);
    memset(m->limit_us + KINDS, 0, LATENCY_MONITOR_COUNTERS * sizeof m->limit_us[0]);
#endif
}

void in_place_new(struct in_place *m)
{
    memset(m, 0, sizeof *m);
    empty_active(m);
    empty(&m->static_window);
}

static bool all_zero(const uint8_t *p, size_t length)
{
    /* The first byte is zero, and each is like the one before it. */
    return p[0] == 0 && memcmp(p, p + 1, length - 1) == 0;
}

static uint8_t settings_refusal(const uint8_t *s, size_t length)
{
    if (length != LATENCY_MONITOR_SETTINGS_LENGTH)
        return LATENCY_MONITOR_REFUSED_SETTINGS_LENGTH;
    if (!all_zero(s + NAMED_SETTINGS, length - NAMED_SETTINGS))
        return LATENCY_MONITOR_REFUSED_RESERVED_BYTE;
    if (s[11] > 1 || s[12] > 1)
        return LATENCY_MONITOR_REFUSED_FLAG_ABOVE_ONE;
    if (get16(s) == 0)
        return LATENCY_MONITOR_REFUSED_NO_TIMER_THRESHOLD;
    if (s[2] > s[3] || s[3] > s[4] || s[4] > s[5])
        return LATENCY_MONITOR_REFUSED_THRESHOLD_ORDER;
    if ((get16(s + 6) | get16(s + 9)) >> LATENCY_MONITOR_COUNTERS)
        return LATENCY_MONITOR_REFUSED_RESERVED_BIT;
    return LATENCY_MONITOR_ACCEPTED;
}

uint8_t in_place_configure(struct in_place *m, const uint8_t *s, size_t length)
{
    uint8_t refusal = settings_refusal(s, length);

    if (refusal != LATENCY_MONITOR_ACCEPTED)
        return refusal;
    m->timer_threshold = get16(s);
    memcpy(m->thresholds, s + 2, sizeof m->thresholds);
    for (int b = 0; b < 4; b++)
        m->threshold_us[b] = 5000 * (s[2 + b] + 1u);
    m->mode = get16(s + 6);
    m->minimum_window = s[8];
    m->trigger = get16(s + 9);
    if (s[11])
        m->debug_held = false;
    m->enabled = s[12];
    if (m->enabled) {
        empty_active(m);
        empty(&m->static_window);
        m->timer = 0;
        m->partial_ms = 0;
        m->time_ms = 0;
    }
    return LATENCY_MONITOR_ACCEPTED;
}

/* Loads the latency stamp of counter n if it is due. Says whether it was. */
static bool load(struct in_place *m, unsigned n, uint16_t ms)
{
    struct in_place_window *w = &m->active_window;

    if (w->stamp_ms[n] != LATENCY_MONITOR_UNSET
        && !(m->mode >> n & 1 && ms > w->latency_ms[n] && m->time_ms - m->load_time_ms[n] >= 100u * m->minimum_window))
        return false;
    w->stamp_ms[n] = m->clock_ms;
    w->latency_ms[n] = ms;
    w->stamp_units = (uint16_t)((w->stamp_units & ~(1u << n)) | (unsigned)m->host_set << n);
    m->load_time_ms[n] = m->time_ms;
    return true;
}

/* Takes a debug log if counter n triggers one and none is held. Says whether it did. */
static bool debug(struct in_place *m, unsigned n, uint16_t ms)
{
    if (m->debug_held || !(m->trigger >> n & 1))
        return false;
    m->debug_held = true;
    m->debug_latency_ms = ms;
    m->debug_counter = (uint8_t)n;
    m->debug_stamp_units = m->host_set;
    m->debug_stamp_ms = m->clock_ms;
    return true;
}

/* The bucket of a latency; 0 below A, where LIMITS asks too. Branches are guessed wrong over commands in no order. */
static unsigned bucket_of(const struct in_place *m, uint32_t us)
{
#if defined BRANCH_FREE || defined LIMITS
    return (unsigned)(us >= m->threshold_us[1]) + (us >= m->threshold_us[2]) + (us >= m->threshold_us[3]);
#else
    unsigned bucket = 3;

    while (us < m->threshold_us[bucket])
        bucket--;
    return bucket;
#endif
}

/* The latency in whole ms, as many as two bytes hold. */
static uint16_t milliseconds(uint32_t us)
{
    uint32_t ms = us / 1000;

    return ms > UINT16_MAX ? UINT16_MAX : (uint16_t)ms;
}

/* A count, held at its top. */
static uint32_t held(in_place_count count)
{
    return count < UINT32_MAX ? (uint32_t)count : UINT32_MAX;
}

/* Adds one, up to the top. The counters are behind the counts below A. */
static void count(struct in_place *m, unsigned at)
{
#ifndef LIMITS
    if (m->active_window.count[at] == UINT32_MAX)
        return;
#endif
    m->active_window.count[at]++;
}

/* The answer to a completion that is counted for counter n, and does no more. */
#define COUNTED(n) ((uint64_t)(n) << AT(counter) | UINT64_C(1) << AT(counted))

#ifdef LIMITS
/* What a command adds to the place of its count: its kind's number from 0 on, or NO_KIND. The table has the exclusive
 * or with NO_KIND, so that what it does not name is of no kind. */
static unsigned addend(unsigned command)
{
    static const uint8_t table[2 * DEALLOCATE] = {
        [READ] = NO_KIND ^ 0, [READ + DEALLOCATE] = NO_KIND ^ 0,
        [WRITE] = NO_KIND ^ 1, [WRITE + DEALLOCATE] = NO_KIND ^ 1,
        [WRITE_ZEROES + DEALLOCATE] = NO_KIND ^ 2, [DATASET_MANAGEMENT + DEALLOCATE] = NO_KIND ^ 2
    };

    return table[command] ^ NO_KIND;
}

/* By the place of the count. */
static const uint64_t only_counted[COUNTS] = {
    0, 0, 0, COUNTED(0), COUNTED(1), COUNTED(2), COUNTED(3), COUNTED(4), COUNTED(5), COUNTED(6), COUNTED(7), COUNTED(8),
    COUNTED(9), COUNTED(10), COUNTED(11)
};

/* With settings in force, a debug log is due at a counter's first completion in a window or not at all. */
static uint64_t beyond_limit(struct in_place *m, unsigned n, uint16_t ms)
{
    uint64_t loaded, logged;

    if (n >= LATENCY_MONITOR_COUNTERS)
        return 0;
    loaded = load(m, n, ms);
    logged = debug(m, n, ms);
    if (loaded)
        m->limit_us[KINDS + n] = m->mode >> n & 1 && ms != UINT16_MAX ? 1000 * (ms + 1u) : UINT32_MAX;
    return COUNTED(n) | loaded << AT(loaded) | logged << AT(debug);
}

/* One way for completions below A and others: only one in many is beyond its limit. */
static uint64_t kind_completed(struct in_place *m, unsigned kind, uint32_t us)
{
    unsigned at = 3 * ((us >= m->threshold_us[0]) + bucket_of(m, us)) + kind;

    count(m, at);
    if (us >= m->limit_us[at])
        return beyond_limit(m, at - KINDS, milliseconds(us));
    return only_counted[at];
}
#else
static uint64_t kind_completed(struct in_place *m, unsigned kind, uint32_t us)
{
    uint64_t loaded, logged;
    unsigned n;
    uint16_t ms;

    if (us < m->threshold_us[0]) {
        count(m, kind);
        return 0;
    }
    n = 3 * bucket_of(m, us) + kind;
    count(m, KINDS + n);
    ms = milliseconds(us);
    loaded = load(m, n, ms);
    logged = debug(m, n, ms);
    return COUNTED(n) | loaded << AT(loaded) | logged << AT(debug);
}
#endif

/* The answer as a number: that is made in a register, where gcc takes a small struct through memory. */
static uint64_t completed(struct in_place *m, uint16_t command, uint32_t us)
{
    if (!m->enabled)
        return 0;
#ifdef LIMITS
    return kind_completed(m, addend(command), us);
#else
    return kind_of(command) == 0 ? 0 : kind_completed(m, kind_of(command) - 1, us);
#endif
}

/* Opcode and attribute, the byte after it, as one number: one index into the table of kinds. */
static uint16_t command_number(const struct latency_monitor_command *command)
{
    return get16((const uint8_t *)command + offsetof(struct latency_monitor_command, opcode));
}

struct latency_monitor_completion_answer in_place_completion(
    struct in_place *m, struct latency_monitor_command command)
{
    union {
        uint64_t number;
        struct latency_monitor_completion_answer answer;
    } u = {completed(m, command_number(&command), command.latency_us)};

    return u.answer;
}

/* Why a completion would not load the stamp of counter n. */
static uint8_t stamp_reason(const struct in_place *m, unsigned n, uint16_t ms)
{
    const struct in_place_window *w = &m->active_window;

    if (w->stamp_ms[n] == LATENCY_MONITOR_UNSET)
        return LATENCY_MONITOR_REASON_NONE;
    if (!(m->mode >> n & 1))
        return LATENCY_MONITOR_REASON_MODE_FIRST;
    if (ms <= w->latency_ms[n])
        return LATENCY_MONITOR_REASON_NOT_LARGER;
    if (m->time_ms - m->load_time_ms[n] < 100u * m->minimum_window)
        return LATENCY_MONITOR_REASON_MINIMUM_WINDOW;
    return LATENCY_MONITOR_REASON_NONE;
}

uint8_t in_place_reason(const struct in_place *m, struct latency_monitor_command command)
{
    unsigned kind = kind_of(command_number(&command));
    uint32_t us = command.latency_us;

    if (!m->enabled)
        return LATENCY_MONITOR_REASON_DISABLED;
    if (kind == 0)
        return LATENCY_MONITOR_REASON_OF_NO_KIND;
    if (us < m->threshold_us[0])
        return LATENCY_MONITOR_REASON_BELOW_A;
    return stamp_reason(m, 3 * bucket_of(m, us) + kind - 1, milliseconds(us));
}

struct latency_monitor_elapsed_answer in_place_elapsed(struct in_place *m, uint32_t elapsed_ms)
{
    struct latency_monitor_elapsed_answer answer = {LATENCY_MONITOR_ACCEPTED, false};

    if (elapsed_ms > INCREMENT_MS) {
        answer.refusal = LATENCY_MONITOR_REFUSED_ELAPSED_TIME;
        return answer;
    }
    m->clock_ms += elapsed_ms;
    if (m->clock_ms > CLOCK_TOP_MS)
        m->clock_ms = CLOCK_TOP_MS;
    if (!m->enabled)
        return answer;
    m->time_ms += elapsed_ms;
    m->partial_ms += elapsed_ms;
    if (m->partial_ms < INCREMENT_MS)
        return answer;
    m->partial_ms -= INCREMENT_MS;
    if (++m->timer == m->timer_threshold) {
        m->timer = 0;
        m->static_window = m->active_window;
        empty_active(m);
        answer.ended = true;
    }
    return answer;
}

uint8_t in_place_set_clock(struct in_place *m, uint64_t clock_ms)
{
    if (clock_ms > CLOCK_TOP_MS)
        return LATENCY_MONITOR_REFUSED_CLOCK_VALUE;
    m->clock_ms = clock_ms;
    m->host_set = true;
    return LATENCY_MONITOR_ACCEPTED;
}

uint8_t in_place_power_up(struct in_place *m)
{
    m->clock_ms = 0;
    m->host_set = false;
    return LATENCY_MONITOR_ACCEPTED;
}

static struct latency_monitor_below_a below_a(const struct in_place_window *w)
{
    return (struct latency_monitor_below_a){held(w->count[0]), held(w->count[1]), held(w->count[2])};
}

struct latency_monitor_below_a in_place_active_below_a(const struct in_place *m)
{
    return below_a(&m->active_window);
}

struct latency_monitor_below_a in_place_static_below_a(const struct in_place *m)
{
    return below_a(&m->static_window);
}

static void put_window(uint8_t *p, const struct in_place_window *w)
{
    for (int b = 0; b < 4; b++) {
        put32(p + 16 * b + 4, held(w->count[KINDS + 3 * b + 2]));
        put32(p + 16 * b + 8, held(w->count[KINDS + 3 * b + 1]));
        put32(p + 16 * b + 12, held(w->count[KINDS + 3 * b]));
    }
    for (int n = 0; n < LATENCY_MONITOR_COUNTERS; n++) {
        put64(p + 64 + 8 * (LATENCY_MONITOR_COUNTERS - 1 - n), w->stamp_ms[n]);
        put16(p + 160 + 2 * (LATENCY_MONITOR_COUNTERS - 1 - n), w->latency_ms[n]);
    }
    put16(p + 184, w->stamp_units);
}

static void put_debug(uint8_t *p, const struct in_place *m)
{
    put64(p + 452, LATENCY_MONITOR_UNSET);
    if (m->debug_held) {
        put16(p + 450, m->debug_latency_ms);
        put64(p + 452, m->debug_stamp_ms);
        put16(p + 462, (uint16_t)(1u << m->debug_counter));
        p[464] = m->debug_stamp_units;
    }
}

uint8_t in_place_page(const struct in_place *m, uint8_t *p, size_t length)
{
    if (length != LATENCY_MONITOR_PAGE_LENGTH)
        return LATENCY_MONITOR_REFUSED_PAGE_LENGTH;
    memset(p, 0, length);
    p[0] = m->enabled;
    put16(p + 2, m->timer);
    put16(p + 4, m->timer_threshold);
    memcpy(p + 6, m->thresholds, sizeof m->thresholds);
    put16(p + 10, m->mode);
    p[12] = m->minimum_window;
    put_window(p + 32, &m->active_window);
    put_window(p + 240, &m->static_window);
    put16(p + 448, m->trigger);
    put_debug(p, m);
    put16(p + 494, VERSION);
    memcpy(p + 496, guid, sizeof guid);
    return LATENCY_MONITOR_ACCEPTED;
}

uint8_t in_place_settings_back(const struct in_place *m, uint8_t *s, size_t length)
{
    if (length != LATENCY_MONITOR_SETTINGS_LENGTH)
        return LATENCY_MONITOR_REFUSED_SETTINGS_BACK_LENGTH;
    memset(s, 0, length);
    put16(s, m->timer_threshold);
    memcpy(s + 2, m->thresholds, sizeof m->thresholds);
    put16(s + 6, m->mode);
    s[8] = m->minimum_window;
    put16(s + 9, m->trigger);
    s[12] = m->enabled;
    return LATENCY_MONITOR_ACCEPTED;
}

/* Whether 16 to 32 bytes are zero. */
static bool clear(const uint8_t *p, size_t length)
{
    return (get64(p) | get64(p + 8) | get64(p + length - 16) | get64(p + length - 8)) == 0;
}

/* With a stamp that is not set, counter, latency and units are zero. */
static bool window_fits(const uint8_t *p)
{
    unsigned units = get16(p + 184);

    if (units >> LATENCY_MONITOR_COUNTERS)
        return false;
    for (int b = 0, n = 0; b < 4; b++) {
        if (get32(p + 16 * b))
            return false;
        for (int kind = 0; kind < 3; kind++, n++) {
            int from_last = LATENCY_MONITOR_COUNTERS - 1 - n;
            uint64_t stamp = get64(p + 64 + 8 * from_last);
            if (stamp <= CLOCK_TOP_MS)
                continue;
            if (stamp != LATENCY_MONITOR_UNSET || get32(p + 16 * b + 12 - 4 * kind)
                || get16(p + 160 + 2 * from_last) || units >> n & 1)
                return false;
        }
    }
    return true;
}

/* The pointer is zero. A debug log that is held has one source; with none all is zero. */
static bool debug_fits(const uint8_t *p)
{
    uint64_t stamp = get64(p + 452);
    unsigned source = get16(p + 462);

    if (get16(p + 460))
        return false;
    if (stamp == LATENCY_MONITOR_UNSET)
        return (get16(p + 450) | source | p[464]) == 0;
    return stamp <= CLOCK_TOP_MS && p[464] <= 1 && source && (source & (source - 1)) == 0
        && source >> LATENCY_MONITOR_COUNTERS == 0;
}

static bool page_fits(const uint8_t *p)
{
    return p[0] <= 1 && p[1] == 0 && clear(p + 13, 19) && clear(p + 218, 22) && clear(p + 426, 22)
        && clear(p + 465, 29) && (get16(p + 10) | get16(p + 448)) >> LATENCY_MONITOR_COUNTERS == 0
        && window_fits(p + 32) && window_fits(p + 240) && debug_fits(p);
}

static void get_window(struct in_place_window *w, const uint8_t *p)
{
    for (int b = 0; b < 4; b++) {
        w->count[KINDS + 3 * b + 2] = get32(p + 16 * b + 4);
        w->count[KINDS + 3 * b + 1] = get32(p + 16 * b + 8);
        w->count[KINDS + 3 * b] = get32(p + 16 * b + 12);
    }
    for (int n = 0; n < LATENCY_MONITOR_COUNTERS; n++) {
        w->stamp_ms[n] = get64(p + 64 + 8 * (LATENCY_MONITOR_COUNTERS - 1 - n));
        w->latency_ms[n] = get16(p + 160 + 2 * (LATENCY_MONITOR_COUNTERS - 1 - n));
    }
    w->stamp_units = get16(p + 184);
}

static void get_debug(struct in_place_reading *r, const uint8_t *p)
{
    unsigned source = get16(p + 462);

    r->debug_stamp_ms = get64(p + 452);
    r->debug_held = r->debug_stamp_ms != LATENCY_MONITOR_UNSET;
    r->debug_latency_ms = get16(p + 450);
    r->debug_stamp_units = p[464];
    r->debug_counter = source ? (uint8_t)__builtin_ctz(source) : 0;
}

uint8_t in_place_read_page(struct in_place_reading *r, const uint8_t *p, size_t length)
{
    if (length != LATENCY_MONITOR_PAGE_LENGTH)
        return LATENCY_MONITOR_REFUSED_READ_LENGTH;
    if (get16(p + 494) != VERSION || memcmp(p + 496, guid, sizeof guid) != 0)
        return LATENCY_MONITOR_REFUSED_READ_IDENTITY;
    if (!page_fits(p))
        return LATENCY_MONITOR_REFUSED_READ_LAYOUT;
    r->enabled = p[0];
    r->timer = get16(p + 2);
    r->timer_threshold = get16(p + 4);
    memcpy(r->thresholds, p + 6, sizeof r->thresholds);
    r->mode = get16(p + 10);
    r->minimum_window = p[12];
    get_window(&r->active_window, p + 32);
    get_window(&r->static_window, p + 240);
    r->trigger = get16(p + 448);
    get_debug(r, p);
    return LATENCY_MONITOR_ACCEPTED;
}
