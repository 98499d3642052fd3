/*
 * The latency monitor: a drive's slow commands in latency buckets, and log page C3h of the OCP Datacenter NVMe SSD
 * Specification 2.5. For C99 and C++11.
 *
 * Firmware keeps one record for each drive and lends it for each call. Tools that open the pages of drives need no
 * record: they lend a reading. There is no allocation and no state but what is lent.
 *
 * Calls on different records may run at the same time. So may calls on one record that take it as const, each with a
 * buffer of its own. While a call that changes a record runs, no other call on that record may run, not even in an
 * interrupt handler. A reading is lent to one call at a time.
 *
 * In storage that is lent as a record or a reading each bool is 0 or 1, also before latency_monitor_new and
 * latency_monitor_read_page fill it; every other byte may then hold anything. So zeroed storage will do, as static
 * storage is, and so will an old record or reading; other storage is zeroed first.
 *
 * A call that is turned away answers with its refusal number and leaves all that it was lent as it was: record, buffer
 * and reading. Any number may be passed, and a buffer of any length, with its own length beside it. No pointer may be
 * null, and no two of a call may overlap.
 *
 * A name that ends in _us or _ms has that unit. The timer, its threshold, thresholds A to D and the minimum window are
 * in the specification's own units, which stand beside them.
 *
 * The archive runs on x86-64, with the calling convention of System V:
 *
 *     cc -std=c99 -I include firmware.c liblatency_monitor.a
 *
 * It asks the firmware for memcpy and memset. The most stack that a call took when measured is 1,128 bytes; no bound on
 * it is proved. It uses SSE2 registers and the red zone (128 bytes below the stack pointer), so it is not for code that
 * must do without.
 *
 * Nothing in this header is of x86-64: it compiles where a bool is one byte and a uint64_t is aligned to eight, as on
 * 64-bit and 32-bit Arm and RISC-V, and the record is then laid out alike. The archive for another processor is the
 * toolchain's to make.
 */
#ifndef LATENCY_MONITOR_H
#define LATENCY_MONITOR_H

#include <stdbool.h>
#include <stddef.h>
#include <stdint.h>

#if defined __cplusplus
extern "C" {
#define LATENCY_MONITOR_ASSERT(holds, what) static_assert(holds, what)
#elif __STDC_VERSION__ >= 201112L
#define LATENCY_MONITOR_ASSERT(holds, what) _Static_assert(holds, what)
#else /* no array has the length -1 */
#define LATENCY_MONITOR_ASSERT(holds, what) extern char latency_monitor_layout[(holds) ? 1 : -1]
#endif

/* What a command does. */
#define LATENCY_MONITOR_KINDS 3
enum latency_monitor_kind {
    LATENCY_MONITOR_KIND_READ = 0,
    LATENCY_MONITOR_KIND_WRITE = 1,
    LATENCY_MONITOR_KIND_DEALLOCATE = 2
};

/* Counters stand by number, 3 x bucket + kind: buckets 0 to 3 have thresholds A to D. */
#define LATENCY_MONITOR_COUNTERS 12

/* The opcodes of commands that have a kind; the last two have it with their deallocate attribute or bit alone. */
enum latency_monitor_opcode {
    LATENCY_MONITOR_OPCODE_READ = 0x02,
    LATENCY_MONITOR_OPCODE_WRITE = 0x01,
    LATENCY_MONITOR_OPCODE_DATASET_MANAGEMENT = 0x09,
    LATENCY_MONITOR_OPCODE_WRITE_ZEROES = 0x08
};

/* The increment of the Active Bucket Timer, five minutes; no call of latency_monitor_elapsed takes more. */
#define LATENCY_MONITOR_INCREMENT_MS UINT32_C(300000)

/* 2^48: the clock, and a latency stamp that is set, are below it. */
#define LATENCY_MONITOR_CLOCK_LIMIT_MS UINT64_C(281474976710656)

/* A latency stamp that is not set. */
#define LATENCY_MONITOR_UNSET UINT64_C(0xffffffffffffffff)

/* Lengths, in bytes. Fields of settings and page have the lowest byte first, on every processor. */
#define LATENCY_MONITOR_SETTINGS_LENGTH 4096
#define LATENCY_MONITOR_PAGE_LENGTH 512

/* Where settings have their fields; every byte from 13 on is zero. */
#define LATENCY_MONITOR_SETTINGS_TIMER_THRESHOLD 0 /* two bytes, in increments of five minutes */
#define LATENCY_MONITOR_SETTINGS_THRESHOLDS 2      /* A to D: byte v means 5 x (v + 1) ms */
#define LATENCY_MONITOR_SETTINGS_MODE 6            /* two bytes, bit n: counter n in mode largest */
#define LATENCY_MONITOR_SETTINGS_MINIMUM_WINDOW 8  /* in units of 100 ms; 0 means none */
#define LATENCY_MONITOR_SETTINGS_TRIGGER 9         /* two bytes, bit n: counter n triggers a debug log */
#define LATENCY_MONITOR_SETTINGS_DISCARD 11        /* 1 discards the debug log */
#define LATENCY_MONITOR_SETTINGS_ENABLE 12         /* 0 or 1 */

/* Changes when the record does. */
#define LATENCY_MONITOR_RECORD_VERSION 2

/* Why a call is turned away; the first that applies is the answer. No call has 11 and 12, which are of event files, or
 * 16, which is of the program `explain`. */
enum latency_monitor_refusal {
    LATENCY_MONITOR_ACCEPTED = 0,
    LATENCY_MONITOR_REFUSED_SETTINGS_LENGTH = 1,       /* settings are not 4,096 bytes */
    LATENCY_MONITOR_REFUSED_RESERVED_BYTE = 2,         /* a settings byte from 13 on is not zero */
    LATENCY_MONITOR_REFUSED_FLAG_ABOVE_ONE = 3,        /* discard or enable is above 1 */
    LATENCY_MONITOR_REFUSED_NO_TIMER_THRESHOLD = 4,    /* the timer threshold is 0 */
    LATENCY_MONITOR_REFUSED_THRESHOLD_ORDER = 5,       /* A is above B, B above C, or C above D */
    LATENCY_MONITOR_REFUSED_RESERVED_BIT = 6,          /* bit 12 to 15 of mode or trigger is set */
    LATENCY_MONITOR_REFUSED_ELAPSED_TIME = 7,          /* elapsed time is above LATENCY_MONITOR_INCREMENT_MS */
    LATENCY_MONITOR_REFUSED_CLOCK_VALUE = 8,           /* the clock is LATENCY_MONITOR_CLOCK_LIMIT_MS or more */
    LATENCY_MONITOR_REFUSED_PAGE_LENGTH = 9,           /* the page's buffer is not 512 bytes */
    LATENCY_MONITOR_REFUSED_SETTINGS_BACK_LENGTH = 10, /* the settings' buffer is not 4,096 bytes */
    LATENCY_MONITOR_REFUSED_READ_LENGTH = 13,          /* the page to be read is not 512 bytes */
    LATENCY_MONITOR_REFUSED_READ_IDENTITY = 14,        /* its version or GUID is not that of log page C3h */
    LATENCY_MONITOR_REFUSED_READ_LAYOUT = 15           /* it breaks a rule of the layout */
};

/* Why a command would not load a latency stamp; the lowest that applies is the answer. 4 to 6 are of a stamp that is
 * set, 5 and 6 in mode largest. */
enum latency_monitor_reason_number {
    LATENCY_MONITOR_REASON_NONE = 0,          /* it would load the stamp */
    LATENCY_MONITOR_REASON_DISABLED = 1,      /* the monitor is disabled */
    LATENCY_MONITOR_REASON_OF_NO_KIND = 2,    /* its opcode or attribute is not counted */
    LATENCY_MONITOR_REASON_BELOW_A = 3,       /* it is below threshold A */
    LATENCY_MONITOR_REASON_MODE_FIRST = 4,    /* the counter is in mode first */
    LATENCY_MONITOR_REASON_NOT_LARGER = 5,    /* its latency in ms is not larger than the measured latency */
    LATENCY_MONITOR_REASON_MINIMUM_WINDOW = 6 /* the minimum window is not over since the stamp's last load */
};

/* The settings in force. */
struct latency_monitor_settings {
    uint16_t timer_threshold; /* in increments of five minutes */
    uint16_t mode;            /* bit n: counter n in mode largest */
    uint16_t trigger;         /* bit n: counter n triggers a debug log */
    uint8_t thresholds[4];    /* A to D: byte v means 5 x (v + 1) ms */
    uint8_t minimum_window;   /* in units of 100 ms */
    bool enabled;
};

/* A window, by counter number. */
struct latency_monitor_window {
    uint32_t counters[LATENCY_MONITOR_COUNTERS];
    uint64_t stamps_ms[LATENCY_MONITOR_COUNTERS];    /* latency stamps, LATENCY_MONITOR_UNSET where not set */
    uint16_t latencies_ms[LATENCY_MONITOR_COUNTERS]; /* measured latencies */
    bool stamp_units[LATENCY_MONITOR_COUNTERS];      /* whether the host had set the clock */
};

/* The debug log; none is held while its stamp is LATENCY_MONITOR_UNSET. */
struct latency_monitor_debug_log {
    uint64_t stamp_ms;
    uint16_t latency_ms;
    uint16_t source; /* the counter, as one set bit */
    bool stamp_units;
};

/*
 * The record. Its fields may be read between calls; only the calls change it. The bytes between fields mean nothing,
 * and may differ in records whose fields are equal.
 *
 * Between calls it may be copied byte for byte, and so kept over a power cycle: keep it with
 * LATENCY_MONITOR_RECORD_VERSION, copy it back if the version is the same, and call latency_monitor_power_up. What is
 * copied back must be what a call left, so guard it with a checksum: a bool other than 0 or 1 is no content of a
 * record, and undefined in C.
 */
struct latency_monitor {
    struct latency_monitor_settings settings;
    uint16_t timer;      /* Active Bucket Timer, in increments of five minutes */
    bool host_set;       /* whether the host set the clock */
    uint32_t partial_ms; /* time since the timer's last increment */
    uint32_t static_below_a[LATENCY_MONITOR_KINDS]; /* by kind: completions below threshold A in the static window */
    uint32_t active_below_a[LATENCY_MONITOR_KINDS]; /* and in the active window */
    uint64_t clock_ms;
    uint64_t loaded_ms[LATENCY_MONITOR_COUNTERS]; /* time in the active window at the stamp's last load */
    struct latency_monitor_debug_log debug;
    struct latency_monitor_window static_window;
    struct latency_monitor_window active_window;
};

/* What a log page shows. Discard, which no page has, is no field of the settings: it counts as 0. */
struct latency_monitor_log_page {
    struct latency_monitor_settings settings;
    uint16_t timer; /* Active Bucket Timer, in increments of five minutes */
    struct latency_monitor_window active_window;
    struct latency_monitor_window static_window;
    struct latency_monitor_debug_log debug;
};

/* A log page that was read. The bytes between fields mean nothing, as in a record. */
struct latency_monitor_reading {
    struct latency_monitor_log_page page;
    bool debug_held;       /* whether the page shows a debug log */
    uint8_t debug_counter; /* the debug log's counter, 0 to 11; 0 if none is held */
};

/*
 * A completed command. Dataset Management and Write Zeroes are Deallocate if they have the deallocate attribute or bit,
 * and are not counted without it. An initialiser that leaves the field out sets it to false.
 */
struct latency_monitor_command {
    uint32_t latency_us;
    uint8_t opcode;  /* enum latency_monitor_opcode, or any other */
    bool deallocate; /* attribute of Dataset Management, bit of Write Zeroes; not asked of other commands */
};

/* The answer to a completion. */
struct latency_monitor_completion_answer {
    uint16_t counter; /* 0 to 11; 0 if not counted */
    bool counted;
    bool loaded; /* whether the counter's latency stamp was loaded */
    bool debug;  /* whether a debug log was taken */
};

/* The answer to elapsed time. */
struct latency_monitor_elapsed_answer {
    uint8_t refusal; /* enum latency_monitor_refusal */
    bool ended;      /* whether the active window ended, and is the static one now */
};

/* The enabled completions below threshold A in a window, by kind, each held at 4,294,967,295. */
struct latency_monitor_below_a {
    uint32_t read;
    uint32_t write;
    uint32_t deallocate;
};

/*
 * Makes a record a new monitor's: disabled, settings zero, clock 0, both windows empty. Zeroed storage may be lent, but
 * is no new monitor itself: its stamps are set, at 0.
 */
void latency_monitor_new(struct latency_monitor *monitor);

/* Accepts settings, 4,096 bytes, or turns them away by 1 to 6. */
uint8_t latency_monitor_configure(struct latency_monitor *monitor, const uint8_t *settings, size_t length);

/* Takes a completed command; it is never turned away. */
struct latency_monitor_completion_answer latency_monitor_completion(
    struct latency_monitor *monitor, struct latency_monitor_command command);

/* Lets time pass, at most LATENCY_MONITOR_INCREMENT_MS a call; turned away by 7. More is to be split. */
struct latency_monitor_elapsed_answer latency_monitor_elapsed(struct latency_monitor *monitor, uint32_t elapsed_ms);

/* The host sets the clock, below LATENCY_MONITOR_CLOCK_LIMIT_MS; turned away by 8. */
uint8_t latency_monitor_set_clock(struct latency_monitor *monitor, uint64_t clock_ms);

/* The drive powered up: the clock is 0, and not the host's, and all else is kept. Never turned away. */
uint8_t latency_monitor_power_up(struct latency_monitor *monitor);

/* The completions below threshold A in the active window, which no counter has and no page shows. */
struct latency_monitor_below_a latency_monitor_active_below_a(const struct latency_monitor *monitor);

/* The same in the static window. */
struct latency_monitor_below_a latency_monitor_static_below_a(const struct latency_monitor *monitor);

/*
 * Why a completed command would not load a latency stamp, were it brought to latency_monitor_completion now: an
 * enum latency_monitor_reason_number, 0 where it would. The command is not taken, and never turned away: the record is
 * only read. So ask before the completion; after it the record is another.
 */
uint8_t latency_monitor_reason(const struct latency_monitor *monitor, struct latency_monitor_command command);

/* Writes log page C3h, 512 bytes; turned away by 9. */
uint8_t latency_monitor_page(const struct latency_monitor *monitor, uint8_t *page, size_t length);

/* Writes the settings in force, 4,096 bytes, the discard byte as zero; turned away by 10. */
uint8_t latency_monitor_settings_back(const struct latency_monitor *monitor, uint8_t *settings, size_t length);

/*
 * Reads log page C3h of any drive. A page is turned away by 13 if it is not 512 bytes, by 14 if its version or GUID is
 * not the one that latency_monitor_page writes, and by 15 if it breaks a rule of the layout; the reading then stays as
 * it was. The rules:
 *
 *   - Bytes 2 to 9 (timer, timer threshold, thresholds) and 12 (minimum window) may hold anything.
 *   - Byte 0 (enabled) and the stamp units of the debug log are 0 or 1. Bits 12 to 15 of mode, trigger and the windows'
 *     stamp units are zero, as are the debug log's pointer and every byte that no field has.
 *   - A counter's stamp is below LATENCY_MONITOR_CLOCK_LIMIT_MS, or it is LATENCY_MONITOR_UNSET, and then the counter,
 *     its measured latency and its stamp units are zero.
 *   - The debug log's stamp is below LATENCY_MONITOR_CLOCK_LIMIT_MS, and its source has one bit of 0 to 11 set and no
 *     other; or the stamp is LATENCY_MONITOR_UNSET, and measured latency, source and stamp units are zero.
 *
 * So each page that latency_monitor_page writes is accepted. Others are too: thresholds may be out of order, and a
 * stamp be set where the counter is 0.
 */
uint8_t latency_monitor_read_page(struct latency_monitor_reading *reading, const uint8_t *page, size_t length);

/* The layout that the library was compiled with. */
#define LATENCY_MONITOR_SIZE(type, size) LATENCY_MONITOR_ASSERT(sizeof(struct type) == (size), #type)
#define LATENCY_MONITOR_AT(type, field, offset) \
    LATENCY_MONITOR_ASSERT(offsetof(struct type, field) == (offset), #type "." #field)

LATENCY_MONITOR_ASSERT(sizeof(bool) == 1, "bool is one byte");

LATENCY_MONITOR_SIZE(latency_monitor_settings, 12);
LATENCY_MONITOR_AT(latency_monitor_settings, timer_threshold, 0);
LATENCY_MONITOR_AT(latency_monitor_settings, mode, 2);
LATENCY_MONITOR_AT(latency_monitor_settings, trigger, 4);
LATENCY_MONITOR_AT(latency_monitor_settings, thresholds, 6);
LATENCY_MONITOR_AT(latency_monitor_settings, minimum_window, 10);
LATENCY_MONITOR_AT(latency_monitor_settings, enabled, 11);

LATENCY_MONITOR_SIZE(latency_monitor_window, 184);
LATENCY_MONITOR_AT(latency_monitor_window, counters, 0);
LATENCY_MONITOR_AT(latency_monitor_window, stamps_ms, 48);
LATENCY_MONITOR_AT(latency_monitor_window, latencies_ms, 144);
LATENCY_MONITOR_AT(latency_monitor_window, stamp_units, 168);

LATENCY_MONITOR_SIZE(latency_monitor_debug_log, 16);
LATENCY_MONITOR_AT(latency_monitor_debug_log, stamp_ms, 0);
LATENCY_MONITOR_AT(latency_monitor_debug_log, latency_ms, 8);
LATENCY_MONITOR_AT(latency_monitor_debug_log, source, 10);
LATENCY_MONITOR_AT(latency_monitor_debug_log, stamp_units, 12);

LATENCY_MONITOR_SIZE(latency_monitor, 536);
LATENCY_MONITOR_AT(latency_monitor, settings, 0);
LATENCY_MONITOR_AT(latency_monitor, timer, 12);
LATENCY_MONITOR_AT(latency_monitor, host_set, 14);
LATENCY_MONITOR_AT(latency_monitor, partial_ms, 16);
LATENCY_MONITOR_AT(latency_monitor, static_below_a, 20);
LATENCY_MONITOR_AT(latency_monitor, active_below_a, 32);
LATENCY_MONITOR_AT(latency_monitor, clock_ms, 48);
LATENCY_MONITOR_AT(latency_monitor, loaded_ms, 56);
LATENCY_MONITOR_AT(latency_monitor, debug, 152);
LATENCY_MONITOR_AT(latency_monitor, static_window, 168);
LATENCY_MONITOR_AT(latency_monitor, active_window, 352);

LATENCY_MONITOR_SIZE(latency_monitor_log_page, 400);
LATENCY_MONITOR_AT(latency_monitor_log_page, settings, 0);
LATENCY_MONITOR_AT(latency_monitor_log_page, timer, 12);
LATENCY_MONITOR_AT(latency_monitor_log_page, active_window, 16);
LATENCY_MONITOR_AT(latency_monitor_log_page, static_window, 200);
LATENCY_MONITOR_AT(latency_monitor_log_page, debug, 384);

LATENCY_MONITOR_SIZE(latency_monitor_reading, 408);
LATENCY_MONITOR_AT(latency_monitor_reading, page, 0);
LATENCY_MONITOR_AT(latency_monitor_reading, debug_held, 400);
LATENCY_MONITOR_AT(latency_monitor_reading, debug_counter, 401);

LATENCY_MONITOR_SIZE(latency_monitor_command, 8);
LATENCY_MONITOR_AT(latency_monitor_command, latency_us, 0);
LATENCY_MONITOR_AT(latency_monitor_command, opcode, 4);
LATENCY_MONITOR_AT(latency_monitor_command, deallocate, 5);

LATENCY_MONITOR_SIZE(latency_monitor_completion_answer, 6);
LATENCY_MONITOR_AT(latency_monitor_completion_answer, counter, 0);
LATENCY_MONITOR_AT(latency_monitor_completion_answer, counted, 2);
LATENCY_MONITOR_AT(latency_monitor_completion_answer, loaded, 3);
LATENCY_MONITOR_AT(latency_monitor_completion_answer, debug, 4);

LATENCY_MONITOR_SIZE(latency_monitor_elapsed_answer, 2);
LATENCY_MONITOR_AT(latency_monitor_elapsed_answer, refusal, 0);
LATENCY_MONITOR_AT(latency_monitor_elapsed_answer, ended, 1);

LATENCY_MONITOR_SIZE(latency_monitor_below_a, 12);
LATENCY_MONITOR_AT(latency_monitor_below_a, read, 0);
LATENCY_MONITOR_AT(latency_monitor_below_a, write, 4);
LATENCY_MONITOR_AT(latency_monitor_below_a, deallocate, 8);

#undef LATENCY_MONITOR_AT
#undef LATENCY_MONITOR_SIZE
#undef LATENCY_MONITOR_ASSERT

#ifdef __cplusplus
}
#endif

#endif
