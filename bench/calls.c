/*
 * Measures the calls of the product beside those of the monitor in C.
 *   calls check                         fails if the sides differ in their answers or in what they show
 *   calls times ORDERS ROUNDS           ns a call: a line for each case
 *   calls count ORDERS SIDE CASE LAPS   runs one case on one side and prints its calls, for a count of instructions
 *   calls stack                         the stack of each call, in bytes
 *   calls record                        the size of the record, in bytes
 * ORDERS is 1 for one lap that is repeated, or 64 for laps with an order of their own, and then only the cases whose
 * time can depend on the order are printed. A line's fields are separated by tabs. A line of times starts with the
 * numbers of its case and of its fastest C side, and ends with the times of every C side. The stack is the product's
 * and that of the first two C sides, the record the product's and that of the first C side and of the last.
 */

#include "side.h"

#include <stdio.h>
#include <stdlib.h>
#include <string.h>
#include <time.h>

/* EACH_SIDE is given by the compiler's command line: the product, and then C by each compiler, level and form. */
#define DECLARED(name) extern const struct side name;
#define LISTED(name) &name,
EACH_SIDE(DECLARED)
static const struct side *const sides[] = {EACH_SIDE(LISTED)};

enum { SIDES = sizeof sides / sizeof sides[0], STACKS = 3, RUNS = 20, LAPS = 16, MOST_ROUNDS = 1001 };

/* Calls of a lap: of the short ones, and of those that go over 512 or 4,096 bytes. */
enum { SHORT = 1536, LONG = 64 };

/* Laps with an order and inputs of their own: a processor learns the branches of one lap. */
enum { ORDERS = 64, EACH = ORDERS * SHORT };

_Static_assert(RUNS * LAPS % ORDERS == 0, "a round has each order as often");

enum {
    KINDS = LATENCY_MONITOR_KINDS, COUNTERS = LATENCY_MONITOR_COUNTERS, FIRST = 0, LARGEST = 0x0FFF, TRIGGER = 0x0249,
    INCREMENT_MS = LATENCY_MONITOR_INCREMENT_MS
};

static struct latency_monitor_command below[EACH], other[EACH], slow[EACH], each_counter[COUNTERS];
static uint32_t elapsed_ms[EACH];
static uint64_t clocks_ms[SHORT];
static struct named_settings settings[LONG];
static _Alignas(64) struct log_page pages[LONG];

/* Each counter has as many of a lap's slow commands, and the twelve numbers add up to 66. */
#define COUNTED (((uint64_t)SHORT << COUNTED_AT) + SHORT / COUNTERS * 66)
#define LOADED (((uint64_t)SHORT << LOADED_AT) + COUNTED)
#define LAP_ENDED (UINT64_C(1) << (ENDED_AT + LAP_TIME_AT))

/* The counts below A of a monitor that is ready. */
#define BELOW_A (1 + (UINT64_C(2) << WRITE_AT) + (UINT64_C(3) << DEALLOCATE_AT))

/* Of a lap's slow commands each counter's first is not larger than its measured latency, and the others are. */
#define NOT_LARGER (COUNTERS * LATENCY_MONITOR_REASON_NOT_LARGER)

enum { REASONS = LATENCY_MONITOR_REASON_MINIMUM_WINDOW + 1 };

static const char *const names[CALLS] = {
    [NEW] = "new", [CONFIGURE] = "configure", [COMPLETION] = "completion", [ELAPSED] = "elapsed",
    [SET_CLOCK] = "set_clock", [POWER_UP] = "power_up", [ACTIVE_BELOW_A] = "active_below_a",
    [STATIC_BELOW_A] = "static_below_a", [REASON] = "reason", [PAGE] = "page", [READ_PAGE] = "read_page",
    [SETTINGS_BACK] = "settings_back"
};

/* Where stamps are loaded, each lap starts with a new window. */
static const struct work works[] = {
    [EMPTY_COMPLETION] = {.name = "empty completion", .call = EMPTY_COMPLETION, .calls = SHORT, .orders = ORDERS,
        .commands = slow},
    [EMPTY_NUMBER] = {.name = "empty call", .call = EMPTY_NUMBER, .calls = SHORT, .orders = ORDERS},
    {.name = "completion, below A", .call = COMPLETION, .calls = SHORT, .orders = ORDERS, .commands = below},
    {.name = "completion, of no kind", .call = COMPLETION, .calls = SHORT, .orders = ORDERS, .commands = other},
    {.name = "completion, counted", .call = COMPLETION, .calls = SHORT, .orders = ORDERS, .commands = slow,
        .mode = FIRST, .answers = COUNTED},
    {.name = "completion, loaded", .call = COMPLETION, .calls = SHORT, .orders = ORDERS, .commands = slow,
        .mode = LARGEST, .lap_ms = INCREMENT_MS, .answers = LOADED + LAP_ENDED},
    {.name = "elapsed", .call = ELAPSED, .calls = SHORT, .orders = ORDERS, .elapsed_ms = elapsed_ms},
    {.name = "set_clock", .call = SET_CLOCK, .calls = SHORT, .clocks_ms = clocks_ms},
    {.name = "power_up", .call = POWER_UP, .calls = SHORT},
    {.name = "active_below_a", .call = ACTIVE_BELOW_A, .calls = SHORT, .answers = SHORT * BELOW_A},
    {.name = "static_below_a", .call = STATIC_BELOW_A, .calls = SHORT},
    {.name = "reason, below A", .call = REASON, .calls = SHORT, .orders = ORDERS, .commands = below,
        .answers = SHORT * LATENCY_MONITOR_REASON_BELOW_A},
    {.name = "reason, mode first", .call = REASON, .calls = SHORT, .orders = ORDERS, .commands = slow,
        .mode = FIRST, .answers = SHORT * LATENCY_MONITOR_REASON_MODE_FIRST},
    {.name = "reason, mode largest", .call = REASON, .calls = SHORT, .orders = ORDERS, .commands = slow,
        .mode = LARGEST, .answers = NOT_LARGER},
    {.name = "page", .call = PAGE, .calls = LONG},
    {.name = "read_page", .call = READ_PAGE, .calls = LONG, .pages = pages},
    {.name = "settings_back", .call = SETTINGS_BACK, .calls = LONG},
    {.name = "configure", .call = CONFIGURE, .calls = LONG, .settings = settings},
    {.name = "new", .call = NEW, .calls = LONG},
};

enum { WORKS = sizeof works / sizeof works[0] };

struct latency_monitor_completion_answer empty_completion(const void *record, struct latency_monitor_command command)
{
    (void)record;
    (void)command;
    return (struct latency_monitor_completion_answer){0};
}

uint8_t empty_number(const void *record)
{
    (void)record;
    return 0;
}

static void fail(const char *name, const char *what)
{
    fprintf(stderr, "calls: %s: %s\n", name, what);
    exit(EXIT_FAILURE);
}

static uint32_t draw(uint32_t from_zero_to_below)
{
    static uint64_t state = 0x6C6174656E637921;

    state = state * 6364136223846793005 + 1442695040888963407;
    return (uint32_t)((state >> 32) * from_zero_to_below >> 32);
}

/* 5, 160, 320 and 480 ms: each bucket has room for a lap's rise, 1 ms at a time. */
static const uint8_t thresholds[4] = {0, 31, 63, 95};

/* A command of each kind. */
static const struct latency_monitor_command kinds[KINDS] = {
    [LATENCY_MONITOR_KIND_READ] = {.opcode = LATENCY_MONITOR_OPCODE_READ},
    [LATENCY_MONITOR_KIND_WRITE] = {.opcode = LATENCY_MONITOR_OPCODE_WRITE},
    [LATENCY_MONITOR_KIND_DEALLOCATE] = {.opcode = LATENCY_MONITOR_OPCODE_DATASET_MANAGEMENT, .deallocate = true}
};

static struct latency_monitor_command command_for(int counter, uint32_t above_us)
{
    struct latency_monitor_command command = kinds[counter % KINDS];

    command.latency_us = 5000 * (thresholds[counter / KINDS] + 1u) + above_us;
    return command;
}

static struct named_settings settings_of(uint16_t timer_threshold, uint16_t mode, uint16_t trigger, bool enable)
{
    return (struct named_settings){{
        timer_threshold & 0xFF, timer_threshold >> 8, thresholds[0], thresholds[1], thresholds[2], thresholds[3],
        mode & 0xFF, mode >> 8, 0, trigger & 0xFF, trigger >> 8, 0, enable
    }};
}

/* A lap of the counters in a drawn order, each with commands that are 1 ms slower every time. */
static void draw_slow(struct latency_monitor_command *lap)
{
    uint8_t order[SHORT];
    uint32_t seen[COUNTERS] = {0};

    for (int i = 0; i < SHORT; i++) {
        int other = (int)draw((uint32_t)i + 1);
        order[i] = order[other];
        order[other] = (uint8_t)(i % COUNTERS);
    }
    for (int i = 0; i < SHORT; i++)
        lap[i] = command_for(order[i], 1000 * seen[order[i]]++ + draw(1000));
}

static void complete_some(const struct side *side)
{
    for (int n = 0; n < COUNTERS; n++)
        if (draw(2))
            side->once(&(struct stroke){.call = COMPLETION, .command = command_for(n, draw(100000))});
}

/* Pages of monitors: some counters counted in each window, some under the host's clock, and a debug log in every second
 * one. */
static void draw_pages(void)
{
    static uint8_t back[LATENCY_MONITOR_SETTINGS_LENGTH];
    const struct side *side = &product;

    for (int i = 0; i < LONG; i++) {
        uint16_t mode = (uint16_t)draw(4096), trigger = i % 2 ? 0x0FFF : 0;
        side->once(&(struct stroke){.call = NEW});
        side->once(&(struct stroke){.call = CONFIGURE, .settings = settings_of(1, mode, trigger, true)});
        side->once(&(struct stroke){.call = SET_CLOCK, .clock_ms = clocks_ms[i]});
        complete_some(side);
        side->once(&(struct stroke){.call = ELAPSED, .elapsed_ms = INCREMENT_MS});
        if (draw(2))
            side->once(&(struct stroke){.call = POWER_UP});
        complete_some(side);
        side->show(pages[i].bytes, back);
    }
}

/* A run's elapsed times stay below the timer's increment. */
static void draw_inputs(void)
{
    for (int n = 0; n < COUNTERS; n++)
        each_counter[n] = command_for(n, 0);
    for (int lap = 0; lap < ORDERS; lap++)
        draw_slow(slow + lap * SHORT);
    for (int i = 0; i < EACH; i++) {
        below[i] = command_for((int)draw(3), 0);
        below[i].latency_us = 20 + draw(4980);
        other[i] = below[i];
        other[i].opcode = (uint8_t)(10 + draw(246));
        elapsed_ms[i] = draw(20);
    }
    for (int i = 0; i < SHORT; i++)
        clocks_ms[i] = (uint64_t)draw(1 << 16) << 32 | draw(UINT32_MAX);
    for (int i = 0; i < LONG; i++) {
        uint16_t timer_threshold = (uint16_t)(1 + draw(1000)), mode = (uint16_t)draw(4096);
        settings[i] = settings_of(timer_threshold, mode, (uint16_t)draw(4096), draw(4) > 0);
        settings[i].bytes[8] = (uint8_t)draw(256);
        settings[i].bytes[11] = (uint8_t)draw(2);
    }
    draw_pages();
}

/* A monitor in use: enabled, the clock set, every stamp set, a debug log held, and 1, 2 and 3 completions below A. */
static void make_ready(const struct side *side, uint16_t mode)
{
    side->once(&(struct stroke){.call = NEW});
    side->once(&(struct stroke){.call = CONFIGURE, .settings = settings_of(1, mode, TRIGGER, true)});
    side->once(&(struct stroke){.call = SET_CLOCK, .clock_ms = 1700000000000});
    for (int n = 0; n < COUNTERS; n++)
        side->once(&(struct stroke){.call = COMPLETION, .command = each_counter[n]});
    for (int kind = 0; kind < KINDS; kind++)
        for (int i = 0; i <= kind; i++)
            side->once(&(struct stroke){.call = COMPLETION, .command = kinds[kind]});
}

/* Each call did what its case is about, and none was turned away. */
static void check_answers(const struct work *w, size_t laps, uint64_t sum)
{
    if (sum != laps * w->answers)
        fail(w->name, "other answers than the case has");
}

static void check_below_a(const char *name)
{
    struct below_a first = sides[0]->below_a();

    for (int s = 1; s < SIDES; s++) {
        struct below_a here = sides[s]->below_a();
        if (memcmp(&here, &first, sizeof first) != 0)
            fail(name, "the counts below A differ");
    }
}

/* All sides answer alike, and then have the same counts below A. Gives the answer. */
static uint64_t play_alike(struct stroke stroke)
{
    uint64_t answer = sides[0]->once(&stroke);

    for (int s = 1; s < SIDES; s++)
        if (sides[s]->once(&stroke) != answer)
            fail(names[stroke.call], "the answers differ");
    check_below_a(names[stroke.call]);
    return answer;
}

/* Asks for the reason and brings the completion, which loads its stamp exactly if there is none. Gives the reason. */
static uint64_t ask_and_complete(struct latency_monitor_command command)
{
    uint64_t reason = play_alike((struct stroke){.call = REASON, .command = command});
    uint64_t answer = play_alike((struct stroke){.call = COMPLETION, .command = command});

    if ((answer >> LOADED_AT & 1) != (reason == LATENCY_MONITOR_REASON_NONE))
        fail("reason", "it is not what the completion answers");
    return reason;
}

/* Every opcode, without the deallocate attribute and with it, just below A, at A, and with the largest latency. */
static void complete_alike(void)
{
    uint32_t a_us = command_for(0, 0).latency_us, us[3] = {a_us - 1, a_us, UINT32_MAX};

    for (int opcode = 0; opcode < 256; opcode++)
        for (int deallocate = 0; deallocate < 2; deallocate++)
            for (int i = 0; i < 3; i++)
                ask_and_complete((struct latency_monitor_command){
                    .latency_us = us[i], .opcode = (uint8_t)opcode, .deallocate = deallocate});
}

/* Drawn modes and minimum windows; few counters, so that stamps are met again, and time at the minimum window's end,
 * over the timer's increment and over a few windows. */
static void draw_reasons(unsigned met[REASONS])
{
    static const uint32_t some_ms[5] = {0, 1, 99, 100, 199};
    struct named_settings drawn = settings_of(2, (uint16_t)draw(4096), TRIGGER, draw(8) > 0);

    drawn.bytes[8] = (uint8_t)draw(4);
    play_alike((struct stroke){.call = CONFIGURE, .settings = drawn});
    for (int i = 0; i < 200; i++) {
        struct latency_monitor_command command = draw(10) ? command_for((int)draw(4), draw(9000)) : below[draw(SHORT)];
        command.deallocate &= draw(10) > 0;
        met[ask_and_complete(command)]++;
        play_alike((struct stroke){.call = ELAPSED, .elapsed_ms = draw(50) ? some_ms[draw(5)] : INCREMENT_MS});
    }
}

/* All sides give the same reasons, and each of them. */
static void check_reasons(void)
{
    unsigned met[REASONS] = {0};

    for (int s = 0; s < SIDES; s++)
        make_ready(sides[s], FIRST);
    for (int i = 0; i < 200; i++)
        draw_reasons(met);
    for (int reason = 0; reason < REASONS; reason++)
        if (met[reason] == 0)
            fail("reason", "one of them was not met");
}

/* The counts below A in a window, after its end, disabled, and enabled again. */
static void check_counts(void)
{
    for (int s = 0; s < SIDES; s++)
        make_ready(sides[s], FIRST);
    complete_alike();
    play_alike((struct stroke){.call = ELAPSED, .elapsed_ms = INCREMENT_MS});
    complete_alike();
    play_alike((struct stroke){.call = CONFIGURE, .settings = settings_of(1, FIRST, TRIGGER, false)});
    complete_alike();
    play_alike((struct stroke){.call = CONFIGURE, .settings = settings_of(1, FIRST, TRIGGER, true)});
    complete_alike();
}

/* What the sides show must be the same bytes. */
static void check_shown(const struct work *w)
{
    static uint8_t page[SIDES][LATENCY_MONITOR_PAGE_LENGTH], back[SIDES][LATENCY_MONITOR_SETTINGS_LENGTH];

    for (int s = 0; s < SIDES; s++) {
        sides[s]->show(page[s], back[s]);
        if (memcmp(page[s], page[0], sizeof page[0]) != 0)
            fail(w->name, "the pages differ");
        if (memcmp(back[s], back[0], sizeof back[0]) != 0)
            fail(w->name, "the settings given back differ");
    }
    check_below_a(w->name);
}

/* Reads a page on each side: all turn it away by one number, or write it again as it was. Gives the number. */
static uint8_t read_alike(const struct log_page *page)
{
    static uint8_t written[LATENCY_MONITOR_PAGE_LENGTH];
    uint8_t refusal = sides[0]->again(page, written);

    for (int s = 0; s < SIDES; s++) {
        if (sides[s]->again(page, written) != refusal)
            fail("read_page", "the refusals differ");
        if (refusal == LATENCY_MONITOR_ACCEPTED && memcmp(written, page->bytes, sizeof written) != 0)
            fail("read_page", "the page written again differs");
    }
    return refusal;
}

/* The pages are accepted and no two are the same; then with a bit changed in each byte in turn. */
static void check_readings(void)
{
    for (int i = 0; i < LONG; i++) {
        if (read_alike(&pages[i]) != LATENCY_MONITOR_ACCEPTED)
            fail("read_page", "a page is turned away");
        for (int j = 0; j < i; j++)
            if (memcmp(&pages[i], &pages[j], sizeof pages[i]) == 0)
                fail("read_page", "two pages are the same");
        for (int place = 0; place < LATENCY_MONITOR_PAGE_LENGTH; place++) {
            struct log_page changed = pages[i];
            changed.bytes[place] ^= (uint8_t)(1u << draw(8));
            read_alike(&changed);
        }
    }
}

static void check_alike(void)
{
    check_readings();
    check_counts();
    check_reasons();
}

/* The program's own time: other programs' turns on the processor are left out. */
static double now_ns(void)
{
    struct timespec t;

    clock_gettime(CLOCK_PROCESS_CPUTIME_ID, &t);
    return 1e9 * (double)t.tv_sec + (double)t.tv_nsec;
}

static double ns_a_call(const struct side *side, const struct work *w)
{
    double took = 0;

    for (size_t r = 0; r < RUNS; r++) {
        uint64_t sum;
        double from;
        make_ready(side, w->mode);
        from = now_ns();
        sum = side->run(w, r * LAPS, LAPS);
        took += now_ns() - from;
        check_answers(w, LAPS, sum);
    }
    return took / (double)(RUNS * LAPS * w->calls);
}

/* The sides take turns, and every second round goes back the same way. */
static void measure(const struct work *w, size_t rounds, double ns[SIDES][MOST_ROUNDS])
{
    for (size_t r = 0; r < rounds; r++)
        for (int i = 0; i < SIDES; i++) {
            int s = r % 2 ? SIDES - 1 - i : i;
            ns[s][r] = ns_a_call(sides[s], w);
        }
    check_shown(w);
}

static int ascending(const void *a, const void *b)
{
    double x = *(const double *)a, y = *(const double *)b;

    return (x > y) - (x < y);
}

static double median(const double *values, size_t count)
{
    static double sorted[MOST_ROUNDS];

    memcpy(sorted, values, count * sizeof *values);
    qsort(sorted, count, sizeof *sorted, ascending);
    return (sorted[(count - 1) / 2] + sorted[count / 2]) / 2;
}

/* The ratio of the medians, the smallest and the largest of a round, and the one less the empty call's time. */
static void print_ratios(size_t rounds, const double *ours, const double *c, double empty)
{
    double our_median = median(ours, rounds), c_median = median(c, rounds);
    double smallest = ours[0] / c[0], largest = smallest;

    for (size_t r = 1; r < rounds; r++) {
        double ratio = ours[r] / c[r];
        smallest = ratio < smallest ? ratio : smallest;
        largest = ratio > largest ? ratio : largest;
    }
    printf("\t%.2f\t%.2f\t%.2f", our_median / c_median, smallest, largest);
    if (c_median > 1.05 * empty)
        printf("\t%.2f", (our_median - empty) / (c_median - empty));
    else
        printf("\t-");
}

/* The case whose loop is the same, around a call that does nothing. It is the same code on all sides, so the median of
 * theirs is taken. */
static enum call empty_of(enum call call)
{
    return call == COMPLETION || call == EMPTY_COMPLETION ? EMPTY_COMPLETION : EMPTY_NUMBER;
}

static int fastest_c(const double middle[SIDES])
{
    int c = 1;

    for (int s = 2; s < SIDES; s++)
        if (middle[s] < middle[c])
            c = s;
    return c;
}

/* The work with as many orders, if it is one whose time can depend on them. */
static bool has_orders(struct work *w, size_t number, size_t orders)
{
    *w = works[number];
    if (orders > 1 && w->orders < orders)
        return false;
    w->orders = orders;
    return true;
}

/* Ratios are to the fastest C side. */
static void print_times(size_t orders, size_t rounds)
{
    static double ns[SIDES][MOST_ROUNDS], middle[WORKS][SIDES];
    struct work w;

    for (size_t k = 0; k < WORKS; k++) {
        int c;
        if (!has_orders(&w, k, orders))
            continue;
        measure(&w, rounds, ns);
        for (int s = 0; s < SIDES; s++)
            middle[k][s] = median(ns[s], rounds);
        c = fastest_c(middle[k]);
        printf("%zu\t%d\t%s\t%.2f\t%.2f\t%s", k, c, w.name, middle[k][0], middle[k][c], sides[c]->title);
        print_ratios(rounds, ns[0], ns[c], median(middle[empty_of(w.call)], SIDES));
        for (int s = 1; s < SIDES; s++)
            printf("\t%.2f", middle[k][s]);
        printf("\n");
    }
}

static void count(size_t orders, size_t side, size_t number, size_t laps)
{
    struct work w;

    if (side >= SIDES || number >= WORKS || !has_orders(&w, number, orders))
        fail("count", "no such side or case");
    make_ready(sides[side], w.mode);
    check_answers(&w, laps, sides[side]->run(&w, 0, laps));
    printf("%zu\n", laps * w.calls);
}

/* Each call in its ways: a completion loads and takes a debug log, and then neither; the window ends; a page that is
 * read is turned away. */
static void note_depths(const struct side *side, size_t depth[CALLS])
{
    static const struct log_page no_page;
    struct log_page broken = pages[0];
    const struct stroke strokes[] = {
        {.call = NEW}, {.call = CONFIGURE, .settings = settings_of(1, LARGEST, LARGEST, true)},
        {.call = SET_CLOCK, .clock_ms = 1}, {.call = COMPLETION, .command = below[0]},
        {.call = COMPLETION, .command = slow[0]}, {.call = REASON, .command = below[0]},
        {.call = REASON, .command = slow[0]}, {.call = ELAPSED, .elapsed_ms = 1},
        {.call = ELAPSED, .elapsed_ms = INCREMENT_MS}, {.call = ELAPSED, .elapsed_ms = INCREMENT_MS + 1},
        {.call = POWER_UP}, {.call = ACTIVE_BELOW_A}, {.call = STATIC_BELOW_A}, {.call = PAGE}, {.call = SETTINGS_BACK},
        {.call = READ_PAGE, .page = &pages[0]}, {.call = READ_PAGE, .page = &pages[1]},
        {.call = READ_PAGE, .page = &broken}, {.call = READ_PAGE, .page = &no_page}
    };

    broken.bytes[1] = 1;
    for (size_t i = 0; i < sizeof strokes / sizeof strokes[0]; i++) {
        size_t here = stack_depth(side, &strokes[i]);
        if (here > depth[strokes[i].call])
            depth[strokes[i].call] = here;
    }
}

static void print_stack(void)
{
    size_t depth[STACKS][CALLS] = {{0}};

    for (int s = 0; s < STACKS; s++)
        note_depths(sides[s], depth[s]);
    for (int call = NEW; call < CALLS; call++)
        printf("%s\t%zu\t%zu\t%zu\n", names[call], depth[0][call], depth[1][call], depth[2][call]);
}

int main(int argc, char **argv)
{
    const char *job = argc > 1 ? argv[1] : "";
    size_t n[4] = {0};

    for (int i = 2; i < argc && i < 6; i++)
        n[i - 2] = strtoul(argv[i], NULL, 10);
    draw_inputs();
    if (strcmp(job, "check") == 0)
        check_alike();
    else if (strcmp(job, "times") == 0 && n[0] >= 1 && n[0] <= ORDERS && n[1] >= 1 && n[1] <= MOST_ROUNDS)
        print_times(n[0], n[1]);
    else if (strcmp(job, "count") == 0 && n[0] >= 1 && n[0] <= ORDERS)
        count(n[0], n[1], n[2], n[3]);
    else if (strcmp(job, "stack") == 0)
        print_stack();
    else if (strcmp(job, "record") == 0)
        printf("%zu\t%zu\t%zu\n", sides[0]->record_size, sides[1]->record_size, sides[SIDES - 1]->record_size);
    else
        fail(job, "check, times ORDERS ROUNDS, count ORDERS SIDE CASE LAPS (1 to 64, 1 to 1001), stack or record");
    return 0;
}
