/* Damaged input: damaged SEED COUNT [heap]
 *
 * Calls every function COUNT times in all, with random lengths and contents, on two sorts of memory: engines, mostly of 1, 2, 5
 * and 120 names, where a plain model of document 01's checks says what must be answered, and memory that never was an
 * engine. All that is lent ends or begins at a page that may not be touched or, with `heap`, is allocated to the byte for
 * valgrind. After each call every lent byte is compared: nothing may be written on a refusal, and otherwise only the engine
 * and the list that is given. Before that, as many writes as can be queued are left at a loss and at a stop. Prints what was
 * met; exits 1 at the first thing that is wrong. */
#define _DEFAULT_SOURCE
#include "../wordzike.h"
#include "cells.h"
#include <float.h>
#include <math.h>
#include <signal.h>
#include <stdio.h>
#include <stdlib.h>
#include <sys/mman.h>
#include <unistd.h>

/* ---- random numbers */

static uint64_t seed;

static uint64_t draw(void)
{
    uint64_t z = seed += 0x9e3779b97f4a7c15u;
    z = (z ^ z >> 30) * 0xbf58476d1ce4e5b9u;
    z = (z ^ z >> 27) * 0x94d049bb133111ebu;
    return z ^ z >> 31;
}

static uint64_t below(uint64_t n)
{
    return n == 0 ? 0 : draw() % n;
}

/* Once in n times. */
static int once(uint64_t n)
{
    return below(n) == 0;
}

/* ---- lent memory */

enum { MEM, OUT, LIST, NAMES, ENDS, SETTINGS, GROUPS, SLOTS };
enum { ROOM = 40960 };

static struct slot {
    uint8_t *base; /* all that is compared */
    size_t room;
    uint8_t *at; /* what is lent */
    size_t len;
    uint8_t before[ROOM];
} slots[SLOTS];
static int heap;

static void map_slots(void)
{
    size_t page = (size_t)sysconf(_SC_PAGESIZE);
    int s;
    for (s = 0; s < SLOTS && !heap; s++) {
        uint8_t *all = mmap(NULL, ROOM + 2 * page, PROT_NONE, MAP_PRIVATE | MAP_ANONYMOUS, -1, 0);
        if (all == MAP_FAILED || ROOM % page != 0 || mprotect(all + page, ROOM, PROT_READ | PROT_WRITE) != 0)
            exit(2);
        slots[s].base = slots[s].at = all + page;
        slots[s].room = ROOM;
        memset(slots[s].base, 0xa5, ROOM);
    }
}

/* Lends `len` bytes: at the front, at the end, or between. */
static uint8_t *lend(int s, size_t len)
{
    struct slot *x = &slots[s];
    x->len = len;
    if (heap) {
        free(x->base);
        x->base = x->at = malloc(len);
        x->room = len;
        return x->at;
    }
    x->at = x->base + (once(3) ? 0 : once(2) ? ROOM - len : below(ROOM - len + 1));
    if (s == ENDS)
        x->at -= (uintptr_t)x->at % 4;
    return x->at;
}

/* No pointer is needed where nothing is lent. */
static uint8_t *lent(int s)
{
    return slots[s].len == 0 ? NULL : slots[s].at;
}

static void keep(void)
{
    int s;
    for (s = 0; s < SLOTS; s++)
        if (slots[s].room > 0)
            memcpy(slots[s].before, slots[s].base, slots[s].room);
}

/* ---- what was met */

enum { CREATE, SET_TIER, LOAD, WRITE, STOP, STEP, STATE, STATS, COUNTS, GROUP_STATS, TABLE, PANEL, TAG, CALLS };
static const char *const names_of[CALLS] = {"wz_create", "wz_set_tier", "wz_load",        "wz_write",       "wz_stop",
                                            "wz_step",   "wz_state",    "wz_stats",       "wz_tier_counts", "wz_group_stats",
                                            "wz_table",  "wz_panel",    "wz_tag"};
/* The numbers that each may answer. */
static const int numbers[CALLS][12] = {
    {1, 100, 2, 3, 4, 11, 12, 13, 14}, {100, 21, 22, 23, 24}, {100, 21, 22, 51, 53, 54, 55, 56},
    {100, 23, 31, 32, 42},             {100},                 {100, 43, 21, 22, 41, 14, 42},
    {100},                             {100},                 {100},
    {100, 43},                         {100, 43},             {100, 43},
    {100, 23}};
static uint64_t met[2][CALLS][101]; /* by memory, call and number */
static uint64_t replies[2][15];
static uint64_t full[2]; /* as many writes as can be queued, at a loss and at a stop */
static uint64_t calls;
static int real; /* whether the memory is an engine's */

static void wrong(int call, const char *what, uint64_t got, uint64_t want)
{
    printf("call %llu, %s on %s: %s, %llu and not %llu\n", (unsigned long long)calls, names_of[call],
           real ? "an engine" : "other memory", what, (unsigned long long)got, (unsigned long long)want);
    exit(1);
}

static void faulted(int sig)
{
    static const char text[] = "an invalid access, or a call that does not end\n";
    (void)sig;
    if (write(1, text, sizeof text - 1) < 0)
        _exit(3);
    _exit(1);
}

/* Compares all that was lent: `engine` where the engine may be written, and so many bytes of OUT. */
static void compare(int call, int engine, size_t out)
{
    int s;
    for (s = 0; s < SLOTS; s++) {
        struct slot *x = &slots[s];
        size_t front = (size_t)(x->at - x->base), may = s == MEM && engine ? x->len : s == OUT ? out : 0;
        if (x->room == 0)
            continue;
        if (memcmp(x->base, x->before, front) != 0 ||
            memcmp(x->at + may, x->before + front + may, x->room - front - may) != 0)
            wrong(call, "a byte was written that may not be, in lent memory", (uint64_t)s, 0);
    }
}

/* The number of names of an engine of so many bytes, 0 where there is none. */
static size_t names_in(size_t len)
{
    size_t count;
    for (count = WZ_TAGS; count > 0; count--)
        if (len == WZ_MEMORY(count))
            break;
    return count;
}

/* Counts an answer; `want` is the number that it must have, -1 where that is not known. */
static void answered(int call, uint64_t code, int want)
{
    int k, may = code == 0;
    for (k = 0; k < 12 && !may; k++)
        may = code == (uint64_t)numbers[call][k];
    if (!may)
        wrong(call, "a number that it does not have", code, 0);
    if (call != CREATE && names_in(slots[MEM].len) == 0)
        want = WZ_NOT_AN_ENGINE;
    if (want >= 0 && code != (uint64_t)want)
        wrong(call, "another number", code, (uint64_t)want);
    if (want < 0 && code == WZ_NOT_AN_ENGINE)
        wrong(call, "another number", code, 0);
    met[!real][call][code]++;
}

/* ---- the model: what the checks need to know of an engine */

static struct {
    uint32_t count;
    double clock;
    int waits;    /* 0 begin, 1 connect, 2 version, 3 results, 4 write, 5 descriptions, 6 wait, 7 taken, 8 nothing */
    size_t asked; /* tags of the last request */
    size_t queued;
} model;

static int clock_number(double clock)
{
    if (!(clock >= 0 && clock <= 1e9))
        return 21;
    return clock < model.clock ? 22 : 0;
}

/* Of its cell the low half alone. */
static int rate_ok(uint64_t rate)
{
    return (uint32_t)rate != 0;
}

static int setting_ok(const uint8_t *s)
{
    double band;
    memcpy(&band, s, 8);
    return isfinite(band) && (cell(s, 1) == 0 || (cell(s, 1) <= WZ_GROUP(15) && rate_ok(cell(s, 2))));
}

static int settings_ok(const uint8_t *s, size_t len, size_t count)
{
    size_t i;
    for (i = 0; i < len / WZ_SETTING; i++)
        if (!setting_ok(s + WZ_SETTING * i))
            return 0;
    return len == WZ_SETTING * count;
}

static int groups_ok(const uint8_t *g, size_t len)
{
    size_t i;
    for (i = 0; i < len / WZ_CONFIGURED; i++)
        if (cell(g, 2 * i) > 15 || !rate_ok(cell(g, 2 * i + 1)))
            return 0;
    return len % WZ_CONFIGURED == 0 && len / WZ_CONFIGURED <= 16;
}

static int float_ok(uint64_t kind, uint64_t word)
{
    double x;
    memcpy(&x, &word, 8);
    return kind != WZ_FLOAT || isfinite(x);
}

static int results_ok(const uint8_t *r, size_t len)
{
    size_t i;
    for (i = 0; i < len / WZ_RESULT && i < model.asked; i++)
        if (cell(r, 4 * i + 2) == 0 && !float_ok(cell(r, 4 * i), cell(r, 4 * i + 1)))
            return 0;
    return 1;
}

static int directory_number(const uint8_t *names, size_t len, const uint32_t *ends, size_t count)
{
    size_t i, from, end;
    for (i = 0, from = 0; i < count; from = ends[i++])
        if (ends[i] <= from || ends[i] > len || ends[i] - from > WZ_NAME)
            return 2;
    if (from != len)
        return 2;
    for (i = 0; i < len; i++)
        if (names[i] < 33 || names[i] > 126)
            return 3;
    for (i = 1, from = 0; i < count; from = ends[i++ - 1]) {
        size_t old = ends[i - 1] - from, new = (end = ends[i]) - ends[i - 1];
        int order = memcmp(names + from, names + ends[i - 1], old < new ? old : new);
        if (order > 0 || (order == 0 && old >= new))
            return 4;
    }
    return 0;
}

static int options_number(wz_options o)
{
    if (!(o.cycle == 0 || (o.cycle >= 0.001 && o.cycle <= 3600)))
        return 11;
    if (!(o.period >= 0 && o.period <= 86400))
        return 12;
    return o.grace >= 0 && o.grace <= 86400 ? 0 : 13;
}

/* Creation's, with all that is lent for it. */
static int creation_number(size_t count, wz_options o)
{
    int n;
    if (count == 0 || count > WZ_TAGS)
        return 1;
    if (slots[MEM].len != WZ_MEMORY(count))
        return WZ_NOT_AN_ENGINE;
    n = directory_number(slots[NAMES].at, slots[NAMES].len, (const uint32_t *)(void *)slots[ENDS].at, count);
    n = n != 0 ? n : options_number(o);
    if (n != 0)
        return n;
    if (!settings_ok(slots[SETTINGS].at, slots[SETTINGS].len, count))
        return 14;
    return groups_ok(slots[GROUPS].at, slots[GROUPS].len) ? 0 : 14;
}

static int panel_number(const uint8_t *p, size_t len)
{
    size_t i, k, n;
    if (len == 0 || len != 1 + 2 * (size_t)p[0])
        return 51;
    n = p[0];
    for (i = 0; i < n; i++) {
        if (p[1 + i] >= model.count)
            return 53;
        for (k = 0; k < i; k++)
            if (p[1 + k] == p[1 + i])
                return 54;
        if (p[1 + n + i] < 1 || p[1 + n + i] > 3)
            return 55;
    }
    return 0;
}

static int answers(uint64_t kind, uint64_t number)
{
    switch (model.waits) {
    case 0: return kind == WZ_BEGIN;
    case 1: return kind == WZ_OPENED || kind == WZ_NOT_OPENED;
    case 2: return kind == WZ_NO_VERSION || kind == WZ_VERSION_IS;
    case 3: return kind == WZ_RESULTS || kind == WZ_LOST;
    case 4: return kind == WZ_WRITTEN || kind == WZ_LOST || (kind == WZ_WRITE_REFUSED && number >= 1 && number <= 65538);
    case 5: return kind == WZ_DESCRIPTIONS || kind == WZ_NOT_DESCRIBED;
    case 6: return kind == WZ_WAITED;
    case 7: return kind == WZ_TAKEN;
    default: return 0;
    }
}

static int step_number(double clock, uint64_t kind, uint64_t number)
{
    const struct slot *list = &slots[LIST];
    int n = clock_number(clock);
    if (slots[OUT].len / WZ_CHANGE < WZ_TAGS)
        return 43;
    if (n != 0)
        return n;
    if (!answers(kind, number))
        return 41;
    if ((kind == WZ_NO_VERSION || kind == WZ_VERSION_IS) && !settings_ok(list->at, list->len, model.count))
        return 14;
    return kind == WZ_RESULTS && !results_ok(list->at, list->len) ? 42 : 0;
}

/* ---- random arguments */

static double a_clock(void)
{
    const double strange[] = {NAN, INFINITY, -INFINITY, -1, -0.0, 1000000000.0000001, DBL_MIN, model.clock - 0.5, 1e300};
    if (once(12))
        return once(20) ? 1e9 : strange[below(9)];
    if (once(40)) {
        uint64_t word = draw();
        double x;
        memcpy(&x, &word, 8);
        return x;
    }
    return fmin(1e9, model.clock + (once(2) ? 0 : (double)below(3000) / 1000));
}

static double an_option(void)
{
    const double all[] = {0, 1, 0.001, 0.5, 3600, 86400, 3, 0.0009, 3600.5, 86401, -1, NAN, INFINITY, -0.0};
    return all[below(once(8) ? 14 : 4)];
}

static uint64_t a_word(void)
{
    const double some[] = {0, -0.0, 1, 10.5, NAN, INFINITY};
    return once(3) ? draw() : once(2) ? below(20) : bits(some[below(once(3) ? 6 : 4)]);
}

static void fill(int s)
{
    struct slot *x = &slots[s];
    uint64_t how = below(4), i;
    for (i = 0; i < x->len; i++)
        x->at[i] = how == 0 ? (uint8_t)draw() : how == 1 ? 0 : how == 2 ? 0xff : (uint8_t)(i % 8 == 0 ? below(130) : 0);
}

/* Now and then a list of another length, or with a cell or a byte that is something else. */
static size_t a_length(size_t len)
{
    size_t less = below(50);
    if (!once(25))
        return len;
    return once(2) ? below(ROOM / 4) : once(2) ? len + less : len - (less < len ? less : len);
}

static void harm(int s)
{
    struct slot *x = &slots[s];
    if (x->len >= 8 && once(25))
        put_cell(x->at, below(x->len / 8), once(2) ? draw() : below(40));
    if (x->len > 0 && once(40))
        x->at[below(x->len)] = (uint8_t)draw();
}

/* The cell of a rate; its other four bytes are not looked at. */
static uint64_t a_rate(uint64_t most)
{
    return (once(300) ? 0 : 1 + below(most)) | (once(3) ? draw() << 32 : 0);
}

static void lend_settings(int s, size_t count)
{
    const double bands[] = {0, 0.5, 1, -1};
    size_t i, n = a_length(WZ_SETTING * count);
    uint8_t *at = lend(s, n);
    fill(s);
    for (i = 0; i < n / WZ_SETTING; i++) {
        put_cell(at, 4 * i, bits(bands[below(4)]));
        put_cell(at, 4 * i + 1, once(2) ? 0 : 1 + below(16));
        put_cell(at, 4 * i + 2, a_rate(3000));
        put_cell(at, 4 * i + 3, below(2));
    }
    harm(s);
}

static void lend_groups(void)
{
    size_t i, n = a_length(WZ_CONFIGURED * (once(9) ? 16 + below(2) : below(4)));
    uint8_t *at = lend(GROUPS, n);
    fill(GROUPS);
    for (i = 0; i < n / WZ_CONFIGURED; i++) {
        put_cell(at, 2 * i, below(16));
        put_cell(at, 2 * i + 1, a_rate(5000));
    }
    harm(GROUPS);
}

/* Rising names, 130 at most: two letters, at times more, at times a bit. */
static void lend_names(size_t count)
{
    uint8_t text[130 * 6];
    uint32_t ends[130];
    size_t i, k, n = 0;
    for (i = 0; i < count && i < 130; i++) {
        text[n++] = (uint8_t)('A' + i / 20);
        text[n++] = (uint8_t)('A' + i % 20 + (once(3) ? 32 : 0) * (i % 20 == 19));
        for (k = below(3); k > 0; k--)
            text[n++] = (uint8_t)(33 + below(94));
        ends[i] = (uint32_t)n;
    }
    memcpy(lend(NAMES, n), text, n);
    memcpy(lend(ENDS, 4 * i), ends, 4 * i);
}

/* Such names, now and then damaged. */
static void lend_directory(size_t count)
{
    uint8_t text[130 * 6];
    size_t n, len;
    lend_names(count);
    n = slots[NAMES].len;
    len = a_length(n);
    memcpy(text, slots[NAMES].at, n);
    if (len != n) {
        lend(NAMES, len);
        fill(NAMES);
        memcpy(slots[NAMES].at, text, n < len ? n : len);
    }
    if (count > 0 && once(20))
        memcpy(slots[ENDS].at + 4 * below(count), &(uint32_t){(uint32_t)(once(2) ? draw() : below(n + 50))}, 4);
    if (len > 0 && once(20))
        slots[NAMES].at[below(len)] = (uint8_t)draw();
    if (once(30)) {
        lend(ENDS, 4 * below(1200));
        fill(ENDS);
    }
}

static void lend_results(void)
{
    size_t i, n = a_length(WZ_RESULT * model.asked);
    uint8_t *at = lend(LIST, n);
    fill(LIST);
    for (i = 0; i < n / WZ_RESULT; i++) {
        put_cell(at, 4 * i, below(4));
        put_cell(at, 4 * i + 1, below(3));
        put_cell(at, 4 * i + 2, once(4) ? below(9) : 0);
        put_cell(at, 4 * i + 3, below(3));
    }
    if (n >= WZ_RESULT && once(6)) {
        i = below(n / WZ_RESULT);
        put_cell(at, 4 * i, WZ_FLOAT);
        put_cell(at, 4 * i + 1, a_word());
    }
    harm(LIST);
}

static void lend_panel(void)
{
    size_t i, n = below(model.count + 1), len = a_length(1 + 2 * n);
    uint8_t *at = lend(LIST, len);
    fill(LIST);
    if (len > 0)
        at[0] = (uint8_t)n;
    for (i = 0; i < n && 1 + n + i < len; i++) {
        at[1 + i] = (uint8_t)i;
        at[1 + n + i] = (uint8_t)(1 + below(3));
    }
    if (len > 0 && once(6))
        at[below(len)] = (uint8_t)below(once(2) ? 256 : 5);
}

static void lend_out(size_t room)
{
    lend(OUT, once(30) ? (once(2) ? room - 1 : below(room)) : room + (once(3) ? below(100) : 0));
    fill(OUT);
}

/* ---- the calls */

static void done(int call, uint64_t code, int want, size_t out)
{
    answered(call, code, want);
    compare(call, code == 0 && call <= STEP, code == 0 ? out : 0);
    calls++;
}

/* How many bytes of OUT a list has; one without room for all of it is not written. */
static size_t listed(uint64_t count, size_t record)
{
    return count <= slots[OUT].len / record ? (size_t)count * record : 0;
}

static void call_create(size_t count)
{
    wz_options o = {an_option(), an_option(), an_option()};
    int want;
    lend_directory(count);
    count = slots[ENDS].len / 4;
    lend_settings(SETTINGS, count);
    lend_groups();
    keep();
    want = creation_number(count, o);
    done(CREATE,
         wz_create(lent(MEM), slots[MEM].len, lent(NAMES), slots[NAMES].len, (const uint32_t *)(void *)lent(ENDS),
                   count, o, lent(SETTINGS), slots[SETTINGS].len, lent(GROUPS), slots[GROUPS].len),
         want, 0);
    if (want == 0) {
        memset(&model, 0, sizeof model);
        model.count = (uint32_t)count;
        real = 1;
    }
}

static void call_set_tier(void)
{
    double clock = a_clock();
    uint32_t tag = (uint32_t)(once(20) ? draw() : below(model.count + once(20)));
    uint32_t tier = (uint32_t)(once(20) ? draw() : below(once(20) ? 5 : 4));
    int want = clock_number(clock);
    want = want != 0 ? want : tag >= model.count ? 23 : tier > 3 ? 24 : 0;
    keep();
    done(SET_TIER, wz_set_tier(lent(MEM), slots[MEM].len, clock, tag, tier), real ? want : -1, 0);
    if (real && want == 0)
        model.clock = clock;
}

static void call_load(void)
{
    double clock = a_clock();
    int want = clock_number(clock);
    wz_counts_look held = wz_tier_counts(lent(MEM), slots[MEM].len);
    lend_panel();
    want = want != 0 ? want : panel_number(lent(LIST), slots[LIST].len);
    if (want == 0 && held.tier1 + held.tier2 + held.tier3 > 0)
        want = 56;
    keep();
    done(LOAD, wz_load(lent(MEM), slots[MEM].len, clock, lent(LIST), slots[LIST].len), real ? want : -1, 0);
    if (real && want == 0)
        model.clock = clock;
}

static void call_write(void)
{
    uint32_t tag = (uint32_t)(once(20) ? draw() : below(model.count + once(20)));
    uint64_t kind = once(20) ? draw() : below(4), word = a_word();
    int connected = wz_state(lent(MEM), slots[MEM].len).state == WZ_CONNECTED;
    int want = tag >= model.count ? 23 : !connected ? 31 : model.queued >= WZ_WRITES ? 32 : float_ok(kind, word) ? 0 : 42;
    keep();
    done(WRITE, wz_write(lent(MEM), slots[MEM].len, tag, kind, word), real ? want : -1, 0);
    if (real && want == 0)
        model.queued++;
}

static void call_stop(void)
{
    keep();
    done(STOP, wz_stop(lent(MEM), slots[MEM].len), 0, 0);
}

/* Which fields each kind of reply may have: count 1, tag 2, what 4, value 8, error 16, seconds 32. */
static const int fields[15] = {0, 0, 0, 1, 2 + 8, 1, 1, 32, 1, 4, 0, 1, 2 + 4 + 8 + 16, 1, 1};

static void check_reply(const wz_reply *r)
{
    int has = r->code == 0 && r->kind < 15 ? fields[r->kind] : 0;
    if ((r->code == 0) != (r->kind >= 1 && r->kind <= 14))
        wrong(STEP, "a kind that is none", r->kind, 0);
    if ((!(has & 1) && r->count != 0) || (!(has & 2) && r->tag != 0) || (!(has & 4) && r->what != 0) ||
        (!(has & 8) && (r->value.kind | r->value.word) != 0) || (!(has & 16) && (r->error.kind | r->error.message) != 0) ||
        (!(has & 32) && bits(r->seconds) != 0))
        wrong(STEP, "a field that this kind does not have", r->kind, 0);
    replies[!real][r->kind]++;
}

/* The last two cells of each entry told are 0. */
static void check_changes(size_t bytes)
{
    size_t i;
    for (i = 0; i < bytes / WZ_CHANGE; i++)
        if ((cell(slots[OUT].at, 9 * i + 7) | cell(slots[OUT].at, 9 * i + 8)) != 0)
            wrong(STEP, "one of the two cells that are 0, in change", i, 0);
}

/* What an engine lists: tags that it has; of writes that are left all that were queued, otherwise as many as it has at most. */
static void check_listed(const wz_reply *r)
{
    size_t i, left = r->kind == WZ_FAILED || r->kind == WZ_STOPPED, values = r->kind == WZ_VALUES;
    if (left ? r->count != model.queued : r->count > model.count)
        wrong(STEP, "a count", r->count, left ? model.queued : model.count);
    for (i = 0; i < r->count; i++) {
        uint64_t tag = values ? cell(slots[OUT].at, 9 * i) : slots[OUT].at[2 * i] + 256u * slots[OUT].at[2 * i + 1];
        if (tag >= model.count)
            wrong(STEP, "a tag", tag, model.count);
    }
    if (left && r->count == WZ_WRITES)
        full[r->kind == WZ_STOPPED]++;
}

static void follow(double clock, const wz_reply *r)
{
    static const int waits[15] = {8, 1, 2, 3, 4, 3, 5, 6, 7, 7, 7, 7, 7, 7, 8};
    model.clock = clock;
    model.waits = waits[r->kind];
    model.asked = r->count;
    model.queued -= r->kind == WZ_WRITE ? 1 : r->kind == WZ_FAILED || r->kind == WZ_STOPPED ? r->count : 0;
}

static void call_step(void)
{
    static const uint64_t good[9][2] = {{0, 0}, {1, 1}, {3, 4}, {5, 5}, {7, 8}, {9, 9}, {11, 11}, {12, 12}, {12, 12}};
    double clock = a_clock();
    uint64_t kind = good[model.waits][below(2)], number = once(30) ? draw() : 1 + below(4), message = below(5);
    wz_reply r;
    int want;
    if (once(12))
        kind = once(2) ? below(14) : once(2) ? 2 + 4 * below(3) : draw();
    if (kind == WZ_NO_VERSION || kind == WZ_VERSION_IS)
        lend_settings(LIST, model.count);
    else
        lend_results();
    lend_out(WZ_LIST(model.count));
    want = step_number(clock, kind, number);
    keep();
    r = wz_step(lent(MEM), slots[MEM].len, clock, (int64_t)draw(), kind, number, message, lent(LIST), slots[LIST].len,
                lent(OUT), slots[OUT].len);
    check_reply(&r);
    check_changes(r.kind == WZ_VALUES ? listed(r.count, WZ_CHANGE) : 0);
    done(STEP, r.code, real ? want : -1, listed(r.count, r.kind == WZ_VALUES ? WZ_CHANGE : WZ_LISTED));
    if (real && want == 0) {
        check_listed(&r);
        follow(clock, &r);
    }
}

/* A look that asks for `room` bytes. It has `most` records at most: of any memory where they are tags. */
static void look(int call, size_t room, size_t record, size_t most,
                 wz_list_look (*f)(const uint8_t *, size_t, uint8_t *, size_t))
{
    wz_list_look r;
    int want;
    lend_out(room);
    want = slots[OUT].len / record < room / record ? 43 : 0;
    keep();
    r = f(lent(MEM), slots[MEM].len, lent(OUT), slots[OUT].len);
    if (r.code != 0 && r.count != 0)
        wrong(call, "a count with a refusal", r.count, 0);
    if ((real || call != GROUP_STATS) && r.code == 0 && r.count > most)
        wrong(call, "a count above the limit", r.count, most);
    done(call, r.code, want, listed(r.count, record));
}

static void call_tag(void)
{
    uint32_t tag = (uint32_t)(once(9) ? draw() : below(model.count + 2));
    wz_tag_look r, refused;
    keep();
    r = wz_tag(lent(MEM), slots[MEM].len, tag);
    memset(&refused, 0, sizeof refused);
    refused.code = r.code;
    if (r.code != 0 && memcmp(&r, &refused, sizeof r) != 0)
        wrong(TAG, "a field with a refusal", r.code, 0);
    if (r.entry.has_g != 0 || r.entry.g != 0)
        wrong(TAG, "one of the two cells that are 0", r.entry.has_g, 0);
    done(TAG, r.code, real ? (tag >= model.count ? 23 : 0) : -1, 0);
}

static void call_look(void)
{
    size_t tags = names_in(slots[MEM].len);
    keep();
    switch (below(7)) {
    case 0: done(STATE, wz_state(lent(MEM), slots[MEM].len).code, 0, 0); break;
    case 1: done(STATS, wz_stats(lent(MEM), slots[MEM].len).code, 0, 0); break;
    case 2: done(COUNTS, wz_tier_counts(lent(MEM), slots[MEM].len).code, 0, 0); break;
    case 3: look(GROUP_STATS, WZ_GROUP_STATS_LIST, WZ_GROUP_STATS, WZ_GROUPS, wz_group_stats); break;
    case 4: look(TABLE, WZ_TABLE_LIST(model.count), WZ_TABLE_ROW, tags, wz_table); break;
    case 5: look(PANEL, WZ_PANEL_LIST, 1, 1 + 2 * tags, wz_panel); break;
    default: call_tag();
    }
}

static void any_call(void)
{
    uint64_t k = below(100);
    if (k < 62)
        call_step();
    else if (k < 76)
        call_set_tier();
    else if (k < 80)
        call_write();
    else if (k < 84)
        call_load();
    else if (k < 99)
        call_look();
    else if (once(3))
        call_stop();
}

/* ---- the two sorts of memory */

static uint8_t engine[ROOM];
static size_t engine_len; /* of the last one */

/* Other lengths than that for so many names: one byte less or more, between two, of another number of names, any. */
static size_t another_length(size_t count)
{
    switch (below(5)) {
    case 0: return WZ_MEMORY(count) - 1;
    case 1: return WZ_MEMORY(count) + 1;
    case 2: return WZ_MEMORY(count) + 1 + below(265);
    case 3: return WZ_MEMORY(below(WZ_TAGS + 3));
    default: return below(ROOM);
    }
}

/* Lends the first bytes of the last engine, and others where that was shorter. */
static void lend_engine(size_t len)
{
    lend(MEM, len);
    fill(MEM);
    memcpy(slots[MEM].at, engine, len < engine_len ? len : engine_len);
}

/* An engine, from creation on. */
static void life(void)
{
    static const size_t counts[4] = {1, 2, 5, WZ_TAGS};
    size_t count = once(4) ? below(WZ_TAGS + 5) : counts[below(4)];
    int k, more;
    real = 0;
    memset(&model, 0, sizeof model);
    lend(MEM, once(10) ? another_length(count) : WZ_MEMORY(count));
    fill(MEM);
    call_create(count);
    for (k = 0; real && k < 300 && !(model.waits == 8 && once(20)); k++) {
        any_call();
        for (more = once(400) ? 40 : 0; more > 0; more--)
            call_write();
        engine_len = slots[MEM].len;
        memcpy(engine, slots[MEM].at, engine_len);
        if (once(100)) { /* its bytes in memory of another length */
            lend_engine(another_length(model.count));
            real = 0;
            any_call();
            real = 1;
        }
        lend_engine(engine_len);
    }
}

/* Changes cells of what is lent as an engine: in its head, in what has one size, in the lists behind the table, or anywhere. */
static void change_cells(void)
{
    uint64_t count = names_in(slots[MEM].len), n;
    uint64_t parts[4][2] = {{0, 32}, {32, 360}, {392 + 32 * count, (6 + 10 * count) / 8}, {0, slots[MEM].len / 8}};
    uint64_t *part = parts[below(4)];
    for (n = 1 + below(40); n > 0; n--)
        put_cell(slots[MEM].at, part[0] + below(part[1]), once(2) ? draw() : below(130));
}

/* Memory that never was an engine, or the last one with some bytes changed, also as one of another number of names. */
static void strange(void)
{
    int k;
    real = 0;
    if (engine_len == 0 || once(3)) {
        lend(MEM, once(2) ? below(ROOM) : WZ_MEMORY(1 + below(WZ_TAGS)));
        fill(MEM);
    } else {
        lend_engine(once(3) ? WZ_MEMORY(1 + below(WZ_TAGS)) : engine_len);
        change_cells();
    }
    model.count = (uint32_t)(once(2) ? names_in(slots[MEM].len) : below(130));
    model.asked = below(121);
    for (k = 0; k < 60; k++) {
        model.clock = once(3) ? 0 : 1e9;
        model.waits = k % 9;
        if (k / 9 % 2 == 0)
            call_step(); /* whatever it waits for */
        else
            any_call();
    }
}

/* ---- as many writes as there can be, left */

/* A step that must give a kind. */
static wz_reply gives(uint64_t answer, uint64_t kind)
{
    wz_reply r;
    lend(LIST, answer == WZ_VERSION_IS ? WZ_SETTING * model.count : 0);
    memset(slots[LIST].at, 0, slots[LIST].len);
    lend(OUT, WZ_LIST(model.count));
    fill(OUT);
    keep();
    r = wz_step(lent(MEM), slots[MEM].len, 1, 0, answer, 0, 0, lent(LIST), slots[LIST].len, lent(OUT), slots[OUT].len);
    check_reply(&r);
    if (r.kind != kind)
        wrong(STEP, "another kind", r.kind, kind);
    done(STEP, r.code, 0, listed(r.count, WZ_LISTED));
    check_listed(&r);
    follow(1, &r);
    return r;
}

/* An engine over so many names, at its first read. */
static void reading(size_t count)
{
    static const wz_options options = {1, 2, 3};
    real = 0;
    lend(MEM, WZ_MEMORY(count));
    lend_names(count);
    lend(SETTINGS, WZ_SETTING * count);
    memset(slots[SETTINGS].at, 0, slots[SETTINGS].len);
    lend(GROUPS, 0);
    keep();
    done(CREATE,
         wz_create(lent(MEM), slots[MEM].len, lent(NAMES), slots[NAMES].len, (const uint32_t *)(void *)lent(ENDS),
                   count, options, lent(SETTINGS), slots[SETTINGS].len, lent(GROUPS), slots[GROUPS].len),
         0, 0);
    memset(&model, 0, sizeof model);
    model.count = (uint32_t)count;
    real = 1;
    keep();
    done(SET_TIER, wz_set_tier(lent(MEM), slots[MEM].len, 1, 0, 1), 0, 0);
    gives(WZ_BEGIN, WZ_CONNECT);
    gives(WZ_OPENED, WZ_VERSION);
    gives(WZ_VERSION_IS, WZ_STATUS);
    gives(WZ_TAKEN, WZ_READ);
}

/* All the writes that it takes, to its tags in turn; then the connection is lost, behind a stop or without one. The tags are
 * listed in queue order. */
static void left(size_t count, int stopped)
{
    uint64_t i;
    reading(count);
    for (i = 0; i <= WZ_WRITES; i++) {
        keep();
        done(WRITE, wz_write(lent(MEM), slots[MEM].len, (uint32_t)(i % count), WZ_INT, i), i < WZ_WRITES ? 0 : 32, 0);
        model.queued += i < WZ_WRITES;
    }
    keep();
    if (stopped)
        done(STOP, wz_stop(lent(MEM), slots[MEM].len), 0, 0);
    if (gives(WZ_LOST, stopped ? WZ_STOPPED : WZ_FAILED).count != WZ_WRITES)
        wrong(STEP, "writes left", 0, WZ_WRITES);
    for (i = 0; i < WZ_WRITES; i++)
        if (slots[OUT].at[2 * i] != i % count || slots[OUT].at[2 * i + 1] != 0)
            wrong(STEP, "a tag", slots[OUT].at[2 * i], i % count);
}

static void print_met(void)
{
    int m, c, n;
    for (m = 0; m < 2; m++)
        for (c = 0; c < CALLS; c++) {
            printf("%-12s %-15s accepted %llu", m == 0 ? "engine" : "other memory", names_of[c], (unsigned long long)met[m][c][0]);
            for (n = 1; n <= 100; n++)
                if (met[m][c][n] != 0)
                    printf(", %d: %llu", n, (unsigned long long)met[m][c][n]);
            putchar('\n');
        }
    for (m = 0; m < 2; m++) {
        printf("%-12s replies by kind:", m == 0 ? "engine" : "other memory");
        for (n = 1; n < 15; n++)
            printf(" %d: %llu", n, (unsigned long long)replies[m][n]);
        putchar('\n');
    }
    printf("%d writes left at a loss: %llu, at a stop: %llu\n", WZ_WRITES, (unsigned long long)full[0],
           (unsigned long long)full[1]);
}

int main(int argc, char **argv)
{
    uint64_t count;
    if (argc < 3)
        return 2;
    seed = strtoull(argv[1], NULL, 10);
    count = strtoull(argv[2], NULL, 10);
    heap = argc > 3;
    signal(SIGSEGV, faulted);
    signal(SIGBUS, faulted);
    signal(SIGALRM, faulted);
    map_slots();
    left(1, 0), left(1, 1), left(WZ_TAGS, 0), left(WZ_TAGS, 1);
    while (calls < count) {
        alarm(60);
        life();
        strange();
    }
    print_met();
    printf("seed %s, %llu calls, nothing wrong\n", argv[1], (unsigned long long)calls);
    return 0;
}
