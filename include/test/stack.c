/* How much stack the functions take: each call is made on a stack of its own that was filled with one byte before, and
 * what has changed afterwards is measured. The calls are those of a host over one tag, and over 120: rounds, writes, lost
 * connections, reloads, tier calls and looks. Fails above STACK_LIMIT, the number in docs/HOST.md. */
#define _XOPEN_SOURCE 700
#include "../wordzike.h"
#include <stdio.h>
#include <string.h>
#include <ucontext.h>

#define STACK 65536
#define STACK_LIMIT 16384
#define FILL 0xa5

enum { CREATE, LOAD, SET_TIER, WRITE, STOP, STEP, GROUPS, TABLE, PANEL, TAG, STATE, STATS, COUNTS, INTERFACE, CALLS };
static const char *const called[CALLS] = {"wz_create", "wz_load",        "wz_set_tier",    "wz_write", "wz_stop",
                                          "wz_step",   "wz_group_stats", "wz_table",       "wz_panel", "wz_tag",
                                          "wz_state",  "wz_stats",       "wz_tier_counts", "wz_interface"};

static union {
    uint8_t bytes[WZ_TAGS * WZ_SETTING];
    wz_setting settings[WZ_TAGS];
    wz_result results[WZ_TAGS];
} list;
static uint8_t mem[WZ_MEMORY(WZ_TAGS)], out[WZ_LIST(WZ_TAGS)], names[WZ_TAGS * 4], panel[WZ_PANEL_LIST], stack[STACK];
static wz_setting settings[WZ_TAGS];
static const wz_options options = {0.5, 5.0, 4.0};
static uint32_t ends[WZ_TAGS];
static size_t count, mem_len; /* names, and the bytes of an engine over so many */
static ucontext_t here, there;
static size_t *deepest; /* by call */

static int what;
static double clock_now;
static uint64_t kind, number, tag, tier;
static size_t bytes;
static wz_reply reply;
static uint64_t seed = 1;

static uint64_t below(uint64_t n)
{
    seed = seed * 6364136223846793005u + 1442695040888963407u;
    return (seed >> 33) % n;
}

static void call(void)
{
    switch (what) {
    case CREATE:
        reply.code = wz_create(mem, mem_len, names, ends[count - 1], ends, count, options, (const uint8_t *)settings,
                               count * sizeof *settings, NULL, 0);
        break;
    case LOAD: reply.code += wz_load(mem, mem_len, clock_now, panel, 1 + 2 * count); break;
    case SET_TIER: (void)wz_set_tier(mem, mem_len, clock_now, (uint32_t)tag, (uint32_t)tier); break;
    case WRITE: (void)wz_write(mem, mem_len, (uint32_t)tag, WZ_INT, number); break;
    case STOP: (void)wz_stop(mem, mem_len); break;
    case STEP:
        reply = wz_step(mem, mem_len, clock_now, (int64_t)(clock_now * 1000), kind, number, 0, list.bytes, bytes,
                        out, sizeof out);
        break;
    case GROUPS: (void)wz_group_stats(mem, mem_len, out, sizeof out); break;
    case TABLE: (void)wz_table(mem, mem_len, out, sizeof out); break;
    case PANEL: (void)wz_panel(mem, mem_len, panel, sizeof panel); break;
    case TAG: (void)wz_tag(mem, mem_len, (uint32_t)tag); break;
    case STATE: (void)wz_state(mem, mem_len); break;
    case STATS: (void)wz_stats(mem, mem_len); break;
    case COUNTS: (void)wz_tier_counts(mem, mem_len); break;
    default: (void)wz_interface(); break;
    }
}

/* Makes a call on the filled stack, and keeps the most that it took. */
static void measured(int which)
{
    size_t i = 0;
    what = which;
    memset(stack, FILL, sizeof stack);
    if (getcontext(&there) != 0)
        return;
    there.uc_stack.ss_sp = stack;
    there.uc_stack.ss_size = sizeof stack;
    there.uc_link = &here;
    makecontext(&there, call, 0);
    if (swapcontext(&here, &there) != 0)
        return;
    while (i < sizeof stack && stack[i] == FILL)
        i++;
    if (sizeof stack - i > deepest[which])
        deepest[which] = sizeof stack - i;
}

static void results(void)
{
    uint64_t i;
    for (i = 0; i < reply.count; i++) {
        wz_result *r = &list.results[i];
        r->value.kind = WZ_INT;
        r->value.word = below(3);
        r->error.kind = below(20) == 0 ? 1 + below(5) : 0;
        r->error.message = 0;
    }
    bytes = (size_t)reply.count * WZ_RESULT;
}

/* The answer to the last reply. */
static void answer(void)
{
    bytes = 0;
    switch (reply.kind) {
    case WZ_CONNECT: kind = below(4) == 0 ? WZ_NOT_OPENED : WZ_OPENED; break;
    case WZ_VERSION:
        kind = WZ_VERSION_IS;
        number = 1 + (below(50) == 0);
        memcpy(list.settings, settings, sizeof settings);
        bytes = count * sizeof *settings;
        break;
    case WZ_READ:
    case WZ_READ_BACK:
        kind = below(60) == 0 ? WZ_LOST : WZ_RESULTS;
        results();
        break;
    case WZ_WRITE:
        number = 4;
        kind = below(30) == 0 ? WZ_LOST : below(4) == 0 ? WZ_WRITE_REFUSED : WZ_WRITTEN;
        break;
    case WZ_DESCRIBE: kind = WZ_NOT_DESCRIBED; break;
    case WZ_WAIT:
        kind = WZ_WAITED;
        clock_now += reply.seconds;
        break;
    default: kind = WZ_TAKEN; break;
    }
}

/* Words and a bit of each, in groups and without one, in all three tiers. */
static void made(void)
{
    uint32_t end = 0;
    size_t i;
    for (i = 0; i < count; i++) {
        char name[16];
        int length = snprintf(name, sizeof name, i % 2 ? "T%02d.5" : "T%02d", (int)i / 2);
        memcpy(names + end, name, (size_t)length);
        end += (uint32_t)length;
        ends[i] = end;
        settings[i].group = (uint64_t)(i % 17); /* a group, or none */
        settings[i].rate = 500;
        panel[1 + i] = (uint8_t)i;
        panel[1 + count + i] = (uint8_t)(1 + i % 3);
    }
    panel[0] = (uint8_t)count;
}

static void history(size_t of, size_t *most)
{
    int i;
    count = of;
    mem_len = WZ_MEMORY(of);
    deepest = most;
    clock_now = 0;
    made();
    measured(CREATE);
    measured(LOAD);
    kind = WZ_BEGIN;
    for (i = 0; i < 20000; i++) {
        measured(STEP);
        if (reply.code != 0 || reply.kind == WZ_STOPPED)
            break;
        answer();
        tag = below(count);
        tier = below(4);
        if (i % 5 == 0)
            measured(SET_TIER);
        if (i % 7 == 0 || below(40) == 0)
            measured(WRITE);
        if (i % 11 == 0)
            measured(GROUPS + (int)below(CALLS - GROUPS));
    }
    measured(STOP);
}

int main(void)
{
    static const size_t counts[2] = {1, WZ_TAGS};
    static size_t taken[2][CALLS];
    size_t most = 0;
    int i, k;
    for (k = 0; k < 2; k++) {
        history(counts[k], taken[k]);
        if (reply.code != 0) {
            printf("a call over %d tags was refused with %d\n", (int)count, (int)reply.code);
            return 1;
        }
    }
    for (i = 0; i < CALLS; i++) {
        printf("%-16s %6lu bytes of stack over one tag, %6lu over %d\n", called[i], (unsigned long)taken[0][i],
               (unsigned long)taken[1][i], WZ_TAGS);
        for (k = 0; k < 2; k++)
            most = taken[k][i] > most ? taken[k][i] : most;
    }
    if (most == 0 || most > STACK_LIMIT) {
        printf("not between 1 and %d\n", STACK_LIMIT);
        return 1;
    }
    return 0;
}
