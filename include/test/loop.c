/* The loop of docs/HOST.md, with a controller of two tags that answers at once and a clock that jumps over the waits.
 * host/tests/guide.rs holds the text between the two marks to the guide's. */
#include "../wordzike.h"
#include "cells.h"
#include <stdio.h>

/* What the host answers; `bytes` of the list go with it. */
typedef struct {
    uint64_t kind, number, message;
    size_t bytes;
} answer;

#define NAMES 2

static double clock_now, temperature = 20.0;
static int64_t wall_now = 1000;
static int reads, changes, outcomes, connected;
static wz_entry shown[NAMES];
static uint8_t engine[WZ_MEMORY(NAMES)];
static const wz_setting settings[NAMES]; /* no deadband, no group, no description set */

static answer plain(uint64_t kind)
{
    answer a = {0, 0, 0, 0};
    a.kind = kind;
    return a;
}

static answer open_plc(void)
{
    return plain(WZ_OPENED);
}

static answer ask_version(wz_setting *to)
{
    answer a = plain(WZ_VERSION_IS);
    memcpy(to, settings, sizeof settings);
    a.number = 7;
    a.bytes = sizeof settings;
    return a;
}

static answer read_tags(const uint16_t *tags, uint64_t count, wz_result *results)
{
    answer a = plain(WZ_RESULTS);
    uint64_t i;
    for (i = 0; i < count; i++) {
        wz_result number = {{WZ_INT, 3}, {WZ_NO_ERROR, 0}}, level = {{WZ_FLOAT, 0}, {WZ_NO_ERROR, 0}};
        level.value.word = bits(temperature);
        results[i] = tags[i] == 1 ? level : number;
    }
    reads++;
    a.bytes = (size_t)count * sizeof *results;
    return a;
}

static answer write_tag(uint64_t tag, wz_value value)
{
    if (tag != 1 || value.kind != WZ_FLOAT) {
        answer a = plain(WZ_WRITE_REFUSED);
        a.number = WZ_ERROR(4);
        return a;
    }
    memcpy(&temperature, &value.word, 8);
    return plain(WZ_WRITTEN);
}

static answer describe_tags(const uint16_t *tags, uint64_t count, uint64_t *descriptions)
{
    (void)tags, (void)count, (void)descriptions;
    return plain(WZ_NOT_DESCRIBED);
}

/* Ten seconds with a write, then the stop. */
static answer wait_for(double seconds)
{
    clock_now += seconds;
    wall_now += (int64_t)(seconds * 1000);
    if (reads == 5)
        (void)wz_write(engine, sizeof engine, 1, WZ_FLOAT, bits(25.5));
    if (clock_now > 10.0)
        (void)wz_stop(engine, sizeof engine);
    return plain(WZ_WAITED);
}

static void show(const wz_change *told, uint64_t count)
{
    uint64_t i;
    for (i = 0; i < count; i++) {
        changes++;
        shown[told[i].tag] = told[i].entry;
    }
}

static void tell(const wz_reply *r, const uint16_t *tags)
{
    (void)tags;
    outcomes += r->kind == WZ_OUTCOME && r->what == WZ_WENT_THROUGH && r->value.word == bits(25.5);
    connected += r->kind == WZ_STATUS && r->what == WZ_CONNECTED;
}

/* from here */
/* Each list as bytes, for the engine, and as what can stand in it. */
static union {
    uint8_t bytes[WZ_LIST(NAMES)];
    uint16_t tags[WZ_LIST(NAMES) / WZ_LISTED];
    wz_change changes[NAMES];
} out;

static union {
    uint8_t bytes[NAMES * WZ_SETTING];
    wz_setting settings[NAMES];
    wz_result results[NAMES];
    uint64_t descriptions[NAMES];
} list;

static int poll_plc(uint8_t *mem, size_t mem_len)
{
    answer a = plain(WZ_BEGIN);
    for (;;) {
        wz_reply r = wz_step(mem, mem_len, clock_now, wall_now, a.kind, a.number, a.message, list.bytes, a.bytes,
                             out.bytes, sizeof out.bytes);
        if (r.code != 0)
            return (int)r.code; /* a mistake of the host: nothing has changed */
        switch (r.kind) {
        case WZ_CONNECT: a = open_plc(); break;
        case WZ_VERSION: a = ask_version(list.settings); break;
        case WZ_READ:
        case WZ_READ_BACK: a = read_tags(out.tags, r.count, list.results); break;
        case WZ_WRITE: a = write_tag(r.tag, r.value); break;
        case WZ_DESCRIBE: a = describe_tags(out.tags, r.count, list.descriptions); break;
        case WZ_WAIT: a = wait_for(r.seconds); break;
        case WZ_VALUES: show(out.changes, r.count); a = plain(WZ_TAKEN); break;
        default: tell(&r, out.tags); a = plain(WZ_TAKEN); break;
        }
        if (r.kind == WZ_STOPPED)
            return 0;
    }
}
/* to here */

int main(void)
{
    static const uint8_t names[] = {'C', 'o', 'u', 'n', 't', 'T', 'e', 'm', 'p'};
    static const uint32_t ends[NAMES] = {5, 9};
    wz_options options = {1.0, 2.0, 3.0};
    int code = wz_interface() == WZ_INTERFACE ? 0 : -1;
    if (code == 0)
        code = (int)wz_create(engine, sizeof engine, names, sizeof names, ends, NAMES, options, (const uint8_t *)settings,
                              sizeof settings, NULL, 0);
    if (code == 0)
        code = (int)wz_set_tier(engine, sizeof engine, 0.0, 1, 1);
    if (code == 0)
        code = (int)wz_set_tier(engine, sizeof engine, 0.0, 0, 2);
    if (code == 0)
        code = poll_plc(engine, sizeof engine);
    /* a first reading of each tag and the one written are told */
    if (code != 0 || connected != 1 || outcomes != 1 || changes != 3 || reads < 10 ||
        shown[0].value.word != 3 || shown[1].value.word != bits(25.5) || shown[1].quality != WZ_GOOD) {
        printf("the loop: code %d, connected %d, outcomes %d, changes %d, reads %d\n", code, connected, outcomes,
               changes, reads);
        return 1;
    }
    puts("the guide's loop polls, writes and stops");
    return 0;
}
