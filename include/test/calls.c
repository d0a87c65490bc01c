/* Compiled as C and as C++: links the archive and calls every function of the header. It follows the worked history of
 * oracle/FORMAT.md, so the answers are the Rust's. */
#include "../wordzike.h"
#include "cells.h"
#include <stdio.h>

#define SIZED(name, is) typedef char name[(is) ? 1 : -1]
SIZED(value_size, sizeof(wz_value) == 16);
SIZED(error_size, sizeof(wz_error) == 16);
SIZED(entry_size, sizeof(wz_entry) == WZ_ENTRY);
SIZED(change_size, sizeof(wz_change) == WZ_CHANGE);
SIZED(result_size, sizeof(wz_result) == WZ_RESULT);
SIZED(setting_size, sizeof(wz_setting) == WZ_SETTING);
SIZED(configured_size, sizeof(wz_configured) == WZ_CONFIGURED);
SIZED(group_row_size, sizeof(wz_group_row) == WZ_GROUP_STATS);
SIZED(table_row_size, sizeof(wz_table_row) == WZ_TABLE_ROW);
SIZED(listed_size, sizeof(uint16_t) == WZ_LISTED);
SIZED(description_size, sizeof(uint64_t) == WZ_DESCRIPTION);
SIZED(options_size, sizeof(wz_options) == 24);
SIZED(reply_size, sizeof(wz_reply) == 80);
SIZED(state_size, sizeof(wz_state_look) == 32);
SIZED(stats_size, sizeof(wz_stats_look) == 72);
SIZED(counts_size, sizeof(wz_counts_look) == 32);
SIZED(list_look_size, sizeof(wz_list_look) == 16);
SIZED(tag_look_size, sizeof(wz_tag_look) == 88);

static int wrong;
#define IS(what) ((what) ? (void)0 : (void)(wrong++, printf("line %d: not %s\n", __LINE__, #what)))

#define COUNT 3 /* names */

/* Lists as bytes, for the functions, and as what stands in them. */
static union {
    uint8_t bytes[WZ_LIST(COUNT)];
    uint16_t tags[WZ_TAGS];
    wz_change changes[WZ_TAGS];
    wz_group_row groups[WZ_GROUPS];
    wz_table_row rows[WZ_TAGS];
} out;
static union {
    uint8_t bytes[COUNT * WZ_SETTING];
    wz_setting settings[COUNT];
    wz_result results[COUNT];
    uint64_t descriptions[COUNT];
} list;
static uint8_t mem[WZ_MEMORY(COUNT)];
static wz_setting settings[COUNT];
static const uint8_t names[] = {'A', 'A', '.', '3', 'b'};
static const uint32_t ends[COUNT] = {1, 4, 5};

/* An engine over the first `count` names, in memory of so many bytes. */
static uint32_t create_in(size_t bytes, size_t count)
{
    wz_options options = {1.0, 2.0, 3.0};
    wz_configured group = {7, 250, UINT32_MAX};
    settings[0].deadband = 0.5; /* A */
    settings[2].group = WZ_GROUP(2); /* b, each 500 ms, with a description set */
    settings[2].rate = 500;
    settings[2].unused = 1; /* not looked at */
    settings[2].described = 1;
    return wz_create(mem, bytes, names, sizeof names, ends, count, options, (const uint8_t *)settings, sizeof settings,
                     (const uint8_t *)&group, sizeof group);
}

static uint32_t create(void)
{
    return create_in(sizeof mem, COUNT);
}

static wz_reply step(double clock, int64_t wall, uint64_t kind, uint64_t number, size_t bytes)
{
    return wz_step(mem, sizeof mem, clock, wall, kind, number, 0, list.bytes, bytes, out.bytes, sizeof out);
}

static void result(size_t i, uint64_t kind, uint64_t word, uint64_t error, uint64_t message)
{
    wz_result r = {{kind, word}, {error, message}};
    list.results[i] = r;
}

/* What change i of a list says. */
static int changed(size_t i, uint64_t tag, uint64_t quality, uint64_t kind, uint64_t word, int64_t t, uint64_t error)
{
    const wz_entry *e = &out.changes[i].entry;
    return out.changes[i].tag == tag && e->quality == quality && e->value.kind == kind && e->value.word == word &&
           e->t == t && e->error.kind == error && e->has_g == 0 && e->g == 0;
}

static void connected(void)
{
    wz_reply r;
    IS(wz_set_tier(mem, sizeof mem, 5.0, 0, 1) == 0);
    IS(wz_set_tier(mem, sizeof mem, 5.0, 1, 2) == 0);
    IS(wz_set_tier(mem, sizeof mem, 5.0, 2, 2) == 0);
    r = step(5.0, 1000, WZ_BEGIN, 0, 0);
    IS(r.code == 0 && r.kind == WZ_CONNECT);
    r = step(5.0, 1000, WZ_OPENED, 0, 0);
    IS(r.code == 0 && r.kind == WZ_VERSION);
    memcpy(list.settings, settings, sizeof settings);
    r = step(5.0, 1010, WZ_VERSION_IS, 4, sizeof settings);
    IS(r.code == 0 && r.kind == WZ_STATUS && r.what == WZ_CONNECTED);
    r = step(5.0, 1010, WZ_TAKEN, 0, 0);
    IS(r.kind == WZ_READ && r.count == 3 && out.tags[0] == 0 && out.tags[1] == 1 && out.tags[2] == 2);
    IS(out.bytes[2] == 1 && out.bytes[3] == 0); /* the low byte first */
}

static void first_round(void)
{
    wz_reply r;
    result(0, WZ_FLOAT, bits(10.0), 0, 0);
    result(1, 0, 0, WZ_NOT_FOUND, 9);
    result(2, WZ_BOOL, 1, 0, 0);
    r = step(5.25, 1250, WZ_RESULTS, 0, 3 * WZ_RESULT);
    IS(r.kind == WZ_VALUES && r.count == 3);
    IS(changed(0, 0, WZ_GOOD, WZ_FLOAT, bits(10.0), 1250, 0));
    IS(changed(1, 1, WZ_MISSING, WZ_NULL, 0, 1250, WZ_NOT_FOUND) && out.changes[1].entry.error.message == 9);
    IS(changed(2, 2, WZ_GOOD, WZ_BOOL, 1, 1250, 0));
    r = step(5.25, 1250, WZ_TAKEN, 0, 0);
    IS(r.kind == WZ_DESCRIBE && r.count == 1 && out.tags[0] == 0);
    list.descriptions[0] = WZ_DESCRIBED(12);
    r = step(5.25, 1260, WZ_DESCRIPTIONS, 0, WZ_DESCRIPTION);
    IS(r.kind == WZ_INFO && r.count == 1 && out.tags[0] == 0);
    r = step(5.25, 1260, WZ_TAKEN, 0, 0);
    IS(r.kind == WZ_VERSION);
    memcpy(list.settings, settings, sizeof settings);
    r = step(5.25, 1270, WZ_VERSION_IS, 4, sizeof settings);
    IS(r.kind == WZ_WAIT && r.seconds == 0.75);
}

static void a_write(void)
{
    wz_reply r;
    IS(wz_write(mem, sizeof mem, 1, WZ_BOOL, 1) == 0);
    IS(wz_set_tier(mem, sizeof mem, 5.5, 0, 3) == 0);
    r = step(5.5, 1500, WZ_WAITED, 0, 0);
    IS(r.kind == WZ_WRITE && r.tag == 1 && r.value.kind == WZ_BOOL && r.value.word == 1);
    r = step(5.5, 1500, WZ_WRITTEN, 0, 0);
    IS(r.kind == WZ_READ_BACK && r.count == 2 && out.tags[0] == 1 && out.tags[1] == 0);
    result(0, WZ_BOOL, 1, 0, 0);
    result(1, WZ_FLOAT, bits(10.25), 0, 0);
    r = step(5.75, 1750, WZ_RESULTS, 0, 2 * WZ_RESULT);
    IS(r.kind == WZ_OUTCOME && r.tag == 1 && r.what == WZ_WENT_THROUGH);
    IS(r.value.kind == WZ_BOOL && r.value.word == 1 && r.error.kind == WZ_NO_ERROR);
    r = step(5.75, 1760, WZ_TAKEN, 0, 0);
    IS(r.kind == WZ_VALUES && r.count == 2 && changed(0, 0, WZ_GOOD, WZ_FLOAT, bits(10.25), 1760, 0));
    r = step(5.75, 1760, WZ_TAKEN, 0, 0);
    IS(r.kind == WZ_WAIT && r.seconds == 0.25);
}

static void looks(void)
{
    static const uint8_t panel[] = {3, 0, 1, 2, 2, 2, 2};
    wz_state_look state = wz_state(mem, sizeof mem);
    wz_stats_look stats = wz_stats(mem, sizeof mem);
    wz_counts_look counts = wz_tier_counts(mem, sizeof mem);
    wz_tag_look tag = wz_tag(mem, sizeof mem, 0);
    wz_list_look some;
    IS(state.code == 0 && state.state == WZ_CONNECTED && state.known == 1 && state.version == 4);
    IS(stats.code == 0 && stats.timed == 1 && stats.ms == 250.0 && stats.ts == 1270 && stats.reads == 3);
    IS(stats.tags == 3 && stats.overruns == 0 && stats.reconnects == 0 && stats.reloads == 0);
    IS(counts.code == 0 && counts.tier1 == 0 && counts.tier2 == 3 && counts.tier3 == 0);
    IS(tag.code == 0 && tag.tier == 2 && tag.description == WZ_KNOWN(12));
    IS(tag.entry.quality == WZ_GOOD && tag.entry.value.kind == WZ_FLOAT && tag.entry.value.word == bits(10.25));
    IS(tag.entry.t == 1760 && tag.entry.error.kind == WZ_NO_ERROR && tag.entry.error.message == 0);
    IS(tag.entry.has_g == 0 && tag.entry.g == 0);
    some = wz_group_stats(mem, sizeof mem, out.bytes, sizeof out);
    IS(some.code == 0 && some.count == 1 && out.groups[0].number == 7 && out.groups[0].rate == 250);
    IS(out.groups[0].tags == 0 && out.groups[0].timed == 0 && out.groups[0].period == 0.0);
    some = wz_table(mem, sizeof mem, out.bytes, sizeof out);
    IS(some.code == 0 && some.count == 3 && out.rows[1].tag == 1 && out.rows[1].tier == 2);
    some = wz_panel(mem, sizeof mem, out.bytes, sizeof out);
    IS(some.code == 0 && some.count == sizeof panel && memcmp(out.bytes, panel, sizeof panel) == 0);
}

static void refusals(void)
{
    IS(wz_set_tier(mem, sizeof mem, 5.0, 0, 1) == 22);
    IS(wz_write(mem, sizeof mem, 3, WZ_NULL, 0) == 23);
    IS(wz_load(mem, sizeof mem, 5.75, list.bytes, 0) == 51);
    IS(wz_stop(mem, sizeof mem - 1) == WZ_NOT_AN_ENGINE && wz_stop(mem, WZ_MEMORY(0)) == WZ_NOT_AN_ENGINE);
    IS(create_in(sizeof mem, COUNT - 1) == WZ_NOT_AN_ENGINE && create_in(WZ_MEMORY(2), COUNT) == WZ_NOT_AN_ENGINE);
    IS(create_in(WZ_MEMORY(2), 2) == 2); /* names past the last end place */
    IS(create_in(sizeof mem, 0) == 1 && create_in(0, 0) == 1);
    IS(wz_panel(mem, sizeof mem, out.bytes, WZ_PANEL_LIST - 1).code == 43);
    IS(wz_table(mem, sizeof mem, out.bytes, WZ_TABLE_LIST(COUNT) - 1).code == 43);
    IS(wz_group_stats(mem, sizeof mem, out.bytes, WZ_GROUP_STATS_LIST - 1).code == 43);
    IS(wz_step(mem, sizeof mem, 5.75, 0, WZ_WAITED, 0, 0, NULL, 0, out.bytes, WZ_LIST(COUNT) - 1).code == 43);
    IS(wz_tag(mem, sizeof mem, 3).code == 23);
    IS(step(5.75, 0, WZ_TAKEN, 0, 0).code == 41);
}

static void the_end(void)
{
    static const uint8_t panel[] = {1, 2, 3};
    wz_reply r;
    IS(wz_stop(mem, sizeof mem) == 0);
    r = step(6.0, 2000, WZ_WAITED, 0, 0);
    IS(r.kind == WZ_STOPPED && r.count == 0);
    IS(wz_state(mem, sizeof mem).state == WZ_STOPPED_STATE);
    IS(create() == 0);
    IS(wz_load(mem, sizeof mem, 1.0, panel, sizeof panel) == 0);
    IS(wz_tier_counts(mem, sizeof mem).tier3 == 1);
}

static void sizes(void)
{
    uint32_t count;
    IS(wz_interface() == WZ_INTERFACE);
    for (count = 1; count <= WZ_TAGS; count++)
        IS(wz_memory_size(count) == WZ_MEMORY(count));
    IS(wz_memory_size(0) == 0 && wz_memory_size(WZ_TAGS + 1) == 0 && wz_memory_size(UINT32_MAX) == 0);
    for (count = 0; count <= WZ_TAGS; count++)
        IS(wz_list_size(count) == WZ_LIST(count) && wz_table_size(count) == WZ_TABLE_LIST(count));
    IS(wz_group_stats_size() == WZ_GROUP_STATS_LIST);
    IS(wz_panel_size() == WZ_PANEL_LIST);
}

int main(void)
{
    sizes();
    IS(create() == 0);
    connected();
    first_round();
    a_write();
    looks();
    refusals();
    the_end();
    if (wrong == 0)
        puts("every function called, all as it must be");
    return wrong != 0;
}
