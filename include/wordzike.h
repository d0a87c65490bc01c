/* Wordzike: a polling engine for programmable controllers, as C functions. For x86-64, System V calling convention. Link
 * target/staticlib/libcapi.a, which `oracle/archive.sh capi` proves and writes. docs/HOST.md is a guide.
 *
 * The host lends all memory and does all input and output. An engine over so many names is WZ_MEMORY(count) bytes that
 * wz_create fills; what they hold is the engine's own affair, and nobody else may write them. They may be copied, moved and
 * kept: there are no addresses in them. No function allocates, blocks or keeps an address after it has returned. Calls on
 * one engine must not overlap in time; different engines share nothing.
 *
 * A tag is its rank in the directory, from 0. Clock readings are seconds from a beginning of the host's own, on a clock that
 * never goes back, read when the answer is there. Wall times are milliseconds, and only stamp entries.
 *
 * Lent memory. Each pointer is followed by how many bytes stand there (`ends`: how many numbers). They need no alignment,
 * but for `ends`. With length 0 a pointer is not followed. Memory lent for writing must not overlap any other argument.
 * Every content and every length is allowed; what does not fit is refused.
 *
 * Records are cells of 8 bytes each, the low byte first. Signed numbers are in two's complement, floats are the bits of
 * their binary64. The structs below have the same bytes, so that a list can be filled and read as an array of them, where
 * it is aligned for that. A tag in a list of tags is two bytes, the low byte first: a uint16_t.
 *
 *   value        two cells: kind (WZ_NULL and so on) and word: 0 for null, 0 or 1 for a bool, the number of an integer, the
 *                bits of a float. What the host hands in may have any word but 0 for true; a kind above 3 is read as null.
 *   error        two cells: 0 for none, 1 not found, 2 no access, the code and 3 (3 to 65538) for another; and the number of
 *                its message, below 2^32. The host numbers the texts: equal texts must have equal numbers, or each reading
 *                with an error is a change.
 *                Numbers past these ranges are no part of document 01, and not refused in a result: there a code is taken
 *                modulo 2^16 and a message modulo 2^32. (As an answer to a write, an error past 65538 is refused, and a
 *                message comes back as it was handed in.)
 *   entry        eight cells: 0 where there is none, or the quality (WZ_GOOD and so on); the value; the wall time; the error;
 *                two that are 0.
 *
 * Refusals. A function answers 0, or the number of document 01's check that refuses: then nothing at all was written, and
 * all else in the answer is 0. Where several are met the answer is the first in the order given with each function.
 *
 *    1  the directory has no name, or more than 120
 *    2  an end place falls back, passes the buffer, or gives a length of 0 or above 40; or the last isn't the buffer's length
 *    3  a name has a byte outside 33 to 126
 *    4  a name is not above its forerunner in byte order
 *   11  the cycle isn't 0, and isn't 0.001 to 3600 s
 *   12  the tier-2 period isn't 0 to 86400 s
 *   13  the grace isn't 0 to 86400 s
 *   14  settings: not one for each tag, a deadband that isn't finite, a group above 15, or a rate of 0;
 *       configured groups: more than 16, no whole number of them, or one with such a number or rate
 *   21  the clock reading isn't finite, is below 0 or above 1000000000
 *   22  the clock reading is below the last one that was accepted
 *   23  no such tag
 *   24  the tier isn't 0 (none) to 3
 *   31  a write, and the state isn't connected
 *   32  a write, and 32 are queued
 *   41  not the answer that is waited for; any step once the state is stopped
 *   42  a float that isn't finite
 *   43  a lent list has too little room
 *   51  a panel list that is empty, or whose length isn't 1 + 2n
 *   53  a panel list names a tag that is not there
 *   54  a panel list names a tag twice
 *   55  a tier in a panel list isn't 1 to 3
 *   56  a panel list, and the engine has a tag in a tier already
 *  100  the memory isn't an engine's: its length is WZ_MEMORY of no count from 1 to 120 or, at creation, not WZ_MEMORY of the
 *       number of names. This comes before all else, but behind 1 at creation, and is no number of document 01
 */
#ifndef WORDZIKE_H
#define WORDZIKE_H

#include <stddef.h>
#include <stdint.h>

#ifdef __cplusplus
extern "C" {
#endif

/* This header's number, raised with each change of a function, a record or a limit; wz_interface() has the archive's. A host
 * compares the two when it starts. */
#define WZ_INTERFACE 2

/* Limits, and sizes in bytes. */
#define WZ_TAGS 120       /* names in a directory, at most */
#define WZ_NAME 40        /* bytes in a name, at most */
#define WZ_GROUPS 16      /* groups; their numbers are 0 to 15 */
#define WZ_WRITES 32      /* writes queued, at most */
#define WZ_SETTING 32     /* a tag's setting */
#define WZ_CONFIGURED 16  /* a configured group */
#define WZ_RESULT 32      /* a result of a read */
#define WZ_DESCRIPTION 8  /* a description */
#define WZ_LISTED 2       /* a tag in a list */
#define WZ_ENTRY 64       /* an entry */
#define WZ_CHANGE 72      /* a change in a list */
#define WZ_GROUP_STATS 40 /* a group's statistics */
#define WZ_TABLE_ROW 16   /* a row of the table */

/* An engine over `count` names, 1 to WZ_TAGS, in bytes. The length of its memory says how many tags an engine has. */
#define WZ_MEMORY(count) (3142 + 266 * (size_t)(count))

/* Room in bytes that is asked for, by wz_step, wz_group_stats, wz_table and wz_panel; `count` is the number of names. As yet
 * the first and the third are those of WZ_TAGS names whatever the count is, and a host that hands it in needs no change once
 * they go by it. The list of a step can name WZ_WRITES tags, also in an engine of one name: of queued writes. */
#define WZ_LIST(count) (WZ_CHANGE * (WZ_TAGS + 0 * (size_t)(count)))
#define WZ_GROUP_STATS_LIST (WZ_GROUP_STATS * WZ_GROUPS)
#define WZ_TABLE_LIST(count) (WZ_TABLE_ROW * (WZ_TAGS + 0 * (size_t)(count)))
#define WZ_PANEL_LIST (1 + 2 * WZ_TAGS)

#define WZ_NOT_AN_ENGINE 100 /* memory of another length than an engine's */

/* Kinds of values. */
#define WZ_NULL 0
#define WZ_BOOL 1
#define WZ_INT 2
#define WZ_FLOAT 3

/* Qualities, as the first cell of an entry. */
#define WZ_GOOD 1
#define WZ_BAD 2
#define WZ_MISSING 3
#define WZ_STALE 4

/* Errors; another error is its code and WZ_OTHER. */
#define WZ_NO_ERROR 0
#define WZ_NOT_FOUND 1
#define WZ_ACCESS 2
#define WZ_OTHER 3

/* Numbers that are stored higher than they are, since 0 says that there is none. */
#define WZ_GROUP(n) ((uint64_t)(n) + 1)              /* group n, in a setting */
#define WZ_DESCRIBED(n) ((uint64_t)(n) + 1)          /* description n, handed in with WZ_DESCRIPTIONS */
#define WZ_KNOWN(n) ((uint64_t)(n) + 2)              /* description n, as wz_tag has it */
#define WZ_ERROR(code) ((uint64_t)(code) + WZ_OTHER) /* another error, by its code of 16 bits */

/* States. */
#define WZ_CONNECTING 0
#define WZ_CONNECTED 1
#define WZ_DISCONNECTED 2
#define WZ_STOPPED_STATE 3

/* Answers of the host: `kind` of wz_step. Where nothing is said, number, message and list don't count. */
#define WZ_BEGIN 0          /* the first answer to a new engine */
#define WZ_OPENED 1         /* to WZ_CONNECT: there is a connection */
#define WZ_NOT_OPENED 2     /* to WZ_CONNECT: there is none */
#define WZ_NO_VERSION 3     /* to WZ_VERSION: null; list: the settings, as for wz_create */
#define WZ_VERSION_IS 4     /* to WZ_VERSION: number; list: the settings, as for wz_create */
#define WZ_RESULTS 5        /* to WZ_READ and WZ_READ_BACK: list: results */
#define WZ_LOST 6           /* to WZ_READ, WZ_WRITE and WZ_READ_BACK: the connection was lost */
#define WZ_WRITTEN 7        /* to WZ_WRITE: it went through */
#define WZ_WRITE_REFUSED 8  /* to WZ_WRITE: the driver refused it; number: the error, 1 to 65538; message */
#define WZ_DESCRIPTIONS 9   /* to WZ_DESCRIBE: list: descriptions */
#define WZ_NOT_DESCRIBED 10 /* to WZ_DESCRIBE: they could not be read */
#define WZ_WAITED 11        /* to WZ_WAIT: the time is over, or the host ends it early */
#define WZ_TAKEN 12         /* to every event but WZ_STOPPED */

/* What a step gives: `kind` of wz_reply. A list of tags is in `out`, WZ_LISTED bytes each; `count` says how many. */
#define WZ_CONNECT 1        /* request: open the connection */
#define WZ_VERSION 2        /* request: the version of the controller's tags. There is no answer for a broken line: give the
                             * last version again, and WZ_LOST at the next read */
#define WZ_READ 3           /* request: read the listed tags, in this order */
#define WZ_WRITE 4          /* request: write `value` to `tag` */
#define WZ_READ_BACK 5      /* request: read the listed tags after a write: the tag, and the word of a bit */
#define WZ_DESCRIBE 6       /* request: the descriptions of the listed tags */
#define WZ_WAIT 7           /* request: wait `seconds` */
#define WZ_VALUES 8         /* event: changes, in tag order: a wz_change each in `out` */
#define WZ_STATUS 9         /* event: the state turned to `what` */
#define WZ_META 10          /* event: the controller's tags changed */
#define WZ_INFO 11          /* event: the listed tags' descriptions are known */
#define WZ_OUTCOME 12       /* event: a write to `tag` has ended; `what` is one of the three below */
#define WZ_FAILED 13        /* event: queued writes that a lost connection took with it: the listed tags, in queue order */
#define WZ_STOPPED 14       /* event, the last: no answer is taken any more; the listed tags' writes were left, in queue order */

/* `what` of an outcome. */
#define WZ_WENT_THROUGH 0   /* the value read back is in `value` */
#define WZ_DRIVER_REFUSED 1 /* the driver's error is in `error` */
#define WZ_WRITE_LOST 2     /* the connection was lost */

/* Records. */

typedef struct {
    uint64_t kind; /* WZ_NULL and so on */
    uint64_t word;
} wz_value;

typedef struct {
    uint64_t kind;    /* WZ_NO_ERROR and so on */
    uint64_t message; /* the number of its text */
} wz_error;

typedef struct {
    uint64_t quality; /* 0 where there is no entry, or WZ_GOOD and so on */
    wz_value value;
    int64_t t;        /* wall time */
    wz_error error;
    uint64_t has_g;   /* 0: kept for the time of the last good reading */
    int64_t g;        /* 0 */
} wz_entry;

/* A change, in the list of WZ_VALUES. */
typedef struct {
    uint64_t tag;
    wz_entry entry;
} wz_change;

/* A result of a read. Where there is an error the value doesn't count. */
typedef struct {
    wz_value value;
    wz_error error;
} wz_result;

/* A tag's setting. */
typedef struct {
    double deadband;    /* 0 where it is absent */
    uint64_t group;     /* WZ_GROUP of its number, or 0 for none */
    uint32_t rate;      /* the group's, in milliseconds; doesn't count without a group */
    uint32_t unused;    /* not looked at */
    uint64_t described; /* 0 or, where a description is set, any other */
} wz_setting;

/* A configured group. */
typedef struct {
    uint64_t number; /* 0 to 15 */
    uint32_t rate;   /* in milliseconds */
    uint32_t unused; /* not looked at */
} wz_configured;

/* A group's statistics, in the list of wz_group_stats. */
typedef struct {
    uint64_t number;
    uint64_t rate;  /* in milliseconds */
    uint64_t tags;  /* in tier 1 now */
    uint64_t timed; /* 1 where the group has a last period, else 0 */
    double period;  /* that period, in milliseconds */
} wz_group_row;

/* A row of the table, in the list of wz_table. */
typedef struct {
    uint64_t tag;
    uint64_t tier; /* 1 to 3; a tag in grace has 2 */
} wz_table_row;

/* Options of an engine, in seconds. */
typedef struct {
    double cycle;  /* between rounds */
    double period; /* of a turn through tier 2 */
    double grace;  /* that a tag left by tier 1 stays in tier 2 */
} wz_options;

/* What a step gives. Fields that the kind doesn't name are 0. */
typedef struct {
    uint64_t code;  /* 0, or the number of a refusal; then all else is 0 */
    uint64_t kind;  /* WZ_CONNECT and so on */
    uint64_t count; /* records in `out` */
    uint64_t tag;
    uint64_t what;
    wz_value value;
    wz_error error;
    double seconds;
} wz_reply;

typedef struct {
    uint64_t code;    /* 0 or 100 */
    uint64_t state;   /* WZ_CONNECTING and so on */
    uint64_t known;   /* 0 where the version is null; then `version` is 0 */
    uint64_t version;
} wz_state_look;

typedef struct {
    uint64_t code;       /* 0 or 100 */
    uint64_t timed;      /* 1 once a round has ended; until then `ms` and `ts` are 0 */
    double ms;           /* how long the last round took, in milliseconds to a tenth */
    int64_t ts;          /* the wall time of its end */
    uint64_t reads;      /* reads of the last round */
    uint64_t tags;       /* tags of the last round */
    uint64_t overruns;   /* rounds that took longer than their tick */
    uint64_t reconnects; /* attempts to connect again */
    uint64_t reloads;    /* changes of a version that wasn't null */
} wz_stats_look;

typedef struct {
    uint64_t code;    /* 0 or 100 */
    uint64_t tier1;   /* tags in tier 1 */
    uint64_t tier2;   /* in tier 2, those in grace included */
    uint64_t tier3;
} wz_counts_look;

typedef struct {
    uint64_t code;    /* 0, 43 or 100 */
    uint64_t count;   /* records in `out`; of wz_panel bytes */
} wz_list_look;

typedef struct {
    uint64_t code;        /* 0, 23 or 100 */
    uint64_t tier;        /* 0 for none; a tag in grace has 2 */
    wz_entry entry;       /* the cached entry */
    uint64_t description; /* 0 not known, 1 known to have none, otherwise WZ_KNOWN of its number */
} wz_tag_look;

/* WZ_INTERFACE, of the archive. */
uint64_t wz_interface(void);

/* Makes an engine in `mem`, WZ_MEMORY(ends_len) bytes, whatever was there. It waits for WZ_BEGIN, its clock is 0, no tag is in
 * a tier. All that is handed in beside `mem` is needed for this call alone.
 *   names, ends  the directory: the names' bytes joined, and for each name the place where it ends
 *   settings     a wz_setting for each name, WZ_SETTING bytes each
 *   groups       configured groups, a wz_configured each, WZ_CONFIGURED bytes each
 * Refusals, in this order: 1 (whatever the memory), 100, 2, 3, 4, 11, 12, 13, 14.
 * Names alike in lower case must have equal settings; this is not checked. */
uint32_t wz_create(uint8_t *mem, size_t mem_len, const uint8_t *names, size_t names_len, const uint32_t *ends,
                   size_t ends_len, wz_options options, const uint8_t *settings, size_t settings_len,
                   const uint8_t *groups, size_t groups_len);

/* Puts a tag into a tier, 1 to 3, or takes it out (0). Refusals, in this order: 100, 21, 22, 23, 24. */
uint32_t wz_set_tier(uint8_t *mem, size_t mem_len, double clock, uint32_t tag, uint32_t tier);

/* Loads a panel list, as wz_panel writes it: a count byte n, n tag bytes, n tier bytes; makes these tier calls in order.
 * Refusals, in this order: 100, 21, 22, 51, then at the first bad entry the lowest of 53, 54, 55, then 56. */
uint32_t wz_load(uint8_t *mem, size_t mem_len, double clock, const uint8_t *list, size_t list_len);

/* Queues a write of a value: its kind and its word. It goes out at the end of a round, and when a wait is answered: a host
 * that sleeps through WZ_WAIT keeps its operators' writes that long. So end the wait; when the writes are done the engine
 * asks for the rest of it. Refusals, in this order: 100, 23, 31, 32, 42. */
uint32_t wz_write(uint8_t *mem, size_t mem_len, uint32_t tag, uint64_t kind, uint64_t word);

/* Asks for the stop. Steps go on until WZ_STOPPED. Refusal: 100. */
uint32_t wz_stop(uint8_t *mem, size_t mem_len);

/* One step: takes an answer of the host, and gives the next request or event.
 *   clock, wall  the clock reading and the wall time of the answer
 *   kind, number, message, list  the answer; WZ_BEGIN and so on say what each needs. Results are a wz_result each, WZ_RESULT
 *                bytes. Descriptions are WZ_DESCRIPTION bytes each: 0 for none, or WZ_DESCRIBED of the number (modulo 2^32).
 *                Of both there may be fewer than asked for, which are then those of the first tags, or more: those past
 *                the tags are ignored. So is a part of a record at the end.
 *   out          room for the list that comes back; bytes past it keep their contents
 * Refusals, in this order: 100, 43 (`out` under WZ_LIST(count) bytes), 21, 22, 41, then 14 (settings) or 42 (results that are
 * covered). A kind, or an error number with WZ_WRITE_REFUSED, that stands for nothing is 41.
 * After a refusal the engine still waits for the answer to its last request: the host keeps that request and its list. */
wz_reply wz_step(uint8_t *mem, size_t mem_len, double clock, int64_t wall, uint64_t kind, uint64_t number,
                 uint64_t message, const uint8_t *list, size_t list_len, uint8_t *out, size_t out_len);

/* Looks. They change nothing in the engine, and write only `out`. */

/* The state of the connection, and the last version. Refusal: 100. */
wz_state_look wz_state(const uint8_t *mem, size_t mem_len);

/* The statistics of the rounds. Refusal: 100. */
wz_stats_look wz_stats(const uint8_t *mem, size_t mem_len);

/* How many tags are in each tier. Refusal: 100. */
wz_counts_look wz_tier_counts(const uint8_t *mem, size_t mem_len);

/* The groups: configured ones first, then by first reading. A wz_group_row each into `out`.
 * Refusals, in this order: 100, 43 (`out` under WZ_GROUP_STATS_LIST bytes). */
wz_list_look wz_group_stats(const uint8_t *mem, size_t mem_len, uint8_t *out, size_t out_len);

/* The table, in order of entry. A wz_table_row each into `out`.
 * Refusals, in this order: 100, 43 (`out` under WZ_TABLE_LIST(count) bytes). */
wz_list_look wz_table(const uint8_t *mem, size_t mem_len, uint8_t *out, size_t out_len);

/* The panel list, into `out`: a count byte n, n tag bytes, n tier bytes, in table order; a tag in grace has tier 2.
 * `count` is its length, 1 + 2n. Refusals, in this order: 100, 43 (`out` under WZ_PANEL_LIST bytes). */
wz_list_look wz_panel(const uint8_t *mem, size_t mem_len, uint8_t *out, size_t out_len);

/* A tag: its tier, its cached entry, its description. The entry's `t` is when value, quality or error last changed, not when
 * the tag was last read; an entry that turns stale keeps it. Refusals, in this order: 100, 23. */
wz_tag_look wz_tag(const uint8_t *mem, size_t mem_len, uint32_t tag);

/* Sizes in bytes, asked for: WZ_MEMORY(count), or 0 for a count that no directory has; WZ_LIST(count), WZ_GROUP_STATS_LIST,
 * WZ_TABLE_LIST(count), WZ_PANEL_LIST. */
uint64_t wz_memory_size(uint32_t count);
uint64_t wz_list_size(uint32_t count);
uint64_t wz_group_stats_size(void);
uint64_t wz_table_size(uint32_t count);
uint64_t wz_panel_size(void);

#ifdef __cplusplus
}
#endif

#endif
