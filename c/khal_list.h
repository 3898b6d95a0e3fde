/* khal_list.h: recurrence rules, time zones and event listings of iCalendar files (RFC 5545).
 *
 * The library is written in Rattle, and each function below is proved to meet the contract that stands above it. It keeps no state: it
 * writes no global, reads no file, clock or environment, and starts no thread. Every function may be called from any number of threads at
 * once, as long as no two calls share memory that one of them writes.
 *
 * What C owes, and nothing checks: each pointer with a length points to so many readable values, and `times`, `instants`, `locals`,
 * `until`, `out` and `err` to so many writable ones that nothing else reads or writes during the call. Where a length is 0 the pointer is
 * not followed; give KHAL_NOTHING, and not NULL. malloc, realloc and free are the program's, from one allocator, aligned to 16. Do not call from a signal
 * handler, nor from the forked child of a process with threads.
 *
 * A LOCAL is a date and a time of day without a zone, as a number: the seconds from 0000-01-01T00:00:00 to it, each day having 86,400. An
 * INSTANT is a number of seconds since 1970-01-01T00:00:00 UTC. A ZONE is the bytes of a zone file (RFC 9636, as those of
 * /usr/share/zoneinfo), or those of a calendar, whose first VTIMEZONE it is. */
#ifndef KHAL_LIST_H
#define KHAL_LIST_H

#include <stddef.h>
#include <stdint.h>
#include <string.h>

#ifdef __cplusplus
extern "C" {
#endif

/* the local 1970-01-01T00:00:00 */
#define KHAL_EPOCH UINT64_C(62167219200)
/* the local 9801-01-01T00:00:00: no rule goes on from there */
#define KHAL_RULES_END UINT64_C(309289708800)
/* no bytes, with the length 0 */
#define KHAL_NOTHING ((const uint8_t *)"")

/* Faults. */
enum {
    KHAL_BAD_RULE = 1,         /* the text is no RRULE value */
    KHAL_NUMBER_TOO_LARGE = 2, /* COUNT or INTERVAL is past 4,294,967,295 */
    KHAL_BAD_STAMP = 3,        /* the text is no DATE or DATE-TIME, or the calendar does not have it */
    KHAL_YEAR_RANGE = 4,       /* the year of a start is not one of 0001 to 9899, or a local or an instant is out of bounds */
    KHAL_NO_UNTIL = 5,
    KHAL_BAD_ZONE = 6,         /* the bytes are no zone file, nor a calendar that has a VTIMEZONE and no fault */
    KHAL_NO_MEMORY = 7         /* an allocation failed */
};

typedef struct khal_times {
    size_t count;   /* how many values were written */
    uint32_t fault; /* 0, or one of the faults */
} khal_times;

/* Writes the instances of a rule, in order, from the local `from` on and before `before`: as many as there is room for. `rule` is the value
 * of an RRULE and `start` that of a DTSTART. `zone` is the zone of the start, or empty. It is not looked at if the start is in UTC.
 *
 * An instance is a local that the rule keeps. If UNTIL is in UTC, its instant is not later: by UTC if the start is in UTC, and else by the
 * zone. Without a zone no local has an instant, and such an UNTIL leaves none out. The start itself is always an instance.
 *
 * Proved: with fault 0 the first is the least instance from `from` on, each further one is the least after the one before it, and all are
 * earlier than `before`. If fewer are written than there is room for, there is no further one. A `from` or `before` past KHAL_RULES_END is
 * that bound. With another fault nothing is written, and the texts are no rule or the bytes no zone; or an allocation failed.
 *
 * To go on, call again from the last one plus 1: without COUNT a call goes straight to `from`, and under COUNT it skips whole rounds of the
 * rule. Memory is allocated for a zone alone. */
khal_times khal_rule_times(const uint8_t *rule, size_t rule_length, const uint8_t *start, size_t start_length, const uint8_t *zone,
                           size_t zone_length, uint64_t from, uint64_t before, uint64_t *times, size_t room);

/* UNTIL as an instant: 0 and *until, or KHAL_NO_UNTIL if there is none that is in UTC or the start has no time, or a fault. It is for a
 * caller that has another clock than a zone for khal_rule_times: drop the locals, but the start, whose instant is later. */
uint32_t khal_rule_until(const uint8_t *rule, size_t rule_length, const uint8_t *start, size_t start_length, int64_t *until);

/* Writes the instants of locals in a zone. Of a local that the clock shows twice it is the first, and one that the clock leaves out is read
 * with the offset before the gap (RFC 5545, section 3.3.5).
 *
 * Proved: the first `count` are those of the first `count` locals, which are earlier than KHAL_RULES_END. With fault 0 that is all of the
 * shorter array. With KHAL_YEAR_RANGE the next local is not. With another fault nothing is written. */
khal_times khal_zone_instants(const uint8_t *zone, size_t zone_length, const uint64_t *locals, size_t local_count, int64_t *instants,
                              size_t room);

/* Writes the locals that the clock of a zone shows at instants from 0001-01-01 to 9801-01-01, and promises the same. */
khal_times khal_zone_locals(const uint8_t *zone, size_t zone_length, const int64_t *instants, size_t instant_count, uint64_t *locals,
                            size_t room);

typedef struct khal_word {
    const uint8_t *at;
    size_t length;
} khal_word;

/* a file, or a zone file (RFC 9636) under the name of its zone, as Europe/Berlin */
typedef struct khal_file {
    khal_word name;
    khal_word bytes;
} khal_file;

enum {
    KHAL_CLEAN = 0,
    KHAL_FAULTY = 1,     /* some file is not listed, or not whole; `err` says which, and why */
    KHAL_NO_REQUEST = 2, /* the words are none, or ask for help; `err` has what clap says of them, or BadZone, BadWindow, BadToken or BadFormat */
    KHAL_MEMORY = 3,     /* an allocation failed; `err` has Memory */
    KHAL_NOT_TEXT = 4    /* a word or the name of a file is not UTF-8; `err` has NotText */
};

typedef struct khal_listed {
    size_t out_length; /* of the whole text, also if it did not fit */
    size_t err_length;
    uint32_t status;
} khal_listed;

/* Lists files as the program `khal-list` does. `words` are those of its command line after the program's name (`list . 2024-01-01 7d
 * --zone UTC`; the folder is not looked at), `files` those of the folder in the order of their names, `zones` zone files for names that a
 * calendar does not define, `zone_file` the bytes of the file that `--zone-file` names, if the words have that, and `now` the clock as an
 * instant.
 *
 * Proved: if the status is KHAL_CLEAN or KHAL_FAULTY, the words are a request, `out` begins with as much as there is room for of exactly
 * the text of its listing, and `err` of exactly one line for each file that is refused, or with --keep-going for each fault that is named,
 * and, under --limit, the line with the token from which the listing continues. Both lengths are those of the whole texts. With another
 * status `out` is as it was, and `err` begins with the text that stands beside it; with KHAL_NO_REQUEST the words are no request at this
 * clock. */
khal_listed khal_list(const khal_word *words, size_t word_count, const khal_file *files, size_t file_count, const khal_file *zones,
                      size_t zone_count, const uint8_t *zone_file, size_t zone_file_length, int64_t now, uint8_t *out, size_t out_room,
                      uint8_t *err, size_t err_room);

/* Conveniences. */
static inline khal_word khal_text(const char *text)
{
    khal_word word = {(const uint8_t *)text, strlen(text)};
    return word;
}

static inline uint64_t khal_number(int64_t seconds_since_1970) { return (uint64_t)seconds_since_1970 + KHAL_EPOCH; }
static inline int64_t khal_seconds(uint64_t local) { return (int64_t)(local - KHAL_EPOCH); }

#ifdef __cplusplus
}
#endif
#endif
