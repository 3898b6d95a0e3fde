/* How long the first instances of a rule take, or those of a window: by the library, and by libical. */
#include <khal_list.h>
#include <libical/ical.h>
#include <stdio.h>
#include <time.h>

enum { MOST = 1000 };

typedef struct {
    const char *name, *start, *rule;
    size_t count;
    const char *from, *before;
} Case;

static const Case cases[] = {
    {"daily", "20240101T090000", "FREQ=DAILY", MOST, 0, 0},
    {"weekdays", "20240101T090000", "FREQ=WEEKLY;BYDAY=MO,TU,WE,TH,FR", MOST, 0, 0},
    {"each other week", "20240102T090000", "FREQ=WEEKLY;INTERVAL=2;BYDAY=TU,TH;WKST=SU", MOST, 0, 0},
    {"second Tuesday", "20240109T090000", "FREQ=MONTHLY;BYDAY=2TU", MOST, 0, 0},
    {"last workday", "20240131T090000", "FREQ=MONTHLY;BYDAY=MO,TU,WE,TH,FR;BYSETPOS=-1", MOST, 0, 0},
    {"29 February", "20240229T090000", "FREQ=YEARLY", MOST, 0, 0},
    {"last Sunday of October", "20241027T020000", "FREQ=YEARLY;BYMONTH=10;BYDAY=-1SU", MOST, 0, 0},
    {"hourly by day", "20240101T090000", "FREQ=HOURLY;BYHOUR=9,10,11,12,13,14,15,16,17", MOST, 0, 0},
    {"January 2026 from 1970", "19700101T090000", "FREQ=DAILY", MOST, "20260101T000000", "20260201T000000"},
    {"the same with COUNT=30000", "19700101T090000", "FREQ=DAILY;COUNT=30000", MOST, "20260101T000000", "20260201T000000"},
    {"noon by seconds", "20240101T120000", "FREQ=SECONDLY;BYHOUR=12;BYMINUTE=0;BYSECOND=0", 5, 0, 0}};

static uint64_t ours[MOST], theirs[MOST];

static double now(void)
{
    struct timespec time;
    clock_gettime(CLOCK_MONOTONIC, &time);
    return (double)time.tv_sec + (double)time.tv_nsec * 1e-9;
}

static uint64_t number(const char *text, uint64_t otherwise)
{
    return text ? khal_number(icaltime_as_timet(icaltime_from_string(text))) : otherwise;
}

static size_t by_khal(const Case *one)
{
    khal_word rule = khal_text(one->rule), start = khal_text(one->start);
    return khal_rule_times(rule.at, rule.length, start.at, start.length, KHAL_NOTHING, 0, number(one->from, 0), number(one->before, KHAL_RULES_END),
                           ours, one->count).count;
}

static size_t by_libical(const Case *one)
{
    struct icalrecurrencetype rule = icalrecurrencetype_from_string(one->rule);
    icalrecur_iterator *steps = icalrecur_iterator_new(rule, icaltime_from_string(one->start));
    uint64_t from = number(one->from, 0), before = number(one->before, KHAL_RULES_END);
    size_t count = 0;
    if (one->from && rule.count == 0)
        icalrecur_iterator_set_start(steps, icaltime_from_string(one->from));
    for (struct icaltimetype at = icalrecur_iterator_next(steps); count < one->count && !icaltime_is_null_time(at); at = icalrecur_iterator_next(steps)) {
        uint64_t local = khal_number(icaltime_as_timet(at));
        if (local >= before)
            break;
        if (local >= from)
            theirs[count++] = local;
    }
    icalrecur_iterator_free(steps);
    return count;
}

/* The least microseconds of some calls that take a quarter of a second or are one. */
static double measured(size_t (*by)(const Case *), const Case *one, size_t *count)
{
    double least = 0, spent = 0;
    do {
        double begun = now();
        *count = by(one);
        double took = now() - begun;
        least = spent == 0 || took < least ? took : least;
        spent += took;
    } while (spent < 0.25);
    return least * 1e6;
}

int main(void)
{
    printf("%-28s %6s %12s %12s %8s\n", "rule", "found", "khal_list", "libical", "ratio");
    for (size_t i = 0; i < sizeof cases / sizeof *cases; i++) {
        size_t found, other;
        double here = measured(by_khal, &cases[i], &found), there = measured(by_libical, &cases[i], &other);
        int same = found == other && !memcmp(ours, theirs, found * sizeof *ours);
        printf("%-28s %6zu %9.1f us %9.1f us %8.1f%s\n", cases[i].name, found, here, there, there / here, same ? "" : "  other instances");
    }
    return 0;
}
