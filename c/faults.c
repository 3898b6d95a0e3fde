/* khal_list where allocations fail, rooms are small, inputs are bad, and four threads call at once. Prints what differs from what is
 * promised, and nothing if all is as promised. Link with -Wl,--wrap=malloc -Wl,--wrap=realloc. */
#include "khal_list.h"
#include <pthread.h>
#include <stdio.h>
#include <stdlib.h>

enum { ROOM = 65536, TOLD = 4096 };

static long left = -1, calls, failed;
void *__real_malloc(size_t size);
void *__real_realloc(void *at, size_t size);

static int fails(void)
{
    if (left < 0)
        return 0;
    calls++;
    return left-- == 0;
}

void *__wrap_malloc(size_t size) { return fails() ? NULL : __real_malloc(size); }
void *__wrap_realloc(void *at, size_t size) { return fails() ? NULL : __real_realloc(at, size); }

static void expect(int holds, const char *what)
{
    if (!holds) {
        failed++;
        printf("faults: %s\n", what);
    }
}

static khal_word calendar, zone;

static khal_word file_of(const char *path)
{
    khal_word word = {__real_malloc(1 << 20), 0};
    FILE *file = fopen(path, "rb");
    if (!file || !word.at)
        exit(2);
    word.length = fread((void *)word.at, 1, 1 << 20, file);
    fclose(file);
    return word;
}

static khal_listed run(uint8_t *out, size_t room, uint8_t *err, size_t told)
{
    khal_word words[] = {khal_text("list"), khal_text("."), khal_text("2024-01-01"), khal_text("30d"), khal_text("--zone-file=berlin")};
    khal_file files[] = {{khal_text("bad.ics"), khal_text("BEGIN:VCALENDAR\r\n")}, {khal_text("team.ics"), calendar}};
    return khal_list(words, 5, files, 2, files, 0, zone.at, zone.length, 1704067200, out, room, err, told);
}

static khal_times times(const char *rule, const char *start, khal_word in, uint64_t from, uint64_t before, uint64_t *locals, size_t room)
{
    return khal_rule_times((const uint8_t *)rule, strlen(rule), (const uint8_t *)start, strlen(start), in.at, in.length, from, before, locals, room);
}

static uint8_t out[ROOM], err[TOLD];
static khal_listed whole;

static int is_whole(khal_listed listed, const uint8_t *text, const uint8_t *told)
{
    return listed.status == whole.status && listed.out_length == whole.out_length && listed.err_length == whole.err_length &&
           !memcmp(text, out, whole.out_length) && !memcmp(told, err, whole.err_length);
}

static int is_memory(khal_listed listed, const uint8_t *told)
{
    return listed.status == KHAL_MEMORY && listed.out_length == 0 && listed.err_length == 6 && !memcmp(told, "Memory", 6);
}

static void allocations(void)
{
    static uint8_t text[ROOM], told[TOLD];
    left = 1L << 40, calls = 0;
    run(text, ROOM, told, TOLD);
    long all = calls;
    left = -1;
    for (long i = 0; i < all; i++) {
        left = i;
        khal_listed listed = run(text, ROOM, told, TOLD);
        left = -1;
        expect(is_memory(listed, told) || is_whole(listed, text, told), "a listing whose allocation failed");
    }
    uint64_t locals[4] = {7, 7, 7, 7};
    int64_t instants[1];
    for (long i = 0; i < 4; i++) {
        left = i;
        khal_times found = times("FREQ=DAILY", "20240101T090000", zone, 0, UINT64_MAX, locals, 4);
        left = -1;
        expect(found.fault == 0 ? found.count == 4 : found.fault == KHAL_NO_MEMORY && found.count == 0, "a rule whose allocation failed");
        left = i;
        found = khal_zone_instants(zone.at, zone.length, locals, 1, instants, 1);
        left = -1;
        expect(found.fault == 0 || found.fault == KHAL_NO_MEMORY, "a zone whose allocation failed");
    }
}

static void rooms(void)
{
    uint8_t text[10], told[4] = "....";
    khal_listed listed = run(text, 10, told, 3);
    expect(listed.out_length == whole.out_length && listed.err_length == whole.err_length, "lengths of texts that do not fit");
    expect(!memcmp(text, out, 10) && !memcmp(told, err, 3) && told[3] == '.', "texts that do not fit");
    listed = run(text, 0, told, 0);
    expect(listed.out_length == whole.out_length && listed.status == whole.status, "no room for texts");
    uint64_t one = 7;
    khal_word none = {KHAL_NOTHING, 0};
    expect(times("FREQ=DAILY", "20240101", none, 0, UINT64_MAX, &one, 0).count == 0 && one == 7, "no room for locals");
}

static void bad_inputs(void)
{
    khal_word none = {KHAL_NOTHING, 0}, null = {NULL, 0};
    uint64_t locals[2] = {7, 7};
    int64_t instants[2] = {7, 7}, until = 7;
    struct { const char *rule, *start; uint32_t fault; } cases[] = {
        {"", "20240101", KHAL_BAD_RULE}, {"FREQ=\xff\xfe", "20240101", KHAL_BAD_RULE}, {"FREQ=DAILY", "", KHAL_BAD_STAMP},
        {"FREQ=DAILY", "20240230", KHAL_BAD_STAMP}, {"FREQ=DAILY", "00000101", KHAL_YEAR_RANGE},
        {"FREQ=DAILY;COUNT=9999999999", "20240101", KHAL_NUMBER_TOO_LARGE}};
    for (size_t i = 0; i < sizeof cases / sizeof *cases; i++) {
        khal_times found = times(cases[i].rule, cases[i].start, none, 0, UINT64_MAX, locals, 2);
        expect(found.fault == cases[i].fault && found.count == 0 && locals[0] == 7, cases[i].rule);
        khal_word rule = khal_text(cases[i].rule), start = khal_text(cases[i].start);
        expect(khal_rule_until(rule.at, rule.length, start.at, start.length, &until) == cases[i].fault, cases[i].start);
    }
    expect(until == 7, "an UNTIL of no rule");
    expect(times("FREQ=DAILY", "20240101T090000", khal_text("\xff no zone"), 0, UINT64_MAX, locals, 2).fault == KHAL_BAD_ZONE, "bytes that are no zone");
    expect(times("FREQ=DAILY", "20240101T090000Z", khal_text("no zone"), 0, UINT64_MAX, locals, 2).count == 2, "a start in UTC with a zone");
    expect(times("FREQ=DAILY", "20240101", null, UINT64_MAX, 0, locals, 2).count == 0, "a window that ends before it begins");
    expect(times("FREQ=DAILY", "20240101", null, KHAL_RULES_END, UINT64_MAX, locals, 2).count == 0, "a window past the rules");
    locals[0] = khal_number(0), locals[1] = KHAL_RULES_END;
    khal_times found = khal_zone_instants(zone.at, zone.length, locals, 2, instants, 2);
    expect(found.fault == KHAL_YEAR_RANGE && found.count == 1 && instants[0] == -3600 && instants[1] == 7, "a local out of bounds");
    instants[0] = INT64_MIN;
    expect(khal_zone_locals(zone.at, zone.length, instants, 2, locals, 2).fault == KHAL_YEAR_RANGE, "an instant out of bounds");
    expect(khal_zone_locals(KHAL_NOTHING, 0, instants, 2, locals, 2).fault == KHAL_BAD_ZONE, "no zone");
    uint8_t told[64];
    khal_word bad = khal_text("\xff");
    khal_listed listed = khal_list(&bad, 1, NULL, 0, NULL, 0, NULL, 0, 0, NULL, 0, told, sizeof told);
    expect(listed.status == KHAL_NOT_TEXT && listed.out_length == 0 && listed.err_length == 7 && !memcmp(told, "NotText", 7), "a word that is not UTF-8");
    listed = khal_list(NULL, 0, NULL, 0, NULL, 0, NULL, 0, 0, NULL, 0, told, sizeof told);
    expect(listed.status == KHAL_NO_REQUEST && listed.err_length > 0, "no words");
    khal_word words[] = {khal_text("list"), khal_text("."), khal_text("2024-01-01"), khal_text("1d"), khal_text("--zone-file=x")};
    listed = khal_list(words, 5, NULL, 0, NULL, 0, KHAL_NOTHING, 0, 0, NULL, 0, told, sizeof told);
    expect(listed.status == KHAL_NO_REQUEST && listed.err_length == 7 && !memcmp(told, "BadZone", 7), "a zone file without bytes");
}

static void *worker(void *bad)
{
    uint8_t *text = malloc(ROOM), told[TOLD];
    uint64_t locals[64];
    khal_word none = {KHAL_NOTHING, 0};
    for (int i = 0; text && i < 50; i++) {
        khal_listed listed = run(text, ROOM, told, TOLD);
        khal_times found = times("FREQ=DAILY", "20240101", none, 0, UINT64_MAX, locals, 64);
        *(long *)bad += !is_whole(listed, text, told) || found.count != 64 || locals[63] != khal_number(1704067200 + 63 * 86400);
    }
    free(text);
    return NULL;
}

static void threads(void)
{
    pthread_t started[4];
    long bad[4] = {0};
    for (int i = 0; i < 4; i++)
        if (pthread_create(&started[i], NULL, worker, &bad[i]))
            exit(2);
    for (int i = 0; i < 4; i++) {
        pthread_join(started[i], NULL);
        expect(bad[i] == 0, "a call beside others");
    }
}

int main(int count, char **words)
{
    if (count != 3)
        return 2;
    zone = file_of(words[1]);
    calendar = file_of(words[2]);
    whole = run(out, ROOM, err, TOLD);
    expect(whole.status == KHAL_FAULTY && whole.out_length > 0 && whole.err_length > 0, "a listing");
    allocations();
    rooms();
    bad_inputs();
    threads();
    free((void *)zone.at);
    free((void *)calendar.at);
    return failed != 0;
}
