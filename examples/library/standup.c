/* Prints the next five starts of a rule in Berlin, and the listing of a calendar. */
#include <khal_list.h>
#include <stdio.h>
#include <stdlib.h>
#include <time.h>

static khal_word file_of(const char *path)
{
    static uint8_t bytes[1 << 20];
    FILE *file = fopen(path, "rb");
    if (!file) {
        perror(path);
        exit(1);
    }
    khal_word word = {bytes, fread(bytes, 1, sizeof bytes, file)};
    fclose(file);
    return word;
}

static void print_starts(khal_word zone)
{
    khal_word rule = khal_text("FREQ=WEEKLY;BYDAY=TU,TH;UNTIL=20240404T080000Z"), start = khal_text("20240102T100000");
    uint64_t from = khal_number(1710979200), locals[5]; /* 2024-03-21 */
    int64_t instants[5];
    khal_times found = khal_rule_times(rule.at, rule.length, start.at, start.length, zone.at, zone.length, from, KHAL_RULES_END, locals, 5);
    if (found.fault || khal_zone_instants(zone.at, zone.length, locals, found.count, instants, 5).fault)
        exit(1);
    for (size_t i = 0; i < found.count; i++) {
        time_t instant = (time_t)instants[i];
        char text[32];
        strftime(text, sizeof text, "%Y-%m-%d %H:%M UTC", gmtime(&instant));
        puts(text);
    }
}

static void print_listing(const char *path, khal_word zone)
{
    static uint8_t calendar[1 << 20], out[1 << 16], err[1 << 12];
    khal_word words[] = {khal_text("list"), khal_text("."), khal_text("2024-01-02"), khal_text("2d"), khal_text("--zone-file=berlin")};
    FILE *file = fopen(path, "rb");
    if (!file)
        exit(1);
    khal_word bytes = {calendar, fread(calendar, 1, sizeof calendar, file)};
    khal_file files[] = {{khal_text("team.ics"), bytes}, {khal_text("cut.ics"), khal_text("BEGIN:VCALENDAR\r\n")}};
    fclose(file);
    khal_listed listed = khal_list(words, 5, files, 2, files, 0, zone.at, zone.length, 0, out, sizeof out, err, sizeof err);
    printf("status %u\n%.*s%.*s", listed.status, (int)listed.out_length, (char *)out, (int)listed.err_length, (char *)err);
}

int main(int count, char **words)
{
    if (count != 3)
        return 2;
    khal_word zone = file_of(words[1]);
    print_starts(zone);
    print_listing(words[2], zone);
    return 0;
}
