/* What crates/label_day must print, by libltc, a timecode library by others (Robin Gareus; Debian's libltc-dev 1.3.2).
 * It steps from label to label by ltc_frame_increment, through one day of each format, and knows nothing of our code:
 *     cc -O2 -o label_day tools/label_day.c -lltc && ./label_day > crates/label_day/stdout
 * For each hour: the FNV-1a hash of the labels' texts, and the sum of their numbers, counted from 0.
 * Then 30 drop at some numbers, a number past the day and a text that dropping leaves out. */
#include <inttypes.h>
#include <ltc.h>
#include <stdio.h>
#include <string.h>

static void label_text(LTCFrame *frame, int drop, char *text) {
    SMPTETimecode t;
    ltc_frame_to_time(&t, frame, 0);
    sprintf(text, "%02d:%02d:%02d%c%02d", t.hours, t.mins, t.secs, drop ? ';' : ':', t.frame);
}

static void first_label(LTCFrame *frame, int drop) {
    memset(frame, 0, sizeof *frame);
    frame->dfbit = drop;
}

static void day(const char *name, int rate, int drop, enum LTC_TV_STANDARD standard) {
    LTCFrame frame;
    first_label(&frame, drop);
    uint64_t n = 0;
    for (int hour = 0; hour < 24; hour++) {
        uint64_t hash = 0xcbf29ce484222325u, sum = 0;
        for (;;) {
            SMPTETimecode t;
            ltc_frame_to_time(&t, &frame, 0);
            if (t.hours != hour) break;
            char text[16];
            label_text(&frame, drop, text);
            for (const char *c = text; *c; c++) hash = (hash ^ (unsigned char)*c) * 0x100000001b3u;
            sum += n++;
            if (ltc_frame_increment(&frame, rate, standard, 0)) break; /* the day is over */
        }
        printf("%s %02d %016" PRIx64 " %" PRIu64 "\n", name, hour, hash, sum);
    }
}

static void worked(const uint64_t *numbers, int count) {
    for (int i = 0; i < count; i++) {
        LTCFrame frame;
        first_label(&frame, 1);
        uint64_t n = 0;
        int over = 0;
        while (n < numbers[i] && !over) {
            over = ltc_frame_increment(&frame, 30, LTC_TV_525_60, 0);
            n++;
        }
        char text[16];
        label_text(&frame, 1, text);
        if (over) printf("%" PRIu64 " refused 19\n", numbers[i]);
        else printf("%" PRIu64 " %s\n", numbers[i], text);
    }
}

/* A text that no step of the day comes by is refused. */
static void sought(const char *text) {
    LTCFrame frame;
    first_label(&frame, 1);
    uint64_t n = 0;
    do {
        char here[16];
        label_text(&frame, 1, here);
        if (strcmp(here, text) == 0) {
            printf("%s %" PRIu64 "\n", text, n);
            return;
        }
        n++;
    } while (!ltc_frame_increment(&frame, 30, LTC_TV_525_60, 0));
    printf("%s refused 18\n", text);
}

int main(void) {
    day("film24", 24, 0, LTC_TV_FILM_24);
    day("pal25", 25, 0, LTC_TV_625_50);
    day("full30", 30, 0, LTC_TV_525_60);
    day("drop30", 30, 1, LTC_TV_525_60);
    const uint64_t numbers[] = {1799, 1800, 17982, 107892, 2589407, 2589408};
    worked(numbers, 6);
    sought("00:01:00;01");
    sought("00:01:00;02");
    sought("00:10:00;00");
    sought("00:10:00:00");
    return 0;
}
