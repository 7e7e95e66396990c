/* What crates/tempo_runs must print, by libsmf, a Standard MIDI File library by others (Edward Tomasz Napierała; Debian's
 * libsmf-dev 1.3). It puts tempo events and notes on ticks, has libsmf say on which second each note falls
 * (event->time_seconds) and which tempo follows it, and knows nothing of our code:
 *     cc -O2 -o runs tools/tempo_runs.c $(pkg-config --cflags --libs smf) -lm && ./runs > crates/tempo_runs/stdout
 * For each map and sample rate: the samples of some ticks; then of all its notes the FNV-1a hash of samples and tempos, and
 * the sum of the samples. Then how many notes there were, and maps at the edges of the rules. */
#include <inttypes.h>
#include <math.h>
#include <smf.h>
#include <stdio.h>
#include <stdlib.h>

/* A map's rows lie 1 + 2 x (0 to gap) ticks apart, the last `after` ticks before the end. A quarter takes unit x (1 + (0 to
 * spread)) microseconds; where the map fades, half as many of the units for each row since the last multiple of 24. In each
 * row there are notes on its tick, the one after it, the last before the next row, and `between` more, on no tick twice. */
struct plan { unsigned division, rows, gap, after, unit, spread, fades, between, seed; };

static const struct plan PLANS[] = {
    {24, 1, 0, 4799, 500000, 0, 0, 4797, 1},
    {480, 1, 0, 48001, 16777215, 0, 0, 997, 2},
    {960, 1, 0, 960001, 1, 0, 0, 997, 3},
    {96, 2, 1500, 2401, 12500, 79, 0, 1200, 4},
    {480, 2, 50, 101, 1, 16777214, 0, 100, 5},
    {480, 7, 300, 0, 12500, 79, 0, 300, 6},
    {960, 7, 900, 1001, 1, 16777214, 1, 300, 7},
    {32767, 7, 900, 5001, 1, 16777214, 1, 300, 8},
    {24, 300, 20, 41, 1, 16777214, 0, 9, 9},
    {480, 300, 60, 1, 1, 16777214, 1, 9, 10},
    {96, 1024, 9, 0, 1, 1000000, 0, 2, 11},
    {960, 1024, 0, 1, 1, 16777214, 0, 0, 12},
    {960, 1024, 152000, 4001, 12500, 79, 0, 2, 13},
    {32767, 1, 0, 1073741823, 2636637, 0, 0, 997, 14},
};

/* Each sample rate as a fraction in lowest terms: so many samples in so many microseconds. */
static const struct { unsigned rate, samples, micros; } RATES[] = {
    {44100, 441, 10000}, {48000, 6, 125}, {88200, 441, 5000}, {96000, 12, 125},
};

static uint64_t notes;

static uint64_t draw(uint64_t *state) {
    *state = *state * 6364136223846793005u + 1442695040888963407u;
    return *state >> 33;
}

static uint64_t common(uint64_t a, uint64_t b) { return b == 0 ? a : common(b, a % b); }

/* The sample on `seconds` or the next one. Each tick takes a whole number of units, so the exact x = seconds x rate is a
 * multiple of unit x samples / (division x micros), and so of 1/parts, whose denominator that is. As libsmf reckons, a
 * row's share of the seconds is rounded twice, and each sum once; the product with the rate is rounded here. Nothing is
 * below 0, so our x is the exact one times something from (1 - u)^(rows + 3) to (1 + u)^(rows + 3), u = 2^-53, and off by
 * less than `off`. Where that is below half of 1/parts, a fraction up to half of 1/parts stands for a whole number, and a
 * greater one is rounded up. Elsewhere a fraction farther than `off` from 0 and from 1 is rounded up, as the exact one
 * lies between the same whole numbers; a map with any other is not for this test. */
static uint64_t sample(double seconds, int rate, const struct plan *plan) {
    uint64_t per = (uint64_t)plan->division * RATES[rate].micros;
    double parts = per / common(per, (uint64_t)plan->unit * RATES[rate].samples);
    double x = seconds * RATES[rate].rate, down = floor(x), fraction = x - down;
    double off = (plan->rows + 8) * 0x1p-53 * x;
    if (off < 0.5 / parts) return (uint64_t)down + (fraction > 0.5 / parts);
    if (fraction <= off || fraction >= 1 - off) {
        fprintf(stderr, "map %u at %u: %.9f is unclear by %g\n", plan->seed, RATES[rate].rate, x, off);
        exit(1);
    }
    return (uint64_t)down + 1;
}

static uint64_t hashed(uint64_t hash, uint64_t n) {
    for (int k = 0; k < 64; k += 8) hash = (hash ^ (n >> k & 0xff)) * 0x100000001b3u;
    return hash;
}

static void put(smf_track_t *track, smf_event_t *event, uint64_t tick) {
    if (event == NULL) exit(1);
    smf_track_add_event_pulses(track, event, (int)tick);
}

/* The rows' ticks, with the first tick past the end after them. */
static void put_tempos(const struct plan *plan, smf_track_t *track, uint64_t *ticks) {
    uint64_t state = plan->seed, tick = 0;
    for (unsigned i = 0; i < plan->rows; i++) {
        uint64_t units = (1 + draw(&state) % (plan->spread + 1)) >> (plan->fades ? i % 24 : 0);
        uint64_t q = plan->unit * (units == 0 ? 1 : units);
        unsigned char tempo[] = {0xff, 0x51, 3, q >> 16, q >> 8, q};
        put(track, smf_event_new_from_pointer(tempo, sizeof tempo), tick);
        ticks[i] = tick;
        tick += 1 + 2 * (draw(&state) % (plan->gap + 1));
    }
    ticks[plan->rows] = ticks[plan->rows - 1] + plan->after + 1;
}

static double note(smf_track_t *track, uint64_t tick) {
    smf_event_t *event = smf_event_new_from_bytes(0x90, 60, 100);
    put(track, event, tick);
    notes++;
    return event->time_seconds;
}

static void run(const struct plan *plan, int rate) {
    uint64_t ticks[1024 + 1], due = 0, hash = 0xcbf29ce484222325u, sum = 0;
    smf_t *smf = smf_new();
    smf_track_t *tempos = smf_track_new(), *track = smf_track_new();
    if (!smf || !tempos || !track || smf_set_ppqn(smf, plan->division)) exit(1);
    smf_add_track(smf, tempos);
    smf_add_track(smf, track);
    put_tempos(plan, tempos, ticks);
    printf("map %u, division %u, rows %u, at %u:", plan->seed, plan->division, plan->rows, RATES[rate].rate);
    for (unsigned i = 0; i < plan->rows; i++) {
        uint64_t end = ticks[i + 1] - 1, next = ticks[i] < end ? ticks[i] + 1 : end, most = plan->between + 2;
        for (uint64_t j = 0; j <= most; j++) {
            uint64_t tick = j == 0 ? ticks[i] : next + (end - next) * (j - 1) / (most - 1);
            if (tick < due) continue;
            due = tick + 1;
            uint64_t s = sample(note(track, tick), rate, plan);
            if ((i < 2 || i == plan->rows - 1) && (j < 2 || j == most)) printf(" %" PRIu64 "=%" PRIu64, tick, s);
            /* libsmf gives the last tempo event that lies before a tick. */
            uint64_t q = smf_get_tempo_by_pulses(smf, (int)tick + 1)->microseconds_per_quarter_note;
            hash = hashed(hashed(hash, s), q);
            sum += s;
        }
    }
    printf("; %016" PRIx64 " %" PRIu64 "\n", hash, sum);
    smf_delete(smf);
}

/* From the rules, and not from libsmf: a map against them has no length, and is refused 14; of another, the length and the
 * last tick's sample, by hand. Where a name says no other: 480 ticks a quarter, rows of 500,000 microseconds, the last tick
 * 10, at 48,000. The late last ticks have quarters of a microsecond; the 24 hours are quarters of a tick, each a second. */
static const struct { const char *name; unsigned long long length, sample; } EDGES[] = {
    {"no rows", 0, 0}, {"a row on 1", 0, 0}, {"rows on 0, 5, 5", 0, 0}, {"rows on 0, 5, 4", 0, 0},
    {"rows on 0, 5, 6", 11, 500}, {"rows on 0, 10", 11, 500}, {"rows on 0, 11", 0, 0}, {"q 0", 0, 0}, {"q 1", 11, 251},
    {"q 16777215", 11, 8639}, {"q 16777216", 0, 0}, {"division 0", 0, 0}, {"division 1", 11, 240000},
    {"division 32767", 11, 8}, {"division 32768", 0, 0}, {"sample rate 44100", 11, 460}, {"sample rate 44101", 0, 0},
    {"sample rate 88200", 11, 919}, {"sample rate 96000", 11, 1000}, {"last tick 0", 1, 0},
    {"last tick 1073741823", 1073741824, 107375}, {"last tick 1073741824", 0, 0}, {"24 hours", 86401, 4147200000},
    {"24 hours and a microsecond", 0, 0}, {"1024 rows", 1025, 51200}, {"1025 rows", 0, 0},
};

int main(void) {
    for (size_t i = 0; i < sizeof PLANS / sizeof *PLANS; i++)
        for (int rate = 0; rate < 4; rate++) run(&PLANS[i], rate);
    printf("located %" PRIu64 " ticks\n", notes);
    for (size_t i = 0; i < sizeof EDGES / sizeof *EDGES; i++) {
        unsigned long long n = EDGES[i].length, s = EDGES[i].sample;
        printf("%s: ", EDGES[i].name);
        if (n == 0) puts("refused 14");
        else printf("length %llu, the last tick on %llu, the next refused 17, the last sample located %llu\n", n, s, n);
    }
}
