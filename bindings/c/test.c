/* The library from C. What is expected was written by hand from document 01 (its examples P7 to P9, P12, P13,
 * its WAV case and its numbers on each side of an edge) and from the rules in sedhavil.h. Every refusal must
 * also leave all as it was. First the functions beneath, then those of a chain, then WAV files.
 * `bindings/c/run` builds and runs this. */
#define _POSIX_C_SOURCE 200809L
#include "sedhavil.h"

#include <math.h>
#include <pthread.h>
#include <stdio.h>

enum { SAMPLES = 10000, STORE = 40000, ORDER = 64, STAGES = 20, STACK = 96 * 1024 };

/* A call's arguments, with the length of each slice. */
typedef struct {
    uint32_t rate;
    uint64_t stages[STAGES * SEDHAVIL_WORDS];
    float samples[SAMPLES];
    size_t positions[SEDHAVIL_POSITIONS + 1];
    float floats[SEDHAVIL_FLOATS + 1];
    float store[STORE];
    size_t progress[SEDHAVIL_PROGRESS + 1];
    size_t order[ORDER];
    size_t len_stages, len_samples, len_positions, len_floats, len_store, len_progress, len_order;
} call;

static call c, before;
static int failures, checks;
static int nulls; /* slices of length 0 are lent as null pointers */

#define LENT(slice) (nulls && c.len_##slice == 0 ? NULL : c.slice)

static void check(int ok, const char *what) {
    checks++;
    if (!ok) {
        failures++;
        printf("FAILED: %s\n", what);
    }
}

/* n stages of volume 0 dB, two frames, room for all, nothing remembered */
static void fresh(size_t n) {
    memset(&c, 0, sizeof c);
    c.rate = 44100;
    for (size_t i = 0; i < n; i++)
        sedhavil_stage_volume_control(c.stages + i * SEDHAVIL_WORDS, 0);
    c.len_stages = n * SEDHAVIL_WORDS;
    for (size_t i = 0; i < SAMPLES; i++)
        c.samples[i] = 0.25f;
    c.len_samples = 4;
    c.len_positions = SEDHAVIL_POSITIONS;
    c.len_floats = SEDHAVIL_FLOATS;
    for (size_t i = 0; i < STORE; i++)
        c.store[i] = 0.125f;
    c.len_store = STORE;
    c.len_progress = SEDHAVIL_PROGRESS;
}

static uint64_t *stage(size_t i) {
    return c.stages + i * SEDHAVIL_WORDS;
}

static sedhavil_answer run(void) {
    memcpy(&before, &c, sizeof c);
    return sedhavil_run(c.rate, LENT(stages), c.len_stages, LENT(samples), c.len_samples, LENT(positions),
                        c.len_positions, LENT(floats), c.len_floats, LENT(store), c.len_store, LENT(progress),
                        c.len_progress, LENT(order), c.len_order);
}

static sedhavil_answer render(void) {
    memcpy(&before, &c, sizeof c);
    return sedhavil_render(c.rate, LENT(stages), c.len_stages, LENT(samples), c.len_samples, LENT(positions),
                           c.len_positions, LENT(floats), c.len_floats, LENT(store), c.len_store,
                           LENT(progress), c.len_progress);
}

static sedhavil_answer start(void) {
    memcpy(&before, &c, sizeof c);
    return sedhavil_start(c.rate, LENT(stages), c.len_stages, LENT(positions), c.len_positions, LENT(floats),
                          c.len_floats, LENT(store), c.len_store);
}

static sedhavil_room needed(void) {
    memcpy(&before, &c, sizeof c);
    return sedhavil_floats_needed(c.rate, LENT(stages), c.len_stages);
}

static int is(sedhavil_answer a, uint32_t number, size_t place) {
    return a.number == number && a.place == place;
}

static int room_is(sedhavil_room a, uint32_t number, size_t place, size_t floats) {
    return a.number == number && a.place == place && a.floats == floats;
}

static int unchanged(void) {
    return memcmp(&c, &before, sizeof c) == 0;
}

/* run and render answer so, and change nothing */
static void refused(uint32_t number, size_t place, const char *what) {
    check(is(run(), number, place) && unchanged(), what);
    if (number != SEDHAVIL_REFUSED_ENTRY)
        check(is(render(), number, place) && unchanged(), what);
}

/* an empty order is taken, and leaves all as it was */
static void taken(const char *what) {
    c.len_order = 0;
    check(is(run(), 0, 0) && unchanged(), what);
}

/* stages of so many words */
static void wrong_stages(size_t words, const char *what) {
    fresh(2);
    c.len_stages = words;
    c.rate = 0; /* 101 is ranked before 1 */
    refused(101, 0, what);
    check(is(start(), 101, 0) && unchanged(), what);
    check(room_is(needed(), 101, 0, 0) && unchanged(), what);
}

static void lengths(void) {
    for (size_t n = 1; n < SEDHAVIL_WORDS; n++)
        wrong_stages(n, "stages of no multiple of 12 words");
    wrong_stages(2 * 5, "two stages of 5 words");
    for (int longer = 0; longer < 2; longer++) {
        fresh(2);
        c.len_positions += longer ? 1 : (size_t)-1;
        c.stages[0] = 7; /* and before 102 */
        c.rate = 0;
        refused(101, 1, "positions");
        check(is(start(), 101, 1) && unchanged(), "start: positions");
        fresh(2);
        c.len_floats += longer ? 1 : (size_t)-1;
        c.stages[0] = 7;
        refused(101, 2, "floats");
        check(is(start(), 101, 2) && unchanged(), "start: floats");
        fresh(2);
        c.len_progress += longer ? 1 : (size_t)-1;
        c.stages[0] = 7;
        refused(101, 3, "progress");
    }
    fresh(2);
    c.len_stages = SEDHAVIL_WORDS - 1;
    c.len_positions = c.len_floats = c.len_progress = 0;
    refused(101, 0, "the first wrong length");
    c.len_stages = SEDHAVIL_WORDS;
    refused(101, 1, "the first wrong length, stages right");
}

/* the words of the second of three stages are none */
static void no_stage(const char *what) {
    c.rate = 0; /* 102 is ranked before 1 */
    refused(102, 1, what);
    check(is(start(), 102, 1) && unchanged(), what);
    check(room_is(needed(), 102, 1, 0) && unchanged(), what);
}

static void unknown(uint64_t kind, uint64_t a, uint64_t b, uint64_t k, uint64_t d, const char *what) {
    fresh(3);
    sedhavil_stage_words(stage(1), kind, a, b, k, d);
    no_stage(what);
}

/* a stage of so many words, and none once a word after them is not 0 */
static void known(size_t used, uint64_t kind, uint64_t a, uint64_t b, uint64_t k, uint64_t d,
                  const char *what) {
    fresh(3);
    sedhavil_stage_words(stage(1), kind, a, b, k, d);
    taken(what);
    for (size_t i = used; i < SEDHAVIL_WORDS; i++) {
        fresh(3);
        sedhavil_stage_words(stage(1), kind, a, b, k, d);
        stage(1)[i] = UINT64_C(1) << (5 * i);
        no_stage(what);
    }
}

static const uint64_t wide = UINT64_C(0x100000000), one = 0x3f800000, tangent = UINT64_C(0x3ff0000000000000);

static void plain_words(void) {
    unknown(7, 0, 0, 0, 0, "kind 7");
    unknown(UINT64_MAX, 0, 0, 0, 0, "kind 2^64 - 1");
    unknown(wide, 0, 0, 0, 0, "kind 2^32");
    unknown(0, UINT64_C(0x80000000), 0, 0, 0, "volume 2^31");
    unknown(0, UINT64_C(0xffffffff7fffffff), 0, 0, 0, "volume -2^31 - 1");
    known(2, 0, UINT64_C(0xffffffff80000000), 0, 0, 0, "volume -2^31");
    known(2, 0, 24, 0, 0, 0, "volume 24");
    unknown(1, wide, 0, 0, 0, "panning with a high half");
    known(2, 1, one, 0, 0, 0, "panning");
    unknown(2, 2, 0, 0, 0, "clip 2");
    unknown(2, wide, 0, 0, 0, "clip 2^32");
    unknown(2, 0, wide, 0, 0, "drive");
    unknown(2, 0, 0, wide, 0, "distortion's mix");
    known(4, 2, 1, 0, one, 0, "soft clip");
}

static void filter_words(void) {
    unknown(3, 4, tangent, 0, 0, "mode 4");
    unknown(3, wide, tangent, 0, 0, "mode 2^32");
    unknown(3, 0, tangent, 0, wide, "filter's mix");
    known(5, 3, 3, tangent, 0, one, "notch");
    unknown(4, 3, tangent, 0, tangent, "EQ kind 3");
    unknown(4, wide, tangent, 0, tangent, "EQ kind 2^32");
    unknown(4, 0, tangent, wide, tangent, "gain");
    known(5, 4, 2, tangent, UINT64_C(0xffffffffffffffe8), tangent, "high shelf at -24");
}

static void line_words(void) {
    unknown(5, wide, 0, 0, 0, "feedback");
    unknown(5, 0, wide, 0, 0, "damping");
    unknown(5, 0, 0, wide, 0, "width");
    unknown(5, 0, 0, 0, wide, "reverb's mix");
    known(5, 5, one, one, one, one, "reverb");
    unknown(6, wide, 0, 0, 0, "frames");
    unknown(6, wide + 1, 0, 0, 0, "frames 2^32 + 1");
    unknown(6, 1, wide, 0, 0, "delay's feedback");
    unknown(6, 1, 0, wide, 0, "delay's mix");
    known(5, 6, 1, 0, one, 1, "delay that owns one");
}

static void many_words(void) {
    /* all stages are looked at, those past the 16th too, and the first is given */
    fresh(20);
    stage(17)[0] = stage(19)[0] = 9;
    refused(102, 17, "the first of two, past the 16th");
    /* twelve delays of 5 words each are as many words as five stages have */
    fresh(0);
    for (size_t i = 0; i < 12; i++) {
        c.stages[5 * i] = SEDHAVIL_DELAY;
        c.stages[5 * i + 1] = 1;
        c.stages[5 * i + 3] = one;
    }
    c.len_stages = 12 * 5;
    refused(102, 0, "twelve delays of 5 words");
}

/* each kind's words, as the inline functions write them */
static void written(const uint64_t *w, uint64_t kind, uint64_t a, uint64_t b, uint64_t k, uint64_t d,
                    const char *what) {
    const uint64_t words[SEDHAVIL_WORDS] = {kind, a, b, k, d};
    check(memcmp(w, words, sizeof words) == 0, what);
}

static void builders(void) {
    uint64_t w[SEDHAVIL_WORDS];
    memset(w, 0xff, sizeof w);
    sedhavil_stage_volume_control(w, -6);
    written(w, 0, UINT64_MAX - 5, 0, 0, 0, "volume's words");
    sedhavil_stage_panning_control(w, -1.0f);
    written(w, 1, 0xbf800000, 0, 0, 0, "panning's words");
    sedhavil_stage_distortion(w, SEDHAVIL_SOFT_CLIP, 24, 0.5f);
    written(w, 2, 1, 24, 0x3f000000, 0, "distortion's words");
    sedhavil_stage_filter(w, SEDHAVIL_NOTCH, 1.0, 0.5, 1.0f);
    written(w, 3, 3, UINT64_C(0x3ff0000000000000), UINT64_C(0x3fe0000000000000), 0x3f800000,
            "filter's words");
    sedhavil_stage_eq_filter(w, SEDHAVIL_HIGH_SHELF, 1.0, -24, 0.5);
    written(w, 4, 2, UINT64_C(0x3ff0000000000000), UINT64_MAX - 23, UINT64_C(0x3fe0000000000000),
            "EQ's words");
    sedhavil_stage_reverb(w, 0.5f, 0.25f, 1.0f, -0.0f);
    written(w, 5, 0x3f000000, 0x3e800000, 0x3f800000, 0x80000000, "reverb's words");
    sedhavil_stage_delay(w, 480000, -60, 1.0f, 15);
    written(w, 6, 480000, UINT64_MAX - 59, 0x3f800000, 15, "delay's words");
}

/* refusals 1 to 3 */
static void of_the_chain(void) {
    fresh(2);
    c.rate = 7999;
    refused(1, 0, "7,999 Hz");
    check(room_is(needed(), 1, 0, 0), "floats needed at 7,999 Hz");
    c.rate = 192001;
    refused(1, 0, "192,001 Hz");
    c.rate = 8000;
    taken("8,000 Hz");
    c.rate = 192000;
    taken("192,000 Hz");
    fresh(17);
    refused(2, 0, "17 stages");
    check(room_is(needed(), 2, 0, 0), "floats needed by 17 stages");
    fresh(16);
    taken("16 stages");
    fresh(2);
    sedhavil_stage_delay(stage(1), 1, 0, 1.0f, 1);
    refused(3, 1, "a delay that owns a stage past the end");
    check(room_is(needed(), 3, 1, 0), "floats needed by a delay that owns a stage past the end");
    fresh(5);
    for (size_t i = 0; i < 4; i++)
        sedhavil_stage_delay(stage(i), 1, 0, 1.0f, 4 - i);
    refused(3, 4, "a stage nested four deep");
    sedhavil_stage_delay(stage(0), 1, 0, 1.0f, 0);
    taken("and three deep");
    fresh(0);
    taken("no stages");
}

/* refusal 4 */
static void of_settings(void) {
    fresh(2);
    sedhavil_stage_delay(stage(1), 480001, 0, 1.0f, 0);
    refused(4, 1, "a delay of 480,001 frames");
    sedhavil_stage_delay(stage(1), 0, 0, 1.0f, 0);
    refused(4, 1, "a delay of no frame");
    check(room_is(needed(), 4, 1, 0), "floats needed by a delay of no frame");
    sedhavil_stage_delay(stage(1), 480000, 0, 1.0f, 0);
    check(room_is(needed(), 0, 0, 960000), "a delay of 480,000 frames");
    sedhavil_stage_eq_filter(stage(1), SEDHAVIL_BELL, 1.0, 25, 1.0);
    refused(4, 1, "a gain of 25");
    sedhavil_stage_eq_filter(stage(1), SEDHAVIL_BELL, 1.0, 24, 1.0);
    taken("a gain of 24");
}

/* refusals 5 and 6 */
static void of_what_is_held(void) {
    fresh(1);
    check(room_is(needed(), 0, 0, 0), "a volume needs no store");
    sedhavil_stage_reverb(stage(0), 0.9f, 0.1f, 1.0f, 0.5f);
    check(room_is(needed(), 0, 0, 25450), "one reverb at 44,100 Hz");
    c.len_store = 25449;
    refused(5, 25450, "a store of 25,449 floats");
    c.len_store = 25450;
    taken("a store of 25,450 floats");
    fresh(2);
    sedhavil_stage_delay(stage(1), 5, 0, 1.0f, 0);
    c.positions[24] = 5;
    refused(6, 1, "a position past its line");
    c.positions[24] = 4;
    taken("the last position of a line");
}

/* refusals 7 to 11 */
static void of_the_block(void) {
    fresh(1);
    c.len_samples = 3;
    refused(7, 0, "an odd number of samples");
    c.len_samples = 2 * 4097;
    refused(8, 0, "4,097 frames");
    c.len_samples = 2 * 4096;
    taken("4,096 frames");
    fresh(2);
    c.progress[1] = 1;
    refused(9, 1, "a stage ahead of the one before it");
    c.progress[0] = 3;
    refused(9, 0, "a stage past the last frame");
    fresh(1);
    c.samples[3] = INFINITY;
    refused(10, 3, "an infinite sample");
    fresh(2);
    c.order[0] = 1;
    c.len_order = 2;
    refused(11, 0, "the order 1, 0");
}

/* P13: two stages, one frame */
static void orders(void) {
    fresh(2);
    c.len_samples = 2;
    c.order[1] = 1;
    c.len_order = 3;
    refused(11, 2, "the order 0, 1, 0");
    c.len_order = 2;
    check(is(run(), 0, 0), "the order 0, 1");
    check(c.progress[0] == 1 && c.progress[1] == 1 && c.progress[2] == 0, "its progress");
}

static void frame_is(float left, float right, const char *what) {
    check(memcmp(&c.samples[0], &left, sizeof left) == 0 && memcmp(&c.samples[1], &right, sizeof right) == 0,
          what);
}

/* P7, P8 and P9 */
static void values(void) {
    fresh(1);
    c.samples[0] = c.samples[1] = 3;
    sedhavil_stage_distortion(stage(0), SEDHAVIL_HARD_CLIP, 0, 1.0f);
    check(is(render(), 0, 0), "hard clip");
    frame_is(1, 1, "hard clip of 3");
    fresh(1);
    c.samples[0] = c.samples[1] = 1;
    sedhavil_stage_distortion(stage(0), SEDHAVIL_SOFT_CLIP, 0, 1.0f);
    check(is(render(), 0, 0), "soft clip");
    frame_is(0.5f, 0.5f, "soft clip of 1");
    fresh(1);
    c.samples[0] = c.samples[1] = 1;
    sedhavil_stage_panning_control(stage(0), -1.0f);
    check(is(render(), 0, 0), "panning");
    frame_is(0x1.6a09e6p+0f, 0, "panning -1");
    fresh(1);
    c.samples[0] = c.samples[1] = 1;
    sedhavil_stage_panning_control(stage(0), 0x1p-30f);
    check(is(render(), 0, 0), "panning");
    frame_is(1 - 0x1p-24f, 1 - 0x1p-24f, "panning 2^-30");
}

static int samples_are(const float *got, const float *expected, size_t samples) {
    return memcmp(got, expected, samples * sizeof *got) == 0;
}

/* P12 */
static const float impulse[6] = {1, 1, 0, 0, 0, 0}, echoed[6] = {0, 0, 1, 1, 1, 1}, silence[6];

static void one_delay(void) {
    fresh(1);
    sedhavil_stage_delay(stage(0), 1, 0, 1.0f, 0);
    check(is(start(), 0, 0), "start");
    check(c.store[0] == 0 && c.store[1] == 0 && c.store[2] == 0.125f,
          "the needed floats are cleared, and no others");
    memcpy(c.samples, impulse, sizeof impulse);
}

static void delays(void) {
    one_delay();
    c.len_samples = 6;
    check(is(render(), 0, 0) && samples_are(c.samples, echoed, 6), "a delay of 1 frame");
    check(c.progress[0] == 3 && c.store[0] == 1 && c.store[1] == 1 && c.store[2] == 0.125f, "what it leaves");
}

/* the progress that a block of two frames left, with a silent block after it, whose every frame would be 1 */
static void left_over(void) {
    const float third[6] = {0, 0, 0, 0, 1, 1}, all[4] = {1, 1, 1, 1};
    one_delay();
    check(is(render(), 0, 0) && samples_are(c.samples, echoed, 4), "the first block");
    memcpy(c.samples, silence, sizeof silence);
    check(is(render(), 0, 0) && unchanged(), "left-over progress is accepted, and nothing is rendered");
    c.len_samples = 6;
    check(is(render(), 0, 0) && samples_are(c.samples, third, 6), "only the third frame of a longer block");
    c.len_samples = 4;
    refused(9, 0, "left-over progress in a shorter block");
    c.progress[0] = 0;
    check(is(render(), 0, 0) && samples_are(c.samples, all, 4), "progress at 0 renders the block");
}

/* a start leaves memories at zero, refused 1 to 5 or not */
static void starts(void) {
    fresh(1);
    c.rate = 7999;
    c.positions[7] = 3;
    c.floats[9] = 0.5f;
    check(is(start(), 1, 0), "a refused start");
    before.positions[7] = 0;
    before.floats[9] = 0;
    check(unchanged(), "leaves memories at zero, and the rest");
}

/* slices of length 0, which are null pointers the second time: no stages, no samples, no order, no store */
static void empty_slices(void) {
    fresh(0);
    check(is(run(), 0, 0) && unchanged(), "run: no stages and no order");
    check(is(render(), 0, 0) && unchanged(), "render: no stages");
    c.len_order = 1;
    refused(11, 0, "an order for no stages");
    c.samples[1] = INFINITY;
    refused(10, 1, "an infinite sample and no stages");
    fresh(1);
    c.len_samples = 0;
    check(is(run(), 0, 0) && unchanged(), "run: no samples");
    check(is(render(), 0, 0) && unchanged(), "render: no samples");
    c.len_order = 1;
    refused(11, 0, "an order for no frames");
    fresh(1);
    sedhavil_stage_volume_control(stage(0), -60);
    c.len_store = 0;
    c.len_order = 1;
    check(is(run(), 0, 0) && c.samples[0] == 0 && c.samples[2] == 0.25f, "run: no store for a volume");
    check(is(render(), 0, 0) && samples_are(c.samples, silence, 4), "render: no store for a volume");
    sedhavil_stage_delay(stage(0), 1, 0, 1.0f, 0);
    refused(5, 2, "no store for a delay");
    fresh(0);
    c.len_samples = c.len_store = 0;
    check(is(run(), 0, 0) && unchanged(), "run: nothing at all");
    check(is(render(), 0, 0) && unchanged(), "render: nothing at all");
}

/* and slices that may not be empty */
static void missing_slices(void) {
    fresh(0);
    c.len_store = 0;
    c.positions[3] = 1;
    check(is(start(), 0, 0) && c.positions[3] == 0, "start: no stages and no store");
    check(room_is(needed(), 0, 0, 0), "no stages need no floats");
    c.rate = 7999;
    check(room_is(needed(), 1, 0, 0), "no stages at 7,999 Hz");
    fresh(1);
    sedhavil_stage_delay(stage(0), 1, 0, 1.0f, 0);
    c.len_store = 0;
    check(is(start(), 5, 2), "start: no store for a delay");
    c.len_progress = 0;
    refused(101, 3, "no progress");
    c.len_floats = 0;
    refused(101, 2, "no floats");
    check(is(start(), 101, 2) && unchanged(), "start: no floats");
    c.len_positions = 0;
    refused(101, 1, "no positions");
    check(is(start(), 101, 1) && unchanged(), "start: no positions");
}

/* ---- the functions of a chain */

static sedhavil_chain chain, other;
static float lines[STORE], other_lines[STORE], block[2 * SEDHAVIL_MAX_FRAMES + 2];
static size_t progress[SEDHAVIL_PROGRESS];

static int all_zero(const void *from, size_t bytes) {
    const unsigned char *byte = (const unsigned char *)from;
    for (size_t i = 0; i < bytes; i++)
        if (byte[i] != 0)
            return 0;
    return 1;
}

static int memories_zero(void) {
    return all_zero(chain.positions, sizeof chain.positions) && all_zero(chain.floats, sizeof chain.floats);
}

static sedhavil_answer chain_rendered(const float *samples, size_t frames) {
    memcpy(block, samples, 2 * frames * sizeof *block);
    return sedhavil_chain_render(&chain, block, frames);
}

/* P12 and, after it, a volume of 0 dB */
static void echo(void) {
    sedhavil_chain_init(&chain, 48000);
    sedhavil_stage_delay(sedhavil_chain_add(&chain), 1, 0, 1.0f, 0);
    sedhavil_stage_volume_control(sedhavil_chain_add(&chain), 0);
    check(room_is(sedhavil_chain_needed(&chain), 0, 0, 2), "an echo needs 2 floats");
    check(is(sedhavil_chain_start(&chain, lines, 2), 0, 0), "an echo is started");
}

static void chain_words(void) {
    memset(&chain, 0xff, sizeof chain);
    sedhavil_chain_init(&chain, 8000);
    check(chain.rate == 8000 && chain.count == 0 && chain.store == NULL && chain.store_length == 0, "init");
    check(memories_zero(), "init: memories");
    check(sedhavil_chain_stage(&chain, 0) == NULL, "no stage of an empty chain");
    memset(chain.stages, 0xff, sizeof chain.stages);
    uint64_t *first = sedhavil_chain_add(&chain);
    check(first == chain.stages && all_zero(first, SEDHAVIL_WORDS * sizeof *first), "the words of a new stage");
    check(chain.stages[SEDHAVIL_WORDS] == UINT64_MAX, "and no others");
    check(is(chain_rendered(echoed, 3), 0, 0) && samples_are(block, echoed, 6), "zero is a volume of 0 dB");
    check(sedhavil_chain_add(&chain) == chain.stages + SEDHAVIL_WORDS, "the second stage's words");
    check(sedhavil_chain_stage(&chain, 0) == chain.stages, "the first stage's words");
    check(sedhavil_chain_stage(&chain, 1) == chain.stages + SEDHAVIL_WORDS, "the last stage's words");
    check(sedhavil_chain_stage(&chain, 2) == NULL, "no stage past the last");
    check(sedhavil_chain_stage(&chain, SIZE_MAX) == NULL, "no stage at 2^64 - 1");
}

/* 17 stages are refused by each call, and nothing has changed */
static void too_many(const char *what) {
    memcpy(&other, &chain, sizeof chain);
    const size_t order[1] = {0};
    check(room_is(sedhavil_chain_needed(&chain), 2, 0, 0), what);
    check(is(chain_rendered(echoed, 3), 2, 0) && samples_are(block, echoed, 6), what);
    check(is(sedhavil_chain_run(&chain, block, 3, progress, order, 1), 2, 0), what);
    check(samples_are(block, echoed, 6) && progress[0] == 0, what);
    check(is(sedhavil_chain_start(&chain, NULL, 0), 2, 0), what);
    check(memcmp(&chain, &other, sizeof chain) == 0, what);
}

static void chain_places(void) {
    sedhavil_chain_init(&chain, 48000);
    for (size_t i = 0; i < 16; i++)
        sedhavil_stage_volume_control(sedhavil_chain_add(&chain), i == 15 ? -60 : 0);
    check(chain.count == 16 && sedhavil_chain_stage(&chain, 15)[1] == sedhavil_level_word(-60), "16 stages");
    check(is(chain_rendered(echoed, 3), 0, 0) && samples_are(block, silence, 6), "the 16th is run");
    uint64_t *last = sedhavil_chain_add(&chain);
    check(last == chain.stages + 16 * SEDHAVIL_WORDS, "the 17th stage's words");
    sedhavil_stage_delay(last, 1, 0, 1.0f, 1);
    check(memories_zero(), "they are written before the memories");
    too_many("17 stages");
    for (size_t i = 18; i < 20; i++) {
        check(sedhavil_chain_add(&chain) == last, "the 18th and 19th have the words of the 17th");
        check(all_zero(last, SEDHAVIL_WORDS * sizeof *last), "at zero again");
        sedhavil_stage_delay(last, 1, 0, 1.0f, 1);
    }
    check(chain.count == 17 && memories_zero(), "nothing is written past the end");
    too_many("19 stages");
}

/* a count that nobody set: 17 stages at most are read and written */
static void chain_never_set(void) {
    sedhavil_chain_init(&chain, 48000);
    for (size_t bits = 5; bits < 64; bits += 29) {
        chain.count = SIZE_MAX >> (63 - bits);
        check(sedhavil_chain_stage(&chain, 16) != NULL && sedhavil_chain_stage(&chain, 17) == NULL, "17 stages");
        too_many("a count that is too high");
        uint64_t *last = sedhavil_chain_add(&chain);
        check(last == chain.stages + 16 * SEDHAVIL_WORDS && chain.count == 17, "the words of the 17th");
    }
}

static void chain_starts(void) {
    sedhavil_chain_init(&chain, 48000);
    check(is(sedhavil_chain_start(&chain, NULL, 0), 0, 0), "no store for no stages");
    sedhavil_stage_delay(sedhavil_chain_add(&chain), 2, 0, 1.0f, 0);
    for (size_t i = 0; i < STORE; i++)
        lines[i] = 0.125f;
    check(is(chain_rendered(impulse, 3), 5, 4) && samples_are(block, impulse, 6), "no start, so no store");
    chain.positions[0] = 1;
    check(is(sedhavil_chain_start(&chain, lines, 3), 5, 4) && memories_zero(), "a store of 3 floats");
    check(lines[0] == 0.125f && chain.store == NULL && chain.store_length == 0, "is not kept");
    check(is(sedhavil_chain_start(&chain, NULL, 4), 5, 4), "a null store has no floats, whatever is said");
    check(is(sedhavil_chain_start(&chain, lines, 5), 0, 0), "a store of 5 floats");
    check(all_zero(lines, 4 * sizeof *lines) && lines[4] == 0.125f, "the needed floats are cleared");
    check(chain.store == lines && chain.store_length == 5, "and the store is kept");
    check(is(chain_rendered(impulse, 3), 0, 0) && block[4] == 1, "for blocks to come");
    check(chain.positions[0] == 1 && is(sedhavil_chain_start(&chain, lines, 5), 0, 0), "the next start");
    check(memories_zero() && all_zero(lines, 4 * sizeof *lines), "clears again");
    sedhavil_stage_delay(sedhavil_chain_stage(&chain, 0), 0, 0, 1.0f, 0);
    check(is(sedhavil_chain_start(&chain, lines, 5), 4, 0), "a refused start");
    sedhavil_stage_delay(sedhavil_chain_stage(&chain, 0), 2, 0, 1.0f, 0);
    check(is(chain_rendered(impulse, 3), 5, 4), "leaves the chain without a store");
}

/* a silent block after a block of the same length, and after one of another */
static void chain_blocks(void) {
    const float all[6] = {1, 1, 1, 1, 1, 1};
    echo();
    check(is(chain_rendered(impulse, 3), 0, 0) && samples_are(block, echoed, 6), "whole");
    check(is(chain_rendered(silence, 3), 0, 0) && samples_are(block, all, 6), "no progress is left over");
    check(is(chain_rendered(silence, 2), 0, 0) && samples_are(block, all, 4), "nor for a shorter block");
    check(is(chain_rendered(silence, 3), 0, 0) && samples_are(block, all, 6), "nor for a longer one");
    echo();
    check(is(chain_rendered(impulse, 1), 0, 0) && samples_are(block, echoed, 2), "in parts, the first");
    check(is(chain_rendered(impulse + 2, 2), 0, 0) && samples_are(block, echoed + 2, 4), "and the rest");
    check(is(sedhavil_chain_render(&chain, NULL, 0), 0, 0) && chain.store[0] == 1, "a block of no frames");
}

/* P13 and the steps of three frames, cut after the third step */
static void chain_orders(void) {
    const size_t ahead[2] = {1, 0}, first[3] = {0, 0, 1}, rest[3] = {1, 0, 1};
    echo();
    memset(progress, 0, sizeof progress);
    memcpy(block, impulse, sizeof impulse);
    memcpy(&other, &chain, sizeof chain);
    check(is(sedhavil_chain_run(&chain, block, 3, progress, ahead, 2), 11, 0), "the order 1, 0");
    check(samples_are(block, impulse, 6) && all_zero(progress, sizeof progress), "changes nothing of a block");
    check(memcmp(&chain, &other, sizeof chain) == 0 && lines[0] == 0, "nor of the chain");
    check(is(sedhavil_chain_run(&chain, block, 3, progress, first, 3), 0, 0), "the order 0, 0, 1");
    check(progress[0] == 2 && progress[1] == 1 && progress[2] == 0, "its progress");
    check(is(sedhavil_chain_run(&chain, NULL, 0, progress, NULL, 0), 9, 0), "progress in a block of no frames");
    check(is(sedhavil_chain_run(&chain, block, 3, progress, NULL, 0), 0, 0), "an empty order");
    check(progress[0] == 2 && progress[1] == 1, "runs nothing");
    check(is(sedhavil_chain_run(&chain, block, 3, progress, rest, 3), 0, 0), "the order 1, 0, 1");
    check(progress[0] == 3 && progress[1] == 3 && samples_are(block, echoed, 6), "the block is finished");
}

static void chain_frames(void) {
    const size_t wrapped = SIZE_MAX / 2 + 2; /* twice as many are 2 */
    sedhavil_chain_init(&chain, 48000);
    sedhavil_stage_volume_control(sedhavil_chain_add(&chain), -60);
    memset(progress, 0, sizeof progress);
    for (size_t i = 0; i < 2 * SEDHAVIL_MAX_FRAMES + 2; i++)
        block[i] = 0.25f;
    check(is(sedhavil_chain_render(&chain, block, 4097), 8, 0) && block[0] == 0.25f, "4,097 frames");
    check(is(sedhavil_chain_render(&chain, block, wrapped), 8, 0) && block[0] == 0.25f, "2^63 + 1 frames");
    check(is(sedhavil_chain_run(&chain, block, wrapped, progress, progress, 1), 8, 0), "in steps");
    check(is(sedhavil_chain_render(&chain, block, 4096), 0, 0) && all_zero(block, 8192 * sizeof *block),
          "4,096 frames");
    check(block[8192] == 0.25f && block[8193] == 0.25f, "and no more");
}

/* the third block of the example, with its feedback at so many dB */
static void changed(int32_t feedback, float third) {
    const float second[4] = {1, 1, 0, 0}, last[4] = {third, third, 0, 0};
    sedhavil_chain_init(&chain, 48000);
    sedhavil_stage_delay(sedhavil_chain_add(&chain), 2, 0, 1.0f, 0);
    check(is(sedhavil_chain_start(&chain, lines, 4), 0, 0), "start");
    check(is(chain_rendered(impulse, 2), 0, 0) && samples_are(block, silence, 4), "block 1");
    check(is(chain_rendered(silence, 2), 0, 0) && samples_are(block, second, 4), "block 2");
    sedhavil_stage_delay(sedhavil_chain_stage(&chain, 0), 2, feedback, 1.0f, 0);
    check(is(chain_rendered(silence, 2), 0, 0) && samples_are(block, last, 4), "block 3");
}

/* every kind of stage: 0 owns 1 to 3, 2 owns 3, and the other five are top stages too */
static void every_kind(void) {
    sedhavil_chain_init(&chain, 8000);
    sedhavil_stage_delay(sedhavil_chain_add(&chain), 3, -6, 0.5f, 3);
    sedhavil_stage_filter(sedhavil_chain_add(&chain), SEDHAVIL_LOW_PASS, 0.5, 0.25, 1.0f);
    sedhavil_stage_delay(sedhavil_chain_add(&chain), 2, -3, 0.5f, 1);
    sedhavil_stage_panning_control(sedhavil_chain_add(&chain), 0.25f);
    sedhavil_stage_reverb(sedhavil_chain_add(&chain), 0.9f, 0.1f, 1.0f, 0.5f);
    sedhavil_stage_eq_filter(sedhavil_chain_add(&chain), SEDHAVIL_BELL, 0.5, 6, 1.0);
    sedhavil_stage_distortion(sedhavil_chain_add(&chain), SEDHAVIL_SOFT_CLIP, 6, 0.5f);
    sedhavil_stage_panning_control(sedhavil_chain_add(&chain), -0.5f);
    sedhavil_stage_volume_control(sedhavil_chain_add(&chain), 3);
    for (size_t i = 0; i < STORE; i++)
        lines[i] = 0.125f;
    check(is(sedhavil_chain_start(&chain, lines, STORE), 0, 0), "every kind is started");
}

/* c has the chain's stages */
static void as_flat(void) {
    c.rate = chain.rate;
    c.len_stages = chain.count * SEDHAVIL_WORDS;
    memcpy(c.stages, chain.stages, c.len_stages * sizeof *c.stages);
}

/* what c and the chain hold has the same bits */
static int same(void) {
    return memcmp(chain.positions, c.positions, sizeof chain.positions) == 0 &&
           memcmp(chain.floats, c.floats, sizeof chain.floats) == 0 &&
           memcmp(lines, c.store, sizeof lines) == 0;
}

/* a block of noise, the same in both */
static void noise(size_t frames) {
    static uint32_t seed = 1;
    for (size_t i = 0; i < 2 * frames; i++) {
        seed = seed * 1664525u + 1013904223u;
        block[i] = c.samples[i] = (float)(seed >> 8) * 0x1p-24f - 0.5f;
    }
    c.len_samples = 2 * frames;
    memset(c.progress, 0, sizeof c.progress);
}

/* a chain's functions are those beneath */
static void agrees(void) {
    const size_t frames[3] = {700, 64, 7};
    every_kind();
    fresh(0);
    as_flat();
    sedhavil_room room = sedhavil_chain_needed(&chain);
    check(room.number == 0 && room.floats > 10 && room_is(needed(), 0, 0, room.floats), "the same room");
    check(is(start(), 0, 0) && same(), "the same start");
    for (size_t i = 0; i < 3; i++) {
        noise(frames[i]);
        check(is(sedhavil_chain_render(&chain, block, frames[i]), 0, 0), "a chain's block");
        check(is(render(), 0, 0) && memcmp(c.samples, before.samples, sizeof c.samples) != 0, "a flat block");
        check(samples_are(block, c.samples, c.len_samples) && same(), "the same block");
        sedhavil_stage_reverb(sedhavil_chain_stage(&chain, 4), 0.5f, 0.5f, 0.5f, 1.0f);
        as_flat();
    }
    const size_t order[4] = {0, 1, 0, 2};
    noise(2);
    memset(progress, 0, sizeof progress);
    memcpy(c.order, order, sizeof order);
    c.len_order = 4;
    check(is(sedhavil_chain_run(&chain, block, 2, progress, order, 4), 0, 0) && is(run(), 0, 0), "steps");
    check(samples_are(block, c.samples, 4) && same(), "the same steps");
    check(progress[0] == 2 && memcmp(progress, c.progress, sizeof progress) == 0, "the same progress");
}

/* a chain and its store, saved and restored as a whole, go on as if nothing had been */
static void saved(void) {
    every_kind();
    noise(700);
    check(is(sedhavil_chain_render(&chain, block, 700), 0, 0), "before it is saved");
    memcpy(&other, &chain, sizeof chain);
    memcpy(other_lines, lines, sizeof lines);
    other.store = other_lines;
    noise(300);
    check(is(sedhavil_chain_render(&chain, block, 300), 0, 0), "going on");
    check(memcmp(lines, other_lines, sizeof lines) != 0, "its lines have changed");
    check(is(sedhavil_chain_render(&other, c.samples, 300), 0, 0), "restored");
    check(samples_are(block, c.samples, 600) && memcmp(lines, other_lines, sizeof lines) == 0, "the same bits");
    other.store = lines;
    check(memcmp(&chain, &other, sizeof chain) == 0, "the same memories");
}

static void *idle(void *answer) {
    *(sedhavil_answer *)answer = (sedhavil_answer){0, 0};
    return NULL;
}

static void *rendering(void *answer) {
    *(sedhavil_answer *)answer = sedhavil_chain_render(&chain, block, 1);
    return NULL;
}

/* how much of the smallest stack that sedhavil.h asks for a thread has used, once it is done */
static size_t stack_of(void *(*work)(void *)) {
    static _Alignas(4096) unsigned char bytes[STACK];
    sedhavil_answer answer = {1, 0};
    pthread_attr_t attributes;
    pthread_t thread;
    memset(bytes, 0xa5, sizeof bytes);
    check(pthread_attr_init(&attributes) == 0 && pthread_attr_setstack(&attributes, bytes, STACK) == 0 &&
              pthread_create(&thread, &attributes, work, &answer) == 0 && pthread_join(thread, NULL) == 0,
          "a thread");
    check(is(answer, 0, 0), "its answer");
    pthread_attr_destroy(&attributes);
    size_t unused = 0;
    while (unused < STACK && bytes[unused] == 0xa5)
        unused++;
    return STACK - unused;
}

/* the deepest chain seen */
static void stack(void) {
    sedhavil_chain_init(&chain, 8000);
    for (size_t owned = 15; owned > 12; owned--)
        sedhavil_stage_delay(sedhavil_chain_add(&chain), 1, -6, 0.5f, owned);
    for (size_t i = 3; i < 15; i++)
        sedhavil_stage_volume_control(sedhavil_chain_add(&chain), 0);
    sedhavil_stage_reverb(sedhavil_chain_add(&chain), 0.5f, 0.5f, 0.5f, 0.5f);
    check(is(sedhavil_chain_start(&chain, lines, STORE), 0, 0), "16 stages, nested three deep");
    const size_t own = stack_of(idle), all = stack_of(rendering);
    check(all < STACK - 4096, "96 kB are enough, with 4 kB to spare");
    check(all - own <= 63000, "a call takes 62 kB");
}

/* ---- WAV files */

/* document 01's whole case, of 52 bytes */
static const uint8_t file[52] = {
    0x52, 0x49, 0x46, 0x46, 0x2C, 0x00, 0x00, 0x00, 0x57, 0x41, 0x56, 0x45, 0x66, 0x6D, 0x74, 0x20, 0x10, 0x00,
    0x00, 0x00, 0x01, 0x00, 0x02, 0x00, 0x80, 0xBB, 0x00, 0x00, 0x00, 0xEE, 0x02, 0x00, 0x04, 0x00, 0x10, 0x00,
    0x64, 0x61, 0x74, 0x61, 0x08, 0x00, 0x00, 0x00, 0x00, 0x40, 0x00, 0xC0, 0xFF, 0x7F, 0x00, 0x80};

/* its header, with one byte changed, is answered so */
static void header_is(size_t at, uint8_t byte, size_t length, uint32_t highest, uint32_t number,
                      const char *what) {
    uint8_t bytes[52];
    memcpy(bytes, file, sizeof bytes);
    bytes[at] = byte;
    sedhavil_header h = sedhavil_wav_header(bytes, length, highest);
    check(h.number == number && h.rate == (number ? 0 : 48000) && h.size == (number ? 0 : 8), what);
}

static void headers(void) {
    header_is(0, 0x52, 52, 192000, 0, "the whole case's header");
    header_is(0, 0x52, 44, 48000, 0, "44 bytes, and its own rate as the highest");
    header_is(0, 0x52, 44, 47999, 23, "47,999 as the highest");
    header_is(0, 0x53, 43, 0, 25, "43 bytes, before all else");
    header_is(0, 0x53, 44, 0, 21, "SIFF, before the rate");
    header_is(4, 0x2B, 44, 192000, 21, "RIFF size not data size + 36");
    header_is(16, 0x12, 44, 192000, 21, "fmt size 18");
    header_is(20, 0x03, 44, 0, 22, "tag 3, before the rate");
    header_is(22, 0x01, 44, 192000, 22, "one channel");
    header_is(28, 0x01, 44, 192000, 22, "byte rate not 4R");
    check(sedhavil_wav_header(file, 0, 192000).number == 25, "no bytes");
    check(sedhavil_wav_header(NULL, 0, 192000).number == 25, "a null pointer");
    uint8_t odd[44];
    memcpy(odd, file, sizeof odd);
    odd[40] = 0x0A;
    odd[4] = 0x2E;
    check(sedhavil_wav_header(odd, 44, 47999).number == 23, "the rate before the size");
    check(sedhavil_wav_header(odd, 44, 48000).number == 24, "10 bytes of data");
}

static void frames(void) {
    const float in[5] = {0.5f, -0.5f, 32767 / 32768.0f, -1, 7};
    float samples[5] = {7, 7, 7, 7, 7};
    check(sedhavil_wav_frames_in(file + 44, 8, samples, 5) == 2 && samples_are(samples, in, 5), "s / 32768");
    uint8_t bytes[11];
    memset(bytes, 0x55, sizeof bytes);
    check(sedhavil_wav_frames_out(samples, 5, bytes, 11) == 2 && memcmp(bytes, file + 44, 8) == 0, "and back");
    check(bytes[8] == 0x55 && bytes[9] == 0x55 && bytes[10] == 0x55, "what lies past the frames");
    check(sedhavil_wav_frames_in(file + 44, 7, samples, 5) == 1, "7 bytes are one frame");
    check(sedhavil_wav_frames_out(samples, 4, bytes, 7) == 1, "and so many are written");
    check(sedhavil_wav_frames_in(file + 44, 8, samples, 1) == 0, "one sample is no frame");
    check(sedhavil_wav_frames_in(NULL, 0, samples, 5) == 0 && samples_are(samples, in, 5), "in: no bytes");
    check(sedhavil_wav_frames_in(file + 44, 8, NULL, 0) == 0, "in: no samples");
    check(sedhavil_wav_frames_in(NULL, 0, NULL, 0) == 0, "in: neither");
    check(sedhavil_wav_frames_out(NULL, 0, bytes, 8) == 0 && bytes[0] == file[44], "out: no samples");
    check(sedhavil_wav_frames_out(samples, 4, NULL, 0) == 0, "out: no bytes");
    check(sedhavil_wav_frames_out(NULL, 0, NULL, 0) == 0, "out: neither");
}

/* 32768 x is 0.5, 1.5, 2.5, -0.5, -1.5, over either end, infinite and NaN */
static void rounding(void) {
    const float x[10] = {0x1p-16f, 0x1.8p-15f, 0x1.4p-14f, -0x1p-16f, -0x1.8p-15f,
                         1, -0x1.00002p+0f, INFINITY, -INFINITY, NAN};
    const uint8_t out[20] = {0,    0,    2,    0,    2,    0,    0,    0,    0xFE, 0xFF,
                             0xFF, 0x7F, 0x00, 0x80, 0xFF, 0x7F, 0x00, 0x80, 0,    0};
    uint8_t got[20];
    check(sedhavil_wav_frames_out(x, 10, got, 20) == 5 && memcmp(got, out, sizeof out) == 0,
          "ties to even, clamped to 16 bits");
}

static void beneath(void) {
    lengths();
    plain_words();
    filter_words();
    line_words();
    many_words();
    builders();
    of_the_chain();
    of_settings();
    of_what_is_held();
    of_the_block();
    orders();
    values();
    delays();
    left_over();
    starts();
    for (nulls = 0; nulls < 2; nulls++) {
        empty_slices();
        missing_slices();
    }
}

static void of_a_chain(void) {
    chain_words();
    chain_places();
    chain_never_set();
    chain_starts();
    chain_blocks();
    chain_orders();
    chain_frames();
    changed(0, 1);
    changed(-60, 0);
    changed(20, 10);
    agrees();
    saved();
    stack();
}

int main(void) {
    check(sedhavil_layout_version() == SEDHAVIL_LAYOUT_VERSION, "the layout's version");
    beneath();
    of_a_chain();
    headers();
    frames();
    rounding();
    printf("C: %d checks, %d failed\n", checks, failures);
    return failures != 0;
}
