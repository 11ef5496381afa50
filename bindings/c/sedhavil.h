/* Sedhavil for C, on x86-64 Linux: the audio effects of the Rust library kira, every bit of output proved.
 *
 *     bindings/library               writes target/staticlib/libsedhavil.a, for chains, and libsedhavil_wav.a, for
 *                                    WAV files
 *     cc -Ibindings/c host.c target/staticlib/libsedhavil.a -o host      and libsedhavil_wav.a for WAV files
 *
 * A chain of at most 16 stages works on blocks of at most 4,096 stereo frames. The ordinary way, which
 * example.c goes in full:
 *
 *     sedhavil_chain chain;
 *     sedhavil_chain_init(&chain, 48000);
 *     sedhavil_stage_delay(sedhavil_chain_add(&chain), 24000, -6, 0.5f, 0);
 *     sedhavil_room room = sedhavil_chain_needed(&chain);      how long a store has to be
 *     sedhavil_chain_start(&chain, store, room.floats);        a store of your own
 *     sedhavil_chain_render(&chain, samples, frames);          block after block
 *
 * Sections: answers, a chain, stages, WAV files, the functions beneath.
 *
 * The library keeps nothing between calls: all that it works on is lent to it. What is proved, for all
 * values of the arguments, is each answer and what a call leaves in all that was lent (crates/sedhavil and
 * crates/sedhavil_wav, with specs/ to read). The caller sees to it that
 *   - each pointer points to as many elements as its length says. With length 0 any pointer is fine, a null
 *     pointer too (an empty C++ vector has one);
 *   - what is lent to be changed overlaps nothing else that is lent, and nobody else uses it meanwhile;
 *   - there is room on the stack. A render or a run takes about 36 kB, and 62 kB at the deepest seen (a delay
 *     that owns the 15 other stages, nested three deep), so give a thread at least 96 kB;
 *   - the floating-point unit is in its default mode: rounding to nearest, no flush-to-zero, no
 *     denormals-are-zero. An audio host that sets FTZ or DAZ (MXCSR) gets other bits wherever a number
 *     below 2^-126 turns up: set the default mode around a call.
 * All NaNs count as one value: the bits of a NaN are not promised.
 */
#ifndef SEDHAVIL_H
#define SEDHAVIL_H

#include <stddef.h>
#include <stdint.h>
#include <string.h>

#ifdef __cplusplus
extern "C" {
#endif

/* ---- Answers ----------------------------------------------------------------------------------------
 *
 * Number 0 is yes. Any other is a refusal, and then nothing that was lent has changed (but see the two
 * starts).
 *
 *   number  refused because                                        place
 *   101     a slice has the wrong length                           0 stages, 1 positions, 2 floats, 3 progress
 *   102     the words of a stage are no stage (see: stages)        the first such stage
 *   1       the rate is below 8,000 or above 192,000               0
 *   2       there are more than 16 stages                          0
 *   3       a delay owns too many stages, or a stage is too deep   the first such stage
 *   4       a setting is not finite or not in its range            the first such stage
 *   5       the store is too short, or the chain not started       the floats needed
 *   6       a remembered position is not on its line               the first such stage
 *   7       the number of samples is odd                           0
 *   8       there are more than 4,096 frames                       0
 *   9       a progress is past the last frame or the stage before  the first such top stage
 *   10      a sample that is still to be run is not finite         the first such sample
 *   11      an entry of the order cannot be run                    the first such entry
 *
 * The first that applies is given: 101, then 102 (of all stages, those past the 16th too), then 1 to 11.
 * Stages are counted in the list from 0. Top stages are those that no delay owns; progress and orders count
 * only them, from 0. */

enum {
    SEDHAVIL_ACCEPTED = 0,
    SEDHAVIL_REFUSED_RATE = 1,
    SEDHAVIL_REFUSED_STAGES = 2,
    SEDHAVIL_REFUSED_SHAPE = 3,
    SEDHAVIL_REFUSED_SETTING = 4,
    SEDHAVIL_REFUSED_STORE = 5,
    SEDHAVIL_REFUSED_POSITION = 6,
    SEDHAVIL_REFUSED_SAMPLES = 7,
    SEDHAVIL_REFUSED_FRAMES = 8,
    SEDHAVIL_REFUSED_PROGRESS = 9,
    SEDHAVIL_REFUSED_SAMPLE = 10,
    SEDHAVIL_REFUSED_ENTRY = 11,
    SEDHAVIL_REFUSED_LENGTH = 101,
    SEDHAVIL_REFUSED_UNKNOWN = 102
};

typedef struct {
    uint32_t number;
    size_t place; /* 0 where the number is */
} sedhavil_answer;

/* The answer to how many floats a store needs. */
typedef struct {
    uint32_t number;
    size_t place;  /* 0 where the number is */
    size_t floats; /* 0 where the number is not */
} sedhavil_room;

/* ---- A chain ------------------------------------------------------------------------------------------- */

#define SEDHAVIL_PLACES 16       /* how many stages a chain has at most */
#define SEDHAVIL_MAX_FRAMES 4096 /* how many frames a block has at most */

/* How many elements some slices must have. */
#define SEDHAVIL_WORDS 12                         /* for each stage */
#define SEDHAVIL_POSITIONS (24 * SEDHAVIL_PLACES)
#define SEDHAVIL_FLOATS (20 * SEDHAVIL_PLACES)
#define SEDHAVIL_PROGRESS SEDHAVIL_PLACES         /* one for each top stage; the rest are ignored */

/* Stages and what they remember, in 6 kB, and a store that the caller lends. The memories (positions and
 * floats) are opaque: which entry is whose may change with the layout version. All zero is a fresh start. They
 * may be saved and restored as a whole, together with the store, under the same layout version. */
typedef struct sedhavil_chain {
    uint32_t rate;
    size_t count; /* stages added; 17 are refused, with 2 */
    /* one place more than a chain may have, so that a 17th stage is refused and not lost */
    uint64_t stages[(SEDHAVIL_PLACES + 1) * SEDHAVIL_WORDS];
    size_t positions[SEDHAVIL_POSITIONS];
    float floats[SEDHAVIL_FLOATS];
    float *store; /* the lines of reverbs and delays, or null */
    size_t store_length;
} sedhavil_chain;

/* No stages, no store, memories at zero. */
static inline void sedhavil_chain_init(sedhavil_chain *chain, uint32_t rate);

/* The words of one more stage, for one of the functions sedhavil_stage_... to write. They are zero until then,
 * which is a volume of 0 dB. The 17th stage is refused by the calls below; every one after it gets the words
 * of the 17th again. */
static inline uint64_t *sedhavil_chain_add(sedhavil_chain *chain);

/* The words of a stage that was added, to change its settings between blocks; null if there is none at `at`.
 * Start again after a change of a stage's kind, of a delay's frames or owned stages, of the rate or of the
 * number of stages: lines move in the store, and stages would go on with what others left there. No call is
 * sure to notice. All other settings may change and the chain goes on. */
static inline uint64_t *sedhavil_chain_stage(sedhavil_chain *chain, size_t at);

/* How many floats the store needs. Refusals 102 and 1 to 4. */
static inline sedhavil_room sedhavil_chain_needed(const sedhavil_chain *chain);

/* A fresh start: memories are zero, the needed floats of the store are cleared, and the chain keeps the store
 * for the calls to come. Refusals 102 and 1 to 5: then the chain has no store, so that it cannot go on with one
 * that was not cleared. A null store counts as one of no floats, and is enough for a chain without reverbs and
 * delays. A store may be longer than it needs to be; what lies past the needed floats never changes. */
static inline sedhavil_answer sedhavil_chain_start(sedhavil_chain *chain, float *store, size_t store_length);

/* Renders a new block: every stage from its first frame to its last. The samples are left and right in turn,
 * two for each frame, and the result is in their place. Refusals 102, 1 to 6, 8 and 10. */
static inline sedhavil_answer sedhavil_chain_render(sedhavil_chain *chain, float *samples, size_t frames);

/* Runs single steps: each entry of the order names a top stage, which is run on its next frame. The progress,
 * SEDHAVIL_PROGRESS numbers, says how many frames of this block each top stage has run: set it to 0 for a new
 * block, and hand it in again as it came back to go on with the same one; progress that is left over from
 * another block gets 9 or 11. An order need not finish the block. What a finished block comes to does not depend
 * on the order. Refusals 102, 1 to 6 and 8 to 11. */
static inline sedhavil_answer sedhavil_chain_run(sedhavil_chain *chain, float *samples, size_t frames,
                                                 size_t *progress, const size_t *order, size_t order_length);

/* ---- Stages --------------------------------------------------------------------------------------------
 *
 * A stage is twelve words: the kind, then its numbers, then zeros. The functions below write all twelve. A host
 * that writes words itself: a kind, a clip, a mode, frames and owned stages are themselves, a level in whole
 * dB is its two's complement of 64 bits, an f32 is its bits in the low half, an f64 is its bits.
 *
 * A word with bits set above its value is refused with 102, never cut off: an f32 whose high half is not 0, a
 * level that does not fit 32 bits with its sign, frames of 2^32 or more, a code that no kind, clip or mode has.
 * So is any word after the last number that is not 0.
 *
 * The layout version goes up with each change of what a word or a memory means. Words of another layout may get
 * 102, but need not. So a host that may meet another library than its header's asks before its first call
 * whether sedhavil_layout_version(), the library's, is SEDHAVIL_LAYOUT_VERSION, the header's. */

#define SEDHAVIL_LAYOUT_VERSION 1

uint32_t sedhavil_layout_version(void);

enum {
    SEDHAVIL_VOLUME_CONTROL = 0,
    SEDHAVIL_PANNING_CONTROL = 1,
    SEDHAVIL_DISTORTION = 2,
    SEDHAVIL_FILTER = 3,
    SEDHAVIL_EQ_FILTER = 4,
    SEDHAVIL_REVERB = 5,
    SEDHAVIL_DELAY = 6
};

typedef enum { SEDHAVIL_HARD_CLIP = 0, SEDHAVIL_SOFT_CLIP = 1 } sedhavil_clip;
typedef enum {
    SEDHAVIL_LOW_PASS = 0,
    SEDHAVIL_BAND_PASS = 1,
    SEDHAVIL_HIGH_PASS = 2,
    SEDHAVIL_NOTCH = 3
} sedhavil_mode;
typedef enum { SEDHAVIL_BELL = 0, SEDHAVIL_LOW_SHELF = 1, SEDHAVIL_HIGH_SHELF = 2 } sedhavil_eq_kind;

static inline uint64_t sedhavil_level_word(int32_t decibels) {
    return (uint64_t)(int64_t)decibels;
}

static inline uint64_t sedhavil_single_word(float x) {
    uint32_t bits;
    memcpy(&bits, &x, sizeof bits);
    return bits;
}

static inline uint64_t sedhavil_double_word(double x) {
    uint64_t bits;
    memcpy(&bits, &x, sizeof bits);
    return bits;
}

/* the kind and four numbers, and 0 in the words after them */
static inline void sedhavil_stage_words(uint64_t *stage, uint64_t kind, uint64_t a, uint64_t b, uint64_t c,
                                        uint64_t d) {
    const uint64_t words[SEDHAVIL_WORDS] = {kind, a, b, c, d};
    memcpy(stage, words, sizeof words);
}

/* volume: whole dB, at most 24; from -60 down is silence */
static inline void sedhavil_stage_volume_control(uint64_t *stage, int32_t volume) {
    sedhavil_stage_words(stage, SEDHAVIL_VOLUME_CONTROL, sedhavil_level_word(volume), 0, 0, 0);
}

/* panning: from -1, left, to 1, right; beyond is clamped */
static inline void sedhavil_stage_panning_control(uint64_t *stage, float panning) {
    sedhavil_stage_words(stage, SEDHAVIL_PANNING_CONTROL, sedhavil_single_word(panning), 0, 0, 0);
}

/* drive: whole dB, -59 to 24. mix, here and below: from 0, dry, to 1, wet; beyond is clamped */
static inline void sedhavil_stage_distortion(uint64_t *stage, sedhavil_clip kind, int32_t drive, float mix) {
    sedhavil_stage_words(stage, SEDHAVIL_DISTORTION, (uint64_t)kind, sedhavil_level_word(drive),
                         sedhavil_single_word(mix), 0);
}

/* tangent: not a frequency, which would be taken and mean something else, but tan(pi * f / rate) of one, where
 * kira clamps f / rate to 0.0001..0.5: tan(3.141592653589793 * fmin(fmax(f / rate, 0.0001), 0.5)) with math.h.
 * 2^-13 to 10^17 is taken. resonance: 0 to 1; beyond is clamped */
static inline void sedhavil_stage_filter(uint64_t *stage, sedhavil_mode mode, double tangent, double resonance,
                                         float mix) {
    sedhavil_stage_words(stage, SEDHAVIL_FILTER, (uint64_t)mode, sedhavil_double_word(tangent),
                         sedhavil_double_word(resonance), sedhavil_single_word(mix));
}

/* tangent: as a filter has it. gain: whole dB, -24 to 24. q: 0 to 1,000; below 0.01 counts as 0.01 */
static inline void sedhavil_stage_eq_filter(uint64_t *stage, sedhavil_eq_kind kind, double tangent,
                                            int32_t gain, double q) {
    sedhavil_stage_words(stage, SEDHAVIL_EQ_FILTER, (uint64_t)kind, sedhavil_double_word(tangent),
                         sedhavil_level_word(gain), sedhavil_double_word(q));
}

/* feedback, damping, stereo_width: each 0 to 1 */
static inline void sedhavil_stage_reverb(uint64_t *stage, float feedback, float damping, float stereo_width,
                                         float mix) {
    sedhavil_stage_words(stage, SEDHAVIL_REVERB, sedhavil_single_word(feedback),
                         sedhavil_single_word(damping), sedhavil_single_word(stereo_width),
                         sedhavil_single_word(mix));
}

/* frames: 1 to 480,000. feedback: whole dB, at most 24. It scales every echo, the first one too: from -60 down
 * there is no echo at all. owned: how many of the stages after it, nested ones counted, are its feedback stages.
 * Nothing is nested more than three deep */
static inline void sedhavil_stage_delay(uint64_t *stage, uint32_t frames, int32_t feedback, float mix,
                                        size_t owned) {
    sedhavil_stage_words(stage, SEDHAVIL_DELAY, frames, sedhavil_level_word(feedback),
                         sedhavil_single_word(mix), owned);
}

/* ---- WAV files -----------------------------------------------------------------------------------------
 *
 * 16-bit stereo samples: two bytes a sample, the low one first, and four a frame.
 *
 *   number  the header is refused because
 *   21      a chunk name is wrong, fmt's size is not 16, or RIFF's is not that of the data + 36
 *   22      it is not tag 1, two channels, 16 bits, blocks of 4 and a byte rate of four times the rate
 *   23      the rate is below 8,000, above 192,000 or above the one asked for
 *   24      the size of the data is not a multiple of 4
 *   25      there are fewer than 44 bytes
 *
 * The first that applies is given: 25, then 21 to 24. */

enum {
    SEDHAVIL_WAV_HEADER = 44, /* the bytes of a header; the data follow */
    SEDHAVIL_WAV_READ = 0,
    SEDHAVIL_WAV_REFUSED_NAMES = 21,
    SEDHAVIL_WAV_REFUSED_FORMAT = 22,
    SEDHAVIL_WAV_REFUSED_RATE = 23,
    SEDHAVIL_WAV_REFUSED_SIZE = 24,
    SEDHAVIL_WAV_REFUSED_SHORT = 25
};

typedef struct {
    uint32_t number;
    uint32_t rate; /* 0 where the number is not, and so is the size */
    uint32_t size; /* the bytes of data to come */
} sedhavil_header;

/* What the first 44 bytes say to a program that takes rates up to `highest`. */
sedhavil_header sedhavil_wav_header(const uint8_t *bytes, size_t bytes_length, uint32_t highest);

/* Bytes become samples, each s / 32768, and samples become bytes, each the nearest whole number to 32768 x,
 * ties to even, clamped to -32768..32767, NaN as 0. As many whole frames go over as both sides have room for,
 * and their number is the answer. What lies past them stays as it was. */
size_t sedhavil_wav_frames_in(const uint8_t *bytes, size_t bytes_length, float *samples, size_t samples_length);
size_t sedhavil_wav_frames_out(const float *samples, size_t samples_length, uint8_t *bytes,
                               size_t bytes_length);

/* ---- The functions beneath -----------------------------------------------------------------------------
 *
 * What the functions of a chain call. Each slice is a pointer and its length in elements.
 *
 * stages       SEDHAVIL_WORDS words for each stage
 * samples      left and right in turn; changed
 * positions,   the memories, of SEDHAVIL_POSITIONS and SEDHAVIL_FLOATS elements; changed
 *   floats
 * store        the lines of reverbs and delays; changed, but never past the floats needed
 * progress     how many frames of this block each top stage has run, SEDHAVIL_PROGRESS elements; changed
 * order        each entry names a top stage, which is run on its next frame
 */

/* Runs stages by an order, which need not finish the block. */
sedhavil_answer sedhavil_run(uint32_t rate, const uint64_t *stages, size_t stages_length, float *samples,
                             size_t samples_length, size_t *positions, size_t positions_length, float *floats,
                             size_t floats_length, float *store, size_t store_length, size_t *progress,
                             size_t progress_length, const size_t *order, size_t order_length);

/* Runs every stage from its progress to the last frame: what sedhavil_run leaves with any order that finishes
 * the block. Progress then stands at the last frame, so a new block needs it set to 0. Progress left over from
 * the last block is accepted and renders nothing (if that block was shorter: only the frames past its length;
 * if longer: refusal 9). With sedhavil_chain_render, which has its own progress, this cannot happen. */
sedhavil_answer sedhavil_render(uint32_t rate, const uint64_t *stages, size_t stages_length, float *samples,
                                size_t samples_length, size_t *positions, size_t positions_length,
                                float *floats, size_t floats_length, float *store, size_t store_length,
                                size_t *progress, size_t progress_length);

/* A fresh start: refusals 101, 102 and 1 to 5, then the needed floats of the store are cleared. Positions and
 * floats are zero afterwards, refused 1 to 5 or not; 101 and 102 change nothing. */
sedhavil_answer sedhavil_start(uint32_t rate, const uint64_t *stages, size_t stages_length, size_t *positions,
                               size_t positions_length, float *floats, size_t floats_length, float *store,
                               size_t store_length);

/* How many floats the store needs. Refusals 101, 102 and 1 to 4. */
sedhavil_room sedhavil_floats_needed(uint32_t rate, const uint64_t *stages, size_t stages_length);

/* ---- How the functions of a chain call those beneath ----------------------------------------------------- */

static inline void sedhavil_chain_init(sedhavil_chain *chain, uint32_t rate) {
    memset(chain, 0, sizeof *chain);
    chain->rate = rate;
    chain->store = NULL;
}

/* How many stages there are words for: a count that was never set, or set too high, is taken as 17. */
static inline size_t sedhavil_chain_count(const sedhavil_chain *chain) {
    return chain->count <= SEDHAVIL_PLACES ? chain->count : SEDHAVIL_PLACES + 1;
}

static inline uint64_t *sedhavil_chain_add(sedhavil_chain *chain) {
    uint64_t *stage;
    if (chain->count > SEDHAVIL_PLACES)
        chain->count = SEDHAVIL_PLACES;
    stage = chain->stages + chain->count * SEDHAVIL_WORDS;
    chain->count++;
    memset(stage, 0, SEDHAVIL_WORDS * sizeof *stage);
    return stage;
}

static inline uint64_t *sedhavil_chain_stage(sedhavil_chain *chain, size_t at) {
    return at < sedhavil_chain_count(chain) ? chain->stages + at * SEDHAVIL_WORDS : NULL;
}

/* Two for each frame. One frame too many stands for all that are too many: twice a size_t need not fit one. */
static inline size_t sedhavil_samples_of(size_t frames) {
    return 2 * (frames <= SEDHAVIL_MAX_FRAMES ? frames : SEDHAVIL_MAX_FRAMES + 1);
}

static inline sedhavil_room sedhavil_chain_needed(const sedhavil_chain *chain) {
    return sedhavil_floats_needed(chain->rate, chain->stages, sedhavil_chain_count(chain) * SEDHAVIL_WORDS);
}

static inline sedhavil_answer sedhavil_chain_start(sedhavil_chain *chain, float *store, size_t store_length) {
    const size_t length = store != NULL ? store_length : 0;
    const sedhavil_answer answer =
        sedhavil_start(chain->rate, chain->stages, sedhavil_chain_count(chain) * SEDHAVIL_WORDS, chain->positions,
                       SEDHAVIL_POSITIONS, chain->floats, SEDHAVIL_FLOATS, store, length);
    const int accepted = answer.number == SEDHAVIL_ACCEPTED;
    chain->store = accepted ? store : NULL;
    chain->store_length = accepted ? length : 0;
    return answer;
}

static inline sedhavil_answer sedhavil_chain_render(sedhavil_chain *chain, float *samples, size_t frames) {
    size_t progress[SEDHAVIL_PROGRESS] = {0};
    return sedhavil_render(chain->rate, chain->stages, sedhavil_chain_count(chain) * SEDHAVIL_WORDS, samples,
                           sedhavil_samples_of(frames), chain->positions, SEDHAVIL_POSITIONS, chain->floats,
                           SEDHAVIL_FLOATS, chain->store, chain->store_length, progress, SEDHAVIL_PROGRESS);
}

static inline sedhavil_answer sedhavil_chain_run(sedhavil_chain *chain, float *samples, size_t frames,
                                                 size_t *progress, const size_t *order, size_t order_length) {
    return sedhavil_run(chain->rate, chain->stages, sedhavil_chain_count(chain) * SEDHAVIL_WORDS, samples,
                        sedhavil_samples_of(frames), chain->positions, SEDHAVIL_POSITIONS, chain->floats,
                        SEDHAVIL_FLOATS, chain->store, chain->store_length, progress, SEDHAVIL_PROGRESS, order,
                        order_length);
}

#ifdef __cplusplus
}
#endif

#endif
