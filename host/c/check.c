/* Holds what safeteal.h says to libhost.a: each check that fails is told with its line, and the last line counts them.

   To build it, in the project's root: cc -Ihost host/c/check.c target/staticlib/libhost.a -o check */
#include <math.h>
#include <stdio.h>
#include <string.h>

#include "safeteal.h"

static int passed, failed;

static void check(bool right, const char *what, int line) {
    if (right) {
        passed++;
    } else {
        failed++;
        printf("host/c/check.c:%d: this does not hold: %s\n", line, what);
    }
}

#define CHECK(what) check(what, #what, __LINE__)
#define REFUSED(name, call) check(safeteal_number(call) == SAFETEAL_REFUSED_##name, #name ": " #call, __LINE__)
#define NOTHING NULL, 0

static const char *words(int number) {
    return safeteal_refusal_words((enum safeteal_refusal)number);
}

/* Each number has words of its own; 8, which no call gives, has those of a number beyond the last. */
static void answers(void) {
    CHECK(safeteal_number(3 * 256 + 7) == SAFETEAL_REFUSED_PAIRS && safeteal_count(3 * 256 + 7) == 3);
    CHECK(safeteal_count(UINT64_MAX) == UINT64_MAX >> 8);
    for (int a = SAFETEAL_ACCEPTED; a <= SAFETEAL_REFUSED_TURN; a++) {
        for (int b = SAFETEAL_ACCEPTED; b < a; b++) {
            CHECK(strcmp(words(a), words(b)) != 0);
        }
        CHECK((strcmp(words(a), words(SAFETEAL_REFUSED_TURN + 1)) == 0) == (a == 8));
    }
}

/* ---- refusals ---- */

/* Stats of a pair of frames of one pixel, with a motion of one block. */
static uint64_t stats_of(float sums[6], float chroma1[2], float chroma2[2], size_t pairs, int32_t pel) {
    const uint8_t first = 10, second = 50;
    const uint16_t none = 1024;
    return safeteal_stats(
        sums, 6, chroma1, 2, chroma2, 2, pairs, 1, 1, 1, &first, 1, 1, &first, 1, 1, &first, 1, 1,
        &second, 1, 1, &second, 1, 1, &second, 1, 1, &none, 1, &none, 1, &none, 1, &none, 1, 1, 1, 16, 16, 0, 0, pel);
}

static void each_refusal(void) {
    uint8_t byte = 1;
    const uint8_t other = 2;
    float sums[6], chroma1[2], chroma2[2];
    REFUSED(SIZE, safeteal_distances(&byte, 1, 0));
    REFUSED(SIZE, safeteal_mask(&other, 1, &other, 1, 1, 4097, 1, 0, 0, 0, &byte, 1));
    REFUSED(RATIO, safeteal_assemble(5, 1, 2, NOTHING, NOTHING, NOTHING, NOTHING, NOTHING));
    REFUSED(RATIO, safeteal_hold(&byte, 1, 1, &other, 1, 1, 1, 1, &other, 1, 9));
    REFUSED(PITCH, safeteal_mask(&other, 1, &other, 1, 0, 1, 1, 0, 0, 0, &byte, 1));
    REFUSED(PITCH, safeteal_mask(&other, 1, &other, 1, 65537, 1, 1, 0, 0, 0, &byte, 1));
    REFUSED(LENGTH, safeteal_mask(&other, 1, &other, 1, 1, 1, 1, 0, 0, 0, &byte, 0));
    memset(sums, 0, sizeof sums);
    memset(chroma1, 0, sizeof chroma1);
    memset(chroma2, 0, sizeof chroma2);
    REFUSED(MOTION, stats_of(sums, chroma1, chroma2, 0, 3));
    REFUSED(SETTING, safeteal_apply(&byte, 1, 1, &other, 1, &other, 1, 1, 1, 1, &other, 1, 1, 1.5f));
    REFUSED(SETTING, safeteal_apply(&byte, 1, 1, &other, 1, &other, 1, 1, 1, 1, &other, 1, 1, NAN));
    REFUSED(PAIRS, stats_of(sums, chroma1, chroma2, 12, 1));
    CHECK(byte == 1 && sums[0] == 0 && chroma1[0] == 0 && chroma2[0] == 0);
    REFUSED(SIZE, safeteal_walk_start(0, 1, 1, 12).word);
    REFUSED(RATIO, safeteal_walk_start(6, 4, 4, 12).word);
}

/* Where all slices are NULL with 0, each call comes back, with 4; a mask without cells is 2, a parcel of no bytes 10,
   and no cells at all are no wrong length for distances. */
static void nothing_lent(void) {
    const struct safeteal_walk walk = safeteal_walk_start(1, 1, 1, 1).walk;
    REFUSED(LENGTH, safeteal_stats(
        NOTHING, NOTHING, NOTHING, 0, 1, 1, 1, NOTHING, 1, NOTHING, 1, NOTHING, 1, NOTHING, 1, NOTHING, 1, NOTHING, 1,
        NOTHING, NOTHING, NOTHING, NOTHING, 1, 1, 16, 16, 0, 0, 1));
    REFUSED(LENGTH, safeteal_fit(
        NOTHING, NOTHING, NOTHING, 0, NOTHING, NOTHING, NOTHING, 1, NOTHING, NOTHING, NOTHING, 0, 1, 1, 6, 2, false, 1,
        NOTHING, NOTHING, NOTHING, NOTHING, NOTHING, NOTHING));
    REFUSED(LENGTH, safeteal_assemble(1, 1, 1, NOTHING, NOTHING, NOTHING, NOTHING, NOTHING));
    REFUSED(LENGTH, safeteal_walk_pair(
        walk, NOTHING, NOTHING, NOTHING, NOTHING, NOTHING, NOTHING, NOTHING, NOTHING, NOTHING, 0,
        NOTHING, 1, NOTHING, 1, NOTHING, 1, NOTHING, 1, NOTHING, 1, NOTHING, 1,
        NOTHING, NOTHING, NOTHING, NOTHING, 1, 1, 16, 16, 0, 0, 1).word);
    REFUSED(LENGTH, safeteal_walk_layer(
        walk, NOTHING, NOTHING, NOTHING, NOTHING, NOTHING, NOTHING, NOTHING, NOTHING, NOTHING, 6, 2, false,
        NOTHING, NOTHING, NOTHING, NOTHING, NOTHING, NOTHING).word);
    REFUSED(LENGTH, safeteal_peel(NOTHING, NOTHING, NOTHING, 1, 1, 1, 1, 1, 0, NOTHING, 1, NOTHING, 1));
    REFUSED(LENGTH, safeteal_peel_numbers(NOTHING, NOTHING, NOTHING, 1, 1, 1, 1, 1, 0, NOTHING, 1, NOTHING, 1));
    REFUSED(LENGTH, safeteal_unpeel(
        NOTHING, NOTHING, NOTHING, 1, 1, 1, 1, 1, 0, NOTHING, 1, NOTHING, 1, NOTHING, 1, 0));
    REFUSED(LENGTH, safeteal_unpeel_numbers(
        NOTHING, NOTHING, NOTHING, 1, 1, 1, 1, 1, 0, NOTHING, 1, NOTHING, 1, NOTHING, 1, 0));
    REFUSED(LENGTH, safeteal_render(
        NOTHING, NOTHING, NOTHING, 1, 1, 1, 1, 1, 0, NOTHING, 1, NOTHING, 1, NOTHING, 1, 0,
        NOTHING, NOTHING, NOTHING, NOTHING, 1, 1, 16, 16, 0, 0, 1, 0));
    REFUSED(LENGTH, safeteal_empty(NOTHING, NOTHING, NOTHING, 1, 1, 1, 1, 1));
    REFUSED(LENGTH, safeteal_mask(NOTHING, NOTHING, 1, 1, 1, 0, 0, 0, NOTHING));
    REFUSED(RATIO, safeteal_apply(NOTHING, 1, NOTHING, NOTHING, 1, 1, 1, NOTHING, 1, 0));
    REFUSED(RATIO, safeteal_hold(NOTHING, 1, NOTHING, 1, 1, 1, NOTHING, 1));
    REFUSED(LENGTH, safeteal_parcel_write(NOTHING, NOTHING, NOTHING, 1, 1, 1, 1, 1, NOTHING));
    REFUSED(KIND, safeteal_parcel_read(NOTHING, NOTHING, NOTHING, NOTHING).word);
    REFUSED(KIND, safeteal_parcel_sizes(NOTHING).word);
    CHECK(safeteal_distances(NOTHING, 1) == 0);
}

/* ---- stats ---- */

/* Sums of a pair of frames of 4 by 1 pixels, by these fields of two blocks of 2 by 1 pixels. */
static uint64_t summed(float sums[24], const uint16_t forward[2], const uint16_t backward[2], int32_t pel) {
    const uint8_t first[5] = {10, 20, 30, 40, 99}, second[4] = {1, 2, 3, 4};
    const uint16_t none[2] = {1024, 1024};
    float chroma1[8] = {0}, chroma2[8] = {0};
    uint64_t answer = safeteal_stats(
        sums, 24, chroma1, 8, chroma2, 8, 0, 4, 1, 1, first, 5, 4, first, 5, 4, first, 5, 4,
        second, 4, 4, second, 4, 4, second, 4, 4,
        forward, 2, none, 2, backward, 2, none, 2, 2, 1, 2, 1, 0, 0, pel);
    CHECK(chroma1[2] == sums[6] && chroma1[3] == sums[7] && chroma2[2] == sums[6] && chroma2[3] == sums[7]);
    return answer;
}

static void stats(void) {
    float sums[24];
    for (uint16_t pel = 1; pel <= 4; pel = (uint16_t)(2 * pel)) {
        const uint16_t left[2] = {(uint16_t)(1024 - pel), (uint16_t)(1024 - pel)};
        const uint16_t right[2] = {(uint16_t)(1024 + pel), (uint16_t)(1024 + pel)};
        memset(sums, 0x55, sizeof sums);
        CHECK(summed(sums, left, right, pel) == 0);
        /* At pixel 1 the first frame moved onto the second shows 30, and the second moved onto the first shows 1. */
        CHECK(sums[6] == 30 + 1 && sums[7] == 2 + 20 && sums[8] == 30 * 30 + 1 * 1);
        CHECK(sums[9] == 30 * 2 + 1 * 20 && sums[10] == 2 * 2 + 20 * 20 && sums[11] == 1);
    }
    /* The blocks' numbers hold at pixels 1 and 3, their middles; between them they are mixed, and before them held. */
    const uint16_t none[2] = {1024, 1024}, apart[2] = {1025, 1023};
    CHECK(summed(sums, none, apart, 1) == 0);
    CHECK(sums[0] == 20 + 1 && sums[6] == 30 + 2 && sums[12] == 30 + 3 && sums[18] == 30 + 4);
}

/* Sums, models and masks have exact lengths, while a plane and a layer may have more. */
static void lengths(void) {
    const uint8_t plane[2] = {5, 5};
    const int16_t luma[3] = {4096, 0, 9}, chroma[3] = {0, 0, 9};
    const uint16_t none[2] = {1024, 1024};
    float sums[7] = {0}, chroma1[2] = {0}, chroma2[2] = {0};
    uint8_t output[2] = {7, 7}, still[2] = {7, 7};
    REFUSED(LENGTH, safeteal_stats(
        sums, 7, chroma1, 2, chroma2, 2, 0, 1, 1, 1, plane, 2, 1, plane, 2, 1, plane, 2, 1, plane, 2, 1, plane, 2, 1,
        plane, 2, 1, none, 1, none, 1, none, 1, none, 1, 1, 1, 16, 16, 0, 0, 1));
    REFUSED(LENGTH, safeteal_stats(
        sums, 6, chroma1, 2, chroma2, 2, 0, 1, 1, 1, plane, 2, 1, plane, 2, 1, plane, 2, 1, plane, 2, 1, plane, 2, 1,
        plane, 2, 1, none, 2, none, 1, none, 1, none, 1, 1, 1, 16, 16, 0, 0, 1));
    REFUSED(LENGTH, safeteal_mask(plane, 2, plane, 2, 1, 1, 1, 0, 0, 0, still, 2));
    CHECK(safeteal_mask(plane, 2, plane, 2, 1, 1, 1, 0, 0, 0, still, 1) == 0 && still[0] == 1 && still[1] == 7);
    CHECK(safeteal_peel_numbers(
        luma, 3, chroma, 3, chroma, 3, 1, 1, 1, 1, 1, 0, output, 2, 2, plane, 2, 2) == 0);
    REFUSED(LENGTH, safeteal_peel_numbers(
        luma, 1, chroma, 3, chroma, 3, 1, 1, 1, 1, 1, 1, output, 2, 2, plane, 2, 2));
    REFUSED(SIZE, safeteal_peel_numbers(luma, 3, chroma, 3, chroma, 3, 1, 1, 1, 1, 1, 3, output, 2, 2, plane, 2, 2));
    CHECK(output[0] == 7 && output[1] == 7);
}

/* ---- fit ---- */

/* A part of one pixel: in 24 comparisons the scene goes from 0 to 115 by fives, and half of it shows through. */
struct sums {
    float luma[6], chroma1[2], chroma2[2];
};

static struct sums part(void) {
    struct sums sums = {{0}, {0}, {0}};
    for (int comparison = 0; comparison < 24; comparison++) {
        float scene = 5.0f * (float)comparison, shown = scene / 2 + 100;
        const float terms[6] = {scene, shown, scene * scene, scene * shown, shown * shown, 1};
        for (int term = 0; term < 6; term++) {
            sums.luma[term] += terms[term];
        }
        sums.chroma1[0] += 128, sums.chroma1[1] += 160;
        sums.chroma2[0] += 128, sums.chroma2[1] += 96;
    }
    return sums;
}

/* The layer of a pixel: its gain and offset, the offsets of both planes, and the cell's distance. */
struct stored {
    int16_t luma[2], chroma1[2], chroma2[2];
};

/* A fit of that part, with neighbours of no pairs and these slices. */
static struct stored fitted(const float *absent, size_t length, float evidence) {
    struct sums own = part();
    struct stored stored = {{0}, {0}, {0}};
    float models[4] = {0};
    uint8_t kept = 0, cover = 0;
    uint64_t answer = safeteal_fit(
        absent, length, absent, length, absent, length, 0, own.luma, 6, own.chroma1, 2, own.chroma2, 2, 12,
        absent, length, absent, length, absent, length, 0, 1, 1, 6, evidence, false, 1,
        models, 4, &kept, 1, &cover, 1, stored.luma, 2, stored.chroma1, 2, stored.chroma2, 2);
    CHECK(answer == SAFETEAL_ACCEPTED);
    return stored;
}

static void absent_neighbours(void) {
    const float some[7] = {1, 2, 3, 4, 5, 6, 7};
    struct stored with_null = fitted(NULL, 0, 24), with_none = fitted(some, 0, 24), with_some = fitted(some, 7, 24);
    CHECK(with_null.luma[0] > 2000 && with_null.luma[0] < 2100 && with_null.luma[1] > 98 * 64);
    CHECK(with_null.chroma1[0] > 0 && with_null.chroma2[1] == 0);
    CHECK(memcmp(&with_null, &with_none, sizeof with_null) == 0);
    CHECK(memcmp(&with_null, &with_some, sizeof with_null) == 0);

    /* Above two comparisons a pair nothing is found: gain 1, offset 0, the cell far from any mark. */
    struct stored nothing = fitted(NULL, 0, 25);
    CHECK(nothing.luma[0] == 4096 && nothing.luma[1] == 0 && nothing.chroma2[1] == 255);
    CHECK(safeteal_empty(nothing.luma, 2, nothing.chroma1, 2, nothing.chroma2, 2, 1, 1, 1, 1, 1) == 256);
    CHECK(safeteal_empty(with_null.luma, 2, with_null.chroma1, 2, with_null.chroma2, 2, 1, 1, 1, 1, 1) == 0);
}

/* A neighbour that is present counts: its slices are measured, and NULL with 0 is then a wrong length. */
static void present_neighbours(void) {
    struct sums own = part();
    struct stored stored = {{0}, {0}, {0}};
    float models[4] = {3, 3, 3, 3};
    uint8_t kept = 3, cover = 3;
    REFUSED(LENGTH, safeteal_fit(
        NOTHING, NOTHING, NOTHING, 1, own.luma, 6, own.chroma1, 2, own.chroma2, 2, 12, NOTHING, NOTHING, NOTHING, 0,
        1, 1, 6, 24, false, 1, models, 4, &kept, 1, &cover, 1, stored.luma, 2, stored.chroma1, 2, stored.chroma2, 2));
    REFUSED(PAIRS, safeteal_fit(
        NOTHING, NOTHING, NOTHING, 0, own.luma, 6, own.chroma1, 2, own.chroma2, 2, 0, NOTHING, NOTHING, NOTHING, 0,
        1, 1, 6, 24, false, 1, models, 4, &kept, 1, &cover, 1, stored.luma, 2, stored.chroma1, 2, stored.chroma2, 2));
    CHECK(models[0] == 3 && kept == 3 && cover == 3 && stored.luma[0] == 0);
}

/* ---- walks ---- */

/* What a walk over frames of one pixel is lent: the sums of three slots, what fit works in, and a layer. */
struct lent {
    struct sums slots[3];
    float models[4];
    uint8_t kept, cover;
    struct stored layer;
};

/* What a call of a walk can be given wrong: the length of a slice of sums, and numbers of a frame and a setting. */
struct wrong {
    size_t length, pitch;
    int32_t pel;
    float limit;
};

static const struct wrong RIGHT = {2, 1, 1, 6};

/* The bytes of a pair's first frame, in all planes, and of its second: in each chunk they have another sum. */
static uint8_t first_of(size_t number) {
    return (uint8_t)(number * 37 % 200);
}

static uint8_t second_of(size_t number) {
    return (uint8_t)(255 - 9 * (number / 12) - first_of(number));
}

static struct safeteal_walked handed(struct safeteal_walk walk, struct lent *lent, size_t number, struct wrong wrong) {
    const uint8_t first = first_of(number), second = second_of(number);
    const uint16_t none = 1024;
    struct sums *sums = lent->slots;
    return safeteal_walk_pair(
        walk, sums[0].luma, 6, sums[0].chroma1, 2, sums[0].chroma2, 2, sums[1].luma, 6, sums[1].chroma1, 2,
        sums[1].chroma2, 2, sums[2].luma, 6, sums[2].chroma1, 2, sums[2].chroma2, wrong.length, number,
        &first, 1, 1, &first, 1, 1, &first, 1, 1, &second, 1, 1, &second, 1, 1, &second, 1, wrong.pitch,
        &none, 1, &none, 1, &none, 1, &none, 1, 1, 1, 16, 16, 0, 0, wrong.pel);
}

static struct safeteal_walked taken(struct safeteal_walk walk, struct lent *lent, struct wrong wrong) {
    struct sums *sums = lent->slots;
    return safeteal_walk_layer(
        walk, sums[0].luma, 6, sums[0].chroma1, 2, sums[0].chroma2, 2, sums[1].luma, 6, sums[1].chroma1, 2,
        sums[1].chroma2, 2, sums[2].luma, 6, sums[2].chroma1, 2, sums[2].chroma2, 2, wrong.limit, 2, false,
        lent->models, 4, &lent->kept, 1, &lent->cover, 1, lent->layer.luma, 2, lent->layer.chroma1, 2,
        lent->layer.chroma2, wrong.length);
}

static bool same_walk(struct safeteal_walk a, struct safeteal_walk b) {
    return a.width == b.width && a.height == b.height && a.ratio == b.ratio && a.pairs == b.pairs &&
           a.added == b.added && a.taken == b.taken;
}

static bool same_lent(const struct lent *a, const struct lent *b) {
    return memcmp(a->slots, b->slots, sizeof a->slots) == 0 && memcmp(a->models, b->models, sizeof a->models) == 0 &&
           a->kept == b->kept && a->cover == b->cover && memcmp(&a->layer, &b->layer, sizeof a->layer) == 0;
}

/* Whether a call was refused by that number and answered the walk that it was given. */
static bool stays(enum safeteal_refusal number, struct safeteal_walk walk, struct safeteal_walked answer) {
    return answer.word == (uint64_t)number && same_walk(walk, answer.walk);
}

/* All that can be refused from here on changes nothing, neither in the walk nor in what is lent. */
static void refused_at(struct safeteal_walk walk, struct lent *lent, bool due) {
    const struct lent before = *lent;
    const struct wrong length = {1, 1, 1, 6}, pitch = {2, 0, 1, 6}, pel = {2, 1, 3, 6}, limit = {2, 1, 1, NAN};
    CHECK(stays(SAFETEAL_REFUSED_PITCH, walk, handed(walk, lent, walk.added, pitch)));
    CHECK(stays(SAFETEAL_REFUSED_LENGTH, walk, handed(walk, lent, walk.added, length)));
    CHECK(stays(SAFETEAL_REFUSED_MOTION, walk, handed(walk, lent, walk.added, pel)));
    CHECK(stays(SAFETEAL_REFUSED_LENGTH, walk, taken(walk, lent, length)));
    CHECK(stays(SAFETEAL_REFUSED_SETTING, walk, taken(walk, lent, limit)));
    CHECK(stays(SAFETEAL_REFUSED_TURN, walk, handed(walk, lent, walk.added + 1, RIGHT)));
    CHECK(stays(SAFETEAL_REFUSED_TURN, walk, handed(walk, lent, walk.added - 1, RIGHT)));
    if (due || walk.added == walk.pairs) {
        CHECK(stays(SAFETEAL_REFUSED_TURN, walk, handed(walk, lent, walk.added, RIGHT)));
    }
    if (!due) {
        CHECK(stays(SAFETEAL_REFUSED_TURN, walk, taken(walk, lent, RIGHT)));
    }
    CHECK(safeteal_walk_due(walk) == (due ? 256 : 0));
    CHECK(same_lent(lent, &before));
}

/* The sums of a chunk of a clip of so many pairs, by safeteal_stats; they are in `pairs`. */
static struct sums chunk(size_t number, size_t clip, size_t *pairs) {
    struct sums sums = {{0}, {0}, {0}};
    const uint16_t none = 1024;
    *pairs = 0;
    for (size_t at = 12 * number; at < clip && *pairs < 12; at++) {
        const uint8_t first = first_of(at), second = second_of(at);
        CHECK(safeteal_stats(
            sums.luma, 6, sums.chroma1, 2, sums.chroma2, 2, *pairs, 1, 1, 1, &first, 1, 1, &first, 1, 1, &first, 1, 1,
            &second, 1, 1, &second, 1, 1, &second, 1, 1, &none, 1, &none, 1, &none, 1, &none, 1, 1, 1, 16, 16, 0, 0,
            1) == 0);
        ++*pairs;
    }
    return sums;
}

/* The layer of a chunk, by safeteal_fit. */
static struct stored by_hand(size_t number, size_t clip) {
    size_t before = 0, pairs, after;
    struct sums previous = {{0}, {0}, {0}}, own = chunk(number, clip, &pairs), next = chunk(number + 1, clip, &after);
    if (number > 0) {
        previous = chunk(number - 1, clip, &before);
    }
    struct stored stored = {{0}, {0}, {0}};
    float models[4] = {0};
    uint8_t kept = 0, cover = 0;
    CHECK(safeteal_fit(
        previous.luma, 6, previous.chroma1, 2, previous.chroma2, 2, before,
        own.luma, 6, own.chroma1, 2, own.chroma2, 2, pairs, next.luma, 6, next.chroma1, 2, next.chroma2, 2, after,
        1, 1, 6, 2, false, 1, models, 4, &kept, 1, &cover, 1,
        stored.luma, 2, stored.chroma1, 2, stored.chroma2, 2) == 0);
    return stored;
}

/* A walk over a clip of so many pairs: each layer when it is due, and as it is by hand. */
static void walk_over(size_t pairs) {
    struct safeteal_walked at = safeteal_walk_start(1, 1, 1, pairs);
    struct lent lent;
    memset(&lent, 0x55, sizeof lent);
    CHECK(at.word == 0 && at.walk.pairs == pairs && at.walk.added == 0 && at.walk.taken == 0);
    for (size_t number = 0; number < pairs; number++) {
        refused_at(at.walk, &lent, false);
        at = handed(at.walk, &lent, number, RIGHT);
        CHECK(at.word == 0 && at.walk.added == number + 1);
        /* The layers whose next chunk is complete, or all. */
        size_t ready = number + 1 == pairs ? (pairs + 11) / 12 : (number + 1) / 12 > 0 ? (number + 1) / 12 - 1 : 0;
        while (at.walk.taken < ready) {
            refused_at(at.walk, &lent, true);
            size_t layer = at.walk.taken;
            struct stored expected = by_hand(layer, pairs);
            at = taken(at.walk, &lent, RIGHT);
            CHECK(at.word == 0 && at.walk.taken == layer + 1 && at.walk.added == number + 1);
            CHECK(memcmp(&lent.layer, &expected, sizeof expected) == 0 && lent.layer.luma[0] != 4096);
        }
    }
    refused_at(at.walk, &lent, false);
}

static void walks(void) {
    const size_t clips[] = {0, 1, 11, 12, 13, 24, 25, 30, 36, 40};
    for (size_t clip = 0; clip < sizeof clips / sizeof *clips; clip++) {
        walk_over(clips[clip]);
    }
    /* A refused start answers 0, and the clip's number of pairs is any. */
    const struct safeteal_walk none = {0, 0, 0, 0, 0, 0};
    CHECK(same_walk(safeteal_walk_start(4097, 1, 1, 9).walk, none));
    CHECK(same_walk(safeteal_walk_start(5, 4, 2, 9).walk, none));
    CHECK(safeteal_walk_start(4096, 4096, 4, SIZE_MAX).walk.pairs == SIZE_MAX);

    /* Walks that no calls leave. */
    const struct safeteal_walk astray[] = {
        {1, 1, 1, 30, 31, 0}, {1, 1, 1, 30, 24, 2}, {1, 1, 1, 30, 25, 0}, {1, 1, 1, 30, 30, 4}, {1, 1, 1, 0, 0, 1},
        {1, 1, 1, 30, SIZE_MAX, SIZE_MAX}, {1, 1, 1, SIZE_MAX, SIZE_MAX, 0},
    };
    struct lent lent;
    memset(&lent, 0x55, sizeof lent);
    for (size_t at = 0; at < sizeof astray / sizeof *astray; at++) {
        CHECK(stays(SAFETEAL_REFUSED_TURN, astray[at], handed(astray[at], &lent, astray[at].added, RIGHT)));
        CHECK(stays(SAFETEAL_REFUSED_TURN, astray[at], taken(astray[at], &lent, RIGHT)));
        CHECK(safeteal_walk_due(astray[at]) == 0);
    }
    const struct safeteal_walk wide = {4097, 1, 1, 30, 24, 0}, odd = {1, 1, 2, 30, 24, 0};
    CHECK(stays(SAFETEAL_REFUSED_SIZE, wide, handed(wide, &lent, 24, RIGHT)) && safeteal_walk_due(wide) == 0);
    CHECK(stays(SAFETEAL_REFUSED_RATIO, odd, taken(odd, &lent, RIGHT)) && safeteal_walk_due(odd) == 0);
}

/* ---- assemble ---- */

/* The number that is stored at the one chroma pixel of 2 by 2 luma pixels with these offsets, in both planes. */
static int16_t total(float a, float b, float c, float d) {
    const float models[16] = {1, 0, a, d, 1, 0, b, c, 1, 0, c, b, 1, 0, d, a};
    const uint8_t cover = 3;
    int16_t luma[8] = {0}, chroma1[2] = {0}, chroma2[2] = {0};
    CHECK(safeteal_assemble(2, 2, 2, models, 16, &cover, 1, luma, 8, chroma1, 2, chroma2, 2) == 0);
    CHECK(luma[3] == 4096 && luma[4] == 0 && chroma1[0] == chroma2[0] && chroma1[1] == 0 && chroma2[1] == 3);
    return chroma1[0];
}

/* A luma pixel adds 16 for an offset of 1, and 32767 at most. */
static void totals(void) {
    CHECK(total(512, 512, 512, 511.875f) == 32766 && total(-512, -512, -512, -511.9375f) == -32767);
    CHECK(total(512, 512, 512, 511.9375f) == 32767 && total(-512, -512, -512, -512) == -32768);
    CHECK(total(512, 512, 512, 512) == 32767 && total(-512, -512, -512, -512.0625f) == -32768);
    CHECK(total(4096, 4096, 4096, 4096) == 32767 && total(-4096, -4096, -4096, -4096) == -32768);
    CHECK(total(1200, 1200, -1200, -1200) == 0 && total(-1200, -1200, 1200, 1200) == 0);
    CHECK(total(4096, 4096, -1200, -1200) == 27134 && total(-4096, -4096, 1200, 1200) == -27134);
}

/* ---- what is written and what is left alone ---- */

/* A layer of 2 by 1 pixels, of gain 2 and offset 10 on the left and of gain 1 and offset 0 on the right. */
static const int16_t LUMA[4] = {8192, 4096, 640, 0}, CHROMA1[4] = {0};
static const uint8_t LUMA_BYTES[9] = {0x00, 0x20, 0x00, 0x10, 0x80, 0x02, 0, 0, 99}, CHROMA_BYTES[8] = {0, 0, 0, 0, 1};

static void peel(void) {
    const uint8_t raw[3] = {110, 200, 9};
    for (int16_t distance = -1; distance <= 2; distance++) {
        const int16_t chroma2[4] = {0, 0, distance, 0};
        uint8_t output[4] = {7, 7, 7, 7};
        uint64_t answer = safeteal_peel_numbers(
            LUMA, 4, CHROMA1, 4, chroma2, 4, 2, 2, 2, 1, 1, 0, output, 4, 3, raw, 3, 3);
        uint8_t lifted = distance <= 1 ? 50 : 7;
        CHECK(answer == (distance <= 1 ? 256 : 0));
        CHECK(output[0] == lifted && output[1] == 7 && output[2] == 7 && output[3] == 7);
    }
    uint8_t output[2] = {7, 7};
    CHECK(safeteal_peel(
        LUMA_BYTES, 9, CHROMA_BYTES, 8, CHROMA_BYTES, 8, 2, 2, 2, 1, 1, 0, output, 2, 2, raw, 2, 2) == 256);
    CHECK(output[0] == 50 && output[1] == 7);
}

/* Chroma at ratio 2: a pixel has the mean of four gains, its own offset and the distance of a luma cell. */
static void peel_chroma(void) {
    const int16_t luma[8] = {2048, 2048, 4096, 8192, 0, 0, 0, 0}, chroma1[2] = {-640, 0}, chroma2[2] = {640, 1};
    const uint8_t raw = 110;
    for (size_t plane = 1; plane <= 2; plane++) {
        uint8_t output[2] = {7, 7};
        uint64_t answer = safeteal_peel_numbers(
            luma, 8, chroma1, 2, chroma2, 2, 2, 1, 2, 2, 2, plane, output, 2, 1, &raw, 1, 1);
        CHECK(answer == 256 && output[0] == (plane == 1 ? 120 : 100) && output[1] == 7);
    }
}

/* Nothing can be lifted by a gain below 0.2: the lifted points around are taken, and raw where there are none. */
static void fill(void) {
    const int16_t chroma[2] = {0, 0};
    const uint8_t raw = 110;
    for (int16_t gain = -820; gain <= 820; gain = (int16_t)(gain == -819 ? 819 : gain + 1)) {
        const int16_t luma[2] = {gain, 0};
        uint8_t output = 7;
        CHECK(safeteal_peel_numbers(luma, 2, chroma, 2, chroma, 2, 1, 1, 1, 1, 1, 0, &output, 1, 1, &raw, 1, 1) == 256);
        CHECK(output == (gain == -820 ? 0 : gain == 820 ? 255 : 110));
    }
    /* Held to 8 by 2 pixels, three of the eight points around (0, 0) are on it, two on (4, 0), two on (0, 1), one on
       (4, 1). */
    int16_t luma[32] = {0}, cells[8] = {0};
    for (size_t at = 1; at < 16; at++) {
        luma[at] = 4096;
    }
    uint8_t before[16] = {0}, output[16] = {0};
    before[4] = 100;
    CHECK(safeteal_peel_numbers(luma, 32, cells, 8, cells, 8, 8, 4, 8, 2, 2, 0, output, 16, 8, before, 16, 8) == 256);
    CHECK(output[0] == 40 && output[4] == 0);
}

/* Unpeel of 2 by 1 pixels over bytes of 40: own bytes that are far apart, and ones that are near. */
static void unpeel(void) {
    const int16_t chroma2[4] = {0, 0, 1, 0};
    const uint8_t first[2] = {110, 110}, far_off[2] = {100, 100}, near_by[2] = {108, 108};
    uint8_t output[3] = {40, 40, 40};
    CHECK(safeteal_unpeel_numbers(
        LUMA, 4, CHROMA1, 4, chroma2, 4, 2, 2, 2, 1, 1, 0, output, 3, 2, first, 2, 2, far_off, 2, 2, 0.5f) == 256);
    CHECK(output[0] == 100 && output[1] == 40 && output[2] == 40);
    output[0] = 40;
    CHECK(safeteal_unpeel(
        LUMA_BYTES, 8, CHROMA_BYTES, 8, CHROMA_BYTES, 8, 2, 2, 2, 1, 1, 0,
        output, 3, 2, first, 2, 2, near_by, 2, 2, 0.5f) == 256);
    CHECK(output[0] == 109 && output[1] == 40 && output[2] == 40);
    REFUSED(SETTING, safeteal_unpeel_numbers(
        LUMA, 4, CHROMA1, 4, chroma2, 4, 2, 2, 2, 1, 1, 0, output, 3, 2, first, 2, 2, far_off, 2, 2, NAN));
    CHECK(output[0] == 109 && output[1] == 40 && output[2] == 40);
}

/* Render writes up to a gap of 16, distance 3, and from there on as far as the motion leads. */
static void render(void) {
    const uint8_t first[2] = {110, 60}, second[2] = {100, 60};
    const uint16_t none = 1024, right = 1024 + 4 * 40;
    for (int16_t distance = 0; distance <= 8; distance++) {
        const int16_t chroma2[4] = {0, 0, distance, 0};
        for (int moving = 0; moving < 2; moving++) {
            uint8_t output[3] = {7, 7, 7};
            /* 40 pixels at pel 4, forward, of which half is left at time 0.5: gaps up to 21. */
            uint64_t answer = safeteal_render(
                LUMA, 4, CHROMA1, 4, chroma2, 4, 2, 2, 2, 1, 1, 0, output, 3, 2, first, 2, 2, second, 2, 2, 0.5f,
                moving ? &right : &none, 1, &none, 1, &none, 1, &none, 1, 1, 1, 16, 16, 0, 0, 4, 0);
            bool near = 8 * distance - 8 <= (moving ? 21 : 16);
            CHECK(answer == (near ? 512 : 0));
            CHECK((output[0] != 7) == near && (output[1] == 60) == near && output[2] == 7);
        }
    }
}

static void distances(void) {
    uint8_t cells[8] = {255, 255, 255, 0, 255, 255, 255, 9};
    CHECK(safeteal_distances(cells, 8, 7) == 0);
    const uint8_t expected[8] = {3, 2, 1, 0, 1, 2, 3, 9};
    CHECK(memcmp(cells, expected, 8) == 0);
}

/* ---- parcels ---- */

/* A layer of 2 by 2 pixels at ratio 2 as a parcel, a record a row; they begin at bytes 0, 12, 26, 40, 48 and 56. */
enum { PARCEL = 64 };
static const uint8_t SENT[PARCEL] = {
    6, 0, 0, 0, 1, 0, 2, 0, 2, 0, 2, 0,
    8, 0, 0, 0, 2, 0, 1, 0, 2, 0, 253, 255, 4, 0,
    8, 0, 0, 0, 3, 0, 5, 0, 6, 0, 7, 0, 0, 1,
    2, 0, 0, 0, 4, 0, 247, 255,
    2, 0, 0, 0, 5, 0, 10, 0,
    2, 0, 0, 0, 6, 0, 245, 255,
};

/* The layer with rows of three numbers in luma and two in chroma, where 99 is not sent. */
static void parcel_write(void) {
    const int16_t luma[13] = {1, 2, 99, -3, 4, 99, 5, 6, 99, 7, 256, 99, 99};
    const int16_t chroma1[4] = {-9, 99, 99, 99}, chroma2[4] = {10, 99, -11, 99};
    uint8_t parcel[PARCEL + 1], before[PARCEL + 1];
    memset(parcel, 7, sizeof parcel);
    memset(before, 7, sizeof before);
    CHECK(safeteal_parcel_length(2, 2, 2) == PARCEL && safeteal_parcel_length(1920, 1080, 2) == 10432842);
    for (size_t length = 0; length <= PARCEL + 1; length++) {
        if (length != PARCEL) {
            REFUSED(LENGTH, safeteal_parcel_write(
                luma, 13, chroma1, 4, chroma2, 4, 3, 2, 2, 2, 2, parcel, length));
        }
    }
    REFUSED(LENGTH, safeteal_parcel_write(luma, 11, chroma1, 4, chroma2, 4, 3, 2, 2, 2, 2, parcel, PARCEL));
    REFUSED(PITCH, safeteal_parcel_write(luma, 13, chroma1, 4, chroma2, 4, 1, 2, 2, 2, 2, parcel, PARCEL));
    REFUSED(RATIO, safeteal_parcel_write(luma, 13, chroma1, 4, chroma2, 4, 3, 2, 2, 2, 3, parcel, PARCEL));
    REFUSED(SIZE, safeteal_parcel_write(luma, 13, chroma1, 4, chroma2, 4, 3, 2, 2, 4097, 2, parcel, PARCEL));
    CHECK(memcmp(parcel, before, sizeof parcel) == 0);
    CHECK(safeteal_parcel_write(luma, 13, chroma1, 4, chroma2, 4, 3, 2, 2, 2, 2, parcel, PARCEL) == 0);
    CHECK(memcmp(parcel, SENT, PARCEL) == 0 && parcel[PARCEL] == 7);
}

/* What a parcel is read into: the slices of a layer of 2 by 2 pixels at ratio 2, with a number more behind each. */
struct unpacked {
    int16_t luma[9], chroma1[3], chroma2[3];
    struct safeteal_sizes sizes;
};

static const struct unpacked UNTOUCHED = {{7, 7, 7, 7, 7, 7, 7, 7, 7}, {7, 7, 7}, {7, 7, 7}, {0, 0, 0, 0}};

static struct unpacked unpacked(const uint8_t *parcel, size_t length, size_t luma_len, size_t chroma2_len) {
    struct unpacked layer = UNTOUCHED;
    layer.sizes = safeteal_parcel_read(
        parcel, length, layer.luma, luma_len, layer.chroma1, 2, layer.chroma2, chroma2_len);
    return layer;
}

static bool same_numbers(const struct unpacked *a, const struct unpacked *b) {
    return memcmp(a->luma, b->luma, sizeof a->luma) == 0 && memcmp(a->chroma1, b->chroma1, sizeof a->chroma1) == 0 &&
           memcmp(a->chroma2, b->chroma2, sizeof a->chroma2) == 0;
}

static bool same_sizes(struct safeteal_sizes a, struct safeteal_sizes b) {
    return a.word == b.word && a.width == b.width && a.height == b.height && a.ratio == b.ratio;
}

/* Whether a parcel is refused by that number, with sizes of 0, and nothing is written. */
static bool turned_down(enum safeteal_refusal number, struct unpacked layer) {
    const struct safeteal_sizes none = {(uint64_t)number, 0, 0, 0};
    return same_sizes(layer.sizes, none) && same_numbers(&layer, &UNTOUCHED);
}

/* Whether the parcel was read as it was sent. */
static bool received(const uint8_t *parcel) {
    const struct unpacked sent = {{1, 2, -3, 4, 5, 6, 7, 256, 7}, {-9, 0, 7}, {10, -11, 7}, {0, 2, 2, 2}};
    struct unpacked layer = unpacked(parcel, PARCEL, 8, 2);
    return same_numbers(&layer, &sent) && same_sizes(layer.sizes, sent.sizes) &&
           same_sizes(safeteal_parcel_sizes(parcel, PARCEL), sent.sizes);
}

/* Whether both calls refuse a parcel by that number. */
static bool refused_by_both(enum safeteal_refusal number, const uint8_t *parcel, size_t length) {
    struct unpacked layer = unpacked(parcel, length, 8, 2);
    return turned_down(number, layer) && same_sizes(safeteal_parcel_sizes(parcel, length), layer.sizes);
}

static void parcel_read(void) {
    CHECK(received(SENT));
    /* Kinds 6 to 3, then 2. */
    uint8_t other[PARCEL];
    const size_t begins[7] = {0, 12, 26, 40, 48, 56, 64}, order[6] = {0, 5, 4, 3, 2, 1};
    for (size_t at = 0, record = 0; record < 6; record++) {
        size_t from = begins[order[record]], length = begins[order[record] + 1] - from;
        memcpy(other + at, SENT + from, length);
        at += length;
    }
    CHECK(received(other));

    /* A slice of a wrong length is tested last, and the sizes are 0 then too. */
    CHECK(turned_down(SAFETEAL_REFUSED_LENGTH, unpacked(SENT, PARCEL, 9, 2)));
    CHECK(turned_down(SAFETEAL_REFUSED_LENGTH, unpacked(SENT, PARCEL, 8, 1)));
    CHECK(turned_down(SAFETEAL_REFUSED_RECORD, unpacked(SENT, PARCEL - 1, 9, 1)));
    REFUSED(LENGTH, safeteal_parcel_read(SENT, PARCEL, NOTHING, NOTHING, NOTHING).word);
}

/* Each cut, and single bytes that are changed. */
static void parcel_refused(void) {
    for (size_t length = 0; length < PARCEL; length++) {
        bool whole = length == 0 || length == 12 || length == 26 || length == 40 || length == 48 || length == 56;
        CHECK(refused_by_both(whole ? SAFETEAL_REFUSED_KIND : SAFETEAL_REFUSED_RECORD, SENT, length));
    }
    /* A byte's place, what it becomes, and the number that is given. */
    const struct {
        size_t at;
        uint8_t byte;
        enum safeteal_refusal number;
    } changes[] = {
        {0, 5, SAFETEAL_REFUSED_RECORD}, {15, 255, SAFETEAL_REFUSED_RECORD}, {56, 3, SAFETEAL_REFUSED_RECORD},
        {4, 2, SAFETEAL_REFUSED_KIND}, {16, 1, SAFETEAL_REFUSED_KIND}, {17, 1, SAFETEAL_REFUSED_KIND},
        {44, 5, SAFETEAL_REFUSED_KIND}, {60, 7, SAFETEAL_REFUSED_KIND}, {60, 0, SAFETEAL_REFUSED_KIND},
        {6, 0, SAFETEAL_REFUSED_PAYLOAD}, {7, 255, SAFETEAL_REFUSED_PAYLOAD}, {8, 3, SAFETEAL_REFUSED_PAYLOAD},
        {10, 3, SAFETEAL_REFUSED_PAYLOAD}, {10, 1, SAFETEAL_REFUSED_PAYLOAD}, {11, 1, SAFETEAL_REFUSED_PAYLOAD},
    };
    for (size_t change = 0; change < sizeof changes / sizeof *changes; change++) {
        uint8_t parcel[PARCEL];
        memcpy(parcel, SENT, PARCEL);
        parcel[changes[change].at] = changes[change].byte;
        CHECK(refused_by_both(changes[change].number, parcel, PARCEL));
    }
    /* A length of 4294967295, which wraps nowhere. */
    uint8_t parcel[PARCEL];
    memcpy(parcel, SENT, PARCEL);
    memset(parcel + 12, 255, 4);
    CHECK(refused_by_both(SAFETEAL_REFUSED_RECORD, parcel, PARCEL));
}

/* ---- what stood still ---- */

static void mask(void) {
    const uint8_t first[6] = {10, 10, 0, 10, 10, 0}, second[6] = {14, 14, 0, 14, 15, 0};
    uint8_t still[4] = {7, 7, 7, 7};
    CHECK(safeteal_mask(first, 6, second, 6, 3, 2, 2, 4.5f / 255, INFINITY, NAN, still, 4) == 0);
    CHECK(still[0] == 1 && still[1] == 1 && still[2] == 1 && still[3] == 0);
}

/* A pixel of two by two cells, and one of a pitch's rest. */
static void apply(void) {
    const uint8_t first = 100, second = 201;
    for (uint8_t sum = 0; sum <= 4; sum++) {
        const uint8_t still[4] = {sum > 0, sum > 1, sum > 2, sum > 3};
        uint8_t output[2] = {7, 7};
        CHECK(safeteal_apply(output, 2, 2, &first, 1, &second, 1, 1, 1, 1, still, 4, 2, 0.5f) == 0);
        CHECK(output[0] == (10 * sum > 4 * 4 ? 151 : 7) && output[1] == 7);
    }
}

static void hold(void) {
    const unsigned bytes[4] = {0, 100, 200, 255};
    for (unsigned sum = 0; sum <= 510; sum++) {
        for (int pair = 0; pair < 16; pair++) {
            unsigned kept = bytes[pair / 4], made = bytes[pair % 4], full = 255 * 2;
            const uint8_t held = (uint8_t)kept, weights[2] = {(uint8_t)(sum / 2), (uint8_t)(sum - sum / 2)};
            uint8_t output[2] = {(uint8_t)made, 7};
            bool right = safeteal_hold(output, 2, 2, &held, 1, 1, 1, 1, weights, 2, 1) == 0;
            unsigned weighed = (kept * (full - sum) + made * sum + full / 2) / full;
            right = right && output[0] == (sum < full ? weighed : made) && output[1] == 7;
            CHECK(right);
        }
    }
    const uint8_t held = 200, weight = 128;
    uint8_t output = 100;
    CHECK(safeteal_hold(&output, 1, 1, &held, 1, 1, 1, 1, &weight, 1, 1) == 0 && output == 150);
}

static void single_numbers(void) {
    CHECK(safeteal_pixel(2.5f) == 3 && safeteal_pixel(-3) == 0 && safeteal_pixel(1e9f) == 255);
    CHECK(safeteal_pixel(NAN) == 0 && safeteal_pixel(0.49999997f) == 0);
    CHECK(safeteal_stored(0.5f, 4096) == 2048 && safeteal_stored(8, 4096) == 32767);
    CHECK(safeteal_stored(-1.0f / 128, 64) == -1 && safeteal_stored(-1e9f, 64) == -32767);
    CHECK(safeteal_stored(NAN, 64) == 0);
}

int main(void) {
    answers();
    each_refusal();
    nothing_lent();
    absent_neighbours();
    present_neighbours();
    walks();
    totals();
    stats();
    lengths();
    peel();
    peel_chroma();
    fill();
    unpeel();
    render();
    distances();
    parcel_write();
    parcel_read();
    parcel_refused();
    mask();
    apply();
    hold();
    single_numbers();
    printf("%d checks hold, %d do not\n", passed, failed);
    return failed == 0 ? 0 : 1;
}
