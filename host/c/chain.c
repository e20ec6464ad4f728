/* The whole chain from C: a made-up clip with lettering, twelve pairs added up, the lettering found, sent to another
   desk as a parcel, lifted off frames there, and laid back onto a frame and onto one in between, with every refusal
   told in words; then a walk over a longer clip, with a layer for each of its chunks.

   To build it, in the project's root: cc -Ihost host/c/chain.c target/staticlib/libhost.a -o chain */
#include <stdio.h>
#include <stdlib.h>
#include <string.h>

#include "safeteal.h"

enum { WIDTH = 64, HEIGHT = 32, RATIO = 2, PIXELS = WIDTH * HEIGHT, CHROMA_PIXELS = PIXELS / (RATIO * RATIO) };
enum { CELLS = ((WIDTH + 7) / 8) * ((HEIGHT + 7) / 8), PAIRS = 12, PLANES = 3 };
/* The pairs of the longer clip, and the chunks whose sums a walk keeps. */
enum { CLIP = 30, SLOTS = 3 };
/* The lettering is a bar: the first pixel across and down, and the first after it. All are even, so that it covers
   whole chroma pixels. */
enum { LEFT = 28, RIGHT = 32, TOP = 8, BOTTOM = 24, BAR = (RIGHT - LEFT) * (BOTTOM - TOP) };

struct frame {
    uint8_t *plane[PLANES];
};

/* The sums of a part of the clip, and the pairs that it holds. */
struct part {
    float *luma, *chroma1, *chroma2;
    size_t pairs;
};

struct layer {
    int16_t *luma, *chroma1, *chroma2;
};

/* ---- planes ---- */

static size_t ratio_of(size_t plane) {
    return plane == 0 ? 1 : RATIO;
}

static size_t width_of(size_t plane) {
    return WIDTH / ratio_of(plane);
}

static size_t pixels_of(size_t plane) {
    return plane == 0 ? PIXELS : CHROMA_PIXELS;
}

/* Memory of so many elements, all 0; the program ends where there is none. */
static void *room(size_t count, size_t size) {
    void *memory = calloc(count, size);
    if (memory == NULL) {
        fprintf(stderr, "chain: no memory for %zu elements of %zu bytes\n", count, size);
        exit(EXIT_FAILURE);
    }
    return memory;
}

static struct frame new_frame(void) {
    struct frame frame;
    for (size_t plane = 0; plane < PLANES; plane++) {
        frame.plane[plane] = room(pixels_of(plane), 1);
    }
    return frame;
}

static void copy_frame(struct frame to, struct frame from) {
    for (size_t plane = 0; plane < PLANES; plane++) {
        memcpy(to.plane[plane], from.plane[plane], pixels_of(plane));
    }
}

static void free_frame(struct frame frame) {
    for (size_t plane = 0; plane < PLANES; plane++) {
        free(frame.plane[plane]);
    }
}

static struct part new_part(void) {
    struct part part = {room(6 * PIXELS, sizeof *part.luma), room(2 * CHROMA_PIXELS, sizeof *part.chroma1),
                        room(2 * CHROMA_PIXELS, sizeof *part.chroma2), 0};
    return part;
}

static void free_part(struct part part) {
    free(part.luma);
    free(part.chroma1);
    free(part.chroma2);
}

/* A layer without padding: two numbers for each pixel of luma, and two for each of a chroma plane. */
static struct layer new_layer(size_t luma, size_t chroma) {
    struct layer layer = {room(2 * luma, sizeof *layer.luma), room(2 * chroma, sizeof *layer.chroma1),
                          room(2 * chroma, sizeof *layer.chroma2)};
    return layer;
}

static void free_layer(struct layer layer) {
    free(layer.luma);
    free(layer.chroma1);
    free(layer.chroma2);
}

/* ---- the made-up clip ---- */

/* Where the camera stands, in luma pixels to the right: it goes faster and faster, always by an even number. */
static int camera(int number) {
    return 5 * number + number * number;
}

static uint8_t scene_at(size_t plane, size_t x, size_t y, int number) {
    size_t across = x + (size_t)camera(number) / ratio_of(plane);
    return (uint8_t)(plane == 0 ? 20 + (across * 37 + y * 11) % 120 : 90 + (across * (23 + 6 * plane) + y * 13) % 70);
}

static int has_bar(size_t plane, size_t x, size_t y) {
    size_t ratio = ratio_of(plane);
    return x >= LEFT / ratio && x < RIGHT / ratio && y >= TOP / ratio && y < BOTTOM / ratio;
}

/* What the bar makes of a byte of the scene: half of it shows through. */
static uint8_t under_bar(uint8_t scene) {
    return (uint8_t)(scene / 2 + 100);
}

/* A frame of the clip. */
static void draw(struct frame frame, int number) {
    for (size_t plane = 0; plane < PLANES; plane++) {
        for (size_t at = 0; at < pixels_of(plane); at++) {
            size_t x = at % width_of(plane), y = at / width_of(plane);
            uint8_t scene = scene_at(plane, x, y, number);
            frame.plane[plane][at] = has_bar(plane, x, y) ? under_bar(scene) : scene;
        }
    }
}

/* ---- the calls ---- */

/* Whether a call was accepted; a refusal is told in words. */
static bool accepted(const char *call, uint64_t answer) {
    enum safeteal_refusal number = safeteal_number(answer);
    if (number != SAFETEAL_ACCEPTED) {
        fprintf(stderr, "chain: %s was refused (%d): %s\n", call, (int)number, safeteal_refusal_words(number));
    }
    return number == SAFETEAL_ACCEPTED;
}

/* Adds a pair of frames to a part. The motion is the camera's and the same everywhere, so one block will do for it. */
static uint64_t add(struct part *part, struct frame first, struct frame second, int right) {
    const uint16_t none = 1024, forward = (uint16_t)(1024 - right), backward = (uint16_t)(1024 + right);
    uint64_t answer = safeteal_stats(
        part->luma, 6 * PIXELS, part->chroma1, 2 * CHROMA_PIXELS, part->chroma2, 2 * CHROMA_PIXELS,
        part->pairs, WIDTH, HEIGHT, RATIO,
        first.plane[0], PIXELS, width_of(0), first.plane[1], CHROMA_PIXELS, width_of(1),
        first.plane[2], CHROMA_PIXELS, width_of(2),
        second.plane[0], PIXELS, width_of(0), second.plane[1], CHROMA_PIXELS, width_of(1),
        second.plane[2], CHROMA_PIXELS, width_of(2),
        &forward, 1, &none, 1, &backward, 1, &none, 1, 1, 1, 16, 16, 0, 0, 1);
    if (safeteal_number(answer) == SAFETEAL_ACCEPTED) {
        part->pairs++;
    }
    return answer;
}

/* Adds up the clip's first twelve pairs. */
static bool add_all(struct part *part) {
    struct frame first = new_frame(), second = new_frame();
    bool done = true;
    for (int number = 0; done && number < PAIRS; number++) {
        draw(first, number);
        draw(second, number + 1);
        done = accepted("safeteal_stats", add(part, first, second, camera(number + 1) - camera(number)));
    }
    free_frame(first);
    free_frame(second);
    return done;
}

/* Finds the lettering: what was apart from the scene in both comparisons of each pair. The part has no neighbours. */
static bool find(struct part part, struct layer layer) {
    float *models = room(4 * PIXELS, sizeof *models);
    uint8_t *kept = room(PIXELS, 1), *cover = room(CELLS, 1);
    uint64_t answer = safeteal_fit(
        NULL, 0, NULL, 0, NULL, 0, 0,
        part.luma, 6 * PIXELS, part.chroma1, 2 * CHROMA_PIXELS, part.chroma2, 2 * CHROMA_PIXELS, part.pairs,
        NULL, 0, NULL, 0, NULL, 0, 0,
        WIDTH, HEIGHT, 6.0f, 2.0f * PAIRS, false, RATIO,
        models, 4 * PIXELS, kept, PIXELS, cover, CELLS,
        layer.luma, 2 * PIXELS, layer.chroma1, 2 * CHROMA_PIXELS, layer.chroma2, 2 * CHROMA_PIXELS);
    free(models);
    free(kept);
    free(cover);
    return accepted("safeteal_fit", answer);
}

/* Writes a layer as a parcel. */
static bool pack(struct layer layer, uint8_t *parcel, size_t length) {
    return accepted("safeteal_parcel_write", safeteal_parcel_write(
        layer.luma, 2 * PIXELS, layer.chroma1, 2 * CHROMA_PIXELS, layer.chroma2, 2 * CHROMA_PIXELS,
        width_of(0), width_of(1), WIDTH, HEIGHT, RATIO, parcel, length));
}

/* Reads a parcel at the other desk, which has its bytes and nothing else. */
static bool unpack(const uint8_t *parcel, size_t length, struct layer *layer) {
    struct safeteal_sizes sizes = safeteal_parcel_sizes(parcel, length);
    if (!accepted("safeteal_parcel_sizes", sizes.word)) {
        return false;
    }
    size_t luma = sizes.width * sizes.height, chroma = luma / (sizes.ratio * sizes.ratio);
    printf("the other desk has a parcel of %zu bytes, a layer of %zu by %zu\n", length, sizes.width, sizes.height);
    *layer = new_layer(luma, chroma);
    sizes = safeteal_parcel_read(
        parcel, length, layer->luma, 2 * luma, layer->chroma1, 2 * chroma, layer->chroma2, 2 * chroma);
    return accepted("safeteal_parcel_read", sizes.word) && sizes.width == WIDTH && sizes.height == HEIGHT &&
           sizes.ratio == RATIO;
}

/* Sends a layer from the desk where it was fitted to another. */
static bool deliver(struct layer fitted, struct layer *layer) {
    size_t length = safeteal_parcel_length(WIDTH, HEIGHT, RATIO);
    uint8_t *parcel = room(length, 1);
    bool done = pack(fitted, parcel, length) && unpack(parcel, length, layer);
    free(parcel);
    return done;
}

/* Lifts the lettering off a frame. Only layered pixels are written, so the frame is copied first. */
static bool lift(struct layer layer, struct frame output, struct frame raw, uint64_t counts[PLANES]) {
    copy_frame(output, raw);
    for (size_t plane = 0; plane < PLANES; plane++) {
        size_t length = pixels_of(plane), pitch = width_of(plane);
        uint64_t answer = safeteal_peel_numbers(
            layer.luma, 2 * PIXELS, layer.chroma1, 2 * CHROMA_PIXELS, layer.chroma2, 2 * CHROMA_PIXELS,
            width_of(0), width_of(1), WIDTH, HEIGHT, RATIO,
            plane, output.plane[plane], length, pitch, raw.plane[plane], length, pitch);
        if (!accepted("safeteal_peel_numbers", answer)) {
            return false;
        }
        counts[plane] = safeteal_count(answer);
    }
    return true;
}

/* Lays the lettering back onto a lifted frame, as it stood at a time from 0, the first frame, to 1, the second. */
static bool lay_back(struct layer layer, struct frame output, struct frame first, struct frame second, float time,
                     uint64_t counts[PLANES]) {
    for (size_t plane = 0; plane < PLANES; plane++) {
        size_t length = pixels_of(plane), pitch = width_of(plane);
        uint64_t answer = safeteal_unpeel_numbers(
            layer.luma, 2 * PIXELS, layer.chroma1, 2 * CHROMA_PIXELS, layer.chroma2, 2 * CHROMA_PIXELS,
            width_of(0), width_of(1), WIDTH, HEIGHT, RATIO,
            plane, output.plane[plane], length, pitch,
            first.plane[plane], length, pitch, second.plane[plane], length, pitch, time);
        if (!accepted("safeteal_unpeel_numbers", answer)) {
            return false;
        }
        counts[plane] = safeteal_count(answer);
    }
    return true;
}

/* ---- what came of it ---- */

static void tell(const char *what, const uint64_t counts[PLANES]) {
    printf("%s: %d pixels of luma, %d and %d of chroma\n", what, (int)counts[0], (int)counts[1], (int)counts[2]);
}

/* The most by which a frame differs from another. */
static int difference(struct frame a, struct frame b) {
    int most = 0;
    for (size_t plane = 0; plane < PLANES; plane++) {
        for (size_t at = 0; at < pixels_of(plane); at++) {
            int apart = abs(a.plane[plane][at] - b.plane[plane][at]);
            most = apart > most ? apart : most;
        }
    }
    return most;
}

/* The most by which a frame differs from the scene without lettering. */
static int from_scene(struct frame frame, int number) {
    struct frame scene = new_frame();
    for (size_t plane = 0; plane < PLANES; plane++) {
        for (size_t at = 0; at < pixels_of(plane); at++) {
            scene.plane[plane][at] = scene_at(plane, at % width_of(plane), at / width_of(plane), number);
        }
    }
    int most = difference(frame, scene);
    free_frame(scene);
    return most;
}

/* Lifts the lettering off the first frame, number 5, and lays it back at time 0, where it must be that frame again. */
static bool there_and_back(struct layer layer, struct frame first, struct frame second) {
    struct frame output = new_frame();
    uint64_t lifted[PLANES], laid[PLANES];
    bool right = lift(layer, output, first, lifted);
    if (right) {
        tell("lifted", lifted);
        int before = from_scene(first, 5), after = from_scene(output, 5);
        printf("the frame was up to %d off the scene, and is up to %d off it now\n", before, after);
        right = lifted[0] == BAR && after <= 4 && lay_back(layer, output, first, second, 0.0f, laid);
    }
    if (right) {
        tell("laid back", laid);
        right = memcmp(lifted, laid, sizeof laid) == 0 && difference(output, first) == 0;
        puts(right ? "the frame is as it was" : "the frame is NOT as it was");
    }
    free_frame(output);
    return right;
}

/* The most by which a frame differs from another with the bar drawn over it. */
static int from_barred(struct frame frame, struct frame made) {
    struct frame barred = new_frame();
    copy_frame(barred, made);
    for (size_t plane = 0; plane < PLANES; plane++) {
        for (size_t at = 0; at < pixels_of(plane); at++) {
            if (has_bar(plane, at % width_of(plane), at / width_of(plane))) {
                barred.plane[plane][at] = under_bar(made.plane[plane][at]);
            }
        }
    }
    int most = difference(frame, barred);
    free_frame(barred);
    return most;
}

/* Makes a frame in between of two lifted ones, here simply their mean, and lays the lettering onto it. */
static bool in_between(struct layer layer, struct frame first, struct frame second) {
    struct frame made = new_frame(), other = new_frame(), output = new_frame();
    uint64_t counts[PLANES];
    bool right = lift(layer, made, first, counts) && lift(layer, other, second, counts);
    for (size_t plane = 0; plane < PLANES; plane++) {
        for (size_t at = 0; at < pixels_of(plane); at++) {
            made.plane[plane][at] = (uint8_t)((made.plane[plane][at] + other.plane[plane][at]) / 2);
        }
    }
    copy_frame(output, made);
    right = right && lay_back(layer, output, first, second, 0.5f, counts);
    if (right) {
        int most = from_barred(output, made);
        tell("laid onto a frame in between", counts);
        printf("it is up to %d off that frame with the bar on it\n", most);
        right = counts[0] == BAR && most <= 2;
    }
    free_frame(made);
    free_frame(other);
    free_frame(output);
    return right;
}

/* Both of them on two neighbouring frames. */
static bool lift_and_lay_back(struct layer layer) {
    struct frame first = new_frame(), second = new_frame();
    draw(first, 5);
    draw(second, 6);
    bool right = there_and_back(layer, first, second) && in_between(layer, first, second);
    free_frame(first);
    free_frame(second);
    return right;
}

/* A part takes twelve pairs: another is refused, and the sums stay as they are. */
static bool one_too_many(struct part *part) {
    struct frame frame = new_frame();
    uint64_t answer = add(part, frame, frame, 0);
    enum safeteal_refusal number = safeteal_number(answer);
    printf("a thirteenth pair: refused (%d), %s\n", (int)number, safeteal_refusal_words(number));
    free_frame(frame);
    return number == SAFETEAL_REFUSED_PAIRS && part->pairs == PAIRS;
}

/* ---- a longer clip ---- */

/* Hands over a pair of the longer clip to a walk: the clip is the twelve pairs over and over again. */
static struct safeteal_walked hand_over(struct safeteal_walk walk, struct part slots[SLOTS], size_t number) {
    int own = (int)(number % PAIRS), right = camera(own + 1) - camera(own);
    const uint16_t none = 1024, forward = (uint16_t)(1024 - right), backward = (uint16_t)(1024 + right);
    struct frame first = new_frame(), second = new_frame();
    draw(first, own);
    draw(second, own + 1);
    struct safeteal_walked answer = safeteal_walk_pair(
        walk, slots[0].luma, 6 * PIXELS, slots[0].chroma1, 2 * CHROMA_PIXELS, slots[0].chroma2, 2 * CHROMA_PIXELS,
        slots[1].luma, 6 * PIXELS, slots[1].chroma1, 2 * CHROMA_PIXELS, slots[1].chroma2, 2 * CHROMA_PIXELS,
        slots[2].luma, 6 * PIXELS, slots[2].chroma1, 2 * CHROMA_PIXELS, slots[2].chroma2, 2 * CHROMA_PIXELS, number,
        first.plane[0], PIXELS, width_of(0), first.plane[1], CHROMA_PIXELS, width_of(1),
        first.plane[2], CHROMA_PIXELS, width_of(2),
        second.plane[0], PIXELS, width_of(0), second.plane[1], CHROMA_PIXELS, width_of(1),
        second.plane[2], CHROMA_PIXELS, width_of(2),
        &forward, 1, &none, 1, &backward, 1, &none, 1, 1, 1, 16, 16, 0, 0, 1);
    free_frame(first);
    free_frame(second);
    return answer;
}

/* As often as a pixel can have been apart: twice for each pair of a chunk and of those before and after it. */
static float most_evidence(size_t chunk) {
    size_t begins = chunk == 0 ? 0 : PAIRS * (chunk - 1), ends = PAIRS * (chunk + 2);
    return 2.0f * (float)((ends < CLIP ? ends : CLIP) - begins);
}

/* Takes the layer that is due. */
static struct safeteal_walked take(struct safeteal_walk walk, const struct part slots[SLOTS], struct layer layer) {
    float *models = room(4 * PIXELS, sizeof *models);
    uint8_t *kept = room(PIXELS, 1), *cover = room(CELLS, 1);
    struct safeteal_walked answer = safeteal_walk_layer(
        walk, slots[0].luma, 6 * PIXELS, slots[0].chroma1, 2 * CHROMA_PIXELS, slots[0].chroma2, 2 * CHROMA_PIXELS,
        slots[1].luma, 6 * PIXELS, slots[1].chroma1, 2 * CHROMA_PIXELS, slots[1].chroma2, 2 * CHROMA_PIXELS,
        slots[2].luma, 6 * PIXELS, slots[2].chroma1, 2 * CHROMA_PIXELS, slots[2].chroma2, 2 * CHROMA_PIXELS,
        6.0f, most_evidence(walk.taken), false, models, 4 * PIXELS, kept, PIXELS, cover, CELLS,
        layer.luma, 2 * PIXELS, layer.chroma1, 2 * CHROMA_PIXELS, layer.chroma2, 2 * CHROMA_PIXELS);
    free(models);
    free(kept);
    free(cover);
    return answer;
}

/* Whether the layer of a chunk lifts the whole bar off the clip's frame 5. */
static bool lifts(struct layer layer, struct safeteal_walk walk) {
    struct frame raw = new_frame(), output = new_frame();
    uint64_t counts[PLANES] = {0, 0, 0};
    draw(raw, 5);
    bool right = lift(layer, output, raw, counts);
    printf("after pair %d of %d: layer %d lifts %d pixels of luma\n", (int)walk.added - 1, CLIP, (int)walk.taken - 1,
           (int)counts[0]);
    right = right && counts[0] == BAR && from_scene(output, 5) <= 4;
    free_frame(raw);
    free_frame(output);
    return right;
}

/* Walks over the longer clip, and takes each layer as soon as it is due; a pair after the last is refused. */
static bool walk_over(struct part slots[SLOTS], struct layer layer) {
    struct safeteal_walked at = safeteal_walk_start(WIDTH, HEIGHT, RATIO, CLIP);
    bool right = accepted("safeteal_walk_start", at.word);
    for (size_t number = 0; right && number < CLIP; number++) {
        at = hand_over(at.walk, slots, number);
        right = accepted("safeteal_walk_pair", at.word);
        while (right && safeteal_walk_due(at.walk)) {
            at = take(at.walk, slots, layer);
            right = accepted("safeteal_walk_layer", at.word) && lifts(layer, at.walk);
        }
    }
    if (right) {
        enum safeteal_refusal number = safeteal_number(hand_over(at.walk, slots, CLIP).word);
        printf("pair %d: refused (%d), %s\n", CLIP, (int)number, safeteal_refusal_words(number));
        right = number == SAFETEAL_REFUSED_TURN && at.walk.added == CLIP && at.walk.taken == (CLIP + PAIRS - 1) / PAIRS;
    }
    return right;
}

/* The walk, with room for the sums of three chunks. */
static bool walk(struct layer layer) {
    struct part slots[SLOTS] = {new_part(), new_part(), new_part()};
    bool right = walk_over(slots, layer);
    for (size_t slot = 0; slot < SLOTS; slot++) {
        free_part(slots[slot]);
    }
    return right;
}

int main(void) {
    struct part part = new_part();
    struct layer fitted = new_layer(PIXELS, CHROMA_PIXELS), layer = {NULL, NULL, NULL};
    printf("safeteal.h %s: %d pairs of frames of %d by %d\n", SAFETEAL_VERSION, PAIRS, WIDTH, HEIGHT);
    bool right = add_all(&part) && find(part, fitted) && deliver(fitted, &layer) && lift_and_lay_back(layer) &&
                 one_too_many(&part) && walk(fitted);
    free_part(part);
    free_layer(fitted);
    free_layer(layer);
    return right ? EXIT_SUCCESS : EXIT_FAILURE;
}
