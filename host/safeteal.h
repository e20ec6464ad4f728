/* Safeteal for C: lifts lettering that stands still (a logo, a date stamp) off the frames of a clip, and lays it back.

   The functions are those of libhost.a, which `tools/library` writes to target/staticlib; it is for x86-64 Linux.
   host/c has examples. To build one, in the project's root:

       cc -Ihost host/c/chain.c target/staticlib/libhost.a -o chain

   The chain
     1. safeteal_stats     for each pair of neighbouring frames, up to 12 pairs to a part of the clip: adds up sums
     2. safeteal_fit       finds the lettering in the sums and stores it as a layer
     3. safeteal_peel      for each frame and plane: lifts the lettering off
     4.                    the caller makes frames in between from the lifted ones
     5. safeteal_unpeel    for each of these and each plane: lays the lettering back
   For a whole clip safeteal_walk_pair and safeteal_walk_layer take the place of 1 and 2: pairs are handed over one by
   one, and each chunk of twelve has its layer. safeteal_render can take the place of 3 to 5 near the lettering.
   safeteal_mask, safeteal_apply and safeteal_hold keep still what stood still; they need no layer. Where 2 and 3 happen
   at two desks, safeteal_parcel_write makes one run of bytes of the layer, and safeteal_parcel_read a layer of these.

   Planes and pitches
   A frame has three planes of bytes: 0 is luma, of width by height pixels; 1 and 2 are chroma, of width / ratio by
   height / ratio. ratio is the luma pixels to a chroma pixel, each way: 1 for 4:4:4, 2 for 4:2:0, or 4. width and
   height are luma's, 1 to 4096, in every call with a ratio, and ratio divides both. In the calls without a ratio (mask,
   apply, hold) they are those of the plane itself.
   A pitch is the number of elements from one row's start to the next, from the row's width to 65536. Pixel (x, y) of a
   byte plane is element y * pitch + x, and the plane has at least (rows - 1) * pitch + row width elements. What lies
   beyond a row's width or below the last row is not read and not written.

   Slices
   A slice is two arguments: a pointer and a length in elements of the pointer's type, called NAME and NAME_len.
     - The pointer is aligned as C asks for its type, and that many elements behind it are there and have values, also
       where a call only writes them (calloc gives values, malloc does not). Where the length is 0 it may be NULL.
     - A slice that is not const is written. While a call runs it overlaps no other slice of that call; it is `restrict`
       here, so that gcc's -Wrestrict sees output == raw. Slices that are const may overlap each other or be the same.
     - Each length below is said to be exact or at least so much. Lengths are reckoned without overflow.

   Answers
   All functions but the last two answer one number, count * 256 + number; where sizes or a walk are answered as well,
   it is the word of struct safeteal_sizes or struct safeteal_walked. Number 0 is acceptance, and the count is then the
   pixels written by peel, unpeel and render, and 0 for the others (safeteal_empty and safeteal_walk_due have their yes
   there). Any other number is a refusal, of enum safeteal_refusal; where several would do, it is the lowest, but
   safeteal_parcel_read tests 9, 10 and 11 before 4. Its count is 0, and every slice is as it was.

       uint64_t answer = safeteal_peel(..);
       enum safeteal_refusal number = safeteal_number(answer);
       if (number != SAFETEAL_ACCEPTED) printf("refused (%d): %s\n", (int)number, safeteal_refusal_words(number));
       else printf("%llu pixels written\n", (unsigned long long)safeteal_count(answer));

   A call always comes back. It allocates nothing and keeps nothing from one call to the next, so any number of threads
   may call at the same time, as long as none writes what another is lent.
   Floats are IEEE 754 binary32, rounded to nearest, subnormals kept: the state in which a program starts, unless it was
   linked with -ffast-math.

   What each call writes is said with it; what is not named there it leaves alone. Where it is said that a byte is
   "rounded", halves go up and the result is held to 0 to 255.

   host/safeteal/tests holds this file to the proved source, to the Rust library and to libhost.a itself. */
#ifndef SAFETEAL_H
#define SAFETEAL_H

#include <stdbool.h>
#include <stddef.h>
#include <stdint.h>

#if SIZE_MAX != UINT64_MAX
#error "safeteal.h: libhost.a is for programs with a size_t of 64 bits"
#endif

/* Of this header and of the Rust package beside it; libhost.a does not tell its own. */
#define SAFETEAL_VERSION_MAJOR 0
#define SAFETEAL_VERSION_MINOR 2
#define SAFETEAL_VERSION_PATCH 0
#define SAFETEAL_VERSION "0.2.0"

#ifdef __cplusplus
#define SAFETEAL_RESTRICT __restrict
extern "C" {
#else
#define SAFETEAL_RESTRICT restrict
#endif

/* ---- Answers ---- */

/* The number of an answer; safeteal_refusal_words says what each means. Number 8 is not given by any call. */
enum safeteal_refusal {
    SAFETEAL_ACCEPTED = 0,
    SAFETEAL_REFUSED_SIZE = 1,
    SAFETEAL_REFUSED_RATIO = 2,
    SAFETEAL_REFUSED_PITCH = 3,
    SAFETEAL_REFUSED_LENGTH = 4,
    SAFETEAL_REFUSED_MOTION = 5,
    SAFETEAL_REFUSED_SETTING = 6,
    SAFETEAL_REFUSED_PAIRS = 7,
    SAFETEAL_REFUSED_RECORD = 9,
    SAFETEAL_REFUSED_KIND = 10,
    SAFETEAL_REFUSED_PAYLOAD = 11,
    SAFETEAL_REFUSED_TURN = 12
};

/* An answer with sizes: those of luma in pixels, and the ratio. All three are 0 when the call is refused. */
struct safeteal_sizes {
    uint64_t word; /* count * 256 + number */
    size_t width;
    size_t height;
    size_t ratio;
};

/* How far a walk over a clip has come: luma's size in pixels, the ratio, the clip's pairs, how many of these were
   handed over, and how many layers were taken. */
struct safeteal_walk {
    size_t width;
    size_t height;
    size_t ratio;
    size_t pairs;
    size_t added;
    size_t taken;
};

/* An answer with the walk to go on with. A refused safeteal_walk_start leaves all 0 there, any other refused call the
   walk that it was given. */
struct safeteal_walked {
    uint64_t word; /* count * 256 + number */
    struct safeteal_walk walk;
};

static inline enum safeteal_refusal safeteal_number(uint64_t answer) {
    return (enum safeteal_refusal)(answer % 256);
}

static inline uint64_t safeteal_count(uint64_t answer) {
    return answer / 256;
}

static inline const char *safeteal_refusal_words(enum safeteal_refusal number) {
    switch (number) {
    case SAFETEAL_ACCEPTED:
        return "accepted";
    case SAFETEAL_REFUSED_SIZE:
        return "a width or height is outside 1 to 4096, or a plane number is above 2 (safeteal_distances: width is 0)";
    case SAFETEAL_REFUSED_RATIO:
        return "the ratio is not 1, 2 or 4, or does not divide width and height (safeteal_apply and safeteal_hold: "
               "the mask is not a whole 1 to 8 times as wide, or not a whole 1 to 8 times as high, as the plane)";
    case SAFETEAL_REFUSED_PITCH:
        return "a pitch is below the width of its plane's row or above 65536: give the elements from one row's start "
               "to the next, of a layer the numbers";
    case SAFETEAL_REFUSED_LENGTH:
        return "a slice has a wrong length: a plane has at least (rows - 1) * pitch + row width bytes, a layer's slice "
               "at least 2 * pitch * rows numbers; sums, models, covers, work slices, motion fields, the slice that "
               "safeteal_mask fills and a layer or parcel that is written have exact lengths";
    case SAFETEAL_REFUSED_MOTION:
        return "a motion number is outside its range: grid sides 1 to 4096, block sides 1 to 128, "
               "origins -4096 to 4096, pel 1, 2 or 4";
    case SAFETEAL_REFUSED_SETTING:
        return "a setting is NaN or outside its range: time 0 to 1, limit 0.5 to 255, evidence 0 to 65536";
    case SAFETEAL_REFUSED_PAIRS:
        return "a number of pairs is outside its range: 0 to 11 summed before safeteal_stats; "
               "in safeteal_fit 1 to 12 of the part itself and 0 to 12 of a neighbour";
    case SAFETEAL_REFUSED_RECORD:
        return "a record of the parcel is cut short: fewer than 6 bytes are left for its length and kind, or fewer "
               "than its length for its payload";
    case SAFETEAL_REFUSED_KIND:
        return "the parcel's first record is not its head, of kind 1, or a kind is not 1 to 6, or stands twice, or is "
               "missing";
    case SAFETEAL_REFUSED_PAYLOAD:
        return "the parcel's head has not 6 bytes, or its width or height is outside 1 to 4096, or its ratio is not "
               "1, 2 or 4 or does not divide them; or a payload has not the length that the head calls for";
    case SAFETEAL_REFUSED_TURN:
        return "a pair is handed over to a walk out of turn, after the clip's last or while a layer is due, or a layer "
               "is taken when none is due: hand over pair walk.added, and take each layer before the next pair";
    }
    return "no number of this interface";
}

/* ---- Groups of arguments ---- */

/* A layer, to read: what the lettering does to each pixel, shown = gain * scene + offset, where the scene is what would
   be seen without it. Its numbers have 16 bits: gains in 4096ths (4096 is 1), offsets in 64ths of a grey level (64 is
   1), distances in cells of 8 by 8 luma pixels.

       luma[y * luma_pitch + x]                             the gain of luma pixel (x, y)
       luma[(height + y) * luma_pitch + x]                  its offset
       chroma1[y * chroma_pitch + x], chroma2[the same]     the offset of pixel (x, y) of plane 1, of plane 2
       chroma2[(height / ratio + j) * chroma_pitch + i]     the distance of cell (i, j), luma pixels 8i.. and 8j..

   The gain of a chroma pixel is the mean of its ratio * ratio luma gains. A distance is 0 for a cell that is marked as
   having lettering, 1 beside one, diagonally too, and so on. The second half of chroma1 is not used.

   A pixel of a plane is LAYERED where its cell's distance is at most 1 and its gain and offset there are not 1 and 0.
   Peel and unpeel write these and no other.

   Lengths in numbers, at least; all three are measured, whatever plane the call is for:

       luma                  2 * luma_pitch * height
       chroma1, chroma2      2 * chroma_pitch * (height / ratio) each

   Where the layer is lent as bytes (T is uint8_t) each number is two of them, the low one first: the lengths then count
   bytes and are at least twice these, an odd byte at the end is passed over, and the pitches still count numbers.
   A layer that safeteal_fit, safeteal_walk_layer, safeteal_assemble or safeteal_parcel_read left has the pitches width
   and width / ratio. */
#define SAFETEAL_LAYER(T) \
    const T *luma, size_t luma_len, const T *chroma1, size_t chroma1_len, const T *chroma2, size_t chroma2_len, \
    size_t luma_pitch, size_t chroma_pitch, size_t width, size_t height, size_t ratio

/* The plane of the frame that is written: its number, 0 to 2, and its bytes. */
#define SAFETEAL_OUTPUT size_t plane, uint8_t *SAFETEAL_RESTRICT output, size_t output_len, size_t output_pitch

/* The same plane of two neighbouring frames as they came, with their lettering, and a time between them: 0 is the
   first, 1 the second. */
#define SAFETEAL_FRAMES \
    const uint8_t *first, size_t first_len, size_t first_pitch, \
    const uint8_t *second, size_t second_len, size_t second_pitch, float time

/* The motion between two frames: four numbers for each block of a grid, in steps of 1 / pel luma pixels, 1024 being
   none. What the second frame shows at luma pixel (x, y), the first shows at

       (x + (backward_x - 1024) / pel, y + (backward_y - 1024) / pel)

   and what the first shows at (x, y), the second shows there by forward_x and forward_y. A camera that went 6 pixels to
   the right gives backward_x 1030 and forward_x 1018, at pel 1.

   Block (i, j) is element j * grid_width + i of each field. It has block_width by block_height luma pixels, and its
   upper left one is (origin_x + i * block_width, origin_y + j * block_height). Its numbers hold in its middle; between
   middles they are mixed, and beyond the outermost middles those hold. So a grid may be smaller than the frame.

   Each field has exactly grid_width * grid_height elements, of any value. Grid sides are 1 to 4096, block sides 1 to
   128, origins -4096 to 4096, and pel is 1, 2 or 4. */
#define SAFETEAL_MOTION \
    const uint16_t *forward_x, size_t forward_x_len, const uint16_t *forward_y, size_t forward_y_len, \
    const uint16_t *backward_x, size_t backward_x_len, const uint16_t *backward_y, size_t backward_y_len, \
    size_t grid_width, size_t grid_height, int32_t block_width, int32_t block_height, \
    int32_t origin_x, int32_t origin_y, int32_t pel

/* All planes of two neighbouring frames as they came: first0, first1 and first2 are planes 0, 1 and 2 of the first
   frame, second0 and so on those of the second. */
#define SAFETEAL_PLANES \
    const uint8_t *first0, size_t first0_len, size_t first0_pitch, \
    const uint8_t *first1, size_t first1_len, size_t first1_pitch, \
    const uint8_t *first2, size_t first2_len, size_t first2_pitch, \
    const uint8_t *second0, size_t second0_len, size_t second0_pitch, \
    const uint8_t *second1, size_t second1_len, size_t second1_pitch, \
    const uint8_t *second2, size_t second2_len, size_t second2_pitch

/* The sums of the three chunks that a walk keeps, in slots 0, 1 and 2: of each those of luma and of planes 1 and 2, so
   that chroma12 are plane 2's in slot 1. Each call of a walk is lent the same nine, and nobody else changes them
   meanwhile; before the first pair they may hold any values. Which chunk lies in which slot is the walk's own business.

   All nine are measured in each call, however few pairs the clip has. Exact lengths, as those of safeteal_stats, 174 MB
   in all for 1920 by 1080 at ratio 2:

       luma0, luma1, luma2                 6 * width * height each
       chroma01, chroma02, chroma11, ..    2 * (width / ratio) * (height / ratio) each */
#define SAFETEAL_SLOTS(T) \
    T luma0, size_t luma0_len, T chroma01, size_t chroma01_len, T chroma02, size_t chroma02_len, \
    T luma1, size_t luma1_len, T chroma11, size_t chroma11_len, T chroma12, size_t chroma12_len, \
    T luma2, size_t luma2_len, T chroma21, size_t chroma21_len, T chroma22, size_t chroma22_len

/* ---- Finding the lettering ---- */

/* Adds one pair of neighbouring frames to the sums of a part.

   pairs is how many pairs the sums hold already, 0 to 11, which the caller counts: with 0 the sums start from 0,
   whatever they held. Each pair makes two comparisons for a pixel: the second frame with the first moved onto it, and
   the other way round.

   Writes all of luma, chroma1 and chroma2, the sums. Exact lengths, 58 MB for 1920 by 1080 at ratio 2:

       luma                  6 * width * height
       chroma1, chroma2      2 * (width / ratio) * (height / ratio) each

   Luma pixel (x, y) has six sums, from element 6 * (y * width + x) on: of the moved samples, of the own bytes, of moved
   squared, of moved times own, of own squared, and the number of comparisons in which the two were more than 24 apart.
   Pixel (x, y) of a chroma plane has the first two of these, from element 2 * (y * (width / ratio) + x) on. */
uint64_t safeteal_stats(
    float *SAFETEAL_RESTRICT luma, size_t luma_len, float *SAFETEAL_RESTRICT chroma1, size_t chroma1_len,
    float *SAFETEAL_RESTRICT chroma2, size_t chroma2_len,
    size_t pairs, size_t width, size_t height, size_t ratio, SAFETEAL_PLANES, SAFETEAL_MOTION);

/* Finds the lettering in the sums of a part (own, own1, own2 for planes 0, 1, 2, with pairs, 1 to 12) and of the parts
   before and after it in the clip (previous.. with before, next.. with after, 0 to 12), and stores it as a layer.

   A neighbour with 0 pairs is absent: its slices are not looked at, and NULL with length 0 will do for each. Those of a
   neighbour that is present, and own's always, have exactly the lengths of safeteal_stats.

       limit       0.5 to 255, in grey levels: a pixel is no lettering unless its bytes are further than that from the
                   scene moving under it (the root of their mean squared difference). Begin with 6.
       evidence    0 to 65536: in how many comparisons at least they must have been more than 24 apart; above
                   2 * (before + pairs + after) nothing is found. Begin with 2. Without strict, and where both calls are
                   accepted, each luma pixel that was found keeps its gain and offset by a lower figure.
       strict      a closer fit is asked for, and a plain one is taken only where a neighbour has a close one at the
                   pixel. Begin with false.

   Writes all of luma, chroma1 and chroma2: the layer, its distances included. Chroma totals are held as they are in
   safeteal_assemble, so that no colour cast is too heavy. models, kept and cover are work slices: after acceptance, and
   after it alone, what they hold means nothing. Exact lengths:

       luma                  2 * width * height
       chroma1, chroma2      2 * (width / ratio) * (height / ratio) each
       models                4 * width * height
       kept                  width * height
       cover                 ((width + 7) / 8) * ((height + 7) / 8) */
uint64_t safeteal_fit(
    const float *previous, size_t previous_len, const float *previous1, size_t previous1_len,
    const float *previous2, size_t previous2_len, size_t before,
    const float *own, size_t own_len, const float *own1, size_t own1_len,
    const float *own2, size_t own2_len, size_t pairs,
    const float *next, size_t next_len, const float *next1, size_t next1_len,
    const float *next2, size_t next2_len, size_t after,
    size_t width, size_t height, float limit, float evidence, bool strict, size_t ratio,
    float *SAFETEAL_RESTRICT models, size_t models_len, uint8_t *SAFETEAL_RESTRICT kept, size_t kept_len,
    uint8_t *SAFETEAL_RESTRICT cover, size_t cover_len,
    int16_t *SAFETEAL_RESTRICT luma, size_t luma_len, int16_t *SAFETEAL_RESTRICT chroma1, size_t chroma1_len,
    int16_t *SAFETEAL_RESTRICT chroma2, size_t chroma2_len);

/* Stores models and a cover of the caller's own as a layer.

   models has four floats for each luma pixel, row after row: gain, offset, and the offsets of planes 1 and 2. cover has
   a byte for each 8 by 8 cell, row after row, and is stored as it is: to make distances of marks, call
   safeteal_distances first, with a width of (width + 7) / 8. Any floats are accepted: NaN is stored as 0, and what does
   not fit as 32767 or -32767. A chroma pixel's offset is the total over its luma pixels of offset / (ratio * ratio),
   each stored so by itself; it is summed whole and then held to -32768 to 32767, so that a heavy colour cast is stored
   as near as 16 bits allow.

   Writes all of luma, chroma1 and chroma2. The lengths of all five slices are exactly those of safeteal_fit. */
uint64_t safeteal_assemble(
    size_t width, size_t height, size_t ratio,
    const float *models, size_t models_len, const uint8_t *cover, size_t cover_len,
    int16_t *SAFETEAL_RESTRICT luma, size_t luma_len, int16_t *SAFETEAL_RESTRICT chroma1, size_t chroma1_len,
    int16_t *SAFETEAL_RESTRICT chroma2, size_t chroma2_len);

/* ---- Walking over a whole clip ---- */

/* Starts a walk over a clip of that many pairs, whatever their number. Writes nothing.

   Pairs, chunks and layers are counted from 0. Chunk c has pairs 12 * c to 12 * c + 11, and the last chunk those that
   are left. There is a layer for each chunk, fitted to the sums of the chunk and of those before and after it; the
   first chunk has none before it, and the last none after it. Layer c is due once chunk c + 1 is complete, or the clip,
   and is taken before the next pair. So a walk needs the sums of three chunks at a time, however long the clip is. Of
   30 pairs, layer 0 is due after pair 23, and layers 1 and 2 after pair 29. A clip of no pairs gives no layer.

       struct safeteal_walked at = safeteal_walk_start(width, height, ratio, pairs);
       for (size_t number = 0; number < pairs; number++) {
           at = safeteal_walk_pair(at.walk, .., number, ..);
           while (safeteal_walk_due(at.walk)) at = safeteal_walk_layer(at.walk, ..);
       }

   Each layer is the one that safeteal_fit makes of the sums that safeteal_stats makes of the chunks' pairs. A refusal
   changes nothing: the walk that is answered is the one that was given, and goes on. */
struct safeteal_walked safeteal_walk_start(size_t width, size_t height, size_t ratio, size_t pairs);

/* Hands over the pair of that number: adds it to the sums of its chunk, as safeteal_stats does. The walk that is
   answered has one more in added.

   The number must be walk.added and below walk.pairs, and no layer may be due: else it is refused with 12, which is
   tested last. So is a walk that accepted calls from a start on do not leave.

   Writes the three slices of one slot, all of them. */
struct safeteal_walked safeteal_walk_pair(
    struct safeteal_walk walk, SAFETEAL_SLOTS(float *SAFETEAL_RESTRICT), size_t number, SAFETEAL_PLANES,
    SAFETEAL_MOTION);

/* Takes the layer that is due, that of chunk walk.taken. limit, evidence and strict are those of safeteal_fit, and each
   layer may have its own. The walk that is answered has one more in taken.

   Where no layer is due, it is refused with 12, which is tested last; so is a walk that accepted calls from a start on
   do not leave. As the sums are only read, a layer can be tried: by going on with the walk as it was.

   Writes all of luma, chroma1 and chroma2: the layer. models, kept and cover are work slices. What they hold, and the
   lengths of all six, is as in safeteal_fit. */
struct safeteal_walked safeteal_walk_layer(
    struct safeteal_walk walk, SAFETEAL_SLOTS(const float *), float limit, float evidence, bool strict,
    float *SAFETEAL_RESTRICT models, size_t models_len, uint8_t *SAFETEAL_RESTRICT kept, size_t kept_len,
    uint8_t *SAFETEAL_RESTRICT cover, size_t cover_len,
    int16_t *SAFETEAL_RESTRICT luma, size_t luma_len, int16_t *SAFETEAL_RESTRICT chroma1, size_t chroma1_len,
    int16_t *SAFETEAL_RESTRICT chroma2, size_t chroma2_len);

/* Whether a layer is due: safeteal_count is 1 for yes and 0 for no. (The answer is 256 or 0.) It is no for a walk that
   accepted calls from a start on do not leave, and never refused. Writes nothing. */
uint64_t safeteal_walk_due(struct safeteal_walk walk);

/* ---- Lifting it off and laying it back; each call is for one plane ---- */

/* Lifts the lettering off a plane.

   Writes the LAYERED pixels of output and no other: to have the whole plane there, copy raw to output first. What
   output held is not looked at. The byte is (raw - offset) / gain, held to 0 to 255 and rounded. Where the gain is
   between -0.2 and 0.2 nothing can be lifted: the byte is then the mean of what is lifted among eight points around the
   pixel, 4 luma pixels away and held to the plane, else 8, else 12, or raw if there is none. Counts the pixels written.
   The layer is lent as bytes. */
uint64_t safeteal_peel(
    SAFETEAL_LAYER(uint8_t), SAFETEAL_OUTPUT, const uint8_t *raw, size_t raw_len, size_t raw_pitch);

/* Lays the lettering back onto a plane of a frame that was made between two lifted ones.

   output holds that plane, and is read as well. Writes its LAYERED pixels and no other. Where first and second differ
   by at most 2.5 at the pixel, or the gain is between -0.2 and 0.2, the byte is their mix,
   first + (second - first) * time, rounded. Elsewhere it is gain * m + offset, rounded, where m is the middle one of
   three: the byte that output held, (first - offset) / gain and (second - offset) / gain, these two held to 0 to 255.
   Counts the pixels written. The layer is lent as bytes. */
uint64_t safeteal_unpeel(SAFETEAL_LAYER(uint8_t), SAFETEAL_OUTPUT, SAFETEAL_FRAMES);

/* safeteal_peel with the layer lent as numbers, as safeteal_fit leaves it. */
uint64_t safeteal_peel_numbers(
    SAFETEAL_LAYER(int16_t), SAFETEAL_OUTPUT, const uint8_t *raw, size_t raw_len, size_t raw_pitch);

/* safeteal_unpeel with the layer lent as numbers, as safeteal_fit leaves it. */
uint64_t safeteal_unpeel_numbers(SAFETEAL_LAYER(int16_t), SAFETEAL_OUTPUT, SAFETEAL_FRAMES);

/* Makes a plane of the frame in between under and near the lettering, with the lettering on it: the scene is lifted off
   both frames where the motion leads, and the lettering laid over it.

   Writes the pixels near lettering and no other: to have the whole plane there, put a frame in between that was made in
   some other way into output first. What output held is not looked at. A pixel is near where its gap, 8 times its
   cell's distance minus 8, is at most max(16, far + 1) and at most max(16, reach + 1). Here far is the largest motion
   in the four fields, and reach the largest of the four at the pixel, the backward ones times time and the forward ones
   times (1 - time); both in luma pixels, whatever the direction. Counts the pixels written.

   The byte is gain * s + offset, rounded, where s is the scene without lettering. Where the gain is between -0.2 and
   0.2, or the pixel is LAYERED and first and second differ by at most 2.5 there, it is their mix, as in
   safeteal_unpeel. algo says which scene s is where both frames could be lifted: 1 that of the second, 2 that of the
   first, any other number the middle one of both and of their mix without motion. Where one alone could be lifted s is
   that one's, and where none could, the mix without motion. */
uint64_t safeteal_render(
    SAFETEAL_LAYER(int16_t), SAFETEAL_OUTPUT, SAFETEAL_FRAMES, SAFETEAL_MOTION, int32_t algo);

/* ---- The cells of a layer ---- */

/* Whether the layer marks no cell, that is, none has distance 0: safeteal_count is 1 for yes and 0 for no. (The answer
   is 256 or 0; a refusal is no.) Writes nothing. */
uint64_t safeteal_empty(SAFETEAL_LAYER(int16_t));

/* Makes distances of marks: each cell becomes the least of 255 and of any cell's old byte plus the steps to it,
   diagonal steps included. So with 0 for a mark and 255 elsewhere it becomes the distance to the nearest mark.

   cells holds rows of `width` cells; the length is any, and width any but 0. Writes the complete rows, and leaves alone
   what is left over behind the last of them. */
uint64_t safeteal_distances(uint8_t *SAFETEAL_RESTRICT cells, size_t cells_len, size_t width);

/* ---- Sending a layer to another desk ---- */

/* The bytes of a parcel of a layer of that size and ratio, which are ones that the calls take. */
static inline size_t safeteal_parcel_length(size_t width, size_t height, size_t ratio) {
    size_t luma = width * height, chroma = (width / ratio) * (height / ratio);
    size_t cells = ((width + 7) / 8) * ((height + 7) / 8);
    return 42 + 4 * luma + 4 * chroma + 2 * cells;
}

/* Writes a layer as a parcel, one run of bytes that tells its size and ratio itself.

   A parcel is a run of records. A record is the length of its payload in bytes (4 bytes), its kind (2 bytes), and the
   payload; then the next one begins. Of each number the low byte stands first. Lengths, kinds and the numbers of the
   head are without sign; the others are numbers of a layer, of 16 bits with a sign, row after row without padding.

       kind      payload                                  bytes of the payload
       1         the head: width, height, ratio           6
       2         the gains of luma                        2 * width * height
       3         the offsets of luma                      2 * width * height
       4, 5      the offsets of plane 1, of plane 2       2 * (width / ratio) * (height / ratio) each
       6         the distances of the cells               2 * ((width + 7) / 8) * ((height + 7) / 8)

   Writes all of parcel, the kinds in this order. What a layer has beside these numbers, padding and the rest of the
   second halves of chroma1 and chroma2, is not sent. Exact length, which is
   safeteal_parcel_length(width, height, ratio), 10.4 MB for 1920 by 1080 at ratio 2:

       parcel                42 + 4 * width * height + 4 * (width / ratio) * (height / ratio)
                             + 2 * ((width + 7) / 8) * ((height + 7) / 8) */
uint64_t safeteal_parcel_write(SAFETEAL_LAYER(int16_t), uint8_t *SAFETEAL_RESTRICT parcel, size_t parcel_len);

/* Reads a parcel into a layer with the pitches width and width / ratio, and answers the numbers of its head; when it is
   refused, by 4 too, these are 0.

   Any bytes may be lent. These tests follow each other, each over the whole parcel: no record is cut short (9); kind 1
   stands first, and kinds 2 to 6 once each in any order (10); the head has 6 bytes, with a width, height and ratio that
   the calls take, and each payload has the length of the table above for these (11). Then the slices are measured (4).

   Writes all of luma, chroma1 and chroma2: the numbers that were sent, and 0 in the second halves of chroma1 and
   chroma2 where there is no distance. Exact lengths, with width, height and ratio as the head has them, which
   safeteal_parcel_sizes tells beforehand:

       luma                  2 * width * height
       chroma1, chroma2      2 * (width / ratio) * (height / ratio) each */
struct safeteal_sizes safeteal_parcel_read(
    const uint8_t *parcel, size_t parcel_len,
    int16_t *SAFETEAL_RESTRICT luma, size_t luma_len, int16_t *SAFETEAL_RESTRICT chroma1, size_t chroma1_len,
    int16_t *SAFETEAL_RESTRICT chroma2, size_t chroma2_len);

/* The numbers of a parcel's head, after the tests of safeteal_parcel_read for 9, 10 and 11: that call accepts the
   parcel with slices of the lengths that follow from them. Writes nothing. */
struct safeteal_sizes safeteal_parcel_sizes(const uint8_t *parcel, size_t parcel_len);

/* ---- What stood still; width and height are those of the plane itself ---- */

/* Marks the pixels that stand still between two planes, which share one pitch.

   Writes all of still, exactly width * height bytes, row after row: 1 where the pixel and the three others at one of
   its corners are the same on both planes, 0 elsewhere. (At the border those outside are the border's own.) A pixel is
   the same if |first - second| / 255 is at most limit; or if it stands out by more than edge, and by the same amount up
   to `tolerance` of that: |a - b| <= tolerance * m and m > edge, where a and b are, on each plane, (the pixel - the
   mean of it and those to its right, below it and diagonally between) / 255, and m is the larger of |a| and |b|. So
   limit and edge are parts of the full range: 4.5 / 255 is 4.5 grey levels. Any floats are accepted; a comparison with
   a NaN fails. */
uint64_t safeteal_mask(
    const uint8_t *first, size_t first_len, const uint8_t *second, size_t second_len, size_t pitch,
    size_t width, size_t height, float limit, float edge, float tolerance,
    uint8_t *SAFETEAL_RESTRICT still, size_t still_len);

/* Mixes two planes, which share one pitch, where the mask stands still; time is 0 to 1.

   The mask has sx by sy cells for each pixel, each 1 to 8. Another width or length than these is refused with 2:

       still_width           sx * width
       still_len             still_width * (sy * height)

   Cell (i, j) is still[j * still_width + i], and pixel (x, y) has the sx by sy cells from (x * sx, y * sy) on. The mask
   that safeteal_mask makes has 1 by 1.

   Writes the pixels of output for which 10 * sum > 4 * (sx * sy), where sum is the total of the pixel's cells, and no
   other. What output held is not looked at. The byte is first + (second - first) * time, rounded. */
uint64_t safeteal_apply(
    uint8_t *SAFETEAL_RESTRICT output, size_t output_len, size_t output_pitch,
    const uint8_t *first, size_t first_len, const uint8_t *second, size_t second_len, size_t pitch,
    size_t width, size_t height, const uint8_t *still, size_t still_len, size_t still_width, float time);

/* Weighs the bytes of a held plane into output, by a mask of bytes: 0 is all held, 255 all output's own.

   The mask has cells as the one of safeteal_apply. With sum the total of a pixel's cells and full = 255 * (sx * sy),
   writes the pixels of output for which sum < full, and no other:

       (held * (full - sum) + made * sum + full / 2) / full

   in whole numbers, both divisions cut, where made is the byte that output held. With one cell of 128, 200 held and 100
   made become 150. */
uint64_t safeteal_hold(
    uint8_t *SAFETEAL_RESTRICT output, size_t output_len, size_t output_pitch,
    const uint8_t *held, size_t held_len, size_t held_pitch,
    size_t width, size_t height, const uint8_t *mask, size_t mask_len, size_t mask_width);

/* ---- Single numbers: no answer as above, but the number itself ---- */

/* The rounding of a byte, for any float: 0 to 255, halves up, NaN is 0. */
uint64_t safeteal_pixel(float value);

/* The number that is stored for value * scale, for any floats: -32767 to 32767, halves away from 0, NaN is 0. A gain's
   scale is 4096, an offset's 64. */
int16_t safeteal_stored(float value, float scale);

#undef SAFETEAL_LAYER
#undef SAFETEAL_OUTPUT
#undef SAFETEAL_FRAMES
#undef SAFETEAL_MOTION
#undef SAFETEAL_PLANES
#undef SAFETEAL_SLOTS
#undef SAFETEAL_RESTRICT

#ifdef __cplusplus
}
#endif

#endif
