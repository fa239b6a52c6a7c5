/* How much stack the entries take: each call is made on a stack of its own that was painted before, and what it left painted
 * is counted. Runs over 1 and over 1,024 items, with the records that the box at hand surfaces. Prints the most of each
 * entry; exits with 1 if one takes more than LIMIT bytes. Needs POSIX threads. */
#include <pthread.h>
#include <stdio.h>
#include <stdlib.h>
#include "oof.h"

enum { STACK = 1 << 20, PAINT = 0xA5, LIMIT = 4096 };

/* ---- a call on a painted stack */

typedef struct {
    uint32_t (*call)(void *context);
    void *context;
    uint32_t result;
} job;

static void *run_job(void *context)
{
    job *j = context;
    j->result = j->call(j->context);
    return NULL;
}

static size_t used(uint32_t (*call)(void *context), void *context, uint32_t *result)
{
    static _Alignas(4096) unsigned char stack[STACK];
    job j = {call, context, 0};
    pthread_t thread;
    pthread_attr_t attributes;
    memset(stack, PAINT, sizeof stack);
    if (pthread_attr_init(&attributes) || pthread_attr_setstack(&attributes, stack, sizeof stack) ||
        pthread_create(&thread, &attributes, run_job, &j) || pthread_join(thread, NULL)) {
        puts("hosts/c: no thread");
        exit(EXIT_FAILURE);
    }
    pthread_attr_destroy(&attributes);
    size_t untouched = 0;
    while (untouched < sizeof stack && stack[untouched] == PAINT)
        untouched++;
    if (result)
        *result = j.result;
    return sizeof stack - untouched;
}

/* ---- the calls */

enum { MOST = OOF_MOST_ITEMS };

static size_t items;
static uint32_t styles[MOST * OOF_STYLE_WORDS], style[OOF_STYLE_WORDS], layouts[MOST * OOF_LAYOUT_WORDS];
static uint32_t candidates[2 * OOF_CANDIDATE_WORDS], working[4 * OOF_CANDIDATE_WORDS], unclaimed[4 * OOF_CANDIDATE_WORDS];
static uint32_t tally[MOST], state[OOF_STATE_WORDS], answer[OOF_ANSWER_WORDS];

#define TABLE styles, items * OOF_STYLE_WORDS
#define TRIED TABLE, (uint32_t)(items - 1), style, OOF_STYLE_WORDS /* of a preview: the last item's record is replaced */
#define LENT                                                                                                          \
    layouts, items * OOF_LAYOUT_WORDS, working, 4 * OOF_CANDIDATE_WORDS, unclaimed, 4 * OOF_CANDIDATE_WORDS, tally, items, \
        state, answer
#define AREA                                                                                                          \
    800, 480, 100, 40, OOF_DIRECTION_LTR, OOF_CLAIMS_ABSOLUTE, OOF_OVERFLOW_VISIBLE, OOF_OVERFLOW_VISIBLE
#define HOISTED candidates, 2 * OOF_CANDIDATE_WORDS

static uint32_t nothing(void *context)
{
    (void)context;
    return 0;
}
static uint32_t do_open(void *context)
{
    (void)context;
    return oof_open(AREA, TABLE, HOISTED, LENT);
}
static uint32_t do_both(void *context)
{
    (void)context;
    return oof_reply_both(120, 18, TABLE, LENT);
}
static uint32_t do_width(void *context)
{
    (void)context;
    return oof_reply_width(120, TABLE, LENT);
}
static uint32_t do_height(void *context)
{
    (void)context;
    return oof_reply_height(18, TABLE, LENT);
}
static uint32_t do_lay_out(void *context)
{
    (void)context;
    return oof_reply_laid_out(0, 10, 0, 10, candidates, OOF_CANDIDATE_WORDS, TABLE, LENT);
}

/* the same run as a preview, whose replacement is the style of the last item; the live record there breaks a rule */
static uint32_t do_preview_open(void *context)
{
    (void)context;
    return oof_preview_open(AREA, TRIED, HOISTED, LENT);
}
static uint32_t do_preview_both(void *context)
{
    (void)context;
    return oof_preview_reply_both(120, 18, TRIED, LENT);
}
static uint32_t do_preview_width(void *context)
{
    (void)context;
    return oof_preview_reply_width(120, TRIED, LENT);
}
static uint32_t do_preview_height(void *context)
{
    (void)context;
    return oof_preview_reply_height(18, TRIED, LENT);
}
static uint32_t do_preview_lay_out(void *context)
{
    (void)context;
    return oof_preview_reply_laid_out(0, 10, 0, 10, candidates, OOF_CANDIDATE_WORDS, TRIED, LENT);
}

static uint32_t do_pixels(void *context)
{
    static const uint32_t layout[OOF_LAYOUT_WORDS];
    int32_t edges[OOF_PIXEL_EDGES];
    (void)context;
    return oof_pixels(layout, -0.625f, 0, edges);
}

/* the last box of the run that stands in the words */
static uint32_t do_reach(void *context)
{
    uint32_t verdict[OOF_REACH_WORDS];
    (void)context;
    return oof_reach(state[OOF_STATE_WORKING] - 1, styles, items * OOF_STYLE_WORDS, layouts, items * OOF_LAYOUT_WORDS, working,
                     4 * OOF_CANDIDATE_WORDS, unclaimed, 4 * OOF_CANDIDATE_WORDS, state, verdict);
}

/* of the same run: the box on layer 9 and the one that it surfaced, on another layer, so that there are two passes */
static uint32_t do_drawing_order(void *context)
{
    uint32_t order[2];
    (void)context;
    working[OOF_CANDIDATE_LAYER] = 9;
    uint32_t result = oof_drawing_order(styles, items * OOF_STYLE_WORDS, layouts, items * OOF_LAYOUT_WORDS, working,
                                        4 * OOF_CANDIDATE_WORDS, unclaimed, 4 * OOF_CANDIDATE_WORDS, state, order,
                                        state[OOF_STATE_WORKING]);
    return result == OOF_ACCEPTED && order[0] == 1 && order[1] == 0 ? OOF_ACCEPTED : OOF_BAD_EXTENT;
}

/* of the same run: both boxes are of the last item, which is laid out */
static uint32_t do_touch(void *context)
{
    uint32_t words[2 * OOF_TOUCH_WORDS];
    (void)context;
    uint32_t result = oof_touch(styles, items * OOF_STYLE_WORDS, layouts, items * OOF_LAYOUT_WORDS, working,
                                4 * OOF_CANDIDATE_WORDS, unclaimed, 4 * OOF_CANDIDATE_WORDS, state, words,
                                state[OOF_STATE_WORKING] * OOF_TOUCH_WORDS);
    return result == OOF_ACCEPTED && words[OOF_TOUCH_WORDS + OOF_TOUCH_NODE] == items - 1 ? OOF_ACCEPTED : OOF_BAD_EXTENT;
}

/* the whole table: no word of it breaks a rule; then its last one does */
static uint32_t do_first_bad_word(void *context)
{
    uint32_t found[OOF_FOUND_WORDS], *last = styles + items * OOF_STYLE_WORDS - 1;
    (void)context;
    uint32_t none = oof_first_bad_word(styles, items * OOF_STYLE_WORDS, found);
    *last = 256;
    uint32_t one = oof_first_bad_word(styles, items * OOF_STYLE_WORDS, found);
    *last = 0;
    return none == 0 && one == 1 && found[OOF_FOUND_ITEM] == items - 1 ? OOF_ACCEPTED : OOF_BAD_STYLE;
}

/* items whose sizes are asked by this tag of the width and that of the height */
static void fill(size_t count, uint32_t width, uint32_t height)
{
    items = count;
    memset(styles, 0, sizeof styles);
    for (size_t i = 0; i < count; i++) {
        uint32_t *s = styles + i * OOF_STYLE_WORDS;
        for (size_t at = OOF_STYLE_INSET_LEFT; at <= OOF_STYLE_MARGIN_BOTTOM; at += OOF_LENGTH_WORDS)
            oof_set_length(s, at, OOF_TAG_AUTO, 0);
        for (size_t at = OOF_STYLE_PADDING_LEFT; at <= OOF_STYLE_BORDER_BOTTOM; at += OOF_LENGTH_WORDS)
            oof_set_length(s, at, OOF_TAG_PX, 1);
        for (size_t at = OOF_STYLE_WIDTH; at <= OOF_STYLE_MAX_HEIGHT; at += OOF_LENGTH_WORDS)
            oof_set_length(s, at, OOF_TAG_AUTO, 0);
        oof_set_length(s, OOF_STYLE_WIDTH, width, 0);
        oof_set_length(s, OOF_STYLE_HEIGHT, height, 0);
        s[OOF_STYLE_JUSTIFY] = s[OOF_STYLE_ALIGN] = OOF_ALIGN_ABSENT;
    }
    memset(candidates, 0, sizeof candidates);
    for (size_t k = 0; k < 2; k++) {
        candidates[k * OOF_CANDIDATE_WORDS + OOF_CANDIDATE_NODE] = (uint32_t)(count - 1);
        candidates[k * OOF_CANDIDATE_WORDS + OOF_CANDIDATE_POSITION] = k ? OOF_POSITION_FIXED : OOF_POSITION_ABSOLUTE;
    }
}

enum { ENTRIES = 15 };

static size_t most[ENTRIES];
static int accepted;

static void measure(int entry, uint32_t (*call)(void *context), size_t without)
{
    uint32_t result;
    size_t bytes = used(call, NULL, &result) - without;
    accepted += result == OOF_ACCEPTED;
    if (bytes > most[entry])
        most[entry] = bytes;
}

static void measure_preview(size_t without)
{
    uint32_t *live = styles + (items - 1) * OOF_STYLE_WORDS;
    memcpy(style, live, sizeof style);
    memset(live, 0xFF, sizeof style);
    measure(10, do_preview_open, without);
    measure(11, do_preview_both, without);
    measure(12, do_preview_width, without);
    measure(13, do_preview_height, without);
    measure(14, do_preview_lay_out, without);
    memcpy(live, style, sizeof style);
}

int main(void)
{
    const uint32_t tags[4][2] = {{OOF_TAG_AUTO, OOF_TAG_AUTO},
                                 {OOF_TAG_MIN_CONTENT, OOF_TAG_MAX_CONTENT},
                                 {OOF_TAG_MIN_CONTENT, OOF_TAG_STRETCH},
                                 {OOF_TAG_STRETCH, OOF_TAG_MAX_CONTENT}};
    const size_t without = used(nothing, NULL, NULL);
    fill(1, OOF_TAG_AUTO, OOF_TAG_AUTO);
    do_open(NULL); /* so that the dynamic linker's search for memcpy and memset isn't counted */
    for (size_t count = 1; count <= MOST; count += MOST - 1)
        for (int k = 0; k < 4; k++) {
            fill(count, tags[k][0], tags[k][1]);
            measure_preview(without);
            measure(0, do_open, without);
            measure(1, do_both, without);
            measure(2, do_width, without);
            measure(3, do_height, without);
            measure(4, do_lay_out, without);
            state[OOF_STATE_PROGRESS] = 0; /* the surfaced box is asked about next; a finished run, which scrolls, instead */
            state[OOF_STATE_OVERFLOW_X] = state[OOF_STATE_OVERFLOW_Y] = OOF_OVERFLOW_SCROLL;
            measure(5, do_reach, without);
            measure(8, do_drawing_order, without);
            measure(9, do_touch, without);
            measure(7, do_first_bad_word, without);
        }
    measure(6, do_pixels, without);
    printf("hosts/c: bytes of stack, %d calls accepted: open %zu, both %zu, width %zu, height %zu, laid out %zu; "
           "preview open %zu, preview both %zu, preview width %zu, preview height %zu, preview laid out %zu; reach %zu; "
           "drawing order %zu; touch %zu; pixels %zu; first bad word %zu\n",
           accepted, most[0], most[1], most[2], most[3], most[4], most[10], most[11], most[12], most[13], most[14], most[5],
           most[8], most[9], most[6], most[7]);
    for (int entry = 0; entry < ENTRIES; entry++)
        if (most[entry] > LIMIT || most[entry] == 0)
            return EXIT_FAILURE;
    return accepted == 81 ? EXIT_SUCCESS : EXIT_FAILURE;
}
