/* What the header says of offsets, of layers, of refused calls, of pixels, of boxes that no scrolling brings up, of the drawing
 * order, of what a touch driver reads, of words that break a rule, of sums, of size keywords, of the tally and of previews, tried.
 * Prints one line; exits with 1 at the first that isn't so. */
#include <stdio.h>
#include <stdlib.h>
#include "oof.h"

enum { ROOM = 2 };

typedef struct {
    float width, height, x, y;
    uint32_t direction;
    uint32_t styles[OOF_STYLE_WORDS];
    uint32_t candidates[OOF_CANDIDATE_WORDS];
    uint32_t layouts[OOF_LAYOUT_WORDS];
    uint32_t working[ROOM * OOF_CANDIDATE_WORDS];
    uint32_t unclaimed[ROOM * OOF_CANDIDATE_WORDS];
    uint32_t tally[1];
    uint32_t state[OOF_STATE_WORDS];
    uint32_t answer[OOF_ANSWER_WORDS];
} words;

#define LENT(w)                                                                                                       \
    (w)->styles, OOF_STYLE_WORDS, (w)->layouts, OOF_LAYOUT_WORDS, (w)->working, ROOM * OOF_CANDIDATE_WORDS,            \
        (w)->unclaimed, ROOM * OOF_CANDIDATE_WORDS, (w)->tally, 1, (w)->state, (w)->answer

static int tried;

#define MUST(what)                                                                                                    \
    do {                                                                                                              \
        tried++;                                                                                                      \
        if (!(what)) {                                                                                                \
            printf("hosts/c: not so: %s (test.c:%d)\n", #what, __LINE__);                                             \
            exit(EXIT_FAILURE);                                                                                       \
        }                                                                                                             \
    } while (0)

/* a style whose lengths are auto or 0 */
static void plain_style(uint32_t *style)
{
    memset(style, 0, OOF_STYLE_WORDS * sizeof *style);
    for (size_t at = OOF_STYLE_INSET_LEFT; at <= OOF_STYLE_INSET_BOTTOM; at += OOF_LENGTH_WORDS)
        oof_set_length(style, at, OOF_TAG_AUTO, 0);
    for (size_t at = OOF_STYLE_MARGIN_LEFT; at <= OOF_STYLE_BORDER_BOTTOM; at += OOF_LENGTH_WORDS)
        oof_set_length(style, at, OOF_TAG_PX, 0);
    for (size_t at = OOF_STYLE_WIDTH; at <= OOF_STYLE_MAX_HEIGHT; at += OOF_LENGTH_WORDS)
        oof_set_length(style, at, OOF_TAG_AUTO, 0);
    style[OOF_STYLE_JUSTIFY] = style[OOF_STYLE_ALIGN] = OOF_ALIGN_ABSENT;
}

/* a box of 120 by 18 without insets, at one point of a 200 by 100 area; what is to be written holds noise */
static words box_at(float x, float y, float static_x, float static_y)
{
    words w;
    memset(&w, 0x5A, sizeof w);
    memset(w.candidates, 0, sizeof w.candidates);
    w.width = 200, w.height = 100, w.x = x, w.y = y, w.direction = OOF_DIRECTION_LTR;
    plain_style(w.styles);
    w.candidates[OOF_CANDIDATE_POSITION] = OOF_POSITION_ABSOLUTE;
    w.candidates[OOF_CANDIDATE_X_START] = w.candidates[OOF_CANDIDATE_X_END] = oof_word(static_x);
    w.candidates[OOF_CANDIDATE_Y_START] = w.candidates[OOF_CANDIDATE_Y_END] = oof_word(static_y);
    return w;
}

static uint32_t opened(words *w)
{
    return oof_open(w->width, w->height, w->x, w->y, w->direction, OOF_CLAIMS_ABSOLUTE, OOF_OVERFLOW_VISIBLE,
                    OOF_OVERFLOW_VISIBLE, w->styles, OOF_STYLE_WORDS, w->candidates, OOF_CANDIDATE_WORDS, w->layouts,
                    OOF_LAYOUT_WORDS, w->working, ROOM * OOF_CANDIDATE_WORDS, w->unclaimed, ROOM * OOF_CANDIDATE_WORDS,
                    w->tally, 1, w->state, w->answer);
}

static uint32_t laid_out(words *w, const uint32_t *surfaced, size_t count)
{
    return oof_reply_laid_out(0, 0, 0, 0, surfaced, count, LENT(w));
}

static int same(const words *a, const words *b)
{
    return memcmp(a, b, sizeof *a) == 0;
}

/* a candidate's areas, and the layouts, are in the caller's coordinates; a surfaced candidate's are in its box's */
static void offsets(void)
{
    words w = box_at(100, 40, 100, 40);
    uint32_t inner[OOF_CANDIDATE_WORDS];
    memcpy(inner, w.candidates, sizeof inner);
    inner[OOF_CANDIDATE_POSITION] = OOF_POSITION_FIXED;
    inner[OOF_CANDIDATE_X_START] = inner[OOF_CANDIDATE_X_END] = oof_word(7);
    MUST(opened(&w) == OOF_ACCEPTED && w.answer[OOF_ANSWER_KIND] == OOF_MEASURE_BOTH);
    MUST(oof_reply_both(120, 18, LENT(&w)) == OOF_ACCEPTED && w.answer[OOF_ANSWER_KIND] == OOF_LAY_OUT);
    MUST(laid_out(&w, inner, OOF_CANDIDATE_WORDS) == OOF_ACCEPTED && w.answer[OOF_ANSWER_KIND] == OOF_FINISH);
    MUST(oof_float(w.layouts[OOF_LAYOUT_X]) == 100 && oof_float(w.layouts[OOF_LAYOUT_Y]) == 40);
    MUST(w.state[OOF_STATE_UNCLAIMED] == 1 && oof_float(w.unclaimed[OOF_CANDIDATE_X_START]) == 107);

    words at_window_edge = box_at(100, 40, 0, 40);
    MUST(opened(&at_window_edge) == OOF_ACCEPTED && oof_reply_both(120, 18, LENT(&at_window_edge)) == OOF_ACCEPTED);
    MUST(laid_out(&at_window_edge, inner, 0) == OOF_ACCEPTED);
    MUST(oof_float(at_window_edge.layouts[OOF_LAYOUT_X]) == 0); /* left of the area's first pixel */
}

/* a refused opening writes a finished run into the state's words, and no other word */
static int closed_only(const words *before, const words *after)
{
    words expected = *before;
    memset(expected.state, 0, sizeof expected.state);
    expected.state[OOF_STATE_LENGTHS] = OOF_STYLE_WORDS;
    expected.state[OOF_STATE_LENGTHS + 1] = OOF_LAYOUT_WORDS;
    expected.state[OOF_STATE_LENGTHS + 2] = expected.state[OOF_STATE_LENGTHS + 3] = ROOM * OOF_CANDIDATE_WORDS;
    expected.state[OOF_STATE_LENGTHS + 4] = 1;
    return same(&expected, after);
}

static void refused_openings(void)
{
    words w = box_at(100, 40, 100, 40), before;
    memset(w.state, 0, sizeof w.state);
    w.styles[OOF_STYLE_PADDING_LEFT] = OOF_TAG_AUTO;
    before = w;
    MUST(opened(&w) == OOF_BAD_STYLE && closed_only(&before, &w));
    MUST(oof_reply_both(120, 18, LENT(&w)) == OOF_WRONG_REPLY);

    words run = box_at(100, 40, 100, 40);
    MUST(opened(&run) == OOF_ACCEPTED);
    run.direction = 2;
    before = run;
    MUST(opened(&run) == OOF_BAD_AREA && closed_only(&before, &run));
    MUST(oof_reply_both(120, 18, LENT(&run)) == OOF_WRONG_REPLY && closed_only(&before, &run));
}

/* a refused reply leaves every word, also words of a state that no call writes */
static void refused_replies(void)
{
    words w = box_at(100, 40, 100, 40), before;
    MUST(opened(&w) == OOF_ACCEPTED);
    before = w;
    MUST(oof_reply_width(120, LENT(&w)) == OOF_WRONG_REPLY && same(&before, &w));
    w.state[OOF_STATE_KEYWORD] = 9;
    w.state[OOF_STATE_KEYWORD + 1] = 0xFFFFFFFF; /* another NaN */
    w.state[OOF_STATE_CLAIMS] = 0xFFFFFFFF;
    before = w;
    MUST(oof_reply_height(18, LENT(&w)) == OOF_WRONG_REPLY && same(&before, &w));
    MUST(oof_reply_both(120, 18, LENT(&w)) == OOF_ACCEPTED);
}

/* ---- layers of records */

/* the box's layer is 7; it surfaces a fixed record on layer 255, which isn't claimed, and an absolute one on layer 3, which is */
static void layers_kept(void)
{
    words w = box_at(100, 40, 100, 40);
    uint32_t inner[2 * OOF_CANDIDATE_WORDS], *claimed = inner + OOF_CANDIDATE_WORDS;
    w.candidates[OOF_CANDIDATE_LAYER] = 7;
    memcpy(inner, w.candidates, sizeof w.candidates);
    memcpy(claimed, w.candidates, sizeof w.candidates);
    inner[OOF_CANDIDATE_POSITION] = OOF_POSITION_FIXED;
    inner[OOF_CANDIDATE_LAYER] = OOF_MOST_LAYER, claimed[OOF_CANDIDATE_LAYER] = 3;
    MUST(opened(&w) == OOF_ACCEPTED && w.working[OOF_CANDIDATE_LAYER] == 7);
    MUST(oof_reply_both(120, 18, LENT(&w)) == OOF_ACCEPTED);
    MUST(laid_out(&w, inner, 2 * OOF_CANDIDATE_WORDS) == OOF_ACCEPTED);
    MUST(w.state[OOF_STATE_WORKING] == 2 && w.state[OOF_STATE_UNCLAIMED] == 1);
    MUST(w.working[OOF_CANDIDATE_LAYER] == 7 && w.working[OOF_CANDIDATE_WORDS + OOF_CANDIDATE_LAYER] == 3);
    MUST(w.unclaimed[OOF_CANDIDATE_LAYER] == 255); /* shifted by the box's location, 100 and 40 */
    MUST(oof_float(w.unclaimed[OOF_CANDIDATE_X_START]) == 200 && oof_float(w.unclaimed[OOF_CANDIDATE_Y_START]) == 80);

    words fixed = box_at(100, 40, 100, 40);
    fixed.candidates[OOF_CANDIDATE_POSITION] = OOF_POSITION_FIXED, fixed.candidates[OOF_CANDIDATE_LAYER] = 200;
    MUST(opened(&fixed) == OOF_ACCEPTED && fixed.answer[OOF_ANSWER_KIND] == OOF_FINISH);
    MUST(fixed.unclaimed[OOF_CANDIDATE_LAYER] == 200);
}

/* a layer above 255 is a bad candidate, claimed or not, lent or surfaced; the whole word is compared, and it is no float */
static void layers_refused(void)
{
    const uint32_t high[6] = {256, 257, 0x01000000, 0x7FC00001, 0x80000000, 0xFFFFFFFF};
    for (int k = 0; k < 6; k++)
        for (uint32_t position = OOF_POSITION_ABSOLUTE; position <= OOF_POSITION_FIXED; position++) {
            words w = box_at(100, 40, 100, 40), before;
            w.candidates[OOF_CANDIDATE_POSITION] = position, w.candidates[OOF_CANDIDATE_LAYER] = high[k];
            before = w;
            MUST(opened(&w) == OOF_BAD_CANDIDATE && closed_only(&before, &w));
            w.candidates[OOF_CANDIDATE_LAYER] = OOF_MOST_LAYER;
            MUST(opened(&w) == OOF_ACCEPTED);

            uint32_t inner[OOF_CANDIDATE_WORDS];
            w = box_at(100, 40, 100, 40);
            MUST(opened(&w) == OOF_ACCEPTED && oof_reply_both(120, 18, LENT(&w)) == OOF_ACCEPTED);
            memcpy(inner, w.candidates, sizeof inner);
            inner[OOF_CANDIDATE_POSITION] = position, inner[OOF_CANDIDATE_LAYER] = high[k];
            before = w;
            MUST(laid_out(&w, inner, OOF_CANDIDATE_WORDS) == OOF_BAD_CANDIDATE && same(&before, &w));
            inner[OOF_CANDIDATE_LAYER] = 0;
            MUST(laid_out(&w, inner, OOF_CANDIDATE_WORDS) == OOF_ACCEPTED);
        }
}

/* what somebody writes between the calls: refused in a filled working record, not looked at elsewhere */
static void layers_rewritten(void)
{
    words w = box_at(100, 40, 100, 40), before;
    MUST(opened(&w) == OOF_ACCEPTED);
    MUST(w.working[OOF_CANDIDATE_WORDS + OOF_CANDIDATE_LAYER] > OOF_MOST_LAYER); /* noise in the record that isn't filled */
    w.working[OOF_CANDIDATE_LAYER] = 256;
    before = w;
    MUST(oof_reply_both(120, 18, LENT(&w)) == OOF_BAD_CANDIDATE && same(&before, &w));
    w.working[OOF_CANDIDATE_LAYER] = 255;
    MUST(oof_reply_both(120, 18, LENT(&w)) == OOF_ACCEPTED);
    memcpy(w.unclaimed, w.candidates, sizeof w.candidates);
    w.state[OOF_STATE_UNCLAIMED] = 1, w.unclaimed[OOF_CANDIDATE_LAYER] = 256;
    MUST(laid_out(&w, w.candidates, 0) == OOF_ACCEPTED && w.unclaimed[OOF_CANDIDATE_LAYER] == 256);
}

/* records of 13 words, as they were before layers, are no whole records */
static void records_of_13(void)
{
    words w = box_at(100, 40, 100, 40), before;
    before = w;
    MUST(oof_open(w.width, w.height, w.x, w.y, w.direction, OOF_CLAIMS_ABSOLUTE, OOF_OVERFLOW_VISIBLE, OOF_OVERFLOW_VISIBLE,
                  w.styles, OOF_STYLE_WORDS, w.candidates, 13, w.layouts, OOF_LAYOUT_WORDS, w.working,
                  ROOM * OOF_CANDIDATE_WORDS, w.unclaimed, ROOM * OOF_CANDIDATE_WORDS, w.tally, 1, w.state,
                  w.answer) == OOF_BAD_EXTENT);
    MUST(closed_only(&before, &w));
    MUST(opened(&w) == OOF_ACCEPTED && oof_reply_both(120, 18, LENT(&w)) == OOF_ACCEPTED);
    before = w;
    MUST(laid_out(&w, w.candidates, 13) == OOF_BAD_EXTENT && same(&before, &w));
    MUST(laid_out(&w, w.candidates, OOF_CANDIDATE_WORDS) == OOF_ACCEPTED);
}

/* a list of 4,096 records is 57,344 words; one record more is too long, and 4,096 records of 13 words are no whole ones */
static void longest_lists(void)
{
    enum { MOST = 57344 };
    static uint32_t lists[2][MOST + OOF_CANDIDATE_WORDS];
    const size_t longer = MOST + OOF_CANDIDATE_WORDS, narrow = 4096 * 13;
    const size_t lengths[5][2] = {{MOST, MOST}, {longer, MOST}, {MOST, longer}, {narrow, 0}, {MOST, narrow}};
    for (int k = 0; k < 5; k++) {
        words w = box_at(100, 40, 100, 40);
        uint32_t result = oof_open(w.width, w.height, w.x, w.y, w.direction, OOF_CLAIMS_ABSOLUTE, OOF_OVERFLOW_VISIBLE,
                                   OOF_OVERFLOW_VISIBLE, w.styles, OOF_STYLE_WORDS, w.candidates, OOF_CANDIDATE_WORDS, w.layouts,
                                   OOF_LAYOUT_WORDS, lists[0], lengths[k][0], lists[1], lengths[k][1], w.tally, 1, w.state,
                                   w.answer);
        MUST(result == (k == 0 ? OOF_ACCEPTED : OOF_BAD_EXTENT));
    }
}

/* ---- pixels */

enum { LARGEST = 9999999 };

/* a box's x, width and the offset's x as floats, in y -13 eighths from the offset with a height of 12; every other word is a NaN */
static uint32_t pixels(float x, float width, float offset, int32_t *edges)
{
    uint32_t layout[OOF_LAYOUT_WORDS];
    for (int k = 0; k < OOF_LAYOUT_WORDS; k++)
        layout[k] = 0x7FC00000;
    layout[OOF_LAYOUT_X] = oof_word(x), layout[OOF_LAYOUT_WIDTH] = oof_word(width);
    layout[OOF_LAYOUT_Y] = oof_word(40 - 1.625f), layout[OOF_LAYOUT_HEIGHT] = oof_word(1.5f);
    return oof_pixels(layout, offset, 40, edges);
}

/* in eighths */
static int has_edges(int x, int width, int offset, int left, int right)
{
    int32_t edges[OOF_PIXEL_EDGES];
    return pixels(x / 8.0f, width / 8.0f, offset / 8.0f, edges) == OOF_ACCEPTED && edges[OOF_PIXEL_LEFT] == left &&
           edges[OOF_PIXEL_RIGHT] == right && edges[OOF_PIXEL_TOP] == -2 && edges[OOF_PIXEL_BOTTOM] == 0;
}

static int not_in_eighths(float x, float width, float offset)
{
    int32_t edges[OOF_PIXEL_EDGES] = {1, -2, 3, INT32_MIN};
    const int32_t before[OOF_PIXEL_EDGES] = {1, -2, 3, INT32_MIN};
    return pixels(x, width, offset, edges) == OOF_NOT_IN_EIGHTHS && memcmp(before, edges, sizeof before) == 0;
}

static void whole_pixels(void)
{
    MUST(has_edges(-13, 1, 0, -2, -1) && has_edges(-5, 1, 0, -1, 0) && has_edges(3, 1, 0, 0, 1) && has_edges(11, 1, 0, 1, 2));
    MUST(has_edges(3, 3, 0, 0, 1) && has_edges(6, 3, 0, 1, 1)); /* they touch */
    MUST(has_edges(4, 7, 0, 1, 1));                             /* no pixel */
    MUST(has_edges(0, -8, 0, 0, -1));
    MUST(has_edges(804, 8, 800, 1, 2));
    MUST(has_edges(LARGEST, 0, -6777220, 2097152, 2097152)); /* as a float the sum is an eighth more, and 2,097,153 */
    MUST(has_edges(LARGEST, LARGEST, -LARGEST, 2500000, 3750000));
    MUST(has_edges(-LARGEST, -LARGEST, LARGEST, -2500000, -3750000));
    MUST(not_in_eighths(0.0625f, 1, 0) && not_in_eighths(0, 0.0625f, 0) && not_in_eighths(0, 1, 0.0625f));
    MUST(not_in_eighths(1250000, 1, 0) && not_in_eighths(0, -1250000, 0) && not_in_eighths(0, 1, oof_float(0x7F800000)));
    MUST(not_in_eighths(oof_float(1), 1, 0) && not_in_eighths(0, 1, oof_float(0xFFC00000)));
    MUST(!strcmp(oof_refusal_name(OOF_NOT_IN_EIGHTHS), "not in eighths"));
    MUST(has_edges(4, 8, 0, 1, 2)); /* in an area of 16 eighths its own mirror image */
}

/* a box that is centered by auto margins, with an odd count of eighths to share */
static void centered(void)
{
    int32_t edges[OOF_PIXEL_EDGES];
    words w = box_at(100, 40, 100, 40);
    w.width = 800;
    oof_set_length(w.styles, OOF_STYLE_INSET_LEFT, OOF_TAG_PX, 0);
    oof_set_length(w.styles, OOF_STYLE_INSET_RIGHT, OOF_TAG_PX, 0);
    oof_set_length(w.styles, OOF_STYLE_MARGIN_LEFT, OOF_TAG_AUTO, 0);
    oof_set_length(w.styles, OOF_STYLE_MARGIN_RIGHT, OOF_TAG_AUTO, 0);
    oof_set_length(w.styles, OOF_STYLE_WIDTH, OOF_TAG_PX, 100.125f);
    oof_set_length(w.styles, OOF_STYLE_HEIGHT, OOF_TAG_PX, 18);
    MUST(opened(&w) == OOF_ACCEPTED && laid_out(&w, w.candidates, 0) == OOF_ACCEPTED);
    MUST(oof_float(w.layouts[OOF_LAYOUT_X]) == 100 + 349.9375f);
    MUST(oof_pixels(w.layouts, w.x, w.y, edges) == OOF_NOT_IN_EIGHTHS);
    oof_set_length(w.styles, OOF_STYLE_WIDTH, OOF_TAG_PX, 100.25f);
    MUST(opened(&w) == OOF_ACCEPTED && laid_out(&w, w.candidates, 0) == OOF_ACCEPTED);
    MUST(oof_pixels(w.layouts, w.x, w.y, edges) == OOF_ACCEPTED && edges[OOF_PIXEL_LEFT] == 350 && edges[OOF_PIXEL_RIGHT] == 450);
}

/* what the header asks for a run without such a box is needed: runs of whole quarter pixels but for one thing */
static void not_quarters(void)
{
    const float sixteenth = 0.0625f;
    int32_t edges[OOF_PIXEL_EDGES];
    words plain = box_at(0, 0, 0, 0), w;
    oof_set_length(plain.styles, OOF_STYLE_WIDTH, OOF_TAG_PX, 120);
    oof_set_length(plain.styles, OOF_STYLE_HEIGHT, OOF_TAG_PX, 18);
    w = plain;
    MUST(opened(&w) == OOF_ACCEPTED && laid_out(&w, w.candidates, 0) == OOF_ACCEPTED && w.answer[OOF_ANSWER_KIND] == OOF_FINISH);
    MUST(oof_pixels(w.layouts, 0, 0, edges) == OOF_ACCEPTED);

    w = plain; /* a measured height */
    oof_set_length(w.styles, OOF_STYLE_HEIGHT, OOF_TAG_MIN_CONTENT, 0);
    MUST(opened(&w) == OOF_ACCEPTED && w.answer[OOF_ANSWER_KIND] == OOF_MEASURE_HEIGHT);
    MUST(oof_reply_height(sixteenth, LENT(&w)) == OOF_ACCEPTED && laid_out(&w, w.candidates, 0) == OOF_ACCEPTED);
    MUST(oof_pixels(w.layouts, 0, 0, edges) == OOF_NOT_IN_EIGHTHS);

    w = plain; /* a box that is surfaced and claimed */
    uint32_t surfaced[OOF_CANDIDATE_WORDS];
    memcpy(surfaced, w.candidates, sizeof surfaced);
    surfaced[OOF_CANDIDATE_X_START] = surfaced[OOF_CANDIDATE_X_END] = oof_word(sixteenth);
    MUST(opened(&w) == OOF_ACCEPTED && laid_out(&w, surfaced, OOF_CANDIDATE_WORDS) == OOF_ACCEPTED);
    MUST(w.answer[OOF_ANSWER_KIND] == OOF_LAY_OUT && laid_out(&w, surfaced, 0) == OOF_ACCEPTED);
    MUST(oof_pixels(w.layouts, 0, 0, edges) == OOF_NOT_IN_EIGHTHS);

    w = plain; /* a box that isn't laid out yet: its words are the host's */
    memset(w.layouts, 0xFF, sizeof w.layouts);
    MUST(opened(&w) == OOF_ACCEPTED && w.answer[OOF_ANSWER_KIND] == OOF_LAY_OUT);
    MUST(oof_pixels(w.layouts, 0, 0, edges) == OOF_NOT_IN_EIGHTHS);
}

/* ---- a finished run: what a call is lent that reads one, made up word by word or by a run */

enum { ITEMS = 2, RECORDS = 2, ITEM_ROOM = 6, RECORD_ROOM = 4 };
enum { STYLES = 0, LAYOUTS = 1, WORKING = 2, UNCLAIMED = 3 }; /* the four slices, in their order */

typedef struct {
    uint32_t styles[ITEM_ROOM * OOF_STYLE_WORDS];
    uint32_t layouts[ITEM_ROOM * OOF_LAYOUT_WORDS];
    uint32_t working[RECORD_ROOM * OOF_CANDIDATE_WORDS];
    uint32_t unclaimed[RECORD_ROOM * OOF_CANDIDATE_WORDS];
    uint32_t tally[ITEMS]; /* lent to the calls of a run alone */
    uint32_t state[OOF_STATE_WORDS];
    uint32_t lengths[4]; /* lent, at most those of the four slices */
} ended;

#define FOUR(e)                                                                                                       \
    (e)->styles, (e)->lengths[STYLES], (e)->layouts, (e)->lengths[LAYOUTS], (e)->working, (e)->lengths[WORKING],       \
        (e)->unclaimed, (e)->lengths[UNCLAIMED]
#define ENDED(e) FOUR(e), (e)->state
#define RUNNING(e) FOUR(e), (e)->tally, ITEMS, (e)->state

static const uint32_t all_lengths[4] = {ITEMS * OOF_STYLE_WORDS, ITEMS * OOF_LAYOUT_WORDS, RECORDS * OOF_CANDIDATE_WORDS,
                                        RECORDS * OOF_CANDIDATE_WORDS};

/* so many words lent, and that many at the opening */
static void lend(ended *e, int slice, uint32_t length)
{
    e->lengths[slice] = e->state[OOF_STATE_LENGTHS + slice] = length;
}

enum { WROTE = 99 };

/* the call's result, or WROTE if it wrote a word that it may only read, or one of the verdict though it was refused */
static uint32_t reach(const ended *e, size_t place, uint32_t *verdict)
{
    const ended before = *e;
    const uint32_t noise[OOF_REACH_WORDS] = {0x5A5A5A5A, 0xFFFFFFFF, 0x7FC00000};
    memcpy(verdict, noise, sizeof noise);
    uint32_t result = oof_reach(place, ENDED(e), verdict);
    if (memcmp(&before, e, sizeof before) != 0 || (result != OOF_ACCEPTED && memcmp(verdict, noise, sizeof noise) != 0))
        return WROTE;
    return result;
}

static int refused(const ended *e, size_t place, uint32_t number)
{
    uint32_t verdict[OOF_REACH_WORDS];
    return reach(e, place, verdict) == number;
}

static int seen(const ended *e, size_t place, uint32_t x, uint32_t y)
{
    uint32_t verdict[OOF_REACH_WORDS];
    return reach(e, place, verdict) == OOF_ACCEPTED && verdict[OOF_REACH_KIND] == OOF_SEEN && verdict[OOF_REACH_X] == x &&
           verdict[OOF_REACH_Y] == y;
}

static int unseen(const ended *e, size_t place)
{
    uint32_t verdict[OOF_REACH_WORDS];
    return reach(e, place, verdict) == OOF_ACCEPTED && verdict[OOF_REACH_KIND] == OOF_UNSEEN &&
           verdict[OOF_REACH_X] == 0 && verdict[OOF_REACH_Y] == 0;
}

/* one axis, in eighths: the area's size, the box from the area's left or top edge, its size, the rectangle's far edge; and the
 * overflow code */
typedef struct {
    int area, at, size, far;
    uint32_t overflow;
} axis;

static uint32_t eighths(int n)
{
    return oof_word((float)n / 8);
}

/* where the area is, in eighths */
enum { AREA_X = 800, AREA_Y = -320 };

static void put_box(ended *e, int node, const axis *across, const axis *down)
{
    uint32_t *layout = e->layouts + node * OOF_LAYOUT_WORDS;
    layout[OOF_LAYOUT_X] = eighths(AREA_X + across->at), layout[OOF_LAYOUT_WIDTH] = eighths(across->size);
    layout[OOF_LAYOUT_Y] = eighths(AREA_Y + down->at), layout[OOF_LAYOUT_HEIGHT] = eighths(down->size);
}

/* a finished run whose hoisted order is nodes 1 and 0. The box of node 1, at place 0, is as the axes say. Every word that isn't to
 * be read is noise, which is a NaN in the layouts, no style, and a bad record in the unclaimed list. */
static ended ended_with(uint32_t direction, axis across, axis down)
{
    ended e;
    memset(&e, 0xFF, sizeof e);
    memset(e.working, 0, sizeof e.working);
    e.working[OOF_CANDIDATE_NODE] = 1;
    put_box(&e, 1, &across, &down);
    e.state[OOF_STATE_PROGRESS] = 0;
    e.state[OOF_STATE_WORKING] = 2, e.state[OOF_STATE_UNCLAIMED] = 1;
    e.state[OOF_STATE_BEGUN] = 2, e.state[OOF_STATE_ANSWERED] = 2;
    e.state[OOF_STATE_OVERFLOW] = eighths(-80), e.state[OOF_STATE_OVERFLOW + 1] = eighths(across.far);
    e.state[OOF_STATE_OVERFLOW + 2] = eighths(-80), e.state[OOF_STATE_OVERFLOW + 3] = eighths(down.far);
    e.state[OOF_STATE_AREA] = eighths(across.area), e.state[OOF_STATE_AREA + 1] = eighths(down.area);
    e.state[OOF_STATE_AREA + 2] = eighths(AREA_X), e.state[OOF_STATE_AREA + 3] = eighths(AREA_Y);
    e.state[OOF_STATE_DIRECTION] = direction;
    e.state[OOF_STATE_OVERFLOW_X] = across.overflow, e.state[OOF_STATE_OVERFLOW_Y] = down.overflow;
    for (int slice = 0; slice < 4; slice++)
        lend(&e, slice, all_lengths[slice]);
    return e;
}

/* in view without scrolling */
static const axis in_view = {24, 4, 8, 0, OOF_OVERFLOW_VISIBLE};

/* seen at 13 across and at 0 down */
static ended scrolled(void)
{
    return ended_with(OOF_DIRECTION_LTR, (axis){8, 20, 4, 24, OOF_OVERFLOW_SCROLL}, in_view);
}

/* One axis: the box from its start edge. Tried across, as the mirror image in a right-to-left area, and down: the offset, -1 if
 * the box is unseen, -2 if the three differ or are refused. */
static int along(int area, int start, int size, int far, uint32_t overflow)
{
    const axis a = {area, start, size, far, overflow}, image = {area, area - start - size, size, far, overflow};
    const ended three[3] = {ended_with(OOF_DIRECTION_LTR, a, in_view), ended_with(OOF_DIRECTION_RTL, image, in_view),
                            ended_with(OOF_DIRECTION_LTR, in_view, a)};
    uint32_t verdict[3][OOF_REACH_WORDS];
    for (int k = 0; k < 3; k++)
        if (reach(&three[k], 0, verdict[k]) != OOF_ACCEPTED || verdict[k][OOF_REACH_KIND] != verdict[0][OOF_REACH_KIND] ||
            verdict[k][k < 2 ? OOF_REACH_X : OOF_REACH_Y] != verdict[0][OOF_REACH_X] ||
            verdict[k][k < 2 ? OOF_REACH_Y : OOF_REACH_X] != 0)
            return -2;
    return verdict[0][OOF_REACH_KIND] == OOF_SEEN ? (int)verdict[0][OOF_REACH_X] : -1;
}

static void one_axis(void)
{
    const uint32_t VISIBLE = OOF_OVERFLOW_VISIBLE, CLIP = OOF_OVERFLOW_CLIP;
    const uint32_t HIDDEN = OOF_OVERFLOW_HIDDEN, SCROLL = OOF_OVERFLOW_SCROLL;
    MUST(along(8, 20, 4, 24, SCROLL) == 13); /* not 12, where they touch, nor 16, where the whole box is in view */
    MUST(along(8, 20, 4, 21, SCROLL) == 13); /* the last offset */
    MUST(along(8, 20, 4, 20, SCROLL) == -1); /* which is 12 here */
    MUST(along(8, 20, 4, 24, HIDDEN) == 13 && along(8, 20, 4, 24, CLIP) == -1 && along(8, 20, 4, 24, VISIBLE) == -1);
    MUST(along(8, 7, 2, 4, SCROLL) == 0 && along(8, 8, 2, 4, SCROLL) == -1); /* 0 alone, the far edge being less than the area */
    MUST(along(8, 8, 2, 8, SCROLL) == -1 && along(8, 8, 2, 9, SCROLL) == 1); /* without "less the area's size" both scroll */
    MUST(along(8, 7, 2, 0, VISIBLE) == 0 && along(8, 8, 2, 0, VISIBLE) == -1);
    MUST(along(8, -2, 3, 0, VISIBLE) == 0 && along(8, -2, 2, 0, VISIBLE) == -1);
    MUST(along(8, -20, 10, 800, SCROLL) == -1); /* the rectangle's near edge is -80, but nothing scrolls before 0 */
    MUST(along(8, -4, 100, 96, SCROLL) == 0);
    MUST(along(8, 2, 0, 40, SCROLL) == -1 && along(8, 2, -2, 40, SCROLL) == -1);
    MUST(along(0, -2, 20, 40, SCROLL) == -1 && along(-8, -20, 40, 40, SCROLL) == -1);
    MUST(along(1, 0, 1, 0, CLIP) == 0 && along(1, 1, 1, 2, SCROLL) == 1);
}

static void both_axes(void)
{
    const axis behind = {8, 20, 4, 24, OOF_OVERFLOW_SCROLL}, below = {16, 30, 2, 40, OOF_OVERFLOW_HIDDEN};
    const axis still = {16, 30, 2, 40, OOF_OVERFLOW_CLIP};
    ended e = ended_with(OOF_DIRECTION_LTR, behind, below);
    MUST(seen(&e, 0, 13, 15));
    e.state[OOF_STATE_DIRECTION] = OOF_DIRECTION_RTL;
    MUST(unseen(&e, 0)); /* it begins 16 before the right edge */
    e = ended_with(OOF_DIRECTION_LTR, behind, still);
    MUST(unseen(&e, 0));
    e = ended_with(OOF_DIRECTION_LTR, still, behind); /* each axis by its own code */
    MUST(unseen(&e, 0));
    e.state[OOF_STATE_OVERFLOW_X] = OOF_OVERFLOW_SCROLL, e.state[OOF_STATE_OVERFLOW_Y] = OOF_OVERFLOW_VISIBLE;
    MUST(unseen(&e, 0));
    e.state[OOF_STATE_OVERFLOW_Y] = OOF_OVERFLOW_HIDDEN;
    MUST(seen(&e, 0, 15, 13));
    e.state[OOF_STATE_OVERFLOW_X] = 4, e.state[OOF_STATE_OVERFLOW_Y] = 0xFFFFFFFF; /* above the list is scroll */
    MUST(seen(&e, 0, 15, 13));

    axis first = {8, 6, 2, 0, OOF_OVERFLOW_VISIBLE}, far_left = {8, -12, 4, 20, OOF_OVERFLOW_SCROLL};
    e = ended_with(OOF_DIRECTION_RTL, first, in_view);
    MUST(seen(&e, 0, 0, 0));
    first.at = 8;
    e = ended_with(OOF_DIRECTION_RTL, first, in_view);
    MUST(unseen(&e, 0)); /* it ends at the start edge */
    e = ended_with(OOF_DIRECTION_RTL, far_left, in_view);
    MUST(seen(&e, 0, 9, 0));
    e.state[OOF_STATE_DIRECTION] = 7; /* above 0 is right-to-left */
    MUST(seen(&e, 0, 9, 0));
    e.state[OOF_STATE_OVERFLOW] = eighths(-20), e.state[OOF_STATE_OVERFLOW + 1] = 0;
    MUST(unseen(&e, 0)); /* the rectangle's left edge isn't the far one */
}

/* at the largest numbers; as floats x - offset would be an eighth more, and the box unseen */
static void largest(void)
{
    ended e = ended_with(OOF_DIRECTION_LTR, (axis){1, 0, 1, LARGEST, OOF_OVERFLOW_SCROLL}, in_view);
    uint32_t *layout = e.layouts + OOF_LAYOUT_WORDS, *area_x = &e.state[OOF_STATE_AREA + 2];
    layout[OOF_LAYOUT_X] = eighths(LARGEST - 1), *area_x = eighths(0);
    MUST(seen(&e, 0, 9999998, 0));
    layout[OOF_LAYOUT_X] = eighths(LARGEST);
    MUST(unseen(&e, 0));
    layout[OOF_LAYOUT_X] = eighths(LARGEST), *area_x = eighths(-LARGEST);
    MUST(unseen(&e, 0));

    e = ended_with(OOF_DIRECTION_RTL, (axis){8, 0, LARGEST, 6777229, OOF_OVERFLOW_SCROLL}, in_view);
    layout[OOF_LAYOUT_X] = eighths(-LARGEST), *area_x = eighths(6777220);
    MUST(seen(&e, 0, 6777221, 0));
}

/* ---- refused */

/* the slices, and places without a box */
static void bad_extents(void)
{
    ended e = scrolled();
    MUST(refused(&e, 2, OOF_BAD_EXTENT) && refused(&e, SIZE_MAX, OOF_BAD_EXTENT));
    MUST(refused(&e, (size_t)1 << 32, OOF_BAD_EXTENT)); /* not place 0 */
    e.state[OOF_STATE_WORKING] = 0;
    MUST(refused(&e, 0, OOF_BAD_EXTENT));
    e.state[OOF_STATE_PROGRESS] = 5;
    MUST(refused(&e, 0, OOF_BAD_EXTENT)); /* unfinished, nothing filled */

    for (int slice = 0; slice < 4; slice++) {
        e = scrolled(); /* another length than at the opening */
        e.lengths[slice] = 0;
        MUST(refused(&e, 0, OOF_BAD_EXTENT));
        e = scrolled();
        e.state[OOF_STATE_LENGTHS + slice]++;
        MUST(refused(&e, 0, OOF_BAD_EXTENT));
        e = scrolled(); /* not whole records, at the opening too */
        lend(&e, slice, all_lengths[slice] - 1);
        MUST(refused(&e, 0, OOF_BAD_EXTENT));
    }
    e = scrolled();
    lend(&e, STYLES, OOF_STYLE_WORDS + 1), lend(&e, LAYOUTS, OOF_LAYOUT_WORDS);
    MUST(refused(&e, 0, OOF_BAD_EXTENT));
    lend(&e, STYLES, OOF_STYLE_WORDS), lend(&e, LAYOUTS, ITEMS * OOF_LAYOUT_WORDS);
    MUST(refused(&e, 0, OOF_BAD_EXTENT));
    lend(&e, LAYOUTS, OOF_LAYOUT_WORDS);
    MUST(refused(&e, 0, OOF_BAD_CANDIDATE)); /* node 1 of one item */

    memset(&e, 0, sizeof e); /* zeros are a finished run over no words */
    MUST(refused(&e, 0, OOF_BAD_EXTENT));
    e.lengths[UNCLAIMED] = OOF_CANDIDATE_WORDS;
    MUST(refused(&e, 0, OOF_BAD_EXTENT));
}

/* as long as slices may be, and one record longer */
static void longest(void)
{
    enum { STYLE_ROOM = (OOF_MOST_ITEMS + 1) * OOF_STYLE_WORDS, LAYOUT_ROOM = (OOF_MOST_ITEMS + 1) * OOF_LAYOUT_WORDS };
    enum { LIST_ROOM = (OOF_MOST_RECORDS + 1) * OOF_CANDIDATE_WORDS };
    static uint32_t styles[STYLE_ROOM], layouts[LAYOUT_ROOM], lists[2][LIST_ROOM];
    for (int longer = -1; longer < 3; longer++) {
        ended e = scrolled();
        uint32_t items = OOF_MOST_ITEMS + (longer == 0), *lengths = e.state + OOF_STATE_LENGTHS;
        uint32_t verdict[OOF_REACH_WORDS];
        memcpy(lists[0], e.working, sizeof e.working);
        lists[0][OOF_CANDIDATE_NODE] = OOF_MOST_ITEMS - 1;
        memcpy(layouts + (OOF_MOST_ITEMS - 1) * OOF_LAYOUT_WORDS, e.layouts + OOF_LAYOUT_WORDS,
               OOF_LAYOUT_WORDS * sizeof *layouts);
        lengths[STYLES] = items * OOF_STYLE_WORDS, lengths[LAYOUTS] = items * OOF_LAYOUT_WORDS;
        lengths[WORKING] = (OOF_MOST_RECORDS + (longer == 1)) * OOF_CANDIDATE_WORDS;
        lengths[UNCLAIMED] = (OOF_MOST_RECORDS + (longer == 2)) * OOF_CANDIDATE_WORDS;
        uint32_t result = oof_reach(0, styles, lengths[STYLES], layouts, lengths[LAYOUTS], lists[0], lengths[WORKING], lists[1],
                                    lengths[UNCLAIMED], e.state, verdict);
        MUST(longer < 0 ? result == OOF_ACCEPTED && verdict[OOF_REACH_X] == 13 : result == OOF_BAD_EXTENT);
    }
}

/* an unfinished run, or counts above the lists; no other count is looked at */
static void wrong_states(void)
{
    ended e;
    for (uint32_t progress = 1; progress <= 5; progress++) {
        e = scrolled();
        e.state[OOF_STATE_PROGRESS] = progress;
        MUST(refused(&e, 0, OOF_WRONG_REPLY) && refused(&e, 2, OOF_BAD_EXTENT));
    }
    e.state[OOF_STATE_PROGRESS] = 6; /* above the list is finished */
    MUST(seen(&e, 0, 13, 0));

    e = scrolled();
    lend(&e, WORKING, OOF_CANDIDATE_WORDS); /* one record, of which two are filled */
    MUST(refused(&e, 1, OOF_WRONG_REPLY) && refused(&e, 0, OOF_WRONG_REPLY) && refused(&e, 2, OOF_BAD_EXTENT));
    e.state[OOF_STATE_WORKING] = 0xFFFFFFFF;
    MUST(refused(&e, 0xFFFFFFFE, OOF_WRONG_REPLY) && refused(&e, 0xFFFFFFFF, OOF_BAD_EXTENT));
    e.state[OOF_STATE_WORKING] = 1;
    MUST(seen(&e, 0, 13, 0));
    e.state[OOF_STATE_UNCLAIMED] = 2;
    MUST(seen(&e, 0, 13, 0));
    e.state[OOF_STATE_UNCLAIMED] = 3;
    MUST(refused(&e, 0, OOF_WRONG_REPLY));

    e = scrolled();
    e.state[OOF_STATE_BEGUN] = 0;
    MUST(seen(&e, 0, 13, 0));
    e.state[OOF_STATE_BEGUN] = 7, e.state[OOF_STATE_ANSWERED] = 99;
    MUST(seen(&e, 0, 13, 0));
}

/* the codes of a candidate, and the greatest of each */
enum { CODES = 8 };
static const struct {
    int word;
    uint32_t most;
} codes[CODES] = {{OOF_CANDIDATE_POSITION, OOF_POSITION_STICKY}, {OOF_CANDIDATE_X_EDGE, OOF_EDGE_END},
                  {OOF_CANDIDATE_X_SAFETY, OOF_SAFETY_SAFE},     {OOF_CANDIDATE_X_FALLBACK, OOF_EDGE_END},
                  {OOF_CANDIDATE_Y_EDGE, OOF_EDGE_END},          {OOF_CANDIDATE_Y_SAFETY, OOF_SAFETY_SAFE},
                  {OOF_CANDIDATE_Y_FALLBACK, OOF_EDGE_END},      {OOF_CANDIDATE_LAYER, OOF_MOST_LAYER}};

/* any filled working record, and no other */
static void bad_records(void)
{
    for (int record = 0; record < RECORDS; record++) {
        ended e = scrolled();
        uint32_t *words = e.working + record * OOF_CANDIDATE_WORDS;
        for (int k = 0; k < CODES; k++) {
            words[codes[k].word] = codes[k].most + 1;
            MUST(refused(&e, 0, OOF_BAD_CANDIDATE));
            words[codes[k].word] = codes[k].most;
            MUST(seen(&e, 0, 13, 0));
        }
        words[OOF_CANDIDATE_ORDER] = words[OOF_CANDIDATE_X_START] = words[OOF_CANDIDATE_Y_END] = 0xFFFFFFFF; /* no codes */
        MUST(seen(&e, 0, 13, 0));
        words[OOF_CANDIDATE_NODE] = ITEMS;
        MUST(refused(&e, 0, OOF_BAD_CANDIDATE) && refused(&e, 1, OOF_BAD_CANDIDATE));
        e.state[OOF_STATE_WORKING] = 1;
        MUST(record == 0 ? refused(&e, 0, OOF_BAD_CANDIDATE) : seen(&e, 0, 13, 0));
    }
}

/* the twelve numbers, needed or not */
static void not_accepted(void)
{
    const uint32_t bad[8] = {oof_word(0.0625f), oof_word(-0.1f), oof_word(1250000), oof_word(-1250000), 1, 0x7F800000,
                             0xFF800000, 0xFFC00000};
    const uint32_t good[4] = {eighths(LARGEST), eighths(-LARGEST), eighths(1), 0x80000000};
    uint32_t verdict[OOF_REACH_WORDS];
    for (int number = 0; number < 12; number++) {
        const int of_box[4] = {OOF_LAYOUT_X, OOF_LAYOUT_Y, OOF_LAYOUT_WIDTH, OOF_LAYOUT_HEIGHT};
        ended e = scrolled();
        uint32_t *word = number < 4   ? &e.state[OOF_STATE_AREA + number]
                         : number < 8 ? &e.state[OOF_STATE_OVERFLOW + number - 4]
                                      : &e.layouts[OOF_LAYOUT_WORDS + of_box[number - 8]];
        for (int k = 0; k < 8; k++) {
            *word = bad[k];
            MUST(refused(&e, 0, OOF_NOT_IN_EIGHTHS));
        }
        for (int k = 0; k < 4; k++) {
            *word = good[k];
            MUST(reach(&e, 0, verdict) == OOF_ACCEPTED);
        }
    }
    ended e = scrolled();
    MUST(refused(&e, 1, OOF_NOT_IN_EIGHTHS)); /* the other box's numbers are NaNs, which place 0 doesn't mind */
    e.layouts[OOF_LAYOUT_WORDS + OOF_LAYOUT_PADDING] = 0x7FC00000;
    MUST(seen(&e, 0, 13, 0));
    e.state[OOF_STATE_OVERFLOW + 2] = 0x80000000;
    e.layouts[OOF_LAYOUT_WORDS + OOF_LAYOUT_Y] = 0x80000000, e.state[OOF_STATE_AREA + 3] = 0; /* -0 is 0 */
    MUST(seen(&e, 0, 13, 0));
}

/* 2 before 6 before 4 before 9 */
static void tested_in_order(void)
{
    ended e = scrolled();
    e.state[OOF_STATE_AREA] = 0x7FC00000;
    MUST(refused(&e, 0, OOF_NOT_IN_EIGHTHS));
    e.working[OOF_CANDIDATE_WORDS + OOF_CANDIDATE_POSITION] = 5;
    MUST(refused(&e, 0, OOF_BAD_CANDIDATE));
    e.state[OOF_STATE_PROGRESS] = 4;
    MUST(refused(&e, 0, OOF_WRONG_REPLY));
    e.state[OOF_STATE_PROGRESS] = 0, e.state[OOF_STATE_UNCLAIMED] = 3;
    MUST(refused(&e, 0, OOF_WRONG_REPLY));
    MUST(refused(&e, 2, OOF_BAD_EXTENT));
    e.lengths[UNCLAIMED] = 0;
    MUST(refused(&e, 0, OOF_BAD_EXTENT));
}

/* ---- boxes of runs, in an area of 800 by 480 at 100, 40 */

/* two candidates, lent with the words of the styles; all else may be noise */
static uint32_t run_opened(ended *e, uint32_t direction, uint32_t claims, uint32_t overflow, const uint32_t *candidates,
                           uint32_t *answer)
{
    memcpy(e->lengths, all_lengths, sizeof all_lengths);
    return oof_open(800, 480, 100, 40, direction, claims, overflow, overflow, e->styles, e->lengths[STYLES], candidates,
                    2 * OOF_CANDIDATE_WORDS, e->layouts, e->lengths[LAYOUTS], e->working, e->lengths[WORKING], e->unclaimed,
                    e->lengths[UNCLAIMED], e->tally, ITEMS, e->state, answer);
}

/* every box's size is given, so that there is nothing to measure */
static int run_finished(ended *e, uint32_t *answer)
{
    const uint32_t none[1] = {0};
    uint32_t result = OOF_ACCEPTED;
    while (result == OOF_ACCEPTED && answer[OOF_ANSWER_KIND] == OOF_LAY_OUT)
        result = oof_reply_laid_out(0, 0, 0, 0, none, 0, RUNNING(e), answer);
    return result == OOF_ACCEPTED && answer[OOF_ANSWER_KIND] == OOF_FINISH;
}

static uint32_t *box_style(ended *e, int node, float width, float height)
{
    uint32_t *style = e->styles + node * OOF_STYLE_WORDS;
    plain_style(style);
    oof_set_length(style, OOF_STYLE_WIDTH, OOF_TAG_PX, width);
    oof_set_length(style, OOF_STYLE_HEIGHT, OOF_TAG_PX, height);
    return style;
}

/* the label, and the note that ends 8 pixels before the start edge */
static ended incident(uint32_t direction)
{
    ended e;
    int ltr = direction == OOF_DIRECTION_LTR;
    memset(&e, 0xFF, sizeof e);
    uint32_t *label = box_style(&e, 0, 160, 24), *note = box_style(&e, 1, 320, 96);
    label[OOF_STYLE_DIRECTION] = note[OOF_STYLE_DIRECTION] = direction;
    oof_set_length(label, ltr ? OOF_STYLE_INSET_LEFT : OOF_STYLE_INSET_RIGHT, OOF_TAG_PX, 24);
    oof_set_length(label, OOF_STYLE_INSET_TOP, OOF_TAG_PX, 16);
    oof_set_length(note, ltr ? OOF_STYLE_INSET_RIGHT : OOF_STYLE_INSET_LEFT, OOF_TAG_PX, 800);
    oof_set_length(note, ltr ? OOF_STYLE_MARGIN_RIGHT : OOF_STYLE_MARGIN_LEFT, OOF_TAG_PX, 8);
    oof_set_length(note, OOF_STYLE_INSET_TOP, OOF_TAG_PX, 200);
    return e;
}

static void boxes_of_runs(void)
{
    uint32_t answer[OOF_ANSWER_WORDS], candidates[2 * OOF_CANDIDATE_WORDS] = {0};
    candidates[OOF_CANDIDATE_POSITION] = candidates[OOF_CANDIDATE_WORDS + OOF_CANDIDATE_POSITION] = OOF_POSITION_ABSOLUTE;
    candidates[OOF_CANDIDATE_WORDS + OOF_CANDIDATE_NODE] = 1;
    for (uint32_t direction = OOF_DIRECTION_LTR; direction <= OOF_DIRECTION_RTL; direction++)
        for (uint32_t overflow = OOF_OVERFLOW_VISIBLE; overflow <= OOF_OVERFLOW_SCROLL; overflow++) {
            ended e = incident(direction);
            MUST(run_opened(&e, direction, OOF_CLAIMS_ABSOLUTE, overflow, candidates, answer) == OOF_ACCEPTED);
            MUST(refused(&e, 0, OOF_WRONG_REPLY) && refused(&e, 2, OOF_BAD_EXTENT)); /* unfinished */
            MUST(run_finished(&e, answer));
            MUST(seen(&e, 0, 0, 0) && unseen(&e, 1) && refused(&e, 2, OOF_BAD_EXTENT));
            e.styles[OOF_STYLE_PADDING_LEFT] = 2; /* no tag: a finished run's styles aren't read */
            MUST(seen(&e, 0, 0, 0) && unseen(&e, 1));

            e = incident(direction); /* the note 900 from the start edge, 500 from the top */
            uint32_t *note = e.styles + OOF_STYLE_WORDS;
            int start = direction == OOF_DIRECTION_LTR ? OOF_STYLE_INSET_LEFT : OOF_STYLE_INSET_RIGHT;
            for (size_t at = OOF_STYLE_INSET_LEFT; at <= OOF_STYLE_INSET_BOTTOM; at += OOF_LENGTH_WORDS)
                oof_set_length(note, at, OOF_TAG_AUTO, 0);
            oof_set_length(note, start, OOF_TAG_PX, 900);
            oof_set_length(note, OOF_STYLE_INSET_TOP, OOF_TAG_PX, 500);
            MUST(run_opened(&e, direction, OOF_CLAIMS_ABSOLUTE, overflow, candidates, answer) == OOF_ACCEPTED);
            MUST(run_finished(&e, answer) && seen(&e, 0, 0, 0));
            MUST(overflow >= OOF_OVERFLOW_HIDDEN ? seen(&e, 1, 8 * 100 + 1, 8 * 20 + 1) : unseen(&e, 1));
        }
}

/* openings that leave no box, a node that is claimed twice, and a box on a sixteenth whose end is the rectangle's far edge */
static void odd_runs(void)
{
    uint32_t answer[OOF_ANSWER_WORDS], candidates[2 * OOF_CANDIDATE_WORDS] = {0};
    uint32_t *second = candidates + OOF_CANDIDATE_WORDS;
    candidates[OOF_CANDIDATE_POSITION] = second[OOF_CANDIDATE_POSITION] = OOF_POSITION_ABSOLUTE;
    ended e = incident(OOF_DIRECTION_LTR);
    MUST(run_opened(&e, OOF_DIRECTION_LTR, OOF_CLAIMS_FIXED, OOF_OVERFLOW_SCROLL, candidates, answer) == OOF_ACCEPTED);
    MUST(answer[OOF_ANSWER_KIND] == OOF_FINISH && e.state[OOF_STATE_UNCLAIMED] == 2);
    MUST(refused(&e, 0, OOF_BAD_EXTENT) && refused(&e, 1, OOF_BAD_EXTENT));
    MUST(run_opened(&e, 2, OOF_CLAIMS_ABSOLUTE, OOF_OVERFLOW_SCROLL, candidates, answer) == OOF_BAD_AREA);
    MUST(refused(&e, 0, OOF_BAD_EXTENT) && refused(&e, 1, OOF_BAD_EXTENT));

    box_style(&e, 0, 160, 24); /* node 0, first at the area's corner, then 900 from it */
    for (int at = OOF_CANDIDATE_X_START; at <= OOF_CANDIDATE_X_END; at++)
        candidates[at] = oof_word(100), second[at] = oof_word(1000);
    for (int at = OOF_CANDIDATE_Y_START; at <= OOF_CANDIDATE_Y_END; at++)
        candidates[at] = second[at] = oof_word(40);
    MUST(run_opened(&e, OOF_DIRECTION_LTR, OOF_CLAIMS_ABSOLUTE, OOF_OVERFLOW_SCROLL, candidates, answer) == OOF_ACCEPTED);
    MUST(run_finished(&e, answer) && seen(&e, 0, 8 * 100 + 1, 0) && seen(&e, 1, 8 * 100 + 1, 0));

    box_style(&e, 1, 160, 24);
    second[OOF_CANDIDATE_NODE] = 1;
    second[OOF_CANDIDATE_X_START] = second[OOF_CANDIDATE_X_END] = oof_word(1000.0625f);
    MUST(run_opened(&e, OOF_DIRECTION_LTR, OOF_CLAIMS_ABSOLUTE, OOF_OVERFLOW_SCROLL, candidates, answer) == OOF_ACCEPTED);
    MUST(run_finished(&e, answer) && refused(&e, 0, OOF_NOT_IN_EIGHTHS) && refused(&e, 1, OOF_NOT_IN_EIGHTHS));
}

/* ---- random words, beside a search over all offsets */

static uint32_t below(uint32_t count)
{
    static uint32_t seed = 102;
    seed ^= seed << 13, seed ^= seed >> 17, seed ^= seed << 5;
    return seed % count;
}

static int between(int low, int high)
{
    return low + (int)below((uint32_t)(high - low + 1));
}

static axis any_axis(void)
{
    const axis a = {between(-1, 12), between(-30, 30), between(-1, 12), between(-5, 40), below(5)};
    return a;
}

/* the first offset that shows the box, or -1. The view moves over the panel, leftwards if it is right-to-left. */
static int searched(int area, int at, int size, int far, int scrolls, int leftwards)
{
    int last = scrolls && far > area ? far - area : 0;
    for (int offset = 0; offset <= last; offset++) {
        int view = leftwards ? -offset : offset;
        int from = at > view ? at : view, to = at + size < view + area ? at + size : view + area;
        if (from < to)
            return offset;
    }
    return -1;
}

static int in_eighths(uint32_t word, int *count)
{
    double n = 8.0 * (double)oof_float(word);
    if (!(n >= -LARGEST && n <= LARGEST))
        return 0;
    *count = (int)n;
    return *count == n;
}

static int bad_record(const uint32_t *record, uint32_t items)
{
    int bad = record[OOF_CANDIDATE_NODE] >= items;
    for (int k = 0; k < CODES; k++)
        bad |= record[codes[k].word] > codes[k].most;
    return bad;
}

/* 2, 6 and 4, which all entries that read a finished run test; `other` is what the entry itself calls a bad extent */
static uint32_t modelled_tests(const ended *e, int other)
{
    const uint32_t *s = e->state, *lengths = e->lengths, items = lengths[STYLES] / OOF_STYLE_WORDS;
    if (lengths[STYLES] % OOF_STYLE_WORDS || lengths[LAYOUTS] != items * OOF_LAYOUT_WORDS ||
        lengths[WORKING] % OOF_CANDIDATE_WORDS || lengths[UNCLAIMED] % OOF_CANDIDATE_WORDS ||
        memcmp(lengths, s + OOF_STATE_LENGTHS, 4 * sizeof *lengths) || other)
        return OOF_BAD_EXTENT;
    if ((s[OOF_STATE_PROGRESS] >= 1 && s[OOF_STATE_PROGRESS] <= 5) ||
        s[OOF_STATE_WORKING] > lengths[WORKING] / OOF_CANDIDATE_WORDS ||
        s[OOF_STATE_UNCLAIMED] > lengths[UNCLAIMED] / OOF_CANDIDATE_WORDS)
        return OOF_WRONG_REPLY;
    for (uint32_t k = 0; k < s[OOF_STATE_WORKING]; k++)
        if (bad_record(e->working + k * OOF_CANDIDATE_WORDS, items))
            return OOF_BAD_CANDIDATE;
    return OOF_ACCEPTED;
}

static uint32_t modelled(const ended *e, size_t place, uint32_t *verdict)
{
    const uint32_t *s = e->state, refusal = modelled_tests(e, place >= s[OOF_STATE_WORKING]);
    if (refusal != OOF_ACCEPTED)
        return refusal;
    const uint32_t *layout = e->layouts + e->working[place * OOF_CANDIDATE_WORDS] * OOF_LAYOUT_WORDS;
    int area[4], edge[4], box[4], good = 1;
    for (int k = 0; k < 4; k++) {
        const int of_box[4] = {OOF_LAYOUT_WIDTH, OOF_LAYOUT_HEIGHT, OOF_LAYOUT_X, OOF_LAYOUT_Y};
        good &= in_eighths(s[OOF_STATE_AREA + k], &area[k]) && in_eighths(s[OOF_STATE_OVERFLOW + k], &edge[k]) &&
                in_eighths(layout[of_box[k]], &box[k]);
    }
    if (!good)
        return OOF_NOT_IN_EIGHTHS;
    int x = searched(area[0], box[2] - area[2], box[0], edge[1], s[OOF_STATE_OVERFLOW_X] >= OOF_OVERFLOW_HIDDEN,
                     s[OOF_STATE_DIRECTION] != OOF_DIRECTION_LTR);
    int y = searched(area[1], box[3] - area[3], box[1], edge[3], s[OOF_STATE_OVERFLOW_Y] >= OOF_OVERFLOW_HIDDEN, 0);
    int both = x >= 0 && y >= 0;
    verdict[OOF_REACH_KIND] = both ? OOF_SEEN : OOF_UNSEEN;
    verdict[OOF_REACH_X] = both ? (uint32_t)x : 0, verdict[OOF_REACH_Y] = both ? (uint32_t)y : 0;
    return OOF_ACCEPTED;
}

/* one word, or one length, to be refused or not to matter */
static void damage(ended *e)
{
    int slice = (int)below(4);
    switch (below(8)) {
    case 0: e->lengths[slice] -= below(2) ? 1 : all_lengths[slice] / 2; break;
    case 1: lend(e, slice, all_lengths[slice] / 2); break;
    case 2: lend(e, STYLES, OOF_STYLE_WORDS), lend(e, LAYOUTS, OOF_LAYOUT_WORDS); break;
    case 3: e->state[OOF_STATE_PROGRESS] = below(8); break;
    case 4: e->state[OOF_STATE_WORKING + slice] = below(4); break; /* of the four counts */
    case 5: e->working[below(RECORDS * OOF_CANDIDATE_WORDS)] = below(2) ? below(7) : 254 + below(4); break;
    case 6: e->layouts[below(ITEMS * OOF_LAYOUT_WORDS)] = oof_word(0.0625f * (float)between(-3, 3)); break;
    default: e->state[OOF_STATE_OVERFLOW + below(8)] = oof_word(0.0625f * (float)between(-3, 3)); break;
    }
}

static void random_words(void)
{
    enum { CALLS = 200000, SEEN = 10, SCROLLED = 11, UNSEEN = 12, KINDS = 13 };
    int wrong = 0, told[KINDS] = {0};
    for (int call = 0; call < CALLS; call++) {
        const axis across = any_axis(), down = any_axis(), other_across = any_axis(), other_down = any_axis();
        ended e = ended_with(below(3), across, down);
        uint32_t expected[OOF_REACH_WORDS], verdict[OOF_REACH_WORDS];
        put_box(&e, 0, &other_across, &other_down);
        e.working[OOF_CANDIDATE_NODE] = below(ITEMS), e.working[OOF_CANDIDATE_WORDS + OOF_CANDIDATE_NODE] = below(ITEMS);
        for (uint32_t k = below(4); k > 1; k--) /* none in half of the calls */
            damage(&e);
        size_t place = below(16) ? below(2) : below(4);
        uint32_t result = modelled(&e, place, expected);
        if (reach(&e, place, verdict) != result || (result == OOF_ACCEPTED && memcmp(expected, verdict, sizeof expected)))
            wrong++;
        int scrolls = result == OOF_ACCEPTED && expected[OOF_REACH_X] + expected[OOF_REACH_Y] > 0;
        told[result != OOF_ACCEPTED ? (int)result : expected[OOF_REACH_KIND] == OOF_UNSEEN ? UNSEEN : scrolls ? SCROLLED : SEEN]++;
    }
    MUST(wrong == 0);
    MUST(told[OOF_BAD_EXTENT] > 1000 && told[OOF_WRONG_REPLY] > 1000 && told[OOF_BAD_CANDIDATE] > 1000);
    MUST(told[OOF_NOT_IN_EIGHTHS] > 1000 && told[SEEN] > 1000 && told[SCROLLED] > 1000 && told[UNSEEN] > 1000);
}

/* ---- a finished run's boxes, of each of which an entry writes so many words: the drawing order, and what a touch driver reads */

#define LIST(...) ((const uint32_t[]){__VA_ARGS__})

/* a finished run of boxes with these nodes and layers, over six items and lists of four records. Every word that isn't to be read
 * is noise: no style, no number, and a bad record behind the filled ones and in the unclaimed list. */
static ended hoisted(uint32_t boxes, const uint32_t *nodes, const uint32_t *layers)
{
    ended e;
    memset(&e, 0xFF, sizeof e);
    for (uint32_t k = 0; k < boxes; k++) {
        uint32_t *record = e.working + k * OOF_CANDIDATE_WORDS;
        for (int code = 0; code < CODES; code++)
            record[codes[code].word] = codes[code].most;
        record[OOF_CANDIDATE_NODE] = nodes[k], record[OOF_CANDIDATE_LAYER] = layers[k];
    }
    e.state[OOF_STATE_PROGRESS] = 0;
    e.state[OOF_STATE_WORKING] = boxes, e.state[OOF_STATE_UNCLAIMED] = 1;
    lend(&e, STYLES, ITEM_ROOM * OOF_STYLE_WORDS), lend(&e, LAYOUTS, ITEM_ROOM * OOF_LAYOUT_WORDS);
    lend(&e, WORKING, RECORD_ROOM * OOF_CANDIDATE_WORDS), lend(&e, UNCLAIMED, RECORD_ROOM * OOF_CANDIDATE_WORDS);
    return e;
}

static ended three_boxes(void)
{
    return hoisted(3, LIST(5, 5, 2), LIST(1, 0, 0));
}

/* the layout of a node, in eighths from the area's left and top edge; its other words stay noise */
static void stand(ended *e, uint32_t node, int x, int y, int width, int height)
{
    const axis across = {0, x, width, 0, 0}, down = {0, y, height, 0, 0};
    put_box(e, (int)node, &across, &down);
}

/* the same three boxes, whose nodes have layouts; of the area the offset */
static ended three_standing(void)
{
    ended e = three_boxes();
    e.state[OOF_STATE_AREA + 2] = eighths(AREA_X), e.state[OOF_STATE_AREA + 3] = eighths(AREA_Y);
    stand(&e, 5, -5, 0, 8, 8);
    stand(&e, 2, 12, -13, 25, 12);
    return e;
}

/* so many boxes' words are lent at most */
enum { BOX_ROOM = 6, WORD_ROOM = BOX_ROOM * OOF_TOUCH_WORDS };

typedef struct {
    uint32_t (*call)(const uint32_t *styles, size_t styles_len, const uint32_t *layouts, size_t layouts_len,
                     const uint32_t *working, size_t working_len, const uint32_t *unclaimed, size_t unclaimed_len,
                     const uint32_t *state, uint32_t *words, size_t words_len);
    uint32_t each; /* words a box */
    ended (*three)(void);
    const uint32_t *of[4]; /* what is written of the first none, one, two and three of these boxes */
} part;

static const uint32_t three_touched[] = {5, 0xFFFFFFFF, 0, 0, 1, 5, 0xFFFFFFFF, 0, 0, 1, 2, 2, 5, 0xFFFFFFFE, 0};
static const uint32_t one_drawn[] = {0}, two_drawn[] = {1, 0}, three_drawn[] = {1, 2, 0};

static const part drawing = {oof_drawing_order, 1, three_boxes, {one_drawn, one_drawn, two_drawn, three_drawn}};
static const part touching = {
    oof_touch, OOF_TOUCH_WORDS, three_standing, {three_touched, three_touched, three_touched, three_touched}};

/* the call's result over so many words, or WROTE if it wrote a word that it may only read, a word beside those, or one of them
 * though it was refused */
static uint32_t fill(const part *p, const ended *e, size_t words, uint32_t *into)
{
    const ended before = *e;
    uint32_t noise[WORD_ROOM + 2], lent[WORD_ROOM + 2];
    for (uint32_t k = 0; k < WORD_ROOM + 2; k++)
        lent[k] = noise[k] = 0x5A5A5A5A + 0x01234567 * k;
    uint32_t result = p->call(ENDED(e), lent + 1, words);
    memcpy(into, lent + 1, WORD_ROOM * sizeof *into);
    if (result == OOF_ACCEPTED)
        memcpy(lent + 1, noise + 1, words * sizeof *lent);
    return memcmp(&before, e, sizeof before) || memcmp(lent, noise, sizeof noise) ? WROTE : result;
}

static int fills(const part *p, const ended *e, size_t words, const uint32_t *expected)
{
    uint32_t into[WORD_ROOM];
    return fill(p, e, words, into) == OOF_ACCEPTED && memcmp(into, expected, words * sizeof *into) == 0;
}

static int results(const part *p, const ended *e, size_t words, uint32_t number)
{
    uint32_t into[WORD_ROOM];
    return fill(p, e, words, into) == number;
}

/* whether these are the first so many of the part's three boxes */
static int is_first_of_three(const part *p, const ended *e, size_t boxes)
{
    return fills(p, e, boxes * p->each, p->of[boxes]);
}

/* other words than the boxes have, before all other tests; and the slices, as everywhere */
static void filled_extents(const part *p)
{
    const size_t three = 3 * p->each;
    ended e;
    for (size_t words = 0; words < BOX_ROOM * p->each; words++) {
        e = p->three();
        MUST(words == three ? is_first_of_three(p, &e, 3) : results(p, &e, words, OOF_BAD_EXTENT));
        e.working[OOF_CANDIDATE_LAYER] = 256;
        MUST(results(p, &e, words, words == three ? OOF_BAD_CANDIDATE : OOF_BAD_EXTENT));
        e.state[OOF_STATE_PROGRESS] = 5;
        MUST(results(p, &e, words, words == three ? OOF_WRONG_REPLY : OOF_BAD_EXTENT));
    }
    e = p->three();
    for (int slice = 0; slice < 4; slice++) {
        const uint32_t all = e.lengths[slice];
        e.lengths[slice] = 0; /* another length than at the opening */
        MUST(results(p, &e, three, OOF_BAD_EXTENT));
        e.lengths[slice] = all, e.state[OOF_STATE_LENGTHS + slice]++;
        MUST(results(p, &e, three, OOF_BAD_EXTENT));
        lend(&e, slice, all - 1); /* not whole records, at the opening too */
        MUST(results(p, &e, three, OOF_BAD_EXTENT));
        lend(&e, slice, all);
        MUST(is_first_of_three(p, &e, 3));
    }
    lend(&e, LAYOUTS, (ITEM_ROOM - 1) * OOF_LAYOUT_WORDS);
    MUST(results(p, &e, three, OOF_BAD_EXTENT));
    lend(&e, STYLES, (ITEM_ROOM - 1) * OOF_STYLE_WORDS);
    MUST(results(p, &e, three, OOF_BAD_CANDIDATE)); /* node 5 of five items */
    lend(&e, WORKING, 3 * 13);
    MUST(results(p, &e, three, OOF_BAD_EXTENT)); /* three records as they were before layers */
}

/* an unfinished run, or counts above the lists; no other count is looked at */
static void filled_states(const part *p)
{
    const size_t two = 2 * p->each, three = 3 * p->each;
    ended e = p->three();
    for (uint32_t progress = 1; progress <= 5; progress++) {
        e.state[OOF_STATE_PROGRESS] = progress;
        MUST(results(p, &e, three, OOF_WRONG_REPLY) && results(p, &e, two, OOF_BAD_EXTENT));
    }
    e.state[OOF_STATE_PROGRESS] = 6; /* above the list is finished */
    MUST(is_first_of_three(p, &e, 3));
    lend(&e, WORKING, 2 * OOF_CANDIDATE_WORDS); /* two records, of which three are filled */
    MUST(results(p, &e, three, OOF_WRONG_REPLY) && results(p, &e, two, OOF_BAD_EXTENT));
    e.state[OOF_STATE_WORKING] = 2;
    MUST(is_first_of_three(p, &e, 2) && results(p, &e, three, OOF_BAD_EXTENT));

    e = p->three();
    e.state[OOF_STATE_UNCLAIMED] = RECORD_ROOM;
    MUST(is_first_of_three(p, &e, 3));
    e.state[OOF_STATE_UNCLAIMED] = RECORD_ROOM + 1;
    MUST(results(p, &e, three, OOF_WRONG_REPLY) && results(p, &e, three + p->each, OOF_BAD_EXTENT));
    e.working[OOF_CANDIDATE_POSITION] = 5;
    MUST(results(p, &e, three, OOF_WRONG_REPLY));
    e.state[OOF_STATE_UNCLAIMED] = 0;
    MUST(results(p, &e, three, OOF_BAD_CANDIDATE));

    e = p->three();
    e.state[OOF_STATE_BEGUN] = 0, e.state[OOF_STATE_ANSWERED] = 99;
    e.state[OOF_STATE_LENGTHS + 4] = 99; /* of the tally, which isn't lent */
    MUST(is_first_of_three(p, &e, 3));
    e.state[OOF_STATE_WORKING] = 0xFFFFFFFF;
    MUST(results(p, &e, three, OOF_BAD_EXTENT));
}

/* any filled working record, and no other */
static void filled_records(const part *p)
{
    const uint32_t high[5] = {257, 0x01000000, 0x7FC00001, 0x80000000, 0xFFFFFFFF};
    const size_t three = 3 * p->each;
    for (uint32_t k = 0; k < 3; k++) {
        ended e = p->three();
        uint32_t *record = e.working + k * OOF_CANDIDATE_WORDS;
        for (int code = 0; code < CODES; code++) { /* the layer is the last */
            record[codes[code].word] = codes[code].most + 1;
            MUST(results(p, &e, three, OOF_BAD_CANDIDATE));
            record[codes[code].word] = codes[code].most;
            MUST(results(p, &e, three, OOF_ACCEPTED));
        }
        for (int at = 0; at < 5; at++) {
            record[OOF_CANDIDATE_LAYER] = high[at];
            MUST(results(p, &e, three, OOF_BAD_CANDIDATE));
        }
        record[OOF_CANDIDATE_LAYER] = 0, record[OOF_CANDIDATE_NODE] = ITEM_ROOM;
        MUST(results(p, &e, three, OOF_BAD_CANDIDATE));
        e.state[OOF_STATE_WORKING] = k; /* it isn't filled any more */
        MUST(is_first_of_three(p, &e, k));
    }
}

/* ---- the drawing order */

static int drawn(const ended *e, size_t words, const uint32_t *places)
{
    return fills(&drawing, e, words, places);
}

static int gives(const ended *e, size_t words, uint32_t number)
{
    return results(&drawing, e, words, number);
}

/* four boxes of one node with these layers */
static int on_layers(const uint32_t *layers, const uint32_t *places)
{
    ended e = hoisted(4, LIST(2, 2, 2, 2), layers);
    return drawn(&e, 4, places);
}

static void drawing_orders(void)
{
    ended e = three_boxes();
    MUST(drawn(&e, 3, LIST(1, 2, 0))); /* places, not nodes; within a layer the hoisted order */
    e = hoisted(4, LIST(3, 0, 5, 1), LIST(9, 9, 9, 9));
    MUST(drawn(&e, 4, LIST(0, 1, 2, 3))); /* nodes have no say */
    MUST(on_layers(LIST(0, 0, 0, 0), LIST(0, 1, 2, 3)) && on_layers(LIST(255, 255, 255, 255), LIST(0, 1, 2, 3)));
    MUST(on_layers(LIST(0, 1, 2, 255), LIST(0, 1, 2, 3)) && on_layers(LIST(255, 254, 1, 0), LIST(3, 2, 1, 0)));
    MUST(on_layers(LIST(4, 128, 4, 128), LIST(0, 2, 1, 3)) && on_layers(LIST(0, 255, 127, 255), LIST(0, 2, 1, 3)));
    MUST(on_layers(LIST(128, 127, 128, 127), LIST(1, 3, 0, 2)) && on_layers(LIST(9, 10, 8, 9), LIST(2, 0, 3, 1)));

    e = hoisted(1, LIST(5), LIST(255));
    MUST(drawn(&e, 1, LIST(0)));
    e = hoisted(0, NULL, NULL);
    MUST(drawn(&e, 0, LIST(0)) && gives(&e, 1, OOF_BAD_EXTENT));
    memset(&e, 0, sizeof e); /* zeros are a finished run over no words */
    MUST(drawn(&e, 0, LIST(0)) && gives(&e, 1, OOF_BAD_EXTENT));

    e = three_boxes();
    e.working[OOF_CANDIDATE_LAYER] = 0; /* a layer that somebody wrote after the finish counts */
    MUST(drawn(&e, 3, LIST(0, 1, 2)));
}

/* as long as lists may be, and a record longer: 4,096 boxes, layers 255 to 0 in turn. A list of 4,096 records is 57,344 words. */
static void longest_drawing(void)
{
    enum { LIST_ROOM = (OOF_MOST_RECORDS + 1) * OOF_CANDIDATE_WORDS };
    static uint32_t lists[2][LIST_ROOM], order[OOF_MOST_RECORDS + 1];
    const uint32_t noise = 0x5A5A5A5A, each = OOF_MOST_RECORDS / 256;
    ended e = three_boxes();
    memset(lists, 0, sizeof lists);
    for (uint32_t k = 0; k < OOF_MOST_RECORDS; k++)
        lists[0][k * OOF_CANDIDATE_WORDS + OOF_CANDIDATE_LAYER] = OOF_MOST_LAYER - k % 256, order[k] = noise;
    order[OOF_MOST_RECORDS] = noise;
    e.state[OOF_STATE_WORKING] = OOF_MOST_RECORDS;
    for (int longer = 2; longer >= 0; longer--) { /* the unclaimed list, the working list, neither */
        lend(&e, WORKING, 57344 + (longer == 1) * OOF_CANDIDATE_WORDS);
        lend(&e, UNCLAIMED, 57344 + (longer == 2) * OOF_CANDIDATE_WORDS);
        uint32_t wrong = 0, result = oof_drawing_order(e.styles, e.lengths[STYLES], e.layouts, e.lengths[LAYOUTS], lists[0],
                                                       e.lengths[WORKING], lists[1], e.lengths[UNCLAIMED], e.state, order,
                                                       OOF_MOST_RECORDS);
        MUST(result == (longer ? OOF_BAD_EXTENT : OOF_ACCEPTED));
        for (uint32_t k = 0; k < OOF_MOST_RECORDS; k++) /* `each` boxes a layer: those of layer 0 stand at 255, 511, 767, .. */
            wrong += order[k] != (longer ? noise : OOF_MOST_LAYER - k / each + 256 * (k % each));
        MUST(wrong == 0 && order[OOF_MOST_RECORDS] == noise);
    }
}

/* ---- drawing orders of runs: the incident's label, node 0, and its note, node 1 */

static uint32_t *put_candidate(uint32_t *candidates, int place, uint32_t node, uint32_t layer)
{
    uint32_t *record = candidates + place * OOF_CANDIDATE_WORDS;
    memset(record, 0, OOF_CANDIDATE_WORDS * sizeof *record);
    record[OOF_CANDIDATE_NODE] = node, record[OOF_CANDIDATE_POSITION] = OOF_POSITION_ABSOLUTE;
    record[OOF_CANDIDATE_LAYER] = layer;
    return record;
}

/* the note over the label, whichever is hoisted first */
static void note_over_label(void)
{
    uint32_t answer[OOF_ANSWER_WORDS], candidates[2 * OOF_CANDIDATE_WORDS];
    for (uint32_t direction = OOF_DIRECTION_LTR; direction <= OOF_DIRECTION_RTL; direction++)
        for (int note_first = 0; note_first < 2; note_first++) {
            ended e = incident(direction);
            put_candidate(candidates, note_first, 0, 0);
            put_candidate(candidates, !note_first, 1, 1);
            MUST(run_opened(&e, direction, OOF_CLAIMS_ABSOLUTE, OOF_OVERFLOW_SCROLL, candidates, answer) == OOF_ACCEPTED);
            MUST(gives(&e, 2, OOF_WRONG_REPLY) && gives(&e, 1, OOF_BAD_EXTENT)); /* unfinished */
            MUST(run_finished(&e, answer));
            MUST(note_first ? drawn(&e, 2, LIST(1, 0)) : drawn(&e, 2, LIST(0, 1)));
            e.styles[OOF_STYLE_PADDING_LEFT] = 2; /* no tag: a finished run's styles aren't read */
            MUST(note_first ? drawn(&e, 2, LIST(1, 0)) : drawn(&e, 2, LIST(0, 1)));
        }
}

/* a node that is claimed twice, a surfaced record, and openings that leave no box */
static void odd_drawings(void)
{
    uint32_t answer[OOF_ANSWER_WORDS], candidates[2 * OOF_CANDIDATE_WORDS];
    ended e = incident(OOF_DIRECTION_LTR);
    put_candidate(candidates, 0, 0, 6);
    uint32_t *second = put_candidate(candidates, 1, 0, 5);
    MUST(run_opened(&e, OOF_DIRECTION_LTR, OOF_CLAIMS_ABSOLUTE, OOF_OVERFLOW_SCROLL, candidates, answer) == OOF_ACCEPTED);
    MUST(run_finished(&e, answer) && drawn(&e, 2, LIST(1, 0)));

    second[OOF_CANDIDATE_POSITION] = OOF_POSITION_FIXED; /* the label surfaces a note on layer 2, under it */
    MUST(run_opened(&e, OOF_DIRECTION_LTR, OOF_CLAIMS_ABSOLUTE, OOF_OVERFLOW_SCROLL, candidates, answer) == OOF_ACCEPTED);
    MUST(gives(&e, 1, OOF_WRONG_REPLY));
    put_candidate(candidates, 0, 1, 2);
    MUST(oof_reply_laid_out(0, 0, 0, 0, candidates, OOF_CANDIDATE_WORDS, RUNNING(&e), answer) == OOF_ACCEPTED);
    MUST(gives(&e, 1, OOF_BAD_EXTENT) && gives(&e, 2, OOF_WRONG_REPLY));
    MUST(run_finished(&e, answer) && drawn(&e, 2, LIST(1, 0)));
    MUST(e.unclaimed[OOF_CANDIDATE_LAYER] == 5);
    e.unclaimed[OOF_CANDIDATE_LAYER] = 256;
    MUST(drawn(&e, 2, LIST(1, 0))); /* the unclaimed list isn't looked at */

    MUST(run_opened(&e, OOF_DIRECTION_LTR, 0, OOF_OVERFLOW_SCROLL, candidates, answer) == OOF_ACCEPTED);
    MUST(answer[OOF_ANSWER_KIND] == OOF_FINISH && e.state[OOF_STATE_UNCLAIMED] == 2);
    MUST(drawn(&e, 0, LIST(0)) && gives(&e, 1, OOF_BAD_EXTENT));
    MUST(run_opened(&e, 2, OOF_CLAIMS_ABSOLUTE, OOF_OVERFLOW_SCROLL, candidates, answer) == OOF_BAD_AREA);
    MUST(drawn(&e, 0, LIST(0)) && gives(&e, 1, OOF_BAD_EXTENT));
}

/* runs that differ in layers alone differ in the records' layers alone */
static void placement_reads_no_layer(void)
{
    uint32_t answers[2][OOF_ANSWER_WORDS], candidates[2 * OOF_CANDIDATE_WORDS];
    ended runs[2];
    for (uint32_t k = 0; k < 2; k++) {
        runs[k] = incident(OOF_DIRECTION_LTR);
        put_candidate(candidates, 0, 0, 255 * k);
        put_candidate(candidates, 1, 1, 254 * k)[OOF_CANDIDATE_POSITION] = OOF_POSITION_FIXED;
        uint32_t *answer = answers[k];
        MUST(run_opened(&runs[k], OOF_DIRECTION_LTR, OOF_CLAIMS_ABSOLUTE, OOF_OVERFLOW_SCROLL, candidates, answer) == OOF_ACCEPTED);
        put_candidate(candidates, 0, 1, 3 * k);
        MUST(oof_reply_laid_out(0, 0, 0, 0, candidates, OOF_CANDIDATE_WORDS, RUNNING(&runs[k]), answer) == OOF_ACCEPTED);
        MUST(run_finished(&runs[k], answer));
    }
    MUST(drawn(&runs[0], 2, LIST(0, 1)) && drawn(&runs[1], 2, LIST(1, 0)));
    MUST(memcmp(answers[0], answers[1], sizeof answers[0]) == 0 && memcmp(&runs[0], &runs[1], sizeof runs[0]) != 0);
    for (int k = 0; k < RECORDS; k++)
        for (int list = 0; list < 2; list++)
            (list ? runs[1].unclaimed : runs[1].working)[k * OOF_CANDIDATE_WORDS + OOF_CANDIDATE_LAYER] =
                (list ? runs[0].unclaimed : runs[0].working)[k * OOF_CANDIDATE_WORDS + OOF_CANDIDATE_LAYER];
    MUST(memcmp(&runs[0], &runs[1], sizeof runs[0]) == 0);
}

/* ---- random words, beside a count of the boxes that are drawn before */

static uint32_t modelled_order(const ended *e, size_t words, uint32_t *order)
{
    const uint32_t boxes = e->state[OOF_STATE_WORKING], refusal = modelled_tests(e, words != boxes);
    for (uint32_t k = 0; refusal == OOF_ACCEPTED && k < boxes; k++) {
        uint32_t before = 0;
        for (uint32_t j = 0; j < boxes; j++) {
            const uint32_t layer = e->working[k * OOF_CANDIDATE_WORDS + OOF_CANDIDATE_LAYER];
            const uint32_t other = e->working[j * OOF_CANDIDATE_WORDS + OOF_CANDIDATE_LAYER];
            before += other < layer || (other == layer && j < k);
        }
        order[before] = k;
    }
    return refusal;
}

/* one word, or one length, to be refused or not to matter */
static void damage_boxes(ended *e)
{
    int slice = (int)below(4);
    const uint32_t all = e->lengths[slice];
    switch (below(6)) {
    case 0: e->lengths[slice] -= below(2) ? 1 : all / 2; break;
    case 1: lend(e, slice, all / 2); break;
    case 2: e->state[OOF_STATE_PROGRESS] = below(8); break;
    case 3: e->state[OOF_STATE_WORKING + slice] = below(RECORD_ROOM + 2); break; /* of the four counts */
    case 4: e->working[below(RECORD_ROOM * OOF_CANDIDATE_WORDS)] = below(2) ? below(7) : 254 + below(4); break;
    default: e->unclaimed[below(RECORD_ROOM * OOF_CANDIDATE_WORDS)] = below(300); break;
    }
}

static void random_drawings(void)
{
    enum { CALLS = 200000, LEVEL = 10, RAISED = 11, KINDS = 12 };
    int wrong = 0, told[KINDS] = {0};
    for (int call = 0; call < CALLS; call++) {
        uint32_t boxes = below(RECORD_ROOM + 1), nodes[RECORD_ROOM], layers[RECORD_ROOM];
        const uint32_t of = below(3) ? 1 + below(3) : 256;
        for (int k = 0; k < RECORD_ROOM; k++)
            nodes[k] = below(ITEM_ROOM), layers[k] = below(2) ? below(of) : 255 - below(of);
        ended e = hoisted(boxes, nodes, layers);
        for (uint32_t k = below(4); k > 1; k--) /* none in half of the calls */
            damage_boxes(&e);
        size_t words = below(16) ? boxes : below(BOX_ROOM);
        uint32_t expected[WORD_ROOM] = {0}, order[WORD_ROOM];
        uint32_t result = modelled_order(&e, words, expected), moved = 0;
        if (fill(&drawing, &e, words, order) != result || (result == OOF_ACCEPTED && memcmp(expected, order, words * sizeof *order)))
            wrong++;
        for (uint32_t k = 0; k < words; k++)
            moved += expected[k] != k;
        told[result != OOF_ACCEPTED ? (int)result : moved ? RAISED : LEVEL]++;
    }
    MUST(wrong == 0);
    MUST(told[OOF_BAD_EXTENT] > 1000 && told[OOF_WRONG_REPLY] > 1000 && told[OOF_BAD_CANDIDATE] > 1000);
    MUST(told[LEVEL] > 1000 && told[RAISED] > 1000);
}

/* ---- what a touch driver reads */

static int touched(const ended *e, size_t boxes, const uint32_t *expected)
{
    return fills(&touching, e, boxes * OOF_TOUCH_WORDS, expected);
}

static int touch_refused(const ended *e, size_t boxes, uint32_t number)
{
    return results(&touching, e, boxes * OOF_TOUCH_WORDS, number);
}

/* node 3 alone, in eighths from the area's left and top edge */
static ended one_standing(int x, int y, int width, int height)
{
    ended e = hoisted(1, LIST(3), LIST(0));
    e.state[OOF_STATE_AREA + 2] = eighths(AREA_X), e.state[OOF_STATE_AREA + 3] = eighths(AREA_Y);
    stand(&e, 3, x, y, width, height);
    return e;
}

static void touch_words(void)
{
    ended e = one_standing(-5, 0, 8, 8);
    MUST(touched(&e, 1, LIST(3, 0xFFFFFFFF, 0, 0, 1)));
    e = one_standing(0, -5, 8, 8); /* left, right, top, bottom */
    MUST(touched(&e, 1, LIST(3, 0, 1, 0xFFFFFFFF, 0)));
    e = one_standing(-4, 3, 0, -8);
    MUST(touched(&e, 1, LIST(3, 0, 0, 0, 0xFFFFFFFF)));
    e = one_standing(3, 4, 3, 7); /* no size is rounded by itself */
    MUST(touched(&e, 1, LIST(3, 0, 1, 1, 1)));

    e = one_standing(0, 0, 0, 0); /* as large as they can be */
    uint32_t *layout = e.layouts + 3 * OOF_LAYOUT_WORDS, *area_x = e.state + OOF_STATE_AREA + 2;
    layout[OOF_LAYOUT_X] = layout[OOF_LAYOUT_WIDTH] = eighths(LARGEST), *area_x = eighths(-LARGEST);
    MUST(touched(&e, 1, LIST(3, 2500000, 3750000, 0, 0)));
    layout[OOF_LAYOUT_X] = layout[OOF_LAYOUT_WIDTH] = eighths(-LARGEST), *area_x = eighths(LARGEST);
    MUST(touched(&e, 1, LIST(3, 0xFFD9DA60, 0xFFC6C790, 0, 0)));

    MUST(oof_signed(0) == 0 && oof_signed(1) == 1 && oof_signed(0x7FFFFFFF) == INT32_MAX);
    MUST(oof_signed(0xFFFFFFFF) == -1 && oof_signed(0xFFC6C790) == -3750000 && oof_signed(0x80000000) == INT32_MIN);
}

/* in hoisted order, each by the layout at its node's place; a node that was claimed twice has its one layout at both its places */
static void touch_boxes(void)
{
    ended e = hoisted(4, LIST(4, 0, 5, 0), LIST(9, 3, 0, 1));
    e.state[OOF_STATE_AREA + 2] = eighths(AREA_X), e.state[OOF_STATE_AREA + 3] = eighths(AREA_Y);
    stand(&e, 0, 8, 24, 32, 80), stand(&e, 4, 0, -64, 8, 8), stand(&e, 5, -40, 160, 16, 24);
    MUST(touched(&e, 4, LIST(4, 0, 1, 0xFFFFFFF8, 0xFFFFFFF9, 0, 1, 5, 3, 13, 5, 0xFFFFFFFB, 0xFFFFFFFD, 20, 23, 0, 1, 5, 3, 13)));
    stand(&e, 0, 16, 24, 32, 80); /* a layout that somebody wrote after the finish counts */
    MUST(touched(&e, 4, LIST(4, 0, 1, 0xFFFFFFF8, 0xFFFFFFF9, 0, 2, 6, 3, 13, 5, 0xFFFFFFFB, 0xFFFFFFFD, 20, 23, 0, 2, 6, 3, 13)));

    e = hoisted(0, NULL, NULL); /* without boxes: the offset, a NaN here, isn't looked at */
    MUST(touched(&e, 0, LIST(0)) && touch_refused(&e, 1, OOF_BAD_EXTENT) && results(&touching, &e, 1, OOF_BAD_EXTENT));
    memset(&e, 0, sizeof e); /* zeros are a finished run over no words */
    MUST(touched(&e, 0, LIST(0)) && touch_refused(&e, 1, OOF_BAD_EXTENT));

    e = three_standing();
    e.state[OOF_STATE_WORKING] = 858993460; /* five times as many are 4, modulo 2^32 */
    MUST(results(&touching, &e, 4, OOF_BAD_EXTENT));
}

/* the numbers that are read: of each box four, of the area two; and one box refuses all */
static void touch_eighths(void)
{
    const uint32_t bad[8] = {oof_word(0.0625f), oof_word(-0.1f), oof_word(1250000), oof_word(-1250000), 1, 0x7F800000,
                             0xFF800000, 0xFFC00000};
    const uint32_t good[4] = {eighths(LARGEST), eighths(-LARGEST), eighths(1), 0x80000000};
    for (int number = 0; number < 2 + 2 * 4; number++) {
        const int of_box[4] = {OOF_LAYOUT_X, OOF_LAYOUT_Y, OOF_LAYOUT_WIDTH, OOF_LAYOUT_HEIGHT};
        ended e = three_standing();
        uint32_t *word = number < 2 ? &e.state[OOF_STATE_AREA + 2 + number]
                                    : &e.layouts[(number % 2 ? 2 : 5) * OOF_LAYOUT_WORDS + of_box[number / 2 - 1]];
        for (int k = 0; k < 8; k++) {
            *word = bad[k];
            MUST(touch_refused(&e, 3, OOF_NOT_IN_EIGHTHS));
        }
        for (int k = 0; k < 4; k++) {
            *word = good[k];
            MUST(touch_refused(&e, 3, OOF_ACCEPTED));
        }
    }
    ended e = one_standing(0, 0, 8, 0), zeros = e;
    e.state[OOF_STATE_AREA + 2] = e.layouts[3 * OOF_LAYOUT_WORDS + OOF_LAYOUT_X] = 0x80000000; /* -0 is 0 */
    e.layouts[3 * OOF_LAYOUT_WORDS + OOF_LAYOUT_HEIGHT] = 0x80000000;
    MUST(touched(&e, 1, LIST(3, 0, 1, 0, 0)) && touched(&zeros, 1, LIST(3, 0, 1, 0, 0)));
}

/* 2 before 6 before 4 before 9 */
static void touch_tested_in_order(void)
{
    ended e = three_standing();
    e.layouts[2 * OOF_LAYOUT_WORDS + OOF_LAYOUT_WIDTH] = e.state[OOF_STATE_AREA + 2] = 0x7FC00000;
    MUST(touch_refused(&e, 3, OOF_NOT_IN_EIGHTHS));
    e.working[2 * OOF_CANDIDATE_WORDS + OOF_CANDIDATE_POSITION] = 5;
    MUST(touch_refused(&e, 3, OOF_BAD_CANDIDATE));
    e.state[OOF_STATE_PROGRESS] = 4;
    MUST(touch_refused(&e, 3, OOF_WRONG_REPLY));
    e.state[OOF_STATE_PROGRESS] = 0, e.state[OOF_STATE_UNCLAIMED] = RECORD_ROOM + 1;
    MUST(touch_refused(&e, 3, OOF_WRONG_REPLY));
    MUST(touch_refused(&e, 2, OOF_BAD_EXTENT) && touch_refused(&e, 4, OOF_BAD_EXTENT));
    e.lengths[UNCLAIMED] = 0;
    MUST(touch_refused(&e, 3, OOF_BAD_EXTENT));
}

/* as long as slices may be, and a record longer; the last box of 4,096, the only one of its node, refuses all */
static void longest_touch(void)
{
    enum { MOST = OOF_MOST_RECORDS, LIST_ROOM = (MOST + 1) * OOF_CANDIDATE_WORDS, WORDS = MOST * OOF_TOUCH_WORDS };
    enum { LAST = OOF_MOST_ITEMS - 1 };
    static uint32_t styles[OOF_MOST_ITEMS * OOF_STYLE_WORDS], layouts[OOF_MOST_ITEMS * OOF_LAYOUT_WORDS], lists[2][LIST_ROOM];
    static uint32_t words[WORDS + 2], noise[WORDS + 2], expected[WORDS + 2];
    ended e = three_standing();
    memset(words, 0x5A, sizeof words), memset(noise, 0x5A, sizeof noise), memset(expected, 0x5A, sizeof expected);
    for (uint32_t node = 0; node < OOF_MOST_ITEMS; node++) {
        memcpy(layouts + node * OOF_LAYOUT_WORDS, e.layouts + 5 * OOF_LAYOUT_WORDS, OOF_LAYOUT_WORDS * sizeof *layouts);
        layouts[node * OOF_LAYOUT_WORDS + OOF_LAYOUT_X] = eighths(AREA_X + 8 * (int)node);
    }
    for (uint32_t k = 0; k < MOST; k++) {
        const uint32_t node = k == MOST - 1 ? LAST : (5 * k + 3) % LAST, five[OOF_TOUCH_WORDS] = {node, node, node + 1, 0, 1};
        lists[0][k * OOF_CANDIDATE_WORDS + OOF_CANDIDATE_NODE] = node;
        memcpy(expected + 1 + k * OOF_TOUCH_WORDS, five, sizeof five);
    }
    lend(&e, STYLES, OOF_MOST_ITEMS * OOF_STYLE_WORDS), lend(&e, LAYOUTS, OOF_MOST_ITEMS * OOF_LAYOUT_WORDS);
    e.state[OOF_STATE_WORKING] = MOST;
    uint32_t *last = layouts + LAST * OOF_LAYOUT_WORDS + OOF_LAYOUT_HEIGHT;
    const uint32_t height = *last;
    for (int bad = 3; bad >= 0; bad--) { /* the last box, the unclaimed list, the working list, nothing */
        *last = bad == 3 ? oof_word(0.0625f) : height;
        lend(&e, WORKING, (MOST + (bad == 1)) * OOF_CANDIDATE_WORDS);
        lend(&e, UNCLAIMED, (MOST + (bad == 2)) * OOF_CANDIDATE_WORDS);
        uint32_t result = oof_touch(styles, e.lengths[STYLES], layouts, e.lengths[LAYOUTS], lists[0], e.lengths[WORKING], lists[1],
                                    e.lengths[UNCLAIMED], e.state, words + 1, WORDS);
        MUST(result == (bad == 3 ? OOF_NOT_IN_EIGHTHS : bad ? OOF_BAD_EXTENT : OOF_ACCEPTED));
        MUST(memcmp(words, bad ? noise : expected, sizeof words) == 0);
    }
}

/* ---- what a driver reads of runs */

/* the label and the note, in a panel that stands at 100, 40 */
static void touch_incident(void)
{
    uint32_t answer[OOF_ANSWER_WORDS], candidates[2 * OOF_CANDIDATE_WORDS];
    for (uint32_t direction = OOF_DIRECTION_LTR; direction <= OOF_DIRECTION_RTL; direction++) {
        const uint32_t ltr[] = {1, 0xFFFFFEB8, 0xFFFFFFF8, 200, 296, 0, 24, 184, 16, 40}; /* -328 and -8 */
        const uint32_t rtl[] = {1, 808, 1128, 200, 296, 0, 616, 776, 16, 40};
        ended e = incident(direction);
        put_candidate(candidates, 0, 1, 1), put_candidate(candidates, 1, 0, 0);
        MUST(run_opened(&e, direction, OOF_CLAIMS_ABSOLUTE, OOF_OVERFLOW_SCROLL, candidates, answer) == OOF_ACCEPTED);
        MUST(touch_refused(&e, 2, OOF_WRONG_REPLY) && touch_refused(&e, 1, OOF_BAD_EXTENT)); /* unfinished */
        MUST(run_finished(&e, answer));
        MUST(touched(&e, 2, direction == OOF_DIRECTION_LTR ? ltr : rtl));
        e.styles[OOF_STYLE_PADDING_LEFT] = 2; /* no tag: a finished run's styles aren't read */
        MUST(touched(&e, 2, direction == OOF_DIRECTION_LTR ? ltr : rtl));
    }
}

/* a node that is claimed twice, a box on a sixteenth, and openings that leave no box */
static void odd_touches(void)
{
    uint32_t answer[OOF_ANSWER_WORDS], candidates[2 * OOF_CANDIDATE_WORDS];
    int32_t edges[OOF_PIXEL_EDGES];
    ended e = incident(OOF_DIRECTION_LTR);
    box_style(&e, 0, 160, 24); /* without insets */
    for (int k = 0; k < 2; k++) {
        uint32_t *candidate = put_candidate(candidates, k, 0, 0);
        candidate[OOF_CANDIDATE_X_START] = candidate[OOF_CANDIDATE_X_END] = oof_word(k ? 1000 : 100);
        candidate[OOF_CANDIDATE_Y_START] = candidate[OOF_CANDIDATE_Y_END] = oof_word(40);
    }
    MUST(run_opened(&e, OOF_DIRECTION_LTR, OOF_CLAIMS_ABSOLUTE, OOF_OVERFLOW_SCROLL, candidates, answer) == OOF_ACCEPTED);
    MUST(run_finished(&e, answer) && touched(&e, 2, LIST(0, 900, 1060, 0, 24, 0, 900, 1060, 0, 24)));

    uint32_t *centered = box_style(&e, 1, 100.125f, 24); /* 699.875 are shared by its margins */
    for (size_t at = OOF_STYLE_INSET_LEFT; at <= OOF_STYLE_INSET_RIGHT; at += OOF_LENGTH_WORDS) {
        oof_set_length(centered, at, OOF_TAG_PX, 0);
        oof_set_length(centered, at + OOF_STYLE_MARGIN_LEFT, OOF_TAG_AUTO, 0);
    }
    candidates[OOF_CANDIDATE_WORDS + OOF_CANDIDATE_NODE] = 1;
    MUST(run_opened(&e, OOF_DIRECTION_LTR, OOF_CLAIMS_ABSOLUTE, OOF_OVERFLOW_SCROLL, candidates, answer) == OOF_ACCEPTED);
    MUST(run_finished(&e, answer) && touch_refused(&e, 2, OOF_NOT_IN_EIGHTHS));
    MUST(oof_float(e.layouts[OOF_LAYOUT_WORDS + OOF_LAYOUT_X]) == 100 + 349.9375f);
    MUST(oof_pixels(e.layouts, 100, 40, edges) == OOF_ACCEPTED); /* the other box has edges */
    oof_set_length(centered, OOF_STYLE_WIDTH, OOF_TAG_PX, 100.25f);
    MUST(run_opened(&e, OOF_DIRECTION_LTR, OOF_CLAIMS_ABSOLUTE, OOF_OVERFLOW_SCROLL, candidates, answer) == OOF_ACCEPTED);
    MUST(run_finished(&e, answer) && touched(&e, 2, LIST(0, 0, 160, 0, 24, 1, 350, 450, 0, 24)));

    MUST(run_opened(&e, OOF_DIRECTION_LTR, 0, OOF_OVERFLOW_SCROLL, candidates, answer) == OOF_ACCEPTED);
    MUST(answer[OOF_ANSWER_KIND] == OOF_FINISH && e.state[OOF_STATE_UNCLAIMED] == 2);
    MUST(touched(&e, 0, LIST(0)) && touch_refused(&e, 1, OOF_BAD_EXTENT));
    MUST(run_opened(&e, 2, OOF_CLAIMS_ABSOLUTE, OOF_OVERFLOW_SCROLL, candidates, answer) == OOF_BAD_AREA);
    MUST(touched(&e, 0, LIST(0)) && touch_refused(&e, 1, OOF_BAD_EXTENT));
}

/* whether a node's two layouts differ in some of so many words, from this one on */
static int differ(const ended *runs, int node, size_t from, size_t count)
{
    const size_t at = (size_t)node * OOF_LAYOUT_WORDS + from;
    return memcmp(runs[0].layouts + at, runs[1].layouts + at, count * sizeof *runs[0].layouts) != 0;
}

/* two runs whose boxes differ in padding, border, margins, scrollbars, child overflow and order; what a margin adds, an inset
 * takes off */
static void only_location_and_size_are_seen(void)
{
    const uint32_t none[1] = {0};
    uint32_t answer[OOF_ANSWER_WORDS], candidates[2 * OOF_CANDIDATE_WORDS], words[2][WORD_ROOM];
    ended runs[2];
    for (uint32_t k = 0; k < 2; k++) {
        runs[k] = incident(OOF_DIRECTION_LTR);
        for (int node = 0; node < ITEMS; node++) {
            const float margin = 2 * (float)k;
            uint32_t *style = box_style(&runs[k], node, 160 + 80 * (float)node, 48);
            oof_set_length(style, OOF_STYLE_INSET_LEFT, OOF_TAG_PX, 24 + 100.5f * (float)node - margin);
            oof_set_length(style, OOF_STYLE_INSET_TOP, OOF_TAG_PX, 16 + margin);
            oof_set_length(style, OOF_STYLE_MARGIN_LEFT, OOF_TAG_PX, margin);
            oof_set_length(style, OOF_STYLE_MARGIN_TOP, OOF_TAG_PX, -margin);
            oof_set_length(style, OOF_STYLE_PADDING_RIGHT, OOF_TAG_PX, 8 * (float)k);
            oof_set_length(style, OOF_STYLE_BORDER_BOTTOM, OOF_TAG_PX, (float)k);
            style[OOF_STYLE_OVERFLOW_X] = style[OOF_STYLE_OVERFLOW_Y] = k ? OOF_OVERFLOW_SCROLL : OOF_OVERFLOW_VISIBLE;
            style[OOF_STYLE_SCROLLBAR_WIDTH] = oof_word(15);
            put_candidate(candidates, node, 1 - (uint32_t)node, 0)[OOF_CANDIDATE_ORDER] = 7 * k;
        }
        ended *e = &runs[k];
        MUST(run_opened(e, OOF_DIRECTION_LTR, OOF_CLAIMS_ABSOLUTE, OOF_OVERFLOW_SCROLL, candidates, answer) == OOF_ACCEPTED);
        for (int node = 0; node < ITEMS; node++)
            MUST(oof_reply_laid_out(0, 300 * (float)k, 0, 200, none, 0, RUNNING(e), answer) == OOF_ACCEPTED);
        MUST(answer[OOF_ANSWER_KIND] == OOF_FINISH && fill(&touching, e, 2 * OOF_TOUCH_WORDS, words[k]) == OOF_ACCEPTED);
    }
    for (int node = 0; node < ITEMS; node++) {
        MUST(differ(runs, node, OOF_LAYOUT_ORDER, 1) && differ(runs, node, OOF_LAYOUT_OVERFLOW, 4));
        MUST(differ(runs, node, OOF_LAYOUT_SCROLLBAR_WIDTH, 2) && differ(runs, node, OOF_LAYOUT_PADDING, 4));
        MUST(differ(runs, node, OOF_LAYOUT_BORDER, 4) && differ(runs, node, OOF_LAYOUT_MARGIN, 4));
    }
    MUST(memcmp(words[0], words[1], sizeof words[0]) == 0);
    MUST(touched(&runs[1], 2, LIST(1, 125, 365, 16, 64, 0, 24, 184, 16, 64))); /* 124.5 to 364.5 */
}

/* ---- random words, beside the nearest pixel edges */

/* the pixel edge nearest to so many eighths, by distance; of two that are as near, the right one */
static int nearest(int n)
{
    int best = n / 8 - 1;
    for (int edge = n / 8; edge <= n / 8 + 1; edge++)
        if (abs(8 * edge - n) <= abs(8 * best - n))
            best = edge;
    return best;
}

static uint32_t modelled_touch(const ended *e, size_t words, uint32_t *into)
{
    const uint32_t boxes = e->state[OOF_STATE_WORKING];
    uint32_t refusal = modelled_tests(e, words != (uint64_t)boxes * 5);
    for (uint32_t k = 0; refusal == OOF_ACCEPTED && k < boxes; k++) {
        const uint32_t node = e->working[k * OOF_CANDIDATE_WORDS], *layout = e->layouts + node * OOF_LAYOUT_WORDS;
        int x, y, at[4];
        if (!in_eighths(e->state[OOF_STATE_AREA + 2], &x) || !in_eighths(e->state[OOF_STATE_AREA + 3], &y) ||
            !in_eighths(layout[OOF_LAYOUT_X], &at[0]) || !in_eighths(layout[OOF_LAYOUT_WIDTH], &at[1]) ||
            !in_eighths(layout[OOF_LAYOUT_Y], &at[2]) || !in_eighths(layout[OOF_LAYOUT_HEIGHT], &at[3]))
            refusal = OOF_NOT_IN_EIGHTHS;
        else {
            const int64_t edges[4] = {nearest(at[0] - x), nearest(at[0] - x + at[1]), nearest(at[2] - y),
                                      nearest(at[2] - y + at[3])};
            into[5 * k] = node;
            for (int edge = 0; edge < 4; edge++)
                into[5 * k + 1 + (uint32_t)edge] = (uint32_t)(edges[edge] < 0 ? 4294967296 + edges[edge] : edges[edge]);
        }
    }
    return refusal;
}

/* small ones more often than others, as large as they may be, and a little larger */
static int some_eighths(void)
{
    if (below(8))
        return between(-40, 40);
    const int most = LARGEST + (int)below(2);
    return below(2) ? between(-most, most) : below(2) ? most : -most;
}

static ended any_standing(void)
{
    uint32_t nodes[RECORD_ROOM], layers[RECORD_ROOM];
    for (int k = 0; k < RECORD_ROOM; k++)
        nodes[k] = below(ITEM_ROOM), layers[k] = below(256);
    ended e = hoisted(below(RECORD_ROOM + 1), nodes, layers);
    e.state[OOF_STATE_AREA + 2] = eighths(some_eighths()), e.state[OOF_STATE_AREA + 3] = eighths(some_eighths());
    for (uint32_t node = 0; node < ITEM_ROOM; node++) {
        uint32_t *layout = e.layouts + node * OOF_LAYOUT_WORDS;
        layout[OOF_LAYOUT_X] = eighths(some_eighths()), layout[OOF_LAYOUT_WIDTH] = eighths(some_eighths());
        layout[OOF_LAYOUT_Y] = eighths(some_eighths()), layout[OOF_LAYOUT_HEIGHT] = eighths(some_eighths());
    }
    if (!below(8))
        e.layouts[below(ITEM_ROOM * OOF_LAYOUT_WORDS)] = oof_word(0.0625f * (float)between(-3, 3));
    if (!below(8))
        e.state[OOF_STATE_AREA + below(4)] = oof_word(0.0625f * (float)between(-3, 3));
    return e;
}

/* draws words anew: half of them small, as codes and counts are, the others any upper halves of floats */
static void redraw(uint32_t *words, size_t count)
{
    for (size_t k = 0; k < count; k++) {
        const uint32_t drawn = below(2 * 65536);
        words[k] = drawn < 65536 ? drawn % 9 : drawn << 16;
    }
}

/* what is tested and not told: any that passes, for one that does */
static uint32_t as_good(uint32_t word, uint32_t most)
{
    return word <= most ? below(most + 1) : word;
}

/* a number that is told; a zero has either sign */
static uint32_t as_told(uint32_t word)
{
    return word << 1 == 0 ? below(2) << 31 : word;
}

/* puts back what a driver sees of a box: its node and its layout's x, y, width and height. Codes stay good or bad. */
static void keep_box(ended *other, const ended *e, uint32_t place)
{
    const uint32_t *record = e->working + place * OOF_CANDIDATE_WORDS, node = record[OOF_CANDIDATE_NODE];
    uint32_t *redrawn = other->working + place * OOF_CANDIDATE_WORDS;
    redrawn[OOF_CANDIDATE_NODE] = node;
    for (int code = 0; code < CODES; code++)
        redrawn[codes[code].word] = as_good(record[codes[code].word], codes[code].most);
    for (int k = 0; k < 4 && node < ITEM_ROOM; k++) {
        const uint32_t told[4] = {OOF_LAYOUT_X, OOF_LAYOUT_Y, OOF_LAYOUT_WIDTH, OOF_LAYOUT_HEIGHT};
        const size_t at = node * OOF_LAYOUT_WORDS + told[k];
        other->layouts[at] = as_told(e->layouts[at]);
    }
}

/* another state with as many boxes and the same lengths, at the same offset if there is a box; finished or not, as it was */
static void keep_state(ended *other, const ended *e)
{
    const uint32_t *s = e->state, progress = s[OOF_STATE_PROGRESS];
    uint32_t *redrawn = other->state;
    redraw(redrawn, OOF_STATE_WORDS);
    if (progress >= 1 && progress <= 5)
        redrawn[OOF_STATE_PROGRESS] = progress;
    else if (redrawn[OOF_STATE_PROGRESS] <= 5)
        redrawn[OOF_STATE_PROGRESS] = 0;
    redrawn[OOF_STATE_WORKING] = s[OOF_STATE_WORKING];
    redrawn[OOF_STATE_UNCLAIMED] = as_good(s[OOF_STATE_UNCLAIMED], e->lengths[UNCLAIMED] / OOF_CANDIDATE_WORDS);
    for (int k = OOF_STATE_AREA + 2; k < OOF_STATE_AREA + 4 && s[OOF_STATE_WORKING] > 0; k++)
        redrawn[k] = as_told(s[k]);
    redrawn[OOF_STATE_DIRECTION] = below(2);
    memcpy(redrawn + OOF_STATE_LENGTHS, s + OOF_STATE_LENGTHS, 4 * sizeof *s); /* not that of the tally */
}

/* the same run to a driver: every word that it doesn't see is drawn anew, and so are the signs of zeros that it does */
static ended seen_alike(const ended *e)
{
    ended other = *e;
    redraw(other.styles, ITEM_ROOM * OOF_STYLE_WORDS), redraw(other.layouts, ITEM_ROOM * OOF_LAYOUT_WORDS);
    redraw(other.working, RECORD_ROOM * OOF_CANDIDATE_WORDS), redraw(other.unclaimed, RECORD_ROOM * OOF_CANDIDATE_WORDS);
    for (uint32_t place = 0; place < RECORD_ROOM && place < e->state[OOF_STATE_WORKING]; place++)
        keep_box(&other, e, place);
    keep_state(&other, e);
    return other;
}

/* whether oof_pixels says the same of each box */
static int as_pixels(const ended *e, const uint32_t *words)
{
    const float x = oof_float(e->state[OOF_STATE_AREA + 2]), y = oof_float(e->state[OOF_STATE_AREA + 3]);
    int wrong = 0;
    for (uint32_t k = 0; k < e->state[OOF_STATE_WORKING]; k++) {
        const uint32_t *five = words + k * OOF_TOUCH_WORDS;
        int32_t edges[OOF_PIXEL_EDGES];
        wrong |= oof_pixels(e->layouts + five[OOF_TOUCH_NODE] * OOF_LAYOUT_WORDS, x, y, edges) != OOF_ACCEPTED;
        for (int edge = 0; edge < OOF_PIXEL_EDGES; edge++)
            wrong |= oof_signed(five[OOF_TOUCH_LEFT + edge]) != edges[edge];
    }
    return !wrong;
}

static void random_touches(void)
{
    enum { CALLS = 200000, EMPTY = 10, BELOW = 11, ABOVE = 12, KINDS = 13 };
    int wrong = 0, told[KINDS] = {0};
    for (int call = 0; call < CALLS; call++) {
        ended e = any_standing();
        for (uint32_t k = below(4); k > 1; k--) /* none in half of the calls */
            damage_boxes(&e);
        size_t words = below(16) ? (e.state[OOF_STATE_WORKING] % (BOX_ROOM + 1)) * OOF_TOUCH_WORDS : below(WORD_ROOM);
        uint32_t expected[WORD_ROOM], into[WORD_ROOM], again[WORD_ROOM], negative = 0;
        uint32_t result = modelled_touch(&e, words, expected);
        const ended other = seen_alike(&e);
        wrong += fill(&touching, &e, words, into) != result || fill(&touching, &other, words, again) != result;
        if (result == OOF_ACCEPTED) {
            wrong += memcmp(into, expected, words * sizeof *into) != 0 || !as_pixels(&e, into);
            wrong += memcmp(again, expected, words * sizeof *again) != 0;
            for (size_t k = 0; k < words; k++)
                negative |= into[k] >> 31;
        }
        told[result != OOF_ACCEPTED ? (int)result : words == 0 ? EMPTY : negative ? BELOW : ABOVE]++;
    }
    MUST(wrong == 0);
    MUST(told[OOF_BAD_EXTENT] > 1000 && told[OOF_WRONG_REPLY] > 1000 && told[OOF_BAD_CANDIDATE] > 1000);
    MUST(told[OOF_NOT_IN_EIGHTHS] > 1000 && told[EMPTY] > 1000 && told[BELOW] > 1000 && told[ABOVE] > 1000);
}

/* ---- the first word that breaks a rule */

enum { TABLE = OOF_MOST_ITEMS + 2, ONE = OOF_STYLE_WORDS, TWO = 2 * OOF_STYLE_WORDS, ALL = TABLE * OOF_STYLE_WORDS };

static uint32_t table[ALL];

static void good_items(size_t items)
{
    for (size_t item = 0; item < items; item++)
        plain_style(table + item * OOF_STYLE_WORDS);
}

static void put(size_t item, size_t word, uint32_t value)
{
    table[item * OOF_STYLE_WORDS + word] = value;
}

/* the result over so many words of the table, or WROTE if the call wrote one of these, a word beside the two that are lent, or
 * one of the two though there is nothing to tell */
static uint32_t first_bad_word(size_t words, uint32_t *found)
{
    static uint32_t before[ALL];
    const uint32_t noise[OOF_FOUND_WORDS + 2] = {0x5A5A5A5A, 0xFFFFFFFF, 0x7FC00001, 0xA5A5A5A5};
    uint32_t lent[OOF_FOUND_WORDS + 2];
    memcpy(before, table, words * sizeof *table);
    memcpy(lent, noise, sizeof noise);
    uint32_t result = oof_first_bad_word(table, words, lent + 1);
    memcpy(found, lent + 1, OOF_FOUND_WORDS * sizeof *found);
    if (result == 1)
        memcpy(lent + 1, noise + 1, OOF_FOUND_WORDS * sizeof *lent);
    return memcmp(before, table, words * sizeof *table) || memcmp(lent, noise, sizeof noise) ? WROTE : result;
}

static int is_first(size_t words, size_t item, size_t word)
{
    uint32_t found[OOF_FOUND_WORDS];
    return first_bad_word(words, found) == 1 && found[OOF_FOUND_ITEM] == item && found[OOF_FOUND_STYLE_WORD] == word;
}

static int all_good(size_t words)
{
    uint32_t found[OOF_FOUND_WORDS];
    return first_bad_word(words, found) == 0;
}

static void first_bad_words(void)
{
    good_items(TABLE);
    MUST(all_good(0) && all_good(TWO) && all_good(ALL));
    put(1, OOF_STYLE_INSET_LEFT, 2);
    MUST(is_first(TWO, 1, OOF_STYLE_INSET_LEFT));                  /* not word OOF_STYLE_WORDS of the table */
    MUST(all_good(ONE) && all_good(ONE + 1) && all_good(TWO - 1)); /* a part of a record */
    put(1, OOF_STYLE_INSET_LEFT, 257);
    MUST(is_first(TWO, 1, OOF_STYLE_INSET_LEFT)); /* not px */
    put(0, OOF_STYLE_CONTAIN, 256);
    MUST(is_first(TWO, 0, OOF_STYLE_CONTAIN));
    put(0, OOF_STYLE_CONTAIN, 255);
    MUST(is_first(TWO, 1, OOF_STYLE_INSET_LEFT));

    put(0, OOF_STYLE_JUSTIFY, 11), put(0, OOF_STYLE_JUSTIFY_SAFETY, 7);
    MUST(is_first(ONE, 0, OOF_STYLE_JUSTIFY));
    put(0, OOF_STYLE_JUSTIFY, OOF_ALIGN_ABSENT);
    MUST(all_good(ONE));
    put(0, OOF_STYLE_JUSTIFY, OOF_ALIGN_STRETCH), put(0, OOF_STYLE_JUSTIFY_SAFETY, 3);
    MUST(is_first(ONE, 0, OOF_STYLE_JUSTIFY_SAFETY));
    put(0, OOF_STYLE_RATIO_PRESENT, 2);
    MUST(is_first(ONE, 0, OOF_STYLE_RATIO_PRESENT));

    good_items(1);
    put(0, OOF_STYLE_RATIO_PRESENT, 1), put(0, OOF_STYLE_RATIO, 0x7FC00000);
    put(0, OOF_STYLE_WIDTH + OOF_LENGTH_VALUE, 0xFFFFFFFF), put(0, OOF_STYLE_SCROLLBAR_WIDTH, 0x7F800001);
    put(0, OOF_STYLE_WIDTH + OOF_LENGTH_SECOND, 0xFFC00000);
    MUST(all_good(ONE)); /* NaNs */
}

/* more than a run takes */
static void long_tables(void)
{
    good_items(TABLE);
    for (size_t item = TABLE - 1; item >= OOF_MOST_ITEMS - 1; item--) {
        put(item, OOF_STYLE_OVERFLOW_Y, 4);
        MUST(is_first(ALL, item, OOF_STYLE_OVERFLOW_Y) && all_good(item * OOF_STYLE_WORDS));
    }
}

static int takes(size_t word, uint32_t tag)
{
    const uint32_t of_sizes[7] = {OOF_TAG_MIN_CONTENT, OOF_TAG_FIT_CONTENT_PERCENT, OOF_TAG_MAX_CONTENT, OOF_TAG_CONTENT,
                                  OOF_TAG_FIT_CONTENT_PX, OOF_TAG_FIT_CONTENT, OOF_TAG_STRETCH};
    int is_size = word >= OOF_STYLE_WIDTH, taken = tag == OOF_TAG_PX || tag == OOF_TAG_PERCENT || tag == OOF_TAG_SUM;
    taken |= tag == OOF_TAG_AUTO && (is_size || word < OOF_STYLE_PADDING_LEFT);
    for (int k = 0; k < 7; k++)
        taken |= is_size && tag == of_sizes[k];
    return taken;
}

/* whether a word of a style breaks a rule, by the header */
static int breaks(const uint32_t *style, size_t word)
{
    if (word < OOF_STYLE_RATIO_PRESENT)
        return word % OOF_LENGTH_WORDS == OOF_LENGTH_TAG && !takes(word, style[word]);
    switch (word) {
    case OOF_STYLE_RATIO_PRESENT:
    case OOF_STYLE_BOX_SIZING:
    case OOF_STYLE_DIRECTION: return style[word] > 1;
    case OOF_STYLE_FLAGS:
    case OOF_STYLE_OVERFLOW_X:
    case OOF_STYLE_OVERFLOW_Y: return style[word] > 3;
    case OOF_STYLE_JUSTIFY:
    case OOF_STYLE_ALIGN: return style[word] > OOF_ALIGN_ABSENT;
    case OOF_STYLE_JUSTIFY_SAFETY:
    case OOF_STYLE_ALIGN_SAFETY: return style[word - 1] != OOF_ALIGN_ABSENT && style[word] > OOF_SAFETY_SAFE;
    case OOF_STYLE_CONTAIN: return style[word] > 255;
    default: return 0;
    }
}

/* an opening over so many words of the table, without a candidate */
static uint32_t opened_over(size_t words)
{
    static uint32_t layouts[TABLE * OOF_LAYOUT_WORDS], tally[TABLE];
    uint32_t none[3] = {0}, state[OOF_STATE_WORDS], answer[OOF_ANSWER_WORDS];
    return oof_open(200, 100, 0, 0, OOF_DIRECTION_LTR, OOF_CLAIMS_ABSOLUTE, OOF_OVERFLOW_VISIBLE, OOF_OVERFLOW_VISIBLE, table,
                    words, none, 0, layouts, words / OOF_STYLE_WORDS * OOF_LAYOUT_WORDS, none + 1, 0, none + 2, 0, tally,
                    words / OOF_STYLE_WORDS, state, answer);
}

/* whether the entry says of so many words what the header does, and an opening over them is refused accordingly */
static int as_said(size_t words)
{
    const uint32_t ragged = words % OOF_STYLE_WORDS ? OOF_BAD_EXTENT : OOF_ACCEPTED;
    for (size_t k = 0; k < words - words % OOF_STYLE_WORDS; k++) {
        size_t item = k / OOF_STYLE_WORDS, word = k % OOF_STYLE_WORDS;
        if (breaks(table + item * OOF_STYLE_WORDS, word))
            return is_first(words, item, word) && opened_over(words) == (ragged ? ragged : OOF_BAD_STYLE);
    }
    return all_good(words) && opened_over(words) == ragged;
}

/* each word of an item, with codes from 0 on and some large ones, beside a present and an absent keyword */
static void every_word(void)
{
    const uint32_t large[5] = {0x7FC00000, 0x80000001, 0xFFFFFFFF, 0x01000001, 65537};
    int wrong = 0, bad = 0;
    for (uint32_t keyword = OOF_ALIGN_STRETCH; keyword <= OOF_ALIGN_ABSENT; keyword++)
        for (size_t word = 0; word < OOF_STYLE_WORDS; word++)
            for (uint32_t code = 0; code < 600; code++) {
                good_items(3);
                put(1, OOF_STYLE_JUSTIFY, keyword), put(1, OOF_STYLE_ALIGN, keyword);
                put(1, word, code < 5 ? large[code] : code - 5);
                wrong += !as_said(3 * OOF_STYLE_WORDS);
                bad += !all_good(3 * OOF_STYLE_WORDS);
            }
    MUST(wrong == 0 && bad > 30000);
}

/* some words of up to four items, with or without a part of another */
static void random_tables(void)
{
    enum { CALLS = 100000 };
    int wrong = 0, good = 0;
    for (int call = 0; call < CALLS; call++) {
        const size_t items = below(5), words = items * OOF_STYLE_WORDS + (below(2) ? below(OOF_STYLE_WORDS) : 0);
        good_items(items + 1);
        for (uint32_t k = below(5); k > 0; k--)
            put(below((uint32_t)items + 1), below(OOF_STYLE_WORDS), below(3) ? below(14) : OOF_TAG_SUM - 1 + below(3));
        wrong += !as_said(words);
        good += all_good(words);
    }
    MUST(wrong == 0 && good > 10000 && CALLS - good > 10000);
}

/* a reply goes by the words as they are then; other refusals come before */
static void replies_over_bad_words(void)
{
    words w = box_at(100, 40, 100, 40);
    uint32_t found[OOF_FOUND_WORDS];
    MUST(opened(&w) == OOF_ACCEPTED && oof_first_bad_word(w.styles, OOF_STYLE_WORDS, found) == 0);
    w.styles[OOF_STYLE_DIRECTION] = 2;
    MUST(oof_reply_both(120, 18, LENT(&w)) == OOF_BAD_STYLE && oof_reply_width(120, LENT(&w)) == OOF_WRONG_REPLY);
    MUST(oof_first_bad_word(w.styles, OOF_STYLE_WORDS, found) == 1 && found[OOF_FOUND_ITEM] == 0);
    MUST(found[OOF_FOUND_STYLE_WORD] == OOF_STYLE_DIRECTION);
    w.direction = 2;
    MUST(opened(&w) == OOF_BAD_AREA);
}

static void style_word_names(void)
{
    MUST(!strcmp(oof_style_word_name(OOF_STYLE_MARGIN_LEFT), "margin left, tag"));
    MUST(!strcmp(oof_style_word_name(OOF_STYLE_MAX_HEIGHT + OOF_LENGTH_VALUE), "max height, value"));
    MUST(!strcmp(oof_style_word_name(OOF_STYLE_BORDER_TOP + OOF_LENGTH_SECOND), "border top, second value"));
    MUST(!strcmp(oof_style_word_name(OOF_STYLE_JUSTIFY), "justify keyword"));
    MUST(!strcmp(oof_style_word_name(OOF_STYLE_CONTAIN), "contain"));
    MUST(!strcmp(oof_style_word_name(OOF_STYLE_WORDS), "no word of a style"));
    MUST(!strcmp(oof_style_word_name(0xFFFFFFFF), "no word of a style"));
}

/* ---- sums: half the area less 12 px */

#define EACH_LENGTH(at) (size_t at = OOF_STYLE_INSET_LEFT; at <= OOF_STYLE_MAX_HEIGHT; at += OOF_LENGTH_WORDS)

static const uint32_t quiet_nan = 0x7FC00000;

/* what is measured along an axis: so much, or less where there is less space */
static float measured(const uint32_t *question, int space, float most)
{
    const float available = oof_float(question[space + 1]);
    if (question[space] == OOF_SPACE_MIN_CONTENT)
        return most / 4;
    return question[space] == OOF_SPACE_DEFINITE && available < most ? available : most;
}

/* the run to its finish, every measured box being 120 by 18 or less */
static uint32_t placed(words *w)
{
    uint32_t result = opened(w);
    while (result == OOF_ACCEPTED && w->answer[OOF_ANSWER_KIND] != OOF_FINISH) {
        const float width = measured(w->answer, OOF_QUESTION_AVAILABLE_WIDTH, 120);
        const float height = measured(w->answer, OOF_QUESTION_AVAILABLE_HEIGHT, 18);
        switch (w->answer[OOF_ANSWER_KIND]) {
        case OOF_MEASURE_BOTH: result = oof_reply_both(width, height, LENT(w)); break;
        case OOF_MEASURE_WIDTH: result = oof_reply_width(width, LENT(w)); break;
        case OOF_MEASURE_HEIGHT: result = oof_reply_height(height, LENT(w)); break;
        default: result = laid_out(w, w->candidates, 0);
        }
    }
    return result;
}

/* whether two tables are placed alike: every word that the runs wrote is the same */
static int alike(const words *a, const words *b)
{
    words one = *a, other = *b;
    if (placed(&one) != OOF_ACCEPTED || placed(&other) != OOF_ACCEPTED)
        return 0;
    memcpy(other.styles, one.styles, sizeof one.styles);
    return same(&one, &other);
}

static void labels_by_sums(void)
{
    words w = box_at(100, 40, 100, 40);
    w.width = 800, w.height = 480;
    oof_set_sum(w.styles, OOF_STYLE_INSET_LEFT, 0.5f, -12);
    oof_set_sum(w.styles, OOF_STYLE_INSET_TOP, 0.25f, 6);
    MUST(placed(&w) == OOF_ACCEPTED);
    MUST(oof_float(w.layouts[OOF_LAYOUT_X]) == 100 + 388 && oof_float(w.layouts[OOF_LAYOUT_Y]) == 40 + 126);
    oof_set_length(w.styles, OOF_STYLE_INSET_LEFT, OOF_TAG_AUTO, 0);
    oof_set_sum(w.styles, OOF_STYLE_INSET_RIGHT, 0.5f, -12);
    MUST(placed(&w) == OOF_ACCEPTED && oof_float(w.layouts[OOF_LAYOUT_X]) == 100 + 800 - 388 - 120);
}

/* what the length at this word comes to in a box of its own, as the layout tells; by its basis, 200 across and 100 down */
static float came_to(size_t at, float factor, float pixels)
{
    words w = box_at(0, 0, 0, 0);
    const float size = at < OOF_STYLE_MAX_WIDTH ? 10 : 190; /* a min raises it, a max lowers it */
    const size_t side = at / OOF_LENGTH_WORDS % 4;
    oof_set_length(w.styles, OOF_STYLE_WIDTH, OOF_TAG_PX, size);
    oof_set_length(w.styles, OOF_STYLE_HEIGHT, OOF_TAG_PX, size);
    oof_set_sum(w.styles, at, factor, pixels);
    MUST(placed(&w) == OOF_ACCEPTED);
    const float x = oof_float(w.layouts[OOF_LAYOUT_X]), y = oof_float(w.layouts[OOF_LAYOUT_Y]);
    const float inset[4] = {x, 200 - x - size, y, 100 - y - size};
    if (at < OOF_STYLE_MARGIN_LEFT)
        return inset[side];
    if (at < OOF_STYLE_PADDING_LEFT)
        return oof_float(w.layouts[OOF_LAYOUT_MARGIN + side]);
    if (at < OOF_STYLE_WIDTH)
        return oof_float(w.layouts[(at < OOF_STYLE_BORDER_LEFT ? OOF_LAYOUT_PADDING : OOF_LAYOUT_BORDER) + side]);
    return oof_float(w.layouts[side % 2 ? OOF_LAYOUT_HEIGHT : OOF_LAYOUT_WIDTH]);
}

/* whether a length goes by the area's height: top and bottom insets, and the heights among the sizes */
static int goes_by_height(size_t at)
{
    const size_t length = at / OOF_LENGTH_WORDS;
    return at < OOF_STYLE_MARGIN_LEFT ? length >= 2 : at >= OOF_STYLE_WIDTH && length % 2 == 1;
}

/* every length takes a sum, each by its basis, and none of the tags beside it */
static void sums_in_every_length(void)
{
    const uint32_t no_tags[5] = {4, 6, OOF_TAG_SUM - 1, OOF_TAG_SUM + 1, 256 + OOF_TAG_SUM};
    for EACH_LENGTH(at) {
        MUST(came_to(at, 0.25f, -3) == (goes_by_height(at) ? 22 : 47));
        words w = box_at(100, 40, 100, 40);
        uint32_t found[OOF_FOUND_WORDS];
        for (int k = 0; k < 5; k++) {
            oof_set_sum(w.styles, at, 0.5f, -12);
            w.styles[at] = no_tags[k];
            MUST(opened(&w) == OOF_BAD_STYLE && oof_first_bad_word(w.styles, OOF_STYLE_WORDS, found) == 1);
            MUST(found[OOF_FOUND_ITEM] == 0 && found[OOF_FOUND_STYLE_WORD] == at);
        }
    }
}

/* the product is rounded before the second value is added; a missing basis isn't the second value alone */
static void sums_by_two_roundings(void)
{
    words w = box_at(0, 0, 5, 5), other = w;
    w.width = 10;
    oof_set_sum(w.styles, OOF_STYLE_INSET_LEFT, 0.1f, -1);
    MUST(placed(&w) == OOF_ACCEPTED && w.layouts[OOF_LAYOUT_X] == 0); /* fused it would be 1.5e-8 */

    const float infinite = oof_float(0x7F800000);
    other.width = infinite;
    oof_set_sum(other.styles, OOF_STYLE_MARGIN_LEFT, 0, 12);
    MUST(placed(&other) == OOF_ACCEPTED && other.layouts[OOF_LAYOUT_MARGIN] == quiet_nan);
    oof_set_sum(other.styles, OOF_STYLE_MARGIN_LEFT, 0.5f, -12);
    MUST(placed(&other) == OOF_ACCEPTED && oof_float(other.layouts[OOF_LAYOUT_MARGIN]) == infinite);
}

/* a sum comes to a number: what is measured, what a ratio completes, what content-box adds to, what min and max do */
static void sums_are_no_keywords(void)
{
    words w = box_at(0, 0, 0, 0);
    oof_set_sum(w.styles, OOF_STYLE_WIDTH, 0.5f, -12);
    oof_set_length(w.styles, OOF_STYLE_HEIGHT, OOF_TAG_MIN_CONTENT, 0);
    oof_set_sum(w.styles, OOF_STYLE_MAX_WIDTH, 0.25f, 30);
    MUST(opened(&w) == OOF_ACCEPTED && w.answer[OOF_ANSWER_KIND] == OOF_MEASURE_HEIGHT);
    MUST(w.answer[OOF_QUESTION_KNOWN_WIDTH] == OOF_KNOWN && oof_float(w.answer[OOF_QUESTION_KNOWN_WIDTH + 1]) == 80);
    oof_set_sum(w.styles, OOF_STYLE_MIN_WIDTH, 0.5f, -1);
    MUST(opened(&w) == OOF_ACCEPTED && oof_float(w.answer[OOF_QUESTION_KNOWN_WIDTH + 1]) == 99);

    w = box_at(0, 0, 0, 0);
    oof_set_sum(w.styles, OOF_STYLE_WIDTH, 0.5f, -12);
    w.styles[OOF_STYLE_RATIO_PRESENT] = 1, w.styles[OOF_STYLE_RATIO] = oof_word(2);
    MUST(opened(&w) == OOF_ACCEPTED && w.answer[OOF_ANSWER_KIND] == OOF_LAY_OUT);
    MUST(placed(&w) == OOF_ACCEPTED && oof_float(w.layouts[OOF_LAYOUT_HEIGHT]) == 44);
    w.styles[OOF_STYLE_RATIO_PRESENT] = 0;
    w.styles[OOF_STYLE_BOX_SIZING] = OOF_BOX_SIZING_CONTENT;
    oof_set_sum(w.styles, OOF_STYLE_PADDING_LEFT, 0.25f, 3);
    MUST(placed(&w) == OOF_ACCEPTED && oof_float(w.layouts[OOF_LAYOUT_WIDTH]) == 88 + 53);
}

/* with second value -0.0 a sum is what percent is; under other tags any second value is none */
static void second_values(void)
{
    const uint32_t tags[8] = {OOF_TAG_PX, OOF_TAG_PERCENT, OOF_TAG_AUTO, OOF_TAG_MIN_CONTENT, OOF_TAG_FIT_CONTENT_PERCENT,
                              OOF_TAG_FIT_CONTENT_PX, OOF_TAG_CONTENT, OOF_TAG_STRETCH};
    const uint32_t noise[4] = {0x41400000, 0x7FC00001, 0xFF800000, 1};
    for EACH_LENGTH(at) {
        words sum = box_at(100, 40, 100, 40), percent = sum;
        oof_set_sum(sum.styles, at, 0.3f, -0.0f);
        oof_set_length(percent.styles, at, OOF_TAG_PERCENT, 0.3f);
        MUST(alike(&sum, &percent));
        for (int k = 0; k < 8 * 4; k++)
            if (takes(at, tags[k / 4])) {
                words plain = box_at(100, 40, 100, 40), noisy;
                oof_set_length(plain.styles, at, tags[k / 4], 0.3f);
                noisy = plain;
                noisy.styles[at + OOF_LENGTH_SECOND] = noise[k % 4];
                MUST(alike(&plain, &noisy));
            }
    }
}

/* a record of 57 words, as it was before sums, is no table */
static void record_of_57(void)
{
    words w = box_at(100, 40, 100, 40), before = w;
    MUST(oof_open(w.width, w.height, w.x, w.y, w.direction, OOF_CLAIMS_ABSOLUTE, OOF_OVERFLOW_VISIBLE, OOF_OVERFLOW_VISIBLE, table,
                  57, w.candidates, 0, w.layouts, OOF_LAYOUT_WORDS, w.working, ROOM * OOF_CANDIDATE_WORDS, w.unclaimed,
                  ROOM * OOF_CANDIDATE_WORDS, w.tally, 1, w.state, w.answer) == OOF_BAD_EXTENT);
    memcpy(before.state, w.state, sizeof w.state);
    MUST(same(&before, &w));
}

/* any bits, floats of some pixels more often than others */
static uint32_t some_float(void)
{
    const uint32_t odd[6] = {0, 0x80000000, 0x7F800000, 0xFF800000, 0x7FC00000, 0x7F7FFFFF};
    switch (below(6)) {
    case 0: return odd[below(6)];
    case 1: return below(65536) << 16 | below(65536);
    case 2: return oof_word((float)below(40) / 8);
    default: return oof_word((float)((int)below(4000) - 2000) / 8);
    }
}

/* a sum and the pixels that it comes to, worked out here, are placed alike in any style */
static void random_sums(void)
{
    enum { RUNS = 100000 };
    const uint32_t tags[4] = {OOF_TAG_PX, OOF_TAG_PERCENT, OOF_TAG_AUTO, OOF_TAG_MIN_CONTENT};
    int wrong = 0, sums = 0;
    for (int run = 0; run < RUNS; run++) {
        words summed = box_at(8, -16, 24, 0), worked;
        summed.width = oof_float(some_float()), summed.height = oof_float(some_float());
        summed.direction = below(2);
        summed.styles[OOF_STYLE_BOX_SIZING] = below(2), summed.styles[OOF_STYLE_FLAGS] = below(4);
        summed.styles[OOF_STYLE_RATIO_PRESENT] = below(2), summed.styles[OOF_STYLE_RATIO] = some_float();
        worked = summed;
        for EACH_LENGTH(at) {
            const float factor = oof_float(some_float()), pixels = oof_float(some_float());
            const uint32_t tag = tags[below(4)];
            if (below(2)) {
                volatile float product = (goes_by_height(at) ? summed.height : summed.width) * factor;
                oof_set_sum(summed.styles, at, factor, pixels), sums++;
                oof_set_length(worked.styles, at, OOF_TAG_PX, product + pixels);
            } else if (takes(at, tag)) {
                oof_set_length(summed.styles, at, tag, factor), oof_set_length(worked.styles, at, tag, factor);
            }
        }
        wrong += !alike(&summed, &worked);
    }
    MUST(wrong == 0 && sums > 10 * RUNS);
}

static void of_sums(void)
{
    labels_by_sums();
    sums_in_every_length();
    sums_by_two_roundings();
    sums_are_no_keywords();
    second_values();
    record_of_57();
    random_sums();
}

/* ---- the stretch size of a size keyword, from the anchor */

/* a label without insets at 40, 30 of a 200 by 100 area at 10, 20, its width and height by these tags */
static words anchored(uint32_t across, uint32_t down, uint32_t edge)
{
    words w = box_at(10, 20, 50, 50);
    oof_set_length(w.styles, OOF_STYLE_WIDTH, across, 25);
    oof_set_length(w.styles, OOF_STYLE_HEIGHT, down, 25);
    w.candidates[OOF_CANDIDATE_X_EDGE] = edge;
    return w;
}

static int has_width(words *w, float x, float width)
{
    return placed(w) == OOF_ACCEPTED && oof_float(w->layouts[OOF_LAYOUT_X]) == x && oof_float(w->layouts[OOF_LAYOUT_WIDTH]) == width;
}

/* whether the opening asks so, in these spaces */
static int asks(words *w, uint32_t kind, float width, float height)
{
    return opened(w) == OOF_ACCEPTED && w->answer[OOF_ANSWER_KIND] == kind
        && oof_float(w->answer[OOF_QUESTION_AVAILABLE_WIDTH + 1]) == width
        && oof_float(w->answer[OOF_QUESTION_AVAILABLE_HEIGHT + 1]) == height;
}

static void stretched_from_anchors(void)
{
    words w = anchored(OOF_TAG_STRETCH, OOF_TAG_PX, OOF_EDGE_START);
    MUST(has_width(&w, 50, 160)); /* from the anchor to the right edge */
    w = anchored(OOF_TAG_STRETCH, OOF_TAG_PX, OOF_EDGE_END);
    MUST(has_width(&w, 10, 40)); /* from the left edge to the anchor */
    w = anchored(OOF_TAG_STRETCH, OOF_TAG_PX, OOF_EDGE_CENTER);
    MUST(has_width(&w, 10, 80)); /* around the anchor, to the nearer edge */
    w = anchored(OOF_TAG_STRETCH, OOF_TAG_PX, OOF_EDGE_START);
    w.direction = OOF_DIRECTION_RTL;
    MUST(has_width(&w, 50, 160));
    oof_set_length(w.styles, OOF_STYLE_MARGIN_LEFT, OOF_TAG_PX, 8);
    oof_set_length(w.styles, OOF_STYLE_MARGIN_RIGHT, OOF_TAG_PX, 2);
    MUST(has_width(&w, 58, 150));
    w = anchored(OOF_TAG_PX, OOF_TAG_STRETCH, OOF_EDGE_START);
    MUST(has_width(&w, 50, 25)); /* the same down, to the bottom edge */
    MUST(oof_float(w.layouts[OOF_LAYOUT_Y]) == 50 && oof_float(w.layouts[OOF_LAYOUT_HEIGHT]) == 70);
    /* insets that cross close the block up; margins below 0 are taken off that */
    w = anchored(OOF_TAG_STRETCH, OOF_TAG_PX, OOF_EDGE_START);
    oof_set_length(w.styles, OOF_STYLE_INSET_LEFT, OOF_TAG_PX, 120);
    oof_set_length(w.styles, OOF_STYLE_INSET_RIGHT, OOF_TAG_PX, 120);
    oof_set_length(w.styles, OOF_STYLE_MARGIN_LEFT, OOF_TAG_PX, -30);
    oof_set_length(w.styles, OOF_STYLE_MARGIN_RIGHT, OOF_TAG_PX, -30);
    MUST(has_width(&w, 10 + 120 - 30, 60));
}

static void measured_from_anchors(void)
{
    words w = anchored(OOF_TAG_FIT_CONTENT, OOF_TAG_FIT_CONTENT, OOF_EDGE_START);
    MUST(asks(&w, OOF_MEASURE_BOTH, 160, 70));
    w = anchored(OOF_TAG_FIT_CONTENT_PX, OOF_TAG_FIT_CONTENT, OOF_EDGE_START);
    MUST(asks(&w, OOF_MEASURE_BOTH, 25, 70)); /* its limit, not the stretch size */
    w = anchored(OOF_TAG_FIT_CONTENT, OOF_TAG_AUTO, OOF_EDGE_START);
    MUST(asks(&w, OOF_MEASURE_WIDTH, 160, 70));
    w = anchored(OOF_TAG_FIT_CONTENT, OOF_TAG_PX, OOF_EDGE_START);
    MUST(asks(&w, OOF_MEASURE_WIDTH, 160, 70)); /* the height is known */
    w = anchored(OOF_TAG_PX, OOF_TAG_FIT_CONTENT, OOF_EDGE_START);
    MUST(asks(&w, OOF_MEASURE_HEIGHT, 25, 70)); /* the width is known */
    w = anchored(OOF_TAG_AUTO, OOF_TAG_FIT_CONTENT, OOF_EDGE_START);
    MUST(asks(&w, OOF_MEASURE_HEIGHT, 160, 70));
}

/* ---- the tally */

enum { BOXES = 3, TALLY_ROOM = ITEMS + 2 };

/* A run over at most two items, with room for three boxes in each list. `words` of the tally are lent. 32-bit words and no padding,
 * so that two compare as bytes. */
typedef struct {
    uint32_t items, candidates_lent, claims, words;
    uint32_t styles[ITEMS * OOF_STYLE_WORDS];
    uint32_t candidates[(BOXES + 1) * OOF_CANDIDATE_WORDS];
    uint32_t layouts[ITEMS * OOF_LAYOUT_WORDS];
    uint32_t working[BOXES * OOF_CANDIDATE_WORDS];
    uint32_t unclaimed[BOXES * OOF_CANDIDATE_WORDS];
    uint32_t tally[TALLY_ROOM];
    uint32_t state[OOF_STATE_WORDS];
    uint32_t answer[OOF_ANSWER_WORDS];
} counted;

#define COUNTED(c)                                                                                                    \
    (c)->styles, (c)->items * OOF_STYLE_WORDS, (c)->layouts, (c)->items * OOF_LAYOUT_WORDS, (c)->working,              \
        BOXES * OOF_CANDIDATE_WORDS, (c)->unclaimed, BOXES * OOF_CANDIDATE_WORDS, (c)->tally, (c)->words, (c)->state,  \
        (c)->answer

/* two boxes: two questions about node 0, whose size is auto, and three about node 1, whose width is min-content. What is to be
 * written holds noise. */
static counted two_labels(void)
{
    counted c;
    memset(&c, 0x5A, sizeof c);
    c.items = c.words = ITEMS, c.candidates_lent = 2, c.claims = OOF_CLAIMS_ABSOLUTE;
    for (int k = 0; k < ITEMS; k++)
        plain_style(c.styles + k * OOF_STYLE_WORDS);
    oof_set_length(c.styles + OOF_STYLE_WORDS, OOF_STYLE_WIDTH, OOF_TAG_MIN_CONTENT, 0);
    for (int k = 0; k <= BOXES; k++)
        put_candidate(c.candidates, k, k % 2, 0);
    return c;
}

static uint32_t counted_opened(counted *c)
{
    return oof_open(200, 100, 0, 0, OOF_DIRECTION_LTR, c->claims, OOF_OVERFLOW_VISIBLE, OOF_OVERFLOW_VISIBLE, c->styles,
                    c->items * OOF_STYLE_WORDS, c->candidates, c->candidates_lent * OOF_CANDIDATE_WORDS, c->layouts,
                    c->items * OOF_LAYOUT_WORDS, c->working, BOXES * OOF_CANDIDATE_WORDS, c->unclaimed,
                    BOXES * OOF_CANDIDATE_WORDS, c->tally, c->words, c->state, c->answer);
}

/* a reply of the open question's kind; a box that is laid out surfaces so many of the candidates */
static uint32_t replied(counted *c, uint32_t surfaced)
{
    switch (c->answer[OOF_ANSWER_KIND]) {
    case OOF_MEASURE_BOTH: return oof_reply_both(120, 18, COUNTED(c));
    case OOF_MEASURE_WIDTH: return oof_reply_width(120, COUNTED(c));
    case OOF_MEASURE_HEIGHT: return oof_reply_height(18, COUNTED(c));
    default: return oof_reply_laid_out(0, 0, 0, 0, c->candidates, surfaced * OOF_CANDIDATE_WORDS, COUNTED(c));
    }
}

/* whether that reply is refused with this number, and no word is written */
static int refuses(counted *c, uint32_t surfaced, uint32_t number)
{
    const counted before = *c;
    return replied(c, surfaced) == number && memcmp(&before, c, sizeof before) == 0;
}

/* whether that opening is refused with this number, and a finished run is written into the state's words, and no other word */
static int opening_refuses(counted *c, uint32_t number)
{
    counted expected = *c;
    const uint32_t lengths[5] = {c->items * OOF_STYLE_WORDS, c->items * OOF_LAYOUT_WORDS, BOXES * OOF_CANDIDATE_WORDS,
                                 BOXES * OOF_CANDIDATE_WORDS, c->words};
    memset(expected.state, 0, sizeof expected.state);
    memcpy(expected.state + OOF_STATE_LENGTHS, lengths, sizeof lengths);
    return counted_opened(c) == number && memcmp(&expected, c, sizeof expected) == 0;
}

/* whether the two words are these, and add up to the questions answered; the words behind them are as they were */
static int counts(const counted *c, uint32_t first, uint32_t second)
{
    return c->tally[0] == first && c->tally[1] == second && c->tally[2] == 0x5A5A5A5A && c->tally[3] == 0x5A5A5A5A &&
           c->state[OOF_STATE_ANSWERED] == first + second;
}

/* the rest of the run */
static int finishes(counted *c)
{
    while (c->answer[OOF_ANSWER_KIND] != OOF_FINISH)
        if (replied(c, 0) != OOF_ACCEPTED)
            return 0;
    return 1;
}

/* another number of words than there are items, or than at the opening */
static void other_tallies(void)
{
    for (uint32_t words = 0; words <= TALLY_ROOM; words++) {
        counted c = two_labels();
        c.words = words;
        if (words != ITEMS) {
            MUST(opening_refuses(&c, OOF_BAD_EXTENT) && refuses(&c, 0, OOF_BAD_EXTENT));
            c.words = ITEMS; /* as many as there are items, and not as many as at the opening */
            MUST(refuses(&c, 0, OOF_BAD_EXTENT));
            MUST(counted_opened(&c) == OOF_ACCEPTED && counts(&c, 0, 0));
            c.words = words;
            MUST(refuses(&c, 0, OOF_BAD_EXTENT));
            c.words = ITEMS, c.state[OOF_STATE_LENGTHS + 4] = words; /* a state that no call wrote */
            MUST(refuses(&c, 0, OOF_BAD_EXTENT));
            c.state[OOF_STATE_LENGTHS + 4] = ITEMS;
            MUST(replied(&c, 0) == OOF_ACCEPTED && counts(&c, 1, 0));
            c.words = words;
            MUST(refuses(&c, 0, OOF_BAD_EXTENT)); /* of a lay-out reply too */
        }
    }
    counted c = two_labels();
    c.claims = 4;
    MUST(opening_refuses(&c, OOF_BAD_AREA) && refuses(&c, 0, OOF_WRONG_REPLY)); /* of as many words: no question is open */
}

/* items without words, and words without items */
static void no_items(void)
{
    counted c = two_labels();
    c.items = c.candidates_lent = c.words = 0;
    MUST(counted_opened(&c) == OOF_ACCEPTED && c.answer[OOF_ANSWER_KIND] == OOF_FINISH && c.answer[OOF_FINISH_COUNT] == 0);
    MUST(c.tally[0] == 0x5A5A5A5A && c.state[OOF_STATE_LENGTHS + 4] == 0);
    MUST(refuses(&c, 0, OOF_WRONG_REPLY));
    c.words = 1;
    MUST(refuses(&c, 0, OOF_BAD_EXTENT) && opening_refuses(&c, OOF_BAD_EXTENT));
}

/* a word above the questions answered, whoever's it is, as both stand before the reply */
static void words_above(void)
{
    const uint32_t above[3] = {1, 2, 0xFFFFFFFF};
    for (int k = 0; k < ITEMS; k++)
        for (int of = 0; of < 3; of++) {
            counted c = two_labels();
            MUST(counted_opened(&c) == OOF_ACCEPTED);
            c.tally[k] = above[of];
            MUST(refuses(&c, 0, OOF_WRONG_REPLY));
            c.tally[k] = 0;
            MUST(replied(&c, 0) == OOF_ACCEPTED && counts(&c, 1, 0));
        }
    counted c = two_labels();
    MUST(counted_opened(&c) == OOF_ACCEPTED && replied(&c, 0) == OOF_ACCEPTED && counts(&c, 1, 0));
    c.tally[1] = 2;
    MUST(refuses(&c, 0, OOF_WRONG_REPLY));
    c.tally[1] = 0, c.state[OOF_STATE_ANSWERED] = 0;
    MUST(refuses(&c, 0, OOF_WRONG_REPLY)); /* another run's state, as may be */
    c.tally[1] = c.state[OOF_STATE_ANSWERED] = 1;
    MUST(replied(&c, 0) == OOF_ACCEPTED && c.tally[0] == 2 && c.tally[1] == 1 && c.state[OOF_STATE_ANSWERED] == 2);
}

/* 1 before the tally's length, that before all other tests; the words after other lengths, before styles */
static void tallies_in_order(void)
{
    counted c = two_labels();
    c.words = 1, c.styles[OOF_STYLE_DIRECTION] = 2;
    MUST(opening_refuses(&c, OOF_BAD_EXTENT));
    c.claims = 4;
    MUST(opening_refuses(&c, OOF_BAD_AREA));
    c = two_labels();
    MUST(counted_opened(&c) == OOF_ACCEPTED);
    c.styles[OOF_STYLE_DIRECTION] = 2, c.tally[1] = 1;
    MUST(refuses(&c, 0, OOF_WRONG_REPLY));
    MUST(oof_reply_laid_out(0, 0, 0, 0, c.candidates, 13, COUNTED(&c)) == OOF_BAD_EXTENT);
    c.words = 1;
    MUST(refuses(&c, 0, OOF_BAD_EXTENT));
    c.words = 2, c.tally[1] = 0;
    MUST(refuses(&c, 0, OOF_BAD_STYLE));
}

/* who is charged: the box whose question is open, by its record as it is then */
static void charged_boxes(void)
{
    counted c = two_labels();
    MUST(counted_opened(&c) == OOF_ACCEPTED && c.answer[OOF_QUESTION_NODE] == 0);
    c.working[OOF_CANDIDATE_NODE] = 1; /* between question and reply */
    MUST(replied(&c, 0) == OOF_ACCEPTED && counts(&c, 0, 1));

    c = two_labels();
    MUST(counted_opened(&c) == OOF_ACCEPTED && replied(&c, 0) == OOF_ACCEPTED && counts(&c, 1, 0));
    MUST(c.answer[OOF_ANSWER_KIND] == OOF_LAY_OUT && refuses(&c, 2, OOF_LIST_FULL));
    MUST(replied(&c, 0) == OOF_ACCEPTED && counts(&c, 2, 0)); /* the box laid out, and not the next one */
    MUST(c.answer[OOF_QUESTION_NODE] == 1 && c.answer[OOF_ANSWER_KIND] == OOF_MEASURE_WIDTH);
    MUST(finishes(&c) && counts(&c, 2, 3) && c.answer[OOF_FINISH_COUNT] == 5);

    c = two_labels();
    c.candidates_lent = 3; /* node 0 twice */
    MUST(counted_opened(&c) == OOF_ACCEPTED && finishes(&c) && counts(&c, 4, 3) && c.answer[OOF_FINISH_COUNT] == 7);
    MUST(refuses(&c, 0, OOF_WRONG_REPLY)); /* finished */

    c = two_labels();
    c.candidates_lent = 1; /* what it surfaces is another box of node 0 */
    MUST(counted_opened(&c) == OOF_ACCEPTED && replied(&c, 0) == OOF_ACCEPTED && replied(&c, 1) == OOF_ACCEPTED);
    MUST(counts(&c, 2, 0) && finishes(&c) && counts(&c, 4, 0) && c.answer[OOF_FINISH_COUNT] == 4);
}

/* what an opening does: it clears all words, or it is refused and leaves them */
static void cleared_tallies(void)
{
    counted c = two_labels();
    MUST(counted_opened(&c) == OOF_ACCEPTED && finishes(&c) && counts(&c, 2, 3));
    c.candidates_lent = BOXES + 1;
    MUST(opening_refuses(&c, OOF_LIST_FULL) && c.tally[0] == 2 && c.tally[1] == 3);
    c.candidates_lent = 1;
    MUST(counted_opened(&c) == OOF_ACCEPTED && counts(&c, 0, 0)); /* also the word of an item without a box */
    MUST(finishes(&c) && counts(&c, 2, 0));
    c.styles[OOF_STYLE_DIRECTION] = 2;
    MUST(opening_refuses(&c, OOF_BAD_STYLE) && c.tally[0] == 2 && c.tally[1] == 0);
    c.styles[OOF_STYLE_DIRECTION] = 0, c.tally[0] = 0xFFFFFFFF, c.claims = 0;
    MUST(counted_opened(&c) == OOF_ACCEPTED && c.answer[OOF_ANSWER_KIND] == OOF_FINISH && counts(&c, 0, 0));
}

/* as many items as there can be, of which the last has a box */
static void longest_tally(void)
{
    enum { MOST = OOF_MOST_ITEMS, LAST = MOST - 1 };
    static uint32_t layouts[MOST * OOF_LAYOUT_WORDS], tally[MOST];
    uint32_t candidate[OOF_CANDIDATE_WORDS], lists[2 * OOF_CANDIDATE_WORDS], state[OOF_STATE_WORDS], answer[OOF_ANSWER_WORDS];
    uint32_t others = 0;
    good_items(MOST);
    put_candidate(candidate, 0, LAST, 0);
    memset(tally, 0xFF, sizeof tally);
#define LONGEST                                                                                                       \
    layouts, MOST * OOF_LAYOUT_WORDS, lists, OOF_CANDIDATE_WORDS, lists + OOF_CANDIDATE_WORDS, OOF_CANDIDATE_WORDS,   \
        tally, MOST, state, answer
    MUST(oof_open(200, 100, 0, 0, OOF_DIRECTION_LTR, OOF_CLAIMS_ABSOLUTE, OOF_OVERFLOW_VISIBLE, OOF_OVERFLOW_VISIBLE, table,
                  MOST * OOF_STYLE_WORDS, candidate, OOF_CANDIDATE_WORDS, LONGEST) == OOF_ACCEPTED);
    tally[LAST - 1] = 1;
    MUST(oof_reply_both(120, 18, table, MOST * OOF_STYLE_WORDS, LONGEST) == OOF_WRONG_REPLY);
    tally[LAST - 1] = 0;
    MUST(oof_reply_both(120, 18, table, MOST * OOF_STYLE_WORDS, LONGEST) == OOF_ACCEPTED);
    MUST(oof_reply_laid_out(0, 0, 0, 0, candidate, 0, table, MOST * OOF_STYLE_WORDS, LONGEST) == OOF_ACCEPTED);
#undef LONGEST
    for (int k = 0; k < LAST; k++)
        others |= tally[k];
    MUST(others == 0 && tally[LAST] == 2 && answer[OOF_FINISH_COUNT] == 2);
}

/* one change for which the reply is refused with the number that is returned */
static uint32_t damage_counted(counted *c)
{
    switch (below(6)) {
    case 0: c->words += below(2) ? 1 : -1; return OOF_BAD_EXTENT;
    case 1: c->state[OOF_STATE_LENGTHS + 4]++; return OOF_BAD_EXTENT;
    case 2: c->tally[below(ITEMS)] = c->state[OOF_STATE_ANSWERED] + 1; return OOF_WRONG_REPLY;
    case 3: c->answer[OOF_ANSWER_KIND] = 1 + c->answer[OOF_ANSWER_KIND] % 4; return OOF_WRONG_REPLY; /* of another kind */
    case 4: c->styles[below(ITEMS) * OOF_STYLE_WORDS + OOF_STYLE_CONTAIN] = 256; return OOF_BAD_STYLE;
    default: c->working[OOF_CANDIDATE_NODE] = ITEMS; return OOF_BAD_CANDIDATE;
    }
}

/* runs with refused replies between the others, with nodes that somebody rewrites and boxes that surface, beside a count of the
 * replies that were accepted, by their boxes */
static void random_tallies(void)
{
    enum { RUNS = 30000 };
    const uint32_t tags[5] = {OOF_TAG_AUTO, OOF_TAG_PX, OOF_TAG_MIN_CONTENT, OOF_TAG_FIT_CONTENT, OOF_TAG_STRETCH};
    int wrong = 0, full = 0, refused = 0, twice = 0;
    for (int run = 0; run < RUNS; run++) {
        counted c = two_labels();
        uint32_t expected[ITEMS] = {0}, sum = 0, last = ITEMS;
        for (int k = 0; k < 2 * ITEMS; k++)
            oof_set_length(c.styles + k / 2 * OOF_STYLE_WORDS, k % 2 ? OOF_STYLE_HEIGHT : OOF_STYLE_WIDTH, tags[below(5)], 8);
        c.candidates_lent = below(BOXES + 1), c.claims = below(8) ? OOF_CLAIMS_ABSOLUTE : below(4);
        for (int k = 0; k < BOXES; k++)
            put_candidate(c.candidates, k, below(ITEMS), below(256))[OOF_CANDIDATE_POSITION] = OOF_POSITION_ABSOLUTE + !below(4);
        wrong += counted_opened(&c) != OOF_ACCEPTED || !counts(&c, 0, 0);
        while (c.answer[OOF_ANSWER_KIND] != OOF_FINISH) {
            if (!below(3)) {
                counted damaged = c;
                const uint32_t number = damage_counted(&damaged);
                wrong += !refuses(&damaged, 0, number), refused++;
            }
            if (!below(8))
                c.working[below(c.state[OOF_STATE_WORKING]) * OOF_CANDIDATE_WORDS + OOF_CANDIDATE_NODE] = below(ITEMS);
            const uint32_t node = c.working[(c.state[OOF_STATE_BEGUN] - 1) * OOF_CANDIDATE_WORDS + OOF_CANDIDATE_NODE];
            const counted before = c;
            uint32_t result = replied(&c, below(3));
            if (result == OOF_LIST_FULL) {
                wrong += memcmp(&before, &c, sizeof c) != 0, full++;
                result = replied(&c, 0);
            }
            expected[node]++, sum++;
            twice += before.answer[OOF_ANSWER_KIND] == OOF_LAY_OUT && node == last;
            last = before.answer[OOF_ANSWER_KIND] == OOF_LAY_OUT ? node : last;
            if (result != OOF_ACCEPTED || !counts(&c, expected[0], expected[1])) {
                wrong++;
                break;
            }
        }
        wrong += c.answer[OOF_FINISH_COUNT] != sum;
    }
    MUST(wrong == 0 && full > 1000 && refused > 10000 && twice > 1000);
}

static void of_tallies(void)
{
    other_tallies();
    no_items();
    words_above();
    tallies_in_order();
    charged_boxes();
    cleared_tallies();
    longest_tally();
    random_tallies();
}

/* ---- previews: another style tried first */

enum { NODES = 3, LISTED = 4, PREVIEW_STYLE_ROOM = 2 * OOF_STYLE_WORDS };

/* The slices of a run, a live one or a preview, over at most three items, with room for four records in each list. `words` of the
 * tally are lent. 32-bit words and no padding, so that two compare as bytes; so are those of a preview. */
typedef struct {
    uint32_t words;
    uint32_t layouts[NODES * OOF_LAYOUT_WORDS];
    uint32_t working[LISTED * OOF_CANDIDATE_WORDS];
    uint32_t unclaimed[LISTED * OOF_CANDIDATE_WORDS];
    uint32_t tally[NODES + 1];
    uint32_t state[OOF_STATE_WORDS];
    uint32_t answer[OOF_ANSWER_WORDS];
} run_slices;

/* The live table, the node and its replacement, of which `style_words` are lent, the area, and what is hoisted */
typedef struct {
    uint32_t items, node, style_words, candidates_lent;
    uint32_t area[4], codes[4];
    uint32_t styles[NODES * OOF_STYLE_WORDS];
    uint32_t style[PREVIEW_STYLE_ROOM];
    uint32_t candidates[LISTED * OOF_CANDIDATE_WORDS];
    run_slices own;
} preview;

/* a reply by its kind, which is that of a question, with its numbers and how many of the candidates surface */
typedef struct {
    uint32_t kind;
    float numbers[4];
    uint32_t surfaced;
} reply;

#define AREA(p)                                                                                                       \
    oof_float((p)->area[0]), oof_float((p)->area[1]), oof_float((p)->area[2]), oof_float((p)->area[3]), (p)->codes[0], \
        (p)->codes[1], (p)->codes[2], (p)->codes[3]
#define HOISTED(p) (p)->candidates, (p)->candidates_lent * OOF_CANDIDATE_WORDS
#define REPLACED(p) (p)->styles, (p)->items * OOF_STYLE_WORDS, (p)->node, (p)->style, (p)->style_words
#define READ_OF(p, s)                                                                                                 \
    (s)->layouts, (p)->items * OOF_LAYOUT_WORDS, (s)->working, LISTED * OOF_CANDIDATE_WORDS, (s)->unclaimed,           \
        LISTED * OOF_CANDIDATE_WORDS
#define RUN_OF(p, s) READ_OF(p, s), (s)->tally, (s)->words, (s)->state, (s)->answer

/* a run's calls, over any table of as many items */
static uint32_t run_open(const preview *p, const uint32_t *table, run_slices *s)
{
    return oof_open(AREA(p), table, p->items * OOF_STYLE_WORDS, HOISTED(p), RUN_OF(p, s));
}

static uint32_t run_reply(const preview *p, const uint32_t *table, run_slices *s, reply r)
{
    const size_t words = p->items * OOF_STYLE_WORDS;
    const float *n = r.numbers;
    switch (r.kind) {
    case OOF_MEASURE_BOTH: return oof_reply_both(n[0], n[1], table, words, RUN_OF(p, s));
    case OOF_MEASURE_WIDTH: return oof_reply_width(n[0], table, words, RUN_OF(p, s));
    case OOF_MEASURE_HEIGHT: return oof_reply_height(n[1], table, words, RUN_OF(p, s));
    default:
        return oof_reply_laid_out(n[0], n[1], n[2], n[3], p->candidates, r.surfaced * OOF_CANDIDATE_WORDS, table, words,
                                  RUN_OF(p, s));
    }
}

/* a preview's */
static uint32_t preview_open(const preview *p, run_slices *s)
{
    return oof_preview_open(AREA(p), REPLACED(p), HOISTED(p), RUN_OF(p, s));
}

static uint32_t preview_reply(const preview *p, run_slices *s, reply r)
{
    const float *n = r.numbers;
    switch (r.kind) {
    case OOF_MEASURE_BOTH: return oof_preview_reply_both(n[0], n[1], REPLACED(p), RUN_OF(p, s));
    case OOF_MEASURE_WIDTH: return oof_preview_reply_width(n[0], REPLACED(p), RUN_OF(p, s));
    case OOF_MEASURE_HEIGHT: return oof_preview_reply_height(n[1], REPLACED(p), RUN_OF(p, s));
    default:
        return oof_preview_reply_laid_out(n[0], n[1], n[2], n[3], p->candidates, r.surfaced * OOF_CANDIDATE_WORDS, REPLACED(p),
                                          RUN_OF(p, s));
    }
}

/* what the host says to the open question, the same in each run; the first box surfaces a record */
static reply asked(const run_slices *s)
{
    reply r = {.kind = s->answer[OOF_ANSWER_KIND]};
    if (r.kind == OOF_LAY_OUT) {
        r.numbers[1] = 12, r.surfaced = s->state[OOF_STATE_BEGUN] == 1;
    } else {
        r.numbers[0] = measured(s->answer, OOF_QUESTION_AVAILABLE_WIDTH, 120);
        r.numbers[1] = measured(s->answer, OOF_QUESTION_AVAILABLE_HEIGHT, 18);
    }
    return r;
}

/* an overlay, node 1, in an area of 200 by 100 at 8, 16, at 20, 30 of it, between two labels at 0, 0 of the window; all are 120 by
 * 18. The overlay is to be moved to 90, 40. What is to be written holds noise. */
static preview overlay(void)
{
    preview p;
    memset(&p, 0x5A, sizeof p);
    p.items = p.own.words = p.candidates_lent = NODES, p.node = 1, p.style_words = OOF_STYLE_WORDS;
    const uint32_t area[4] = {oof_word(200), oof_word(100), oof_word(8), oof_word(16)};
    const uint32_t codes[4] = {OOF_DIRECTION_LTR, OOF_CLAIMS_ABSOLUTE, OOF_OVERFLOW_HIDDEN, OOF_OVERFLOW_HIDDEN};
    memcpy(p.area, area, sizeof area), memcpy(p.codes, codes, sizeof codes);
    for (uint32_t node = 0; node < NODES; node++) {
        plain_style(p.styles + node * OOF_STYLE_WORDS);
        put_candidate(p.candidates, (int)node, node, node == 0);
    }
    put_candidate(p.candidates, NODES, 0, 0);
    uint32_t *live = p.styles + OOF_STYLE_WORDS;
    oof_set_length(live, OOF_STYLE_INSET_LEFT, OOF_TAG_PX, 20), oof_set_length(live, OOF_STYLE_INSET_TOP, OOF_TAG_PX, 30);
    memcpy(p.style, live, OOF_STYLE_WORDS * sizeof *live);
    oof_set_length(p.style, OOF_STYLE_INSET_LEFT, OOF_TAG_PX, 90), oof_set_length(p.style, OOF_STYLE_INSET_TOP, OOF_TAG_PX, 40);
    return p;
}

static void leave_closed(const preview *p, run_slices *s)
{
    const uint32_t lengths[5] = {p->items * OOF_STYLE_WORDS, p->items * OOF_LAYOUT_WORDS, LISTED * OOF_CANDIDATE_WORDS,
                                 LISTED * OOF_CANDIDATE_WORDS, s->words};
    memset(s->state, 0, sizeof s->state);
    memcpy(s->state + OOF_STATE_LENGTHS, lengths, sizeof lengths);
}

/* whether an opening is refused with this number, and writes a finished run into the state's words, and no other word */
static int preview_opening_refuses(preview p, uint32_t number)
{
    preview expected = p;
    leave_closed(&expected, &expected.own);
    return preview_open(&p, &p.own) == number && memcmp(&expected, &p, sizeof p) == 0;
}

/* whether a reply is refused with this number, and writes no word */
static int preview_refuses(preview p, reply r, uint32_t number)
{
    const preview before = p;
    return preview_reply(&p, &p.own, r) == number && memcmp(&before, &p, sizeof p) == 0;
}

static int preview_finishes(preview *p)
{
    uint32_t result = OOF_ACCEPTED;
    while (result == OOF_ACCEPTED && p->own.answer[OOF_ANSWER_KIND] != OOF_FINISH)
        result = preview_reply(p, &p->own, asked(&p->own));
    return result == OOF_ACCEPTED;
}

/* ---- what a preview's calls do, by those of a run over a copy of the table */

static void copied(const preview *p, uint32_t *table)
{
    memcpy(table, p->styles, sizeof p->styles);
    memcpy(table + p->node * OOF_STYLE_WORDS, p->style, OOF_STYLE_WORDS * sizeof *table);
}

/* an opening, or a reply: the result, and what stands in the slices then */
static uint32_t modelled_call(const preview *p, run_slices *s, const reply *r)
{
    const int is_style = p->style_words == OOF_STYLE_WORDS, is_node = p->node < p->items;
    const run_slices before = *s;
    uint32_t table[NODES * OOF_STYLE_WORDS];
    memcpy(table, p->styles, sizeof table);
    if (is_style && is_node)
        copied(p, table);
    uint32_t result = r ? run_reply(p, table, s, *r) : run_open(p, table, s);
    if (result != OOF_BAD_AREA && result != OOF_BAD_EXTENT)
        result = !is_style ? OOF_BAD_EXTENT : !is_node ? OOF_BAD_CANDIDATE : result;
    if (result != OOF_ACCEPTED) {
        *s = before;
        if (!r)
            leave_closed(p, s);
    }
    return result;
}

/* whether a call of the preview does so, and writes no word of the table, the replacement or the candidates */
static int as_modelled(preview *p, const reply *r, uint32_t *result)
{
    preview expected = *p;
    *result = modelled_call(p, &expected.own, r);
    uint32_t number = r ? preview_reply(p, &p->own, *r) : preview_open(p, &p->own);
    return number == *result && memcmp(&expected, p, sizeof expected) == 0;
}

/* ---- the order of tests */

static const uint32_t other_styles[5] = {0, 1, OOF_STYLE_WORDS - 1, OOF_STYLE_WORDS + 1, 2 * OOF_STYLE_WORDS};

/* of an opening: 1, 2, the node, 3, 4, 5 */
static void preview_openings_in_order(void)
{
    for (int k = 0; k < 5; k++) {
        preview p = overlay();
        p.style_words = other_styles[k];
        MUST(preview_opening_refuses(p, OOF_BAD_EXTENT));
        p.node = NODES;
        MUST(preview_opening_refuses(p, OOF_BAD_EXTENT));
        p.codes[0] = 2;
        MUST(preview_opening_refuses(p, OOF_BAD_AREA));
    }
    preview p = overlay();
    p.node = NODES;
    MUST(preview_opening_refuses(p, OOF_BAD_CANDIDATE));
    p.styles[OOF_STYLE_CONTAIN] = 256;
    MUST(preview_opening_refuses(p, OOF_BAD_CANDIDATE)); /* a bad style elsewhere */
    p.style[OOF_STYLE_CONTAIN] = 256;
    MUST(preview_opening_refuses(p, OOF_BAD_CANDIDATE));
    p.own.words = NODES + 1;
    MUST(preview_opening_refuses(p, OOF_BAD_EXTENT));
    p.codes[1] = 4;
    MUST(preview_opening_refuses(p, OOF_BAD_AREA));

    p = overlay();
    p.style[OOF_STYLE_CONTAIN] = 256, p.candidates[OOF_CANDIDATE_LAYER] = 256;
    MUST(preview_opening_refuses(p, OOF_BAD_STYLE));
    p.style[OOF_STYLE_CONTAIN] = 255;
    MUST(preview_opening_refuses(p, OOF_BAD_CANDIDATE));
    p.candidates[OOF_CANDIDATE_LAYER] = 255;
    MUST(preview_open(&p, &p.own) == OOF_ACCEPTED);
}

/* of a reply: 2, the node, 6, 3, 4, 5 */
static void preview_replies_in_order(void)
{
    preview opened = overlay(), p;
    MUST(preview_open(&opened, &opened.own) == OOF_ACCEPTED);
    const reply good = asked(&opened.own), wrong = {.kind = OOF_MEASURE_WIDTH}, laid = {.kind = OOF_LAY_OUT, .surfaced = LISTED};
    MUST(good.kind == OOF_MEASURE_BOTH);
    for (int k = 0; k < 5; k++) {
        p = opened, p.style_words = other_styles[k];
        for (uint32_t kind = OOF_MEASURE_BOTH; kind <= OOF_LAY_OUT; kind++)
            MUST(preview_refuses(p, (reply){.kind = kind}, OOF_BAD_EXTENT));
        p.own.tally[0] = 1, p.node = NODES; /* above the count, which is 0 */
        MUST(preview_refuses(p, good, OOF_BAD_EXTENT));
    }
    p = opened, p.node = NODES, p.own.words = NODES + 1;
    MUST(preview_refuses(p, good, OOF_BAD_EXTENT));
    p = opened, p.node = NODES, p.own.tally[0] = 1;
    MUST(preview_refuses(p, good, OOF_BAD_CANDIDATE) && preview_refuses(p, wrong, OOF_BAD_CANDIDATE));
    p.node = 1;
    MUST(preview_refuses(p, good, OOF_WRONG_REPLY));
    p.own.tally[0] = 0, p.style[OOF_STYLE_CONTAIN] = 256;
    MUST(preview_refuses(p, wrong, OOF_WRONG_REPLY));
    p.own.working[OOF_CANDIDATE_NODE] = NODES;
    MUST(preview_refuses(p, good, OOF_BAD_STYLE));
    p.style[OOF_STYLE_CONTAIN] = 255;
    MUST(preview_refuses(p, good, OOF_BAD_CANDIDATE));
    p.own.working[OOF_CANDIDATE_NODE] = 0;
    MUST(preview_reply(&p, &p.own, good) == OOF_ACCEPTED && preview_refuses(p, laid, OOF_LIST_FULL));
    MUST(preview_refuses(p, good, OOF_WRONG_REPLY)); /* another kind, as wrong was */
}

/* the same where no question is open: after a finish, and after a refused opening */
static void preview_replies_without_question(void)
{
    const reply good = {.kind = OOF_MEASURE_BOTH};
    preview p = overlay();
    MUST(preview_open(&p, &p.own) == OOF_ACCEPTED && preview_finishes(&p) && preview_refuses(p, good, OOF_WRONG_REPLY));
    p.node = NODES;
    for (uint32_t kind = OOF_MEASURE_BOTH; kind <= OOF_LAY_OUT; kind++)
        MUST(preview_refuses(p, (reply){.kind = kind}, OOF_BAD_CANDIDATE));
    p.style_words = OOF_STYLE_WORDS - 1;
    MUST(preview_refuses(p, good, OOF_BAD_EXTENT));

    p = overlay(); /* a refused opening leaves a finished run */
    p.node = NODES;
    MUST(preview_open(&p, &p.own) == OOF_BAD_CANDIDATE && preview_refuses(p, good, OOF_BAD_CANDIDATE));
    p.node = 1;
    MUST(preview_refuses(p, good, OOF_WRONG_REPLY));
}

/* the whole word, and each item of the table but no other */
static void preview_nodes(void)
{
    const uint32_t inverse = 0x613716AF; /* of OOF_STYLE_WORDS, modulo 2^32 */
    const uint32_t others[8] = {NODES, NODES + 1, 256, 65536, 0x40000000, 0x80000000, 0x80000001, 0xFFFFFFFF};
    preview p = overlay(), opened = p;
    MUST(inverse * OOF_STYLE_WORDS == 1 && preview_open(&opened, &opened.own) == OOF_ACCEPTED);
    for (int k = 0; k < 8; k++) {
        p.node = opened.node = others[k];
        MUST(preview_opening_refuses(p, OOF_BAD_CANDIDATE));
        MUST(preview_refuses(opened, asked(&opened.own), OOF_BAD_CANDIDATE));
    }
    for (uint32_t k = 0; k < NODES * OOF_STYLE_WORDS; k++) {
        p.node = inverse * k; /* its record would begin at word k, modulo 2^32 */
        if (k % OOF_STYLE_WORDS)
            MUST(preview_opening_refuses(p, OOF_BAD_CANDIDATE));
        else
            MUST(p.node < NODES && preview_open(&p, &p.own) == OOF_ACCEPTED);
    }
}

/* an empty table has no node */
static void preview_without_items(void)
{
    const uint32_t nodes[3] = {0, 1, 0xFFFFFFFF};
    for (int k = 0; k < 3; k++) {
        preview p = overlay();
        p.items = p.own.words = p.candidates_lent = 0, p.node = nodes[k];
        MUST(preview_opening_refuses(p, OOF_BAD_CANDIDATE));
        MUST(preview_open(&p, &p.own) == OOF_BAD_CANDIDATE && preview_refuses(p, (reply){.kind = OOF_LAY_OUT}, OOF_BAD_CANDIDATE));
        MUST(run_open(&p, p.styles, &p.own) == OOF_ACCEPTED); /* a run finishes at once */
        MUST(preview_refuses(p, (reply){.kind = OOF_MEASURE_BOTH}, OOF_BAD_CANDIDATE));
        p.style_words = OOF_STYLE_WORDS - 1;
        MUST(preview_opening_refuses(p, OOF_BAD_EXTENT));
        p.codes[3] = 4;
        MUST(preview_opening_refuses(p, OOF_BAD_AREA));
    }
}

/* every word that has a rule: of the live record that is replaced it may be any, of the replacement and of other records it is
 * tested, whether a candidate names the node or not; at an opening and at a reply */
static void preview_bad_words(void)
{
    int rules = 0;
    for (uint32_t lent = 0; lent <= NODES; lent += NODES)
        for (size_t word = 0; word < OOF_STYLE_WORDS; word++) {
            preview p = overlay(), opened;
            p.candidates_lent = lent;
            p.style[OOF_STYLE_JUSTIFY] = p.style[OOF_STYLE_ALIGN] = OOF_ALIGN_CENTER;
            for (int k = 0; k < NODES; k++)
                memcpy(p.styles + k * OOF_STYLE_WORDS, p.style, OOF_STYLE_WORDS * sizeof *p.style);
            opened = p;
            MUST(preview_open(&opened, &opened.own) == OOF_ACCEPTED);
            const reply r = asked(&opened.own);
            uint32_t *const words[4] = {p.style + word, p.styles + word, p.styles + OOF_STYLE_WORDS + word,
                                        p.styles + 2 * OOF_STYLE_WORDS + word};
            for (int k = 0; k < 4; k++) {
                const uint32_t good = *words[k];
                *words[k] = 600;
                const int is_bad = k != 2 && breaks(words[k] - word, word);
                memcpy(opened.style, p.style, sizeof p.style), memcpy(opened.styles, p.styles, sizeof p.styles);
                preview one = p, other = opened;
                if (is_bad)
                    MUST(preview_opening_refuses(p, OOF_BAD_STYLE));
                else
                    MUST(preview_open(&one, &one.own) == OOF_ACCEPTED);
                if (lent && is_bad)
                    MUST(preview_refuses(opened, r, OOF_BAD_STYLE));
                else if (lent)
                    MUST(preview_reply(&other, &other.own, r) == OOF_ACCEPTED);
                *words[k] = good, rules += is_bad;
            }
        }
    MUST(rules == 2 * 3 * (22 + 11)); /* 22 tags and 11 codes; ratio and scrollbar width are floats */
}

/* live item 2 is bad: a replacement for item 1 doesn't mend it, good or bad; one for item 2 does. The copy's first bad word is the
 * replacement's */
static void preview_mends_one(void)
{
    preview p = overlay();
    uint32_t found[OOF_FOUND_WORDS], table[NODES * OOF_STYLE_WORDS];
    p.styles[2 * OOF_STYLE_WORDS + OOF_STYLE_DIRECTION] = 2;
    MUST(preview_opening_refuses(p, OOF_BAD_STYLE));
    p.style[OOF_STYLE_INSET_RIGHT] = 2;
    MUST(preview_opening_refuses(p, OOF_BAD_STYLE));
    copied(&p, table);
    MUST(oof_first_bad_word(table, NODES * OOF_STYLE_WORDS, found) == 1 && found[OOF_FOUND_ITEM] == 1);
    MUST(found[OOF_FOUND_STYLE_WORD] == OOF_STYLE_INSET_RIGHT);
    MUST(oof_first_bad_word(p.style, OOF_STYLE_WORDS, found) == 1 && found[OOF_FOUND_ITEM] == 0);
    MUST(found[OOF_FOUND_STYLE_WORD] == OOF_STYLE_INSET_RIGHT);
    p.node = 2;
    MUST(preview_opening_refuses(p, OOF_BAD_STYLE));
    p.style[OOF_STYLE_INSET_RIGHT] = OOF_TAG_AUTO;
    MUST(preview_open(&p, &p.own) == OOF_ACCEPTED && preview_finishes(&p));
}

/* ---- what a preview shows */

static int stands_at(const run_slices *s, uint32_t node, float x, float y)
{
    const uint32_t *layout = s->layouts + node * OOF_LAYOUT_WORDS;
    return oof_float(layout[OOF_LAYOUT_X]) == x && oof_float(layout[OOF_LAYOUT_Y]) == y;
}

/* the overlay moves, and nothing else does; the live run, opened before and finished after, is what it is without a preview */
static void preview_moves_the_overlay(void)
{
    preview p = overlay();
    run_slices live = p.own, alone = p.own;
    MUST(run_open(&p, p.styles, &alone) == OOF_ACCEPTED);
    while (alone.answer[OOF_ANSWER_KIND] != OOF_FINISH)
        MUST(run_reply(&p, p.styles, &alone, asked(&alone)) == OOF_ACCEPTED);
    MUST(run_open(&p, p.styles, &live) == OOF_ACCEPTED && preview_open(&p, &p.own) == OOF_ACCEPTED);
    while (live.answer[OOF_ANSWER_KIND] != OOF_FINISH) {
        MUST(run_reply(&p, p.styles, &live, asked(&live)) == OOF_ACCEPTED);
        MUST(preview_reply(&p, &p.own, asked(&p.own)) == OOF_ACCEPTED);
    }
    MUST(p.own.answer[OOF_ANSWER_KIND] == OOF_FINISH && memcmp(&live, &alone, sizeof live) == 0);
    MUST(stands_at(&live, 0, 0, 0) && stands_at(&live, 1, 8 + 20, 16 + 30) && stands_at(&live, 2, 0, 0));
    MUST(stands_at(&p.own, 0, 0, 0) && stands_at(&p.own, 1, 8 + 90, 16 + 40) && stands_at(&p.own, 2, 0, 0));
    MUST(p.own.answer[OOF_FINISH_COUNT] == live.answer[OOF_FINISH_COUNT] && p.own.tally[0] == 4 && p.own.tally[1] == 2);
}

/* nothing is kept of node and replacement: each call goes by those that it is lent */
static void preview_with_another_style_later(void)
{
    preview p = overlay();
    oof_set_length(p.style, OOF_STYLE_WIDTH, OOF_TAG_PX, 50);
    p.candidates_lent = 2;
    MUST(preview_open(&p, &p.own) == OOF_ACCEPTED && p.own.answer[OOF_QUESTION_NODE] == 0);
    p.node = 0; /* the question about node 0 was the live style's; the box is laid out by the replacement */
    MUST(preview_reply(&p, &p.own, asked(&p.own)) == OOF_ACCEPTED && p.own.answer[OOF_ANSWER_KIND] == OOF_LAY_OUT);
    MUST(oof_float(p.own.answer[OOF_QUESTION_KNOWN_WIDTH + 1]) == 50);
    oof_set_length(p.style, OOF_STYLE_INSET_LEFT, OOF_TAG_PX, 70);
    MUST(preview_reply(&p, &p.own, asked(&p.own)) == OOF_ACCEPTED && stands_at(&p.own, 0, 8 + 70, 16 + 40));
    MUST(p.own.answer[OOF_QUESTION_NODE] == 1 && p.own.answer[OOF_ANSWER_KIND] == OOF_MEASURE_BOTH); /* node 1 is live again */
    MUST(run_reply(&p, p.styles, &p.own, asked(&p.own)) == OOF_ACCEPTED); /* a run's reply goes by the live table */
    MUST(run_reply(&p, p.styles, &p.own, asked(&p.own)) == OOF_ACCEPTED && stands_at(&p.own, 1, 8 + 20, 16 + 30));
}

/* a record of the table may be tried for another node: node 2's inset is the overlay's then, and both records stay */
static void preview_by_a_record(void)
{
    preview p = overlay(), copy = p;
    p.node = copy.node = 2;
    memcpy(copy.style, p.styles + OOF_STYLE_WORDS, OOF_STYLE_WORDS * sizeof *copy.style);
#define RECORD p.styles, NODES * OOF_STYLE_WORDS, p.node, p.styles + OOF_STYLE_WORDS, OOF_STYLE_WORDS
    MUST(preview_open(&copy, &copy.own) == OOF_ACCEPTED && preview_finishes(&copy));
    MUST(oof_preview_open(AREA(&p), RECORD, HOISTED(&p), RUN_OF(&p, &p.own)) == OOF_ACCEPTED);
    while (p.own.answer[OOF_ANSWER_KIND] == OOF_MEASURE_BOTH) {
        const reply measure = asked(&p.own);
        MUST(oof_preview_reply_both(measure.numbers[0], measure.numbers[1], RECORD, RUN_OF(&p, &p.own)) == OOF_ACCEPTED);
        const reply laid = asked(&p.own);
        MUST(oof_preview_reply_laid_out(0, 12, 0, 0, p.candidates, laid.surfaced * OOF_CANDIDATE_WORDS, RECORD,
                                        RUN_OF(&p, &p.own)) == OOF_ACCEPTED);
    }
#undef RECORD
    MUST(stands_at(&p.own, 1, 8 + 20, 16 + 30) && stands_at(&p.own, 2, 8 + 20, 16 + 30));
    MUST(memcmp(&p.own, &copy.own, sizeof p.own) == 0 && memcmp(p.styles, copy.styles, sizeof p.styles) == 0);
}

/* a finished preview is read as a finished run, with the live table, of which the length counts */
static void preview_is_read(void)
{
    preview p = overlay();
    run_slices live = p.own;
    uint32_t verdict[OOF_REACH_WORDS], order[LISTED], words[LISTED * OOF_TOUCH_WORDS];
    oof_set_length(p.style, OOF_STYLE_INSET_LEFT, OOF_TAG_PX, -130); /* left of the area's first pixel */
    MUST(run_open(&p, p.styles, &live) == OOF_ACCEPTED && preview_open(&p, &p.own) == OOF_ACCEPTED && preview_finishes(&p));
    while (live.answer[OOF_ANSWER_KIND] != OOF_FINISH)
        MUST(run_reply(&p, p.styles, &live, asked(&live)) == OOF_ACCEPTED);
    const run_slices *const both[2] = {&live, &p.own};
    for (int k = 0; k < 4; k++) {
        const run_slices *s = both[k % 2];
        const size_t table = NODES * OOF_STYLE_WORDS, boxes = s->state[OOF_STATE_WORKING];
        MUST(boxes == LISTED); /* node 0 surfaced another box of its own */
        MUST(oof_reach(1, p.styles, table, READ_OF(&p, s), s->state, verdict) == OOF_ACCEPTED);
        MUST(verdict[OOF_REACH_KIND] == (s == &live ? OOF_SEEN : OOF_UNSEEN));
        MUST(oof_drawing_order(p.styles, table, READ_OF(&p, s), s->state, order, boxes) == OOF_ACCEPTED);
        MUST(order[0] == 1 && order[1] == 2 && order[2] == 0 && order[3] == 3); /* node 0 is on layer 1 */
        MUST(oof_touch(p.styles, table, READ_OF(&p, s), s->state, words, OOF_TOUCH_WORDS * boxes) == OOF_ACCEPTED);
        MUST(words[OOF_TOUCH_WORDS] == 1 && oof_signed(words[OOF_TOUCH_WORDS + OOF_TOUCH_LEFT]) == (s == &live ? 20 : -130));
        MUST(oof_reach(1, p.styles, table - OOF_STYLE_WORDS, READ_OF(&p, s), s->state, verdict) == OOF_BAD_EXTENT);
        if (k == 1)
            memset(p.styles, 0xFF, sizeof p.styles);
    }
}

/* as many items as there can be, of which the last one, or the first, is replaced */
static void longest_preview(void)
{
    enum { MOST = OOF_MOST_ITEMS, LAST = MOST - 1 };
    static uint32_t layouts[(MOST + 1) * OOF_LAYOUT_WORDS], tally[MOST + 1];
    uint32_t style[OOF_STYLE_WORDS], candidates[2 * OOF_CANDIDATE_WORDS], lists[3 * OOF_CANDIDATE_WORDS];
    uint32_t state[OOF_STATE_WORDS], answer[OOF_ANSWER_WORDS];
    good_items(MOST + 1);
    put_candidate(candidates, 0, LAST, 0), put_candidate(candidates, 1, 0, 0);
    plain_style(style);
    oof_set_length(style, OOF_STYLE_WIDTH, OOF_TAG_PX, 7), oof_set_length(style, OOF_STYLE_HEIGHT, OOF_TAG_PX, 7);
#define LONGEST(items)                                                                                                \
    layouts, (items) * OOF_LAYOUT_WORDS, lists, 2 * OOF_CANDIDATE_WORDS, lists + 2 * OOF_CANDIDATE_WORDS,              \
        OOF_CANDIDATE_WORDS, tally, (items), state, answer
#define OPEN(items, node)                                                                                             \
    oof_preview_open(200, 100, 0, 0, OOF_DIRECTION_LTR, OOF_CLAIMS_ABSOLUTE, OOF_OVERFLOW_VISIBLE, OOF_OVERFLOW_VISIBLE, \
                     table, (items) * OOF_STYLE_WORDS, node, style, OOF_STYLE_WORDS, candidates,                       \
                     2 * OOF_CANDIDATE_WORDS, LONGEST(items))
    MUST(OPEN(MOST, MOST) == OOF_BAD_CANDIDATE && OPEN(MOST + 1, LAST) == OOF_BAD_EXTENT);
    MUST(OPEN(MOST + 1, MOST + 1) == OOF_BAD_EXTENT);
    MUST(OPEN(MOST, LAST) == OOF_ACCEPTED && answer[OOF_ANSWER_KIND] == OOF_LAY_OUT && answer[OOF_QUESTION_NODE] == LAST);
    MUST(oof_preview_reply_laid_out(0, 0, 0, 0, candidates, 0, table, MOST * OOF_STYLE_WORDS, LAST, style, OOF_STYLE_WORDS,
                                    LONGEST(MOST)) == OOF_ACCEPTED);
    MUST(answer[OOF_ANSWER_KIND] == OOF_MEASURE_BOTH && answer[OOF_QUESTION_NODE] == 0);
    MUST(oof_float(layouts[LAST * OOF_LAYOUT_WORDS + OOF_LAYOUT_WIDTH]) == 7);
    MUST(OPEN(MOST, 0) == OOF_ACCEPTED && answer[OOF_ANSWER_KIND] == OOF_MEASURE_BOTH && answer[OOF_QUESTION_NODE] == LAST);
#undef OPEN
#undef LONGEST
}

/* ---- random previews, beside runs over a copy */

static void any_style(uint32_t *style)
{
    const uint32_t tags[12] = {OOF_TAG_PX, OOF_TAG_PX, OOF_TAG_AUTO, OOF_TAG_PERCENT, OOF_TAG_SUM, OOF_TAG_MIN_CONTENT,
                               OOF_TAG_MAX_CONTENT, OOF_TAG_FIT_CONTENT, OOF_TAG_FIT_CONTENT_PX, OOF_TAG_FIT_CONTENT_PERCENT,
                               OOF_TAG_STRETCH, OOF_TAG_CONTENT};
    plain_style(style);
    for EACH_LENGTH(at) {
        const uint32_t tag = tags[below(12)];
        if (takes(at, tag) && (at < OOF_STYLE_MARGIN_LEFT || at >= OOF_STYLE_WIDTH || !below(4))) {
            oof_set_length(style, at, tag, oof_float(some_float()));
            style[at + OOF_LENGTH_SECOND] = some_float();
        }
    }
    style[OOF_STYLE_RATIO_PRESENT] = !below(4), style[OOF_STYLE_RATIO] = some_float();
    style[OOF_STYLE_BOX_SIZING] = below(2), style[OOF_STYLE_FLAGS] = below(4), style[OOF_STYLE_DIRECTION] = below(2);
    style[OOF_STYLE_JUSTIFY] = below(11), style[OOF_STYLE_JUSTIFY_SAFETY] = below(3);
    style[OOF_STYLE_ALIGN] = below(11), style[OOF_STYLE_ALIGN_SAFETY] = below(3);
    style[OOF_STYLE_OVERFLOW_X] = below(4), style[OOF_STYLE_OVERFLOW_Y] = below(4);
    style[OOF_STYLE_SCROLLBAR_WIDTH] = some_float(), style[OOF_STYLE_CONTAIN] = below(256);
}

static preview any_preview(void)
{
    preview p = overlay();
    p.items = p.own.words = 1 + below(NODES), p.node = below(p.items), p.candidates_lent = below(LISTED);
    for (int k = 0; k < 4; k++)
        p.area[k] = some_float();
    p.codes[0] = below(2), p.codes[1] = below(4) ? OOF_CLAIMS_ABSOLUTE : below(4), p.codes[2] = below(4), p.codes[3] = below(4);
    for (int k = 0; k < NODES; k++)
        any_style(p.styles + k * OOF_STYLE_WORDS);
    any_style(p.style);
    for (int k = 0; k < LISTED; k++) {
        uint32_t *record = put_candidate(p.candidates, k, below(p.items), below(256));
        record[OOF_CANDIDATE_POSITION] = OOF_POSITION_ABSOLUTE + !below(4);
        for (size_t at = OOF_CANDIDATE_X_START; at <= OOF_CANDIDATE_Y_FALLBACK; at++)
            record[at] = at < OOF_CANDIDATE_X_EDGE || at == OOF_CANDIDATE_Y_START || at == OOF_CANDIDATE_Y_END ? some_float()
                                                                                                               : below(3);
    }
    return p;
}

/* one change for which a call may be refused, or none */
static void damage_preview(preview *p, reply *r)
{
    switch (below(14)) {
    case 0: p->style_words = other_styles[below(5)]; return;
    case 1: p->node = below(2) ? p->items + below(2) : 0xFFFFFFFF - below(2); return;
    case 2: p->own.words = below(NODES + 2); return;
    case 3: p->own.state[OOF_STATE_LENGTHS + below(5)] ^= 1; return;
    case 4: p->own.tally[below(p->items)] = p->own.state[OOF_STATE_ANSWERED] + below(2); return;
    case 5: r->kind = 1 + below(4); return;
    case 6: p->styles[below(p->items) * OOF_STYLE_WORDS + OOF_STYLE_CONTAIN] = 256; return;
    case 7: p->style[OOF_STYLE_INSET_LEFT + OOF_LENGTH_WORDS * below(22)] = 2; return;
    case 8: p->own.working[OOF_CANDIDATE_NODE] = p->items; return;
    case 9: p->candidates[below(LISTED) * OOF_CANDIDATE_WORDS + OOF_CANDIDATE_LAYER] = 256; return;
    case 10: r->surfaced = LISTED; return;
    case 11: p->codes[below(4)] = 4; return;
    case 12: p->own.state[OOF_STATE_PROGRESS] = below(7); return;
    default:
        if (p->node < p->items) /* in the record that isn't read */
            memset(p->styles + p->node * OOF_STYLE_WORDS, 0xFF, OOF_STYLE_WORDS * sizeof *p->styles);
    }
}

/* a call that is damaged, and one that isn't, beside the model's; how often each number came */
static int random_call(preview *p, reply *r, int *numbers)
{
    uint32_t result;
    preview damaged = *p;
    reply other = r ? *r : (reply){.kind = 0};
    for (uint32_t k = below(4); k > 0; k--)
        damage_preview(&damaged, &other);
    int wrong = !as_modelled(&damaged, r ? &other : NULL, &result);
    numbers[result]++;
    wrong += !as_modelled(p, r, &result);
    if (result == OOF_LIST_FULL && r && r->surfaced)
        r->surfaced = 0, wrong += !as_modelled(p, r, &result);
    return wrong + (result != OOF_ACCEPTED);
}

/* whole previews, with refused calls between the others, boxes that surface, and nodes and replacements that change; at each call
 * whether one over the live table would have left other words */
static void random_previews(void)
{
    enum { RUNS = 30000 };
    int wrong = 0, calls = 0, other = 0, numbers[OOF_NOT_IN_EIGHTHS + 1] = {0};
    for (int run = 0; run < RUNS; run++) {
        preview p = any_preview();
        run_slices live = p.own;
        run_open(&p, p.styles, &live);
        wrong += random_call(&p, NULL, numbers), calls++;
        other += memcmp(&live, &p.own, sizeof live) != 0;
        while (!wrong && p.own.answer[OOF_ANSWER_KIND] != OOF_FINISH) {
            reply r = {p.own.answer[OOF_ANSWER_KIND], {0}, below(3)};
            for (int k = 0; k < 4; k++)
                r.numbers[k] = oof_float(some_float());
            if (!below(8))
                any_style(p.style), p.node = below(p.items);
            live = p.own;
            run_reply(&p, p.styles, &live, r);
            wrong += random_call(&p, &r, numbers), calls++;
            other += memcmp(&live, &p.own, sizeof live) != 0;
        }
    }
    MUST(wrong == 0 && calls > 3 * RUNS && other > RUNS);
    for (uint32_t number = OOF_ACCEPTED; number <= OOF_WRONG_REPLY; number++)
        MUST(numbers[number] > RUNS / 100);
}

/* a live run and a preview over one table, their calls in any order: each is what it is by itself */
static void random_live_and_preview(void)
{
    enum { RUNS = 5000 };
    int wrong = 0, both = 0;
    for (int run = 0; run < RUNS; run++) {
        preview p = any_preview(), alone = p;
        run_slices live = p.own, live_alone = p.own;
        wrong += run_open(&p, p.styles, &live_alone) || preview_open(&alone, &alone.own) || !preview_finishes(&alone);
        while (live_alone.answer[OOF_ANSWER_KIND] != OOF_FINISH && !wrong)
            wrong += run_reply(&p, p.styles, &live_alone, asked(&live_alone));
        wrong += below(2) ? run_open(&p, p.styles, &live) || preview_open(&p, &p.own)
                          : preview_open(&p, &p.own) || run_open(&p, p.styles, &live);
        while (!wrong) {
            const int goes_on = live.answer[OOF_ANSWER_KIND] != OOF_FINISH, tries = p.own.answer[OOF_ANSWER_KIND] != OOF_FINISH;
            if (!goes_on && !tries)
                break;
            both += goes_on && tries;
            if (goes_on && (!tries || below(2)))
                wrong += run_reply(&p, p.styles, &live, asked(&live));
            else
                wrong += preview_reply(&p, &p.own, asked(&p.own));
        }
        wrong += memcmp(&live, &live_alone, sizeof live) != 0 || memcmp(&p, &alone, sizeof p) != 0;
    }
    MUST(wrong == 0 && both > RUNS);
}

static void of_previews(void)
{
    preview_openings_in_order();
    preview_replies_in_order();
    preview_replies_without_question();
    preview_nodes();
    preview_without_items();
    preview_bad_words();
    preview_mends_one();
    preview_moves_the_overlay();
    preview_with_another_style_later();
    preview_by_a_record();
    preview_is_read();
    longest_preview();
    random_previews();
    random_live_and_preview();
}

static void of_reach(void)
{
    one_axis();
    both_axes();
    largest();
    bad_extents();
    longest();
    wrong_states();
    bad_records();
    not_accepted();
    tested_in_order();
    boxes_of_runs();
    odd_runs();
    random_words();
}

static void of_drawings(void)
{
    drawing_orders();
    filled_extents(&drawing);
    filled_states(&drawing);
    filled_records(&drawing);
    longest_drawing();
    note_over_label();
    odd_drawings();
    placement_reads_no_layer();
    random_drawings();
}

static void of_touches(void)
{
    touch_words();
    touch_boxes();
    filled_extents(&touching);
    filled_states(&touching);
    filled_records(&touching);
    touch_eighths();
    touch_tested_in_order();
    longest_touch();
    touch_incident();
    odd_touches();
    only_location_and_size_are_seen();
    random_touches();
}

int main(void)
{
    offsets();
    refused_openings();
    refused_replies();
    layers_kept();
    layers_refused();
    layers_rewritten();
    records_of_13();
    longest_lists();
    whole_pixels();
    centered();
    not_quarters();
    of_reach();
    of_drawings();
    of_touches();
    first_bad_words();
    long_tables();
    every_word();
    random_tables();
    replies_over_bad_words();
    style_word_names();
    of_sums();
    stretched_from_anchors();
    measured_from_anchors();
    of_tallies();
    of_previews();
    printf("hosts/c: %d tests passed\n", tried);
    return EXIT_SUCCESS;
}
