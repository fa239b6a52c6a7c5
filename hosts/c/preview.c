/* An editor drags an overlay to three places, and shows each while the live screen stays up. The panel is 240 by 200, with two
 * reel labels and over them the overlay, whose text of six words breaks into lines where there is less space. Each place is a
 * preview: a copy of the overlay's one style record with other insets, and slices of its own; the table isn't copied. The live
 * run has a question open all the while. What the touch driver has of each is drawn: a character is a cell of 10 by 20 pixels.
 * Then replacements that are refused, and the last one written into the table: the live run over it is that preview, word for
 * word. */
#include <stdio.h>
#include <stdlib.h>
#include "oof.h"

enum { REEL_A = 0, REEL_B = 1, OVERLAY = 2, BOXES = 3, NOTHING = 3 };
enum { WIDTH = 240, HEIGHT = 200, CELL_WIDTH = 10, CELL_HEIGHT = 20, PLACES = 3 };

/* ---- what is lent: the screen, which previews read too, and the slices of a run or a preview */

typedef struct {
    uint32_t styles[BOXES * OOF_STYLE_WORDS];
    uint32_t candidates[BOXES * OOF_CANDIDATE_WORDS];
} screen;

typedef struct {
    uint32_t layouts[BOXES * OOF_LAYOUT_WORDS];
    uint32_t working[BOXES * OOF_CANDIDATE_WORDS];
    uint32_t tally[BOXES];
    uint32_t state[OOF_STATE_WORDS];
    uint32_t answer[OOF_ANSWER_WORDS];
} slices;

static uint32_t unclaimed[1]; /* every box is claimed; a pointer isn't null, also where nothing is lent */

#define AREA WIDTH, HEIGHT, 0, 0, OOF_DIRECTION_LTR, OOF_CLAIMS_ABSOLUTE, OOF_OVERFLOW_CLIP, OOF_OVERFLOW_CLIP
#define TABLE(on) (on)->styles, BOXES * OOF_STYLE_WORDS
#define CANDIDATES(on) (on)->candidates, BOXES * OOF_CANDIDATE_WORDS
#define READ(s) (s)->layouts, BOXES * OOF_LAYOUT_WORDS, (s)->working, BOXES * OOF_CANDIDATE_WORDS, unclaimed, 0
#define LENT(s) READ(s), (s)->tally, BOXES, (s)->state, (s)->answer

/* ---- the host: the text's words are 40 wide, its lines 20 high; only the overlay is measured */

static float text_width(const uint32_t *question)
{
    const float space = oof_float(question[OOF_QUESTION_AVAILABLE_WIDTH + 1]);
    return space >= 6 * 40 ? 6 * 40 : space < 40 ? 40 : 40 * (float)(int)(space / 40);
}

static float text_height(float width)
{
    const int words = (int)(width / 40);
    return (float)(20 * ((6 + words - 1) / words));
}

/* ---- the live run, and a preview of the overlay with another style */

static uint32_t live_reply(const screen *on, slices *s)
{
    const float width = text_width(s->answer);
    return s->answer[OOF_ANSWER_KIND] == OOF_LAY_OUT
        ? oof_reply_laid_out(0, 0, 0, 0, on->candidates, 0, TABLE(on), LENT(s))
        : oof_reply_both(width, text_height(width), TABLE(on), LENT(s));
}

static uint32_t place(const screen *on, slices *s)
{
    uint32_t result = oof_open(AREA, TABLE(on), CANDIDATES(on), LENT(s));
    while (result == OOF_ACCEPTED && s->answer[OOF_ANSWER_KIND] != OOF_FINISH)
        result = live_reply(on, s);
    return result;
}

/* node and style are the same at each call */
static uint32_t preview(const screen *on, uint32_t node, const uint32_t *style, size_t words, slices *s)
{
    uint32_t result = oof_preview_open(AREA, TABLE(on), node, style, words, CANDIDATES(on), LENT(s));
    while (result == OOF_ACCEPTED && s->answer[OOF_ANSWER_KIND] != OOF_FINISH) {
        const float width = text_width(s->answer);
        result = s->answer[OOF_ANSWER_KIND] == OOF_LAY_OUT
            ? oof_preview_reply_laid_out(0, 0, 0, 0, on->candidates, 0, TABLE(on), node, style, words, LENT(s))
            : oof_preview_reply_both(width, text_height(width), TABLE(on), node, style, words, LENT(s));
    }
    return result;
}

static void must(int so, const char *else_what)
{
    if (!so) {
        printf("NOT SO: %s\n", else_what);
        exit(EXIT_FAILURE);
    }
}

/* ---- the screen */

/* where boxes stand; the overlay's size is its text's */
static const struct {
    float left, top, width, height;
} boxes[BOXES] = {{10, 40, 120, 40}, {10, 140, 120, 40}, {20, 20, 0, 0}};

static void add_box(screen *on, uint32_t node)
{
    uint32_t *style = on->styles + node * OOF_STYLE_WORDS, *candidate = on->candidates + node * OOF_CANDIDATE_WORDS;
    for (size_t at = OOF_STYLE_INSET_LEFT; at <= OOF_STYLE_MAX_HEIGHT; at += OOF_LENGTH_WORDS)
        oof_set_length(style, at, at >= OOF_STYLE_MARGIN_LEFT && at < OOF_STYLE_WIDTH ? OOF_TAG_PX : OOF_TAG_AUTO, 0);
    oof_set_length(style, OOF_STYLE_INSET_LEFT, OOF_TAG_PX, boxes[node].left);
    oof_set_length(style, OOF_STYLE_INSET_TOP, OOF_TAG_PX, boxes[node].top);
    if (node != OVERLAY) {
        oof_set_length(style, OOF_STYLE_WIDTH, OOF_TAG_PX, boxes[node].width);
        oof_set_length(style, OOF_STYLE_HEIGHT, OOF_TAG_PX, boxes[node].height);
    }
    style[OOF_STYLE_JUSTIFY] = style[OOF_STYLE_ALIGN] = OOF_ALIGN_ABSENT;
    candidate[OOF_CANDIDATE_NODE] = node;
    candidate[OOF_CANDIDATE_POSITION] = OOF_POSITION_ABSOLUTE;
    candidate[OOF_CANDIDATE_LAYER] = node == OVERLAY;
}

static screen reels(void)
{
    screen on;
    memset(&on, 0, sizeof on);
    for (uint32_t node = 0; node < BOXES; node++)
        add_box(&on, node);
    return on;
}

/* a copy of the overlay's record, dragged */
static void drag(const screen *on, float left, float top, uint32_t *style)
{
    memcpy(style, on->styles + OVERLAY * OOF_STYLE_WORDS, OOF_STYLE_WORDS * sizeof *style);
    oof_set_length(style, OOF_STYLE_INSET_LEFT, OOF_TAG_PX, left);
    oof_set_length(style, OOF_STYLE_INSET_TOP, OOF_TAG_PX, top);
}

/* ---- what is printed */

/* the box that is drawn last of those that cover a pixel, or NOTHING */
static uint32_t hit(const uint32_t *words, const uint32_t *order, int x, int y)
{
    for (size_t k = BOXES; k > 0; k--) {
        const uint32_t *box = words + OOF_TOUCH_WORDS * order[k - 1];
        if (oof_signed(box[OOF_TOUCH_LEFT]) <= x && x < oof_signed(box[OOF_TOUCH_RIGHT]) &&
            oof_signed(box[OOF_TOUCH_TOP]) <= y && y < oof_signed(box[OOF_TOUCH_BOTTOM]))
            return box[OOF_TOUCH_NODE];
    }
    return NOTHING;
}

/* the live screen, then the previews; each is read with its own slices, and with the one table */
static void print_maps(const screen *on, const slices *shown)
{
    uint32_t words[PLACES + 1][BOXES * OOF_TOUCH_WORDS], order[PLACES + 1][BOXES];
    for (int k = 0; k <= PLACES; k++)
        must(oof_touch(TABLE(on), READ(&shown[k]), shown[k].state, words[k], BOXES * OOF_TOUCH_WORDS) == OOF_ACCEPTED &&
             oof_drawing_order(TABLE(on), READ(&shown[k]), shown[k].state, order[k], BOXES) == OOF_ACCEPTED, "a run is read");
    for (int y = CELL_HEIGHT / 2; y < HEIGHT; y += CELL_HEIGHT)
        for (int k = 0; k <= PLACES; k++) {
            for (int x = CELL_WIDTH / 2; x < WIDTH; x += CELL_WIDTH)
                putchar("ABO."[hit(words[k], order[k], x, y)]); /* by node; the last is NOTHING */
            fputs(k < PLACES ? "  " : "\n", stdout);
        }
}

static void print_refused(const char *what, const screen *on, uint32_t node, const uint32_t *style, size_t words, slices *s)
{
    const uint32_t result = preview(on, node, style, words, s);
    printf("%s: refused %u, %s\n", what, (unsigned)result, oof_refusal_name(result));
    must(result != OOF_ACCEPTED, "it is refused");
}

static void print_refusals(const screen *on)
{
    uint32_t style[OOF_STYLE_WORDS], found[OOF_FOUND_WORDS];
    slices s;
    memset(&s, 0, sizeof s);
    drag(on, 60, 60, style);
    print_refused("node 3, of a table of three items", on, BOXES, style, OOF_STYLE_WORDS, &s);
    print_refused("78 words for a style", on, OVERLAY, style, OOF_STYLE_WORDS - 1, &s);
    style[OOF_STYLE_INSET_TOP] = 0; /* half typed */
    print_refused("a top inset that is half typed", on, OVERLAY, style, OOF_STYLE_WORDS, &s);
    must(oof_first_bad_word(style, OOF_STYLE_WORDS, found) == 1, "a word breaks a rule");
    printf("the word to point at: %s\n", oof_style_word_name(found[OOF_FOUND_STYLE_WORD]));
}

int main(void)
{
    static const float places[PLACES][2] = {{40, 120}, {110, 60}, {190, 40}};
    static slices shown[PLACES + 1]; /* the live run's, then each preview's */
    screen on = reels();
    const screen before = on;
    slices *live = shown, *last = shown + PLACES;
    uint32_t style[OOF_STYLE_WORDS];

    must(oof_open(AREA, TABLE(&on), CANDIDATES(&on), LENT(live)) == OOF_ACCEPTED, "the live run is opened");
    for (int k = 0; k < PLACES; k++) {
        drag(&on, places[k][0], places[k][1], style);
        must(preview(&on, OVERLAY, style, OOF_STYLE_WORDS, &shown[k + 1]) == OOF_ACCEPTED, "a preview is accepted");
    }
    while (live->answer[OOF_ANSWER_KIND] != OOF_FINISH)
        must(live_reply(&on, live) == OOF_ACCEPTED, "the live run goes on");

    printf("%-*s  %-*s  %-*s  %s\n", WIDTH / CELL_WIDTH, "the live screen", WIDTH / CELL_WIDTH, "dragged to 40, 120",
           WIDTH / CELL_WIDTH, "to 110, 60", "to 190, 40");
    print_maps(&on, shown);
    for (int k = 0; k <= PLACES; k++) {
        const uint32_t *layout = shown[k].layouts + OVERLAY * OOF_LAYOUT_WORDS;
        printf("overlay at %g, %g, %g by %g; questions about it: %u\n", oof_float(layout[OOF_LAYOUT_X]),
               oof_float(layout[OOF_LAYOUT_Y]), oof_float(layout[OOF_LAYOUT_WIDTH]), oof_float(layout[OOF_LAYOUT_HEIGHT]),
               (unsigned)shown[k].tally[OVERLAY]);
    }
    print_refusals(&on);
    must(memcmp(&before, &on, sizeof on) == 0, "the table and the candidates keep every word");

    memcpy(on.styles + OVERLAY * OOF_STYLE_WORDS, style, sizeof style);
    must(place(&on, live) == OOF_ACCEPTED && memcmp(live, last, sizeof *live) == 0, "a run over the last style is its preview");
    puts("the last style written into the table: the live run is its preview, word for word");
    return EXIT_SUCCESS;
}
