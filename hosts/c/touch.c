/* Which box a touch hits: an English panel and its Arabic mirror image, 400 by 240, at 100, 40 of their window, with two reel
 * labels and a note over them. All that the touch driver has of a panel is five words a box and the drawing order; it reads no
 * layout. First a map: a character is a cell of 10 by 20 pixels, and says which box a touch in its middle hits. Then touches by
 * their pixels, and a panel of which the driver gets no words, since one box of it stands on a sixteenth of a pixel. */
#include <stdio.h>
#include <stdlib.h>
#include "oof.h"

/* ---- what the touch driver has, and what it does with it */

enum { REEL_A = 0, REEL_B = 1, NOTE = 2, BOXES = 3, NOTHING = 3 };

typedef struct {
    uint32_t words[BOXES * OOF_TOUCH_WORDS], order[BOXES];
} driver;

/* pixels are counted from the panel's left and top edge */
static int covers(const uint32_t *box, int x, int y)
{
    return oof_signed(box[OOF_TOUCH_LEFT]) <= x && x < oof_signed(box[OOF_TOUCH_RIGHT]) &&
           oof_signed(box[OOF_TOUCH_TOP]) <= y && y < oof_signed(box[OOF_TOUCH_BOTTOM]);
}

/* the node of the box that is drawn last of those that cover a pixel, or NOTHING */
static uint32_t hit(const driver *d, int x, int y)
{
    for (size_t k = BOXES; k > 0; k--) {
        const uint32_t *box = d->words + OOF_TOUCH_WORDS * d->order[k - 1];
        if (covers(box, x, y))
            return box[OOF_TOUCH_NODE];
    }
    return NOTHING;
}

/* ---- a panel: the words of one run */

typedef struct {
    uint32_t direction;
    uint32_t styles[BOXES * OOF_STYLE_WORDS];
    uint32_t candidates[BOXES * OOF_CANDIDATE_WORDS];
    uint32_t layouts[BOXES * OOF_LAYOUT_WORDS];
    uint32_t working[BOXES * OOF_CANDIDATE_WORDS];
    uint32_t tally[BOXES];
    uint32_t state[OOF_STATE_WORDS];
    uint32_t answer[OOF_ANSWER_WORDS];
} panel;

static const int panel_width = 400, panel_height = 240;
static uint32_t unclaimed[1]; /* every box is claimed; a pointer isn't null, also where nothing is lent */

#define RECORDS (BOXES * OOF_CANDIDATE_WORDS)
#define SLICES(p) (p)->styles, BOXES * OOF_STYLE_WORDS, (p)->layouts, BOXES * OOF_LAYOUT_WORDS, (p)->working, RECORDS, unclaimed, 0
#define FINISHED(p) SLICES(p), (p)->state

/* where boxes stand from the panel's start edge and from its top, how large they are, and their layers */
static const struct {
    float start, top, width, height;
    uint32_t layer;
} boxes[BOXES] = {{20, 20, 160, 60, 0}, {60, 120, 160, 60, 0}, {120, 40, 200, 120, 1}};

/* the note is hoisted first, and drawn last */
static void add_box(panel *p, uint32_t node)
{
    uint32_t *style = p->styles + node * OOF_STYLE_WORDS;
    uint32_t *candidate = p->candidates + (NOTE - node) * OOF_CANDIDATE_WORDS;
    for (size_t at = OOF_STYLE_INSET_LEFT; at <= OOF_STYLE_MAX_HEIGHT; at += OOF_LENGTH_WORDS)
        oof_set_length(style, at, at >= OOF_STYLE_MARGIN_LEFT && at < OOF_STYLE_WIDTH ? OOF_TAG_PX : OOF_TAG_AUTO, 0);
    oof_set_length(style, p->direction == OOF_DIRECTION_LTR ? OOF_STYLE_INSET_LEFT : OOF_STYLE_INSET_RIGHT, OOF_TAG_PX,
                   boxes[node].start);
    oof_set_length(style, OOF_STYLE_INSET_TOP, OOF_TAG_PX, boxes[node].top);
    oof_set_length(style, OOF_STYLE_WIDTH, OOF_TAG_PX, boxes[node].width);
    oof_set_length(style, OOF_STYLE_HEIGHT, OOF_TAG_PX, boxes[node].height);
    style[OOF_STYLE_DIRECTION] = p->direction;
    style[OOF_STYLE_JUSTIFY] = style[OOF_STYLE_ALIGN] = OOF_ALIGN_ABSENT;
    candidate[OOF_CANDIDATE_NODE] = node;
    candidate[OOF_CANDIDATE_POSITION] = OOF_POSITION_ABSOLUTE;
    candidate[OOF_CANDIDATE_LAYER] = boxes[node].layer;
}

static panel panel_of(uint32_t direction)
{
    panel p;
    memset(&p, 0, sizeof p);
    p.direction = direction;
    for (uint32_t node = 0; node < BOXES; node++)
        add_box(&p, node);
    return p;
}

/* every box's size is given, so that there is nothing to measure */
static uint32_t place(panel *p)
{
    uint32_t result = oof_open((float)panel_width, (float)panel_height, 100, 40, p->direction, OOF_CLAIMS_ABSOLUTE,
                               OOF_OVERFLOW_CLIP, OOF_OVERFLOW_CLIP, p->styles, BOXES * OOF_STYLE_WORDS, p->candidates, RECORDS,
                               p->layouts, BOXES * OOF_LAYOUT_WORDS, p->working, RECORDS, unclaimed, 0, p->tally, BOXES, p->state,
                               p->answer);
    while (result == OOF_ACCEPTED && p->answer[OOF_ANSWER_KIND] != OOF_FINISH)
        result = oof_reply_laid_out(0, 0, 0, 0, p->candidates, 0, SLICES(p), p->tally, BOXES, p->state, p->answer);
    return result;
}

/* what the driver is to read of a placed panel */
static uint32_t tell(const panel *p, driver *d)
{
    uint32_t result = oof_touch(FINISHED(p), d->words, BOXES * OOF_TOUCH_WORDS);
    return result == OOF_ACCEPTED ? oof_drawing_order(FINISHED(p), d->order, BOXES) : result;
}

static driver told(uint32_t direction)
{
    driver d;
    panel p = panel_of(direction);
    uint32_t result = place(&p);
    if (result == OOF_ACCEPTED)
        result = tell(&p, &d);
    if (result != OOF_ACCEPTED) {
        printf("refused: %s\n", oof_refusal_name(result));
        exit(EXIT_FAILURE);
    }
    return d;
}

/* ---- what is printed */

enum { CELL_WIDTH = 10, CELL_HEIGHT = 20 };

static void print_map(const driver *both)
{
    printf("%-*s  %s\n", panel_width / CELL_WIDTH, "English panel", "Arabic panel");
    for (int y = CELL_HEIGHT / 2; y < panel_height; y += CELL_HEIGHT)
        for (int k = 0; k < 2; k++) {
            for (int x = CELL_WIDTH / 2; x < panel_width; x += CELL_WIDTH)
                putchar("ABN."[hit(&both[k], x, y)]); /* by node; the last is NOTHING */
            fputs(k ? "\n" : "  ", stdout);
        }
}

/* the pixel in the Arabic panel that is the mirror image of one in the English panel */
static int image(int x)
{
    return panel_width - 1 - x;
}

static void print_touches(const driver *both)
{
    static const char *const names[] = {[REEL_A] = "A, a reel label", [REEL_B] = "B, a reel label", [NOTE] = "N, the note",
                                        [NOTHING] = "nothing"};
    static const struct {
        int x, y;
    } touches[] = {{30, 30}, {119, 50}, {120, 50}, {319, 159}, {320, 159}, {319, 160}, {200, 170}, {390, 230}, {-10, 30}};
    for (size_t k = 0; k < sizeof touches / sizeof *touches; k++) {
        const int x = touches[k].x, y = touches[k].y;
        printf("%3d, %3d hits %-15s  %11s %3d, %3d hits %s\n", x, y, names[hit(&both[0], x, y)], "", image(x), y,
               names[hit(&both[1], image(x), y)]);
    }
}

/* Whether a touch hits the same box as its mirror image, of all pixels in and around the panel. It does since these boxes stand on
 * whole pixels; edges on half a pixel go to the right in both panels. */
static int are_mirrored(const driver *both)
{
    for (int y = -20; y < panel_height + 20; y++)
        for (int x = -20; x < panel_width + 20; x++)
            if (hit(&both[0], x, y) != hit(&both[1], image(x), y))
                return 0;
    return 1;
}

/* a note 100.125 wide that auto margins center: it has 299.875 to share, and stands at 149.9375 */
static int is_refused(void)
{
    driver d, before;
    panel p = panel_of(OOF_DIRECTION_LTR);
    uint32_t *style = p.styles + NOTE * OOF_STYLE_WORDS;
    oof_set_length(style, OOF_STYLE_INSET_LEFT, OOF_TAG_PX, 0);
    oof_set_length(style, OOF_STYLE_INSET_RIGHT, OOF_TAG_PX, 0);
    oof_set_length(style, OOF_STYLE_MARGIN_LEFT, OOF_TAG_AUTO, 0);
    oof_set_length(style, OOF_STYLE_MARGIN_RIGHT, OOF_TAG_AUTO, 0);
    oof_set_length(style, OOF_STYLE_WIDTH, OOF_TAG_PX, 100.125f);
    memset(&d, 0x5A, sizeof d);
    before = d;
    uint32_t result = place(&p);
    if (result == OOF_ACCEPTED)
        result = tell(&p, &d);
    int kept = memcmp(&before, &d, sizeof d) == 0;
    printf("the note centered, 100.125 wide: refused %u, %s; %s\n", (unsigned)result, oof_refusal_name(result),
           kept ? "no word changed" : "WORDS CHANGED");
    return result == OOF_NOT_IN_EIGHTHS && kept;
}

int main(void)
{
    const driver both[2] = {told(OOF_DIRECTION_LTR), told(OOF_DIRECTION_RTL)};
    print_map(both);
    print_touches(both);
    int mirrored = are_mirrored(both);
    puts(mirrored ? "each touch and its mirror image: the same box" : "NOT MIRRORED");
    return is_refused() && mirrored ? EXIT_SUCCESS : EXIT_FAILURE;
}
