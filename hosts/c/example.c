/* An English panel and its Arabic mirror image, placed by callbacks and printed side by side. A label stands 20 pixels from
 * the start edge and 12 from the top of an 800 by 480 panel, which scrolls and stands at 100, 40 of its window; its size is
 * what the font says. Then the same label where a designer asks for "half the area less 12 px" from the start edge. Then the
 * incident's panel (README.md at the root of the repository): the first label, and before it the note, on the layer above. Of the
 * labels and of the note: their pixels in the panel, and whether scrolling can bring them into view; and of the incident's panel
 * how many questions each of its boxes took, and in which order they are drawn. */
#include <stdio.h>
#include <stdlib.h>
#include "oof.h"

/* ---- what a toolkit provides: how large a node's content is, and its layout at a given size */

typedef struct {
    float width, height;
} size;

typedef struct {
    void *context;
    size (*measure)(void *context, const uint32_t *question);
    void (*lay_out)(void *context, const uint32_t *question, float overflow[4]);
} host;

/* ---- a panel: the words of one run, and what was said */

enum { LINES = 4, COLUMN = 96 };
enum { LABEL = 0, NOTE = 1, NODES = 2 };

typedef struct {
    uint32_t direction;
    size_t boxes; /* items, and records of each list */
    uint32_t styles[NODES * OOF_STYLE_WORDS];
    uint32_t candidates[NODES * OOF_CANDIDATE_WORDS];
    uint32_t layouts[NODES * OOF_LAYOUT_WORDS];
    uint32_t working[NODES * OOF_CANDIDATE_WORDS];
    uint32_t unclaimed[NODES * OOF_CANDIDATE_WORDS];
    uint32_t tally[NODES];
    uint32_t state[OOF_STATE_WORDS];
    uint32_t answer[OOF_ANSWER_WORDS];
    char said[LINES][COLUMN];
    int lines;
} panel;

/* the words that every call of a run is lent, and those that an entry is which reads a finished run */
#define SLICES(p)                                                                                                     \
    (p)->styles, (p)->boxes * OOF_STYLE_WORDS, (p)->layouts, (p)->boxes * OOF_LAYOUT_WORDS, (p)->working,               \
        (p)->boxes * OOF_CANDIDATE_WORDS, (p)->unclaimed, (p)->boxes * OOF_CANDIDATE_WORDS
#define LENT(p) SLICES(p), (p)->tally, (p)->boxes, (p)->state, (p)->answer
#define FINISHED(p) SLICES(p), (p)->state

static const float panel_x = 100, panel_y = 40, panel_width = 800, panel_height = 480;

/* where a box would stand in x without insets: at one point, in the window's coordinates */
static void stand_at(uint32_t *candidate, float x, uint32_t edge)
{
    candidate[OOF_CANDIDATE_X_START] = candidate[OOF_CANDIDATE_X_END] = oof_word(x);
    candidate[OOF_CANDIDATE_X_EDGE] = candidate[OOF_CANDIDATE_X_FALLBACK] = edge;
}

/* a box whose lengths are auto or 0, at the panel's start edge; its style is yet to be filled in */
static uint32_t *add_box(panel *p, uint32_t node, uint32_t layer)
{
    uint32_t *style = p->styles + node * OOF_STYLE_WORDS, *candidate = p->candidates + p->boxes++ * OOF_CANDIDATE_WORDS;
    for (size_t at = OOF_STYLE_INSET_LEFT; at <= OOF_STYLE_INSET_BOTTOM; at += OOF_LENGTH_WORDS)
        oof_set_length(style, at, OOF_TAG_AUTO, 0);
    for (size_t at = OOF_STYLE_MARGIN_LEFT; at <= OOF_STYLE_BORDER_BOTTOM; at += OOF_LENGTH_WORDS)
        oof_set_length(style, at, OOF_TAG_PX, 0);
    for (size_t at = OOF_STYLE_WIDTH; at <= OOF_STYLE_MAX_HEIGHT; at += OOF_LENGTH_WORDS)
        oof_set_length(style, at, OOF_TAG_AUTO, 0);
    style[OOF_STYLE_DIRECTION] = p->direction;
    style[OOF_STYLE_JUSTIFY] = style[OOF_STYLE_ALIGN] = OOF_ALIGN_ABSENT;
    candidate[OOF_CANDIDATE_NODE] = node;
    candidate[OOF_CANDIDATE_POSITION] = OOF_POSITION_ABSOLUTE;
    candidate[OOF_CANDIDATE_LAYER] = layer;
    candidate[OOF_CANDIDATE_Y_START] = candidate[OOF_CANDIDATE_Y_END] = oof_word(panel_y);
    if (p->direction == OOF_DIRECTION_LTR)
        stand_at(candidate, panel_x, OOF_EDGE_START);
    else /* reflected in the panel */
        stand_at(candidate, panel_x + panel_width, OOF_EDGE_END);
    return style;
}

/* the inset from the edge at which a panel's text starts */
static size_t start_inset(const panel *p)
{
    return p->direction == OOF_DIRECTION_LTR ? OOF_STYLE_INSET_LEFT : OOF_STYLE_INSET_RIGHT;
}

/* the label; in an Arabic panel its mirror image: direction flipped, left and right exchanged */
static void add_label(panel *p)
{
    uint32_t *style = add_box(p, LABEL, 0);
    int ltr = p->direction == OOF_DIRECTION_LTR;
    oof_set_length(style, OOF_STYLE_INSET_TOP, OOF_TAG_PX, 12);
    oof_set_length(style, start_inset(p), OOF_TAG_PX, 20);
    oof_set_length(style, ltr ? OOF_STYLE_PADDING_LEFT : OOF_STYLE_PADDING_RIGHT, OOF_TAG_PX, 8);
    oof_set_length(style, ltr ? OOF_STYLE_PADDING_RIGHT : OOF_STYLE_PADDING_LEFT, OOF_TAG_PX, 16);
}

/* the note, 320 by 96: it ends 8 pixels before what it speaks of, and that stands in the panel's first column. It is drawn over
 * labels, wherever it stands in the hoisted order */
static void add_note(panel *p)
{
    uint32_t *style = add_box(p, NOTE, 1);
    int ltr = p->direction == OOF_DIRECTION_LTR;
    oof_set_length(style, OOF_STYLE_INSET_TOP, OOF_TAG_PX, 200);
    oof_set_length(style, ltr ? OOF_STYLE_INSET_RIGHT : OOF_STYLE_INSET_LEFT, OOF_TAG_PX, panel_width);
    oof_set_length(style, ltr ? OOF_STYLE_MARGIN_RIGHT : OOF_STYLE_MARGIN_LEFT, OOF_TAG_PX, 8);
    oof_set_length(style, OOF_STYLE_WIDTH, OOF_TAG_PX, 320);
    oof_set_length(style, OOF_STYLE_HEIGHT, OOF_TAG_PX, 96);
}

/* a panel with the label, and with the note before it if that is asked for */
static panel panel_with(uint32_t direction, int with_note)
{
    panel p;
    memset(&p, 0, sizeof p); /* a state of zeros is a finished run */
    p.direction = direction;
    if (with_note)
        add_note(&p);
    add_label(&p);
    return p;
}

/* the label "half the area less 12 px" from the start edge: a sum of a percentage and a length */
static panel panel_by_half(uint32_t direction)
{
    panel p = panel_with(direction, 0);
    oof_set_sum(p.styles + LABEL * OOF_STYLE_WORDS, start_inset(&p), 0.5f, -12);
    return p;
}

/* ---- the host's side: callbacks that also note what they were asked */

static char *next_line(panel *p)
{
    return p->said[p->lines < LINES ? p->lines++ : LINES - 1];
}

static const char *known(const uint32_t *question, int at, char *text, size_t room)
{
    if (question[at] == OOF_NOT_KNOWN)
        return "none";
    snprintf(text, room, "%g", oof_float(question[at + 1]));
    return text;
}

static const char *space(const uint32_t *question, int at, char *text, size_t room)
{
    if (question[at] == OOF_SPACE_MIN_CONTENT)
        return "min-content";
    if (question[at] == OOF_SPACE_MAX_CONTENT)
        return "max-content";
    snprintf(text, room, "%g", oof_float(question[at + 1]));
    return text;
}

static void note_question(panel *p, const uint32_t *question)
{
    char text[4][16];
    snprintf(next_line(p), COLUMN, "%s by %s in %s by %s",
             known(question, OOF_QUESTION_KNOWN_WIDTH, text[0], sizeof text[0]),
             known(question, OOF_QUESTION_KNOWN_HEIGHT, text[1], sizeof text[1]),
             space(question, OOF_QUESTION_AVAILABLE_WIDTH, text[2], sizeof text[2]),
             space(question, OOF_QUESTION_AVAILABLE_HEIGHT, text[3], sizeof text[3]));
}

static size measure_label(void *context, const uint32_t *question)
{
    panel *p = context;
    size font = {120, 18};
    note_question(p, question);
    snprintf(next_line(p), COLUMN, "%g by %g", font.width, font.height);
    return font;
}

static void lay_out_label(void *context, const uint32_t *question, float overflow[4])
{
    panel *p = context;
    note_question(p, question);
    for (int side = 0; side < 4; side++)
        overflow[side] = 0;
    snprintf(next_line(p), COLUMN, "no overflow, nothing surfaced");
}

/* ---- a run: from the opening to the finish, one callback a question */

static uint32_t answer_question(panel *p, const host *h)
{
    const uint32_t none[1] = {0}; /* a pointer isn't null, also where nothing is lent */
    float overflow[4];
    switch (p->answer[OOF_ANSWER_KIND]) {
    case OOF_MEASURE_BOTH: {
        size s = h->measure(h->context, p->answer);
        return oof_reply_both(s.width, s.height, LENT(p));
    }
    case OOF_MEASURE_WIDTH:
        return oof_reply_width(h->measure(h->context, p->answer).width, LENT(p));
    case OOF_MEASURE_HEIGHT:
        return oof_reply_height(h->measure(h->context, p->answer).height, LENT(p));
    default: /* OOF_LAY_OUT */
        h->lay_out(h->context, p->answer, overflow);
        return oof_reply_laid_out(overflow[0], overflow[1], overflow[2], overflow[3], none, 0, LENT(p));
    }
}

static uint32_t place(panel *p)
{
    const host toolkit = {p, measure_label, lay_out_label};
    const size_t records = p->boxes * OOF_CANDIDATE_WORDS;
    uint32_t result = oof_open(panel_width, panel_height, panel_x, panel_y, p->direction, OOF_CLAIMS_ABSOLUTE,
                               OOF_OVERFLOW_SCROLL, OOF_OVERFLOW_SCROLL, p->styles, p->boxes * OOF_STYLE_WORDS, p->candidates,
                               records, p->layouts, p->boxes * OOF_LAYOUT_WORDS, p->working, records, p->unclaimed, records,
                               p->tally, p->boxes, p->state, p->answer);
    while (result == OOF_ACCEPTED && p->answer[OOF_ANSWER_KIND] != OOF_FINISH)
        result = answer_question(p, &toolkit);
    return result;
}

/* ---- side by side */

static float layout(const panel *p, int word)
{
    return oof_float(p->layouts[word]);
}

static void row(const char *what, const char *left, const char *right)
{
    printf("%-14s| %-31s| %s\n", what, left, right);
}

static void print_both(const panel *e, const panel *a)
{
    const char *what[LINES] = {"measure both", "  reply", "lay out", "  reply"};
    const panel *both[2] = {e, a};
    char text[3][2][COLUMN];
    for (int k = 0; k < 2; k++) {
        const uint32_t *f = both[k]->answer;
        snprintf(text[0][k], COLUMN, "%g to %g, %g to %g; %u questions", oof_float(f[OOF_FINISH_LEFT]),
                 oof_float(f[OOF_FINISH_RIGHT]), oof_float(f[OOF_FINISH_TOP]), oof_float(f[OOF_FINISH_BOTTOM]),
                 (unsigned)f[OOF_FINISH_COUNT]);
        snprintf(text[1][k], COLUMN, "x %g, y %g, %g by %g", layout(both[k], OOF_LAYOUT_X),
                 layout(both[k], OOF_LAYOUT_Y), layout(both[k], OOF_LAYOUT_WIDTH), layout(both[k], OOF_LAYOUT_HEIGHT));
        snprintf(text[2][k], COLUMN, "left %g, right %g", layout(both[k], OOF_LAYOUT_PADDING),
                 layout(both[k], OOF_LAYOUT_PADDING + 1));
    }
    row("", "English panel", "Arabic panel");
    for (int k = 0; k < LINES; k++)
        row(what[k], e->said[k], a->said[k]);
    row("finish", text[0][0], text[0][1]);
    row("layout", text[1][0], text[1][1]);
    row("  padding", text[2][0], text[2][1]);
}

/* the pixel edges of a box, from the panel's corner */
static const char *pixels(const panel *p, uint32_t node, char *text, size_t room)
{
    int32_t edges[OOF_PIXEL_EDGES];
    uint32_t result = oof_pixels(p->layouts + node * OOF_LAYOUT_WORDS, panel_x, panel_y, edges);
    if (result != OOF_ACCEPTED)
        return oof_refusal_name(result);
    snprintf(text, room, "%d to %d, %d to %d", (int)edges[OOF_PIXEL_LEFT], (int)edges[OOF_PIXEL_RIGHT],
             (int)edges[OOF_PIXEL_TOP], (int)edges[OOF_PIXEL_BOTTOM]);
    return text;
}

/* the node of the box at a place of the hoisted order */
static uint32_t node_at(const panel *p, size_t place)
{
    return p->working[place * OOF_CANDIDATE_WORDS + OOF_CANDIDATE_NODE];
}

/* whether scrolling can bring the box at a place into view, and the least offsets that do, in pixels */
static const char *reach(const panel *p, size_t place, char *text, size_t room)
{
    uint32_t verdict[OOF_REACH_WORDS];
    uint32_t result = oof_reach(place, FINISHED(p), verdict);
    if (result != OOF_ACCEPTED)
        return oof_refusal_name(result);
    if (verdict[OOF_REACH_KIND] == OOF_UNSEEN)
        return "unseen";
    snprintf(text, room, "seen at %g, %g", verdict[OOF_REACH_X] / 8.0, verdict[OOF_REACH_Y] / 8.0);
    return text;
}

/* of the first box of each panel */
static void print_pixels_and_reach(const char *pixels_of, const char *reach_of, const panel *e, const panel *a)
{
    char text[2][COLUMN];
    row(pixels_of, pixels(e, node_at(e, 0), text[0], COLUMN), pixels(a, node_at(a, 0), text[1], COLUMN));
    row(reach_of, reach(e, 0, text[0], COLUMN), reach(a, 0, text[1], COLUMN));
}

static const char *const names[NODES] = {"label", "note"};

/* how many questions were answered for each item */
static const char *tallied(const panel *p, char *text, size_t room)
{
    size_t length = 0;
    for (size_t node = 0; node < p->boxes && length < room; node++)
        length += (size_t)snprintf(text + length, room - length, "%s%s %u", node ? ", " : "", names[node],
                                   (unsigned)p->tally[node]);
    return text;
}

/* the boxes as they are drawn, each with its place in the hoisted order */
static const char *drawn(const panel *p, char *text, size_t room)
{
    uint32_t order[NODES];
    size_t boxes = p->state[OOF_STATE_WORKING], length = 0;
    uint32_t result = oof_drawing_order(FINISHED(p), order, boxes);
    if (result != OOF_ACCEPTED)
        return oof_refusal_name(result);
    for (size_t k = 0; k < boxes && length < room; k++)
        length += (size_t)snprintf(text + length, room - length, "%s%s, place %u", k ? "; " : "", names[node_at(p, order[k])],
                                   (unsigned)order[k]);
    return text;
}

/* a reply that no question waits for: refused, and no word is written */
static int refused_by_name(panel *p)
{
    const panel before = *p;
    uint32_t result = oof_reply_width(120, LENT(p));
    printf("a width after the finish: refused %u, %s; %s\n", (unsigned)result, oof_refusal_name(result),
           memcmp(&before, p, sizeof before) == 0 ? "no word changed" : "WORDS CHANGED");
    return result == OOF_WRONG_REPLY && memcmp(&before, p, sizeof before) == 0;
}

int main(void)
{
    panel e = panel_with(OOF_DIRECTION_LTR, 0), a = panel_with(OOF_DIRECTION_RTL, 0);
    panel half_e = panel_by_half(OOF_DIRECTION_LTR), half_a = panel_by_half(OOF_DIRECTION_RTL);
    panel incident_e = panel_with(OOF_DIRECTION_LTR, 1), incident_a = panel_with(OOF_DIRECTION_RTL, 1);
    panel *all[6] = {&e, &a, &half_e, &half_a, &incident_e, &incident_a};
    char text[2][COLUMN];
    for (int k = 0; k < 6; k++) {
        uint32_t result = place(all[k]);
        if (result != OOF_ACCEPTED) {
            printf("refused: %s\n", oof_refusal_name(result));
            return EXIT_FAILURE;
        }
    }
    print_both(&e, &a);
    print_pixels_and_reach("  pixels", "  verdict", &e, &a);
    print_pixels_and_reach("half less 12", "  verdict", &half_e, &half_a);
    print_pixels_and_reach("note, pixels", "note, verdict", &incident_e, &incident_a);
    row("  questions", tallied(&incident_e, text[0], COLUMN), tallied(&incident_a, text[1], COLUMN));
    row("drawing order", drawn(&incident_e, text[0], COLUMN), drawn(&incident_a, text[1], COLUMN));
    float x = layout(&e, OOF_LAYOUT_X), image = layout(&a, OOF_LAYOUT_X), width = layout(&e, OOF_LAYOUT_WIDTH);
    int mirrored = x + image + width == 2 * panel_x + panel_width;
    printf("%g + %g + %g is %g: %s\n", x, image, width, x + image + width, mirrored ? "mirrored" : "NOT MIRRORED");
    return refused_by_name(&e) && mirrored ? EXIT_SUCCESS : EXIT_FAILURE;
}
