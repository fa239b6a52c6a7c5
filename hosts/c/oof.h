/* Out-of-flow placement for C: places absolutely positioned boxes by a dialogue between a run and its host.
 *
 * A host opens a run with oof_open, reads the question that stands in the answer's words, and replies with the entry of
 * that question's kind, until the answer is a finish. Then the layouts hold each placed box, and the tally has for each item
 * how many questions were answered. oof_reach says of each box whether scrolling can bring it into view, oof_drawing_order
 * in which order to draw them, and oof_touch writes what a touch driver reads of them: of each its node and its pixel edges.
 * oof_preview_open and the four oof_preview_reply_.. make a run that tries another style for one node, beside the live run and
 * over the same table. oof_pixels rounds a layout to whole pixels, and oof_first_bad_word says which word of a table of styles
 * breaks a code rule; they belong to no run.
 *
 *     result = oof_open(.., state, answer);
 *     while (result == 0 && answer[OOF_ANSWER_KIND] != OOF_FINISH)
 *         result = oof_reply_..(.., state, answer);
 *     if (result == 0)
 *         result = oof_pixels(layouts + OOF_LAYOUT_WORDS * node, x, y, edges);
 *     if (result == 0)
 *         result = oof_reach(place, .., state, verdict);
 *     if (result == 0)
 *         result = oof_drawing_order(.., state, order, state[OOF_STATE_WORKING]);
 *     if (result == 0)
 *         result = oof_touch(.., state, words, OOF_TOUCH_WORDS * state[OOF_STATE_WORKING]);
 *
 * RESULT. That of oof_first_bad_word is 1 or 0 and no refusal: item and word are written, or nothing is. Of every other
 * entry 0: the call was accepted, and the answer's words say what comes next (of oof_pixels: the edges are written; of
 * oof_reach: the verdict; of oof_drawing_order: the order; of oof_touch: the driver's words). 1 to 6, and 9, of oof_pixels,
 * oof_reach and oof_touch alone: it was refused, for the reason of that number (enum oof_refusal), and NO LENT WORD WAS WRITTEN:
 * layouts, lists, tally, answer, edges, verdict, order and the driver's words keep every bit. 7 and 8 are refusals of parts that
 * have no entry here. What stands in the state's words after a refusal:
 *   - after a refused reply (of a preview too), what stood there before, bit for bit, so the reply can be mended and made again;
 *   - after a refused opening (of a preview too), a finished run with all counts 0, so that no reply is taken until an opening
 *     is accepted. A run that stood in these words before is given up by any opening.
 *
 * POINTERS. Each slice is a pointer, then its length in 32-bit words. What a host owes:
 *   - every pointer is aligned for uint32_t and points at so many words that may be read (and written, where it isn't
 *     const); `state` at OOF_STATE_WORDS of them, `answer` at OOF_ANSWER_WORDS, `layout` at OOF_LAYOUT_WORDS, `edges` at
 *     OOF_PIXEL_EDGES, `verdict` at OOF_REACH_WORDS, `found` at OOF_FOUND_WORDS;
 *   - no pointer is null, also where the length is 0;
 *   - no two slices of a call overlap, state, answer, layout, edges, verdict and found included; but a preview's style may be a
 *     record of its table;
 *   - nobody else writes the words during a call.
 * The words themselves may be any: whatever bits they hold, the call does what is defined, or is refused as defined.
 * No pointer is kept after a call, nothing is allocated and there are no globals: runs over different words may go on
 * in any order, and in different threads. README.md beside this file says for which platform the library is, what it
 * needs from its program, and how much stack a call takes.
 *
 * NUMBERS. Floats stand in words by their bits (oof_word, oof_float), and so do the pixel edges that a touch driver reads, signed
 * numbers in two's complement (oof_signed). Every NaN written is 7FC00000 hex. */
#ifndef OOF_H
#define OOF_H

#include <stddef.h>
#include <stdint.h>
#include <string.h>

#ifdef __cplusplus
extern "C" {
#endif

/* ---- widths of the records, in words, and limits */

enum {
    OOF_STYLE_WORDS = 79,
    OOF_LENGTH_WORDS = 3, /* of one length in a style */
    OOF_CANDIDATE_WORDS = 14,
    OOF_LAYOUT_WORDS = 23,
    OOF_STATE_WORDS = 28,
    OOF_ANSWER_WORDS = 10,
    OOF_PIXEL_EDGES = 4,
    OOF_REACH_WORDS = 3,
    OOF_TOUCH_WORDS = 5,
    OOF_FOUND_WORDS = 2,
    OOF_MOST_ITEMS = 1024,   /* of a table of styles */
    OOF_MOST_RECORDS = 4096, /* of a working or an unclaimed list */
    OOF_MOST_LAYER = 255     /* of a candidate */
};

/* ---- refusals */

enum oof_refusal {
    OOF_ACCEPTED = 0,
    OOF_BAD_AREA = 1,      /* an opening's direction, claims or overflow code is outside its list */
    OOF_BAD_EXTENT = 2,    /* a slice isn't whole records, is too long, or has another length than at the opening; the tally
                              isn't one word an item; a preview's style isn't one record; or, of oof_reach, no box has that
                              place; of oof_drawing_order, the order isn't one word a box; of oof_touch, the driver's words
                              aren't five a box */
    OOF_BAD_STYLE = 3,     /* a tag or code that its field doesn't take, in any item of the table; oof_first_bad_word says
                              which */
    OOF_BAD_CANDIDATE = 4, /* a node outside the table, a preview's own too, a code outside its list, or a layer above
                              OOF_MOST_LAYER */
    OOF_LIST_FULL = 5,     /* the claimed or the unclaimed records would exceed their list */
    OOF_WRONG_REPLY = 6,   /* not the open question's kind, no question open, a state whose counts don't fit, or a word of the
                              tally above the run's count of questions answered; of oof_reach, oof_drawing_order and
                              oof_touch, a question open, or such counts */
    OOF_NOT_IN_EIGHTHS = 9 /* of oof_pixels, oof_reach and oof_touch: a number that isn't a whole eighth, or is above 9,999,999
                              eighths in size */
};

static inline const char *oof_refusal_name(uint32_t result)
{
    switch (result) {
    case OOF_ACCEPTED: return "accepted";
    case OOF_BAD_AREA: return "bad area";
    case OOF_BAD_EXTENT: return "bad extent";
    case OOF_BAD_STYLE: return "bad style";
    case OOF_BAD_CANDIDATE: return "bad candidate";
    case OOF_LIST_FULL: return "list full";
    case OOF_WRONG_REPLY: return "wrong reply";
    case OOF_NOT_IN_EIGHTHS: return "not in eighths";
    default: return "no result of these entries";
    }
}

/* ---- floats and signed numbers by their bits */

static inline uint32_t oof_word(float value)
{
    uint32_t word;
    memcpy(&word, &value, sizeof word);
    return word;
}

static inline float oof_float(uint32_t word)
{
    float value;
    memcpy(&value, &word, sizeof value);
    return value;
}

/* A signed number that stands in a word. -1 is FFFFFFFF hex, and a cast of that to int32_t is the compiler's to define. */
static inline int32_t oof_signed(uint32_t word)
{
    int32_t value;
    memcpy(&value, &word, sizeof value);
    return value;
}

/* ---- codes */

enum { OOF_DIRECTION_LTR = 0, OOF_DIRECTION_RTL = 1 };
enum { OOF_CLAIMS_ABSOLUTE = 1, OOF_CLAIMS_FIXED = 2 }; /* bits: 3 is both */
enum { OOF_OVERFLOW_VISIBLE = 0, OOF_OVERFLOW_CLIP = 1, OOF_OVERFLOW_HIDDEN = 2, OOF_OVERFLOW_SCROLL = 3 };
enum { OOF_EDGE_START = 0, OOF_EDGE_CENTER = 1, OOF_EDGE_END = 2 }; /* of a static position, and its fallback */
enum { OOF_SAFETY_DEFAULT = 0, OOF_SAFETY_UNSAFE = 1, OOF_SAFETY_SAFE = 2 };
enum { OOF_BOX_SIZING_BORDER = 0, OOF_BOX_SIZING_CONTENT = 1 };
enum { OOF_FLAG_REPLACED = 1, OOF_FLAG_TABLE = 2 };     /* bits */
enum { OOF_CONTAIN_LAYOUT = 1, OOF_CONTAIN_PAINT = 2 }; /* bits of 0 to 255 */

enum {
    OOF_POSITION_STATIC = 0,
    OOF_POSITION_RELATIVE = 1,
    OOF_POSITION_ABSOLUTE = 2,
    OOF_POSITION_FIXED = 3,
    OOF_POSITION_STICKY = 4
};

/* justify and align */
enum {
    OOF_ALIGN_NORMAL = 0,
    OOF_ALIGN_START = 1,
    OOF_ALIGN_END = 2,
    OOF_ALIGN_FLEX_START = 3,
    OOF_ALIGN_FLEX_END = 4,
    OOF_ALIGN_SELF_START = 5,
    OOF_ALIGN_SELF_END = 6,
    OOF_ALIGN_CENTER = 7,
    OOF_ALIGN_BASELINE = 8,
    OOF_ALIGN_STRETCH = 9,
    OOF_ALIGN_ABSENT = 10 /* normal with default safety; its safety word is ignored */
};

/* tags of lengths. Insets and margins take px, auto, percent and sum; padding and border px, percent and sum; the sizes all.
 * Percentages and sums are taken of a basis: of the area's height for top and bottom insets, height, min height and max height,
 * of its width for every other length.
 * Of the tags that only sizes take, content is auto, and the others are size keywords. A keyword in min or max is none. Where a
 * ratio and the other side are given, the ratio gives the side and its keyword has no say: with ratio 2 and height 10 a stretched
 * width is 20, whatever the block.
 *   - OOF_TAG_STRETCH is the stretch size: the block less the left (top) margin, then less the right (bottom) one, auto ones as 0,
 *     and at least 0; min and max clamp it. The block is what the insets of the axis leave of the area; an auto inset beside a given
 *     one is 0, and insets that cross leave 0. Where both insets of the axis are auto, it is measured from the anchor, the edge of
 *     the static area that the candidate names, or its middle: from a start edge to the right (bottom) edge of the area, from the
 *     left (top) edge to an end edge, around a center as far as the nearer edge. In an area of 100 a label with its start edge at 40
 *     is 60 wide and ends with the area; with its start edge at -20 it is 120 wide, wider than the area.
 *   - OOF_TAG_FIT_CONTENT is measured in the stretch size as it is before min and max: in 60 with the start edge at 40, also beside
 *     a max of 30. The two other fit-content tags are measured in their limit: the value, or basis * value.
 *   - A question for the width alone has the height's stretch size in OOF_QUESTION_AVAILABLE_HEIGHT, whether the height is known or
 *     not. It is a space and no known size. A question for the height alone has in OOF_QUESTION_AVAILABLE_WIDTH the width, or its
 *     stretch size where no width is known.
 *   - Before request #106 the stretch size was the area less its insets, auto ones as 0, less the margins: 100 in both examples, and
 *     min-content with its y anchor at 40 in 100 was asked for in a height of 100, now in 60. A host links the new library; none of
 *     its code changes. Such boxes have other sizes, and so other locations, overflow rectangles and verdicts of oof_reach: layouts
 *     that are stored or expected of them are made anew. A max or an inset that was set to keep such a label in the area still
 *     counts.
 * OOF_TAG_SUM is the sum of a percentage and a length: basis * value, rounded, plus the second value, rounded; the two float
 * operations are never fused. A percentage is a factor: "half the area less 12 px" is value 0.5, second value -12.
 *   - Any length may be a sum, padding and border, min and max too.
 *   - It comes to a number, as px and percent do: it is no size keyword, a ratio completes from it, min and max count.
 *   - With second value -0.0 it is what percent is, bit for bit. In an area of infinite width value 0 with second value 12 is a
 *     NaN, as 0 % is, and not 12.
 *   - Under other tags the second value has no say, under the two fit-content tags neither. No tag is fit-content of a sum. */
enum {
    OOF_TAG_PX = 1,
    OOF_TAG_AUTO = 3,
    OOF_TAG_PERCENT = 5, /* the value is a fraction: 0.5 is 50 % */
    OOF_TAG_MIN_CONTENT = 11,
    OOF_TAG_FIT_CONTENT_PERCENT = 15,
    OOF_TAG_MAX_CONTENT = 27,
    OOF_TAG_CONTENT = 35,
    OOF_TAG_FIT_CONTENT_PX = 43,
    OOF_TAG_FIT_CONTENT = 59,
    OOF_TAG_STRETCH = 75,
    OOF_TAG_SUM = 129 /* basis * value + second value */
};

/* ---- a style, 79 words: 22 lengths of three words each (tag, value, second value), then 13 words. A length's name is the number
 * of its tag's word; add OOF_LENGTH_VALUE or OOF_LENGTH_SECOND for the others. Item i of a table begins at word
 * OOF_STYLE_WORDS * i. */

enum {
    OOF_LENGTH_TAG = 0,
    OOF_LENGTH_VALUE = 1, /* float */
    OOF_LENGTH_SECOND = 2 /* float: of a sum. Under any other tag it may hold any bits, and nothing written depends on them */
};

enum {
    OOF_STYLE_INSET_LEFT = 0,
    OOF_STYLE_INSET_RIGHT = 3,
    OOF_STYLE_INSET_TOP = 6,
    OOF_STYLE_INSET_BOTTOM = 9,
    OOF_STYLE_MARGIN_LEFT = 12,
    OOF_STYLE_MARGIN_RIGHT = 15,
    OOF_STYLE_MARGIN_TOP = 18,
    OOF_STYLE_MARGIN_BOTTOM = 21,
    OOF_STYLE_PADDING_LEFT = 24,
    OOF_STYLE_PADDING_RIGHT = 27,
    OOF_STYLE_PADDING_TOP = 30,
    OOF_STYLE_PADDING_BOTTOM = 33,
    OOF_STYLE_BORDER_LEFT = 36,
    OOF_STYLE_BORDER_RIGHT = 39,
    OOF_STYLE_BORDER_TOP = 42,
    OOF_STYLE_BORDER_BOTTOM = 45,
    OOF_STYLE_WIDTH = 48,
    OOF_STYLE_HEIGHT = 51,
    OOF_STYLE_MIN_WIDTH = 54,
    OOF_STYLE_MIN_HEIGHT = 57,
    OOF_STYLE_MAX_WIDTH = 60,
    OOF_STYLE_MAX_HEIGHT = 63,
    OOF_STYLE_RATIO_PRESENT = 66, /* 0 or 1 */
    OOF_STYLE_RATIO = 67,         /* float: width by height */
    OOF_STYLE_BOX_SIZING = 68,
    OOF_STYLE_FLAGS = 69,
    OOF_STYLE_DIRECTION = 70,
    OOF_STYLE_JUSTIFY = 71,
    OOF_STYLE_JUSTIFY_SAFETY = 72,
    OOF_STYLE_ALIGN = 73,
    OOF_STYLE_ALIGN_SAFETY = 74,
    OOF_STYLE_OVERFLOW_X = 75,
    OOF_STYLE_OVERFLOW_Y = 76,
    OOF_STYLE_SCROLLBAR_WIDTH = 77, /* float */
    OOF_STYLE_CONTAIN = 78
};

/* What a style's word is called, as "margin left, tag" for word OOF_STYLE_MARGIN_LEFT. */
static inline const char *oof_style_word_name(uint32_t word)
{
    static const char *const names[OOF_STYLE_WORDS] = {
        "inset left, tag", "inset left, value", "inset left, second value",
        "inset right, tag", "inset right, value", "inset right, second value",
        "inset top, tag", "inset top, value", "inset top, second value",
        "inset bottom, tag", "inset bottom, value", "inset bottom, second value",
        "margin left, tag", "margin left, value", "margin left, second value",
        "margin right, tag", "margin right, value", "margin right, second value",
        "margin top, tag", "margin top, value", "margin top, second value",
        "margin bottom, tag", "margin bottom, value", "margin bottom, second value",
        "padding left, tag", "padding left, value", "padding left, second value",
        "padding right, tag", "padding right, value", "padding right, second value",
        "padding top, tag", "padding top, value", "padding top, second value",
        "padding bottom, tag", "padding bottom, value", "padding bottom, second value",
        "border left, tag", "border left, value", "border left, second value",
        "border right, tag", "border right, value", "border right, second value",
        "border top, tag", "border top, value", "border top, second value",
        "border bottom, tag", "border bottom, value", "border bottom, second value",
        "width, tag", "width, value", "width, second value",
        "height, tag", "height, value", "height, second value",
        "min width, tag", "min width, value", "min width, second value",
        "min height, tag", "min height, value", "min height, second value",
        "max width, tag", "max width, value", "max width, second value",
        "max height, tag", "max height, value", "max height, second value",
        "ratio present", "ratio", "box sizing", "flags", "direction",
        "justify keyword", "justify safety", "align keyword", "align safety",
        "overflow x", "overflow y", "scrollbar width", "contain"};
    return word < OOF_STYLE_WORDS ? names[word] : "no word of a style";
}

/* Writes a length of a style: `at` is the number of its tag's word. The second value is 0. */
static inline void oof_set_length(uint32_t *style, size_t at, uint32_t tag, float value)
{
    style[at + OOF_LENGTH_TAG] = tag;
    style[at + OOF_LENGTH_VALUE] = oof_word(value);
    style[at + OOF_LENGTH_SECOND] = 0;
}

/* Writes a sum there: so large a part of the area, and so many pixels more. "Half the area less 12 px" is 0.5f, -12. */
static inline void oof_set_sum(uint32_t *style, size_t at, float factor, float pixels)
{
    oof_set_length(style, at, OOF_TAG_SUM, factor);
    style[at + OOF_LENGTH_SECOND] = oof_word(pixels);
}

/* ---- a candidate, 14 words. The records of both lists, and those that a box surfaces, have the same words.
 * Its static area is where the box would stand without insets, in THE CALLER'S COORDINATES: the area's offset is included, as
 * it is in the layout that comes out. A label that would start at the first pixel of an area whose x is 100 has
 * OOF_CANDIDATE_X_START 100, not 0.
 * Its layer, 0 to OOF_MOST_LAYER, says what it is drawn over: every box of a lower layer, and those of its own that stand
 * before it in the hoisted order (oof_drawing_order). It isn't a float, and a higher one is refused with 4, also of a candidate
 * that won't be claimed. A record keeps it, claimed or not, surfaced and shifted too. Where a box stands, its size and the
 * questions asked don't depend on it. */

enum {
    OOF_CANDIDATE_NODE = 0,  /* which item of the table of styles */
    OOF_CANDIDATE_ORDER = 1, /* copied to the layout */
    OOF_CANDIDATE_POSITION = 2,
    OOF_CANDIDATE_X_START = 3, /* float, as the three other ends */
    OOF_CANDIDATE_X_END = 4,
    OOF_CANDIDATE_X_EDGE = 5,
    OOF_CANDIDATE_X_SAFETY = 6,
    OOF_CANDIDATE_X_FALLBACK = 7, /* an edge */
    OOF_CANDIDATE_Y_START = 8,
    OOF_CANDIDATE_Y_END = 9,
    OOF_CANDIDATE_Y_EDGE = 10,
    OOF_CANDIDATE_Y_SAFETY = 11,
    OOF_CANDIDATE_Y_FALLBACK = 12,
    OOF_CANDIDATE_LAYER = 13 /* an integer, 0 to OOF_MOST_LAYER */
};

/* ---- a layout, 23 words, all floats but the order. Node i's begins at word OOF_LAYOUT_WORDS * i. */

enum {
    OOF_LAYOUT_ORDER = 0,
    OOF_LAYOUT_WIDTH = 1,
    OOF_LAYOUT_HEIGHT = 2,
    OOF_LAYOUT_OVERFLOW = 3, /* four words, as the three below: left, right, top, bottom */
    OOF_LAYOUT_SCROLLBAR_WIDTH = 7,
    OOF_LAYOUT_SCROLLBAR_HEIGHT = 8,
    OOF_LAYOUT_X = 9, /* in the caller's coordinates: the area's offset is included */
    OOF_LAYOUT_Y = 10,
    OOF_LAYOUT_PADDING = 11,
    OOF_LAYOUT_BORDER = 15,
    OOF_LAYOUT_MARGIN = 19
};

/* ---- the pixel edges of a box, 4 integers */

enum { OOF_PIXEL_LEFT = 0, OOF_PIXEL_RIGHT = 1, OOF_PIXEL_TOP = 2, OOF_PIXEL_BOTTOM = 3 };

/* ---- the verdict on a box, 3 words: seen or unseen, then the offsets across and down in eighths of a pixel, 0 if unseen */

enum { OOF_REACH_KIND = 0, OOF_REACH_X = 1, OOF_REACH_Y = 2 };
enum { OOF_UNSEEN = 0, OOF_SEEN = 1 };

/* ---- what a touch driver reads of a box, 5 words: the node, then the pixel edges, each a signed number (oof_signed) */

enum {
    OOF_TOUCH_NODE = 0,
    OOF_TOUCH_LEFT = 1,
    OOF_TOUCH_RIGHT = 2,
    OOF_TOUCH_TOP = 3,
    OOF_TOUCH_BOTTOM = 4
};

/* ---- where a word that breaks a rule was found, 2 words: which item of the table, and which word of its style, from 0 */

enum { OOF_FOUND_ITEM = 0, OOF_FOUND_STYLE_WORD = 1 };

/* ---- the answer, 10 words */

enum { OOF_ANSWER_KIND = 0 };

/* its kinds: the finish, or a question */
enum {
    OOF_FINISH = 0,
    OOF_MEASURE_BOTH = 1,   /* reply with oof_reply_both */
    OOF_MEASURE_WIDTH = 2,  /* with oof_reply_width */
    OOF_MEASURE_HEIGHT = 3, /* with oof_reply_height */
    OOF_LAY_OUT = 4         /* with oof_reply_laid_out */
};

/* a question */
enum {
    OOF_QUESTION_NODE = 1,
    OOF_QUESTION_KNOWN_WIDTH = 2, /* OOF_NOT_KNOWN or OOF_KNOWN; the float is the next word, 0 if not known. In a lay
                                     out question both are known: the final size */
    OOF_QUESTION_KNOWN_HEIGHT = 4,
    OOF_QUESTION_AVAILABLE_WIDTH = 6, /* OOF_SPACE_DEFINITE or a keyword; the float is the next word, 0 if not definite */
    OOF_QUESTION_AVAILABLE_HEIGHT = 8
};

enum { OOF_NOT_KNOWN = 0, OOF_KNOWN = 1 };
enum { OOF_SPACE_DEFINITE = 0, OOF_SPACE_MIN_CONTENT = 1, OOF_SPACE_MAX_CONTENT = 2 };

/* the finish; words 6 to 9 are 0 */
enum {
    OOF_FINISH_COUNT = 1, /* questions answered */
    OOF_FINISH_LEFT = 2,  /* floats: the scrollable overflow that the boxes add */
    OOF_FINISH_RIGHT = 3,
    OOF_FINISH_TOP = 4,
    OOF_FINISH_BOTTOM = 5
};

/* ---- the state, 28 words. Every opening writes it, so it may hold anything before; 28 zeros are a finished run. Between
 * calls a host hands it back as it came, and need not read it; what the words mean all the same: */

enum {
    OOF_STATE_PROGRESS = 0, /* 0 finished, 1 to 3 the question for size keywords (both, width, height), 4 the question that
                               fills absent sides, 5 lay out */
    OOF_STATE_KEYWORD = 1,  /* the reply to the first: 0 none, 1 both, 2 width, 3 height; then width, height */
    OOF_STATE_FILL = 4,     /* the reply to the second: 0 none, 1 both; then width, height */
    OOF_STATE_WORKING = 7,  /* filled records of the working list: after the finish, the first so many nodes of that list
                               are the hoisted order */
    OOF_STATE_UNCLAIMED = 8,  /* filled records of the unclaimed list */
    OOF_STATE_BEGUN = 9,      /* boxes begun */
    OOF_STATE_ANSWERED = 10,  /* questions answered */
    OOF_STATE_OVERFLOW = 11,  /* left, right, top, bottom so far */
    OOF_STATE_AREA = 15,      /* width, height, x, y */
    OOF_STATE_DIRECTION = 19,
    OOF_STATE_CLAIMS = 20,
    OOF_STATE_OVERFLOW_X = 21,
    OOF_STATE_OVERFLOW_Y = 22,
    OOF_STATE_LENGTHS = 23 /* lent at the opening, in words modulo 2^32: styles, layouts, working, unclaimed, tally */
};

/* The entries write no other codes there. Words that a host makes up are read all the same, so that any 28 words are some
 * state: a progress above 5 is finished, a keyword reply above 3 or a fill reply above 1 is none, a direction above 0 is
 * right-to-left, an overflow above 3 is scroll, and of the claims the two low bits count. What doesn't fit the lent slices
 * is refused, with 2 or 6. */

/* ---- the entries of a run
 *
 * In every call of a run:
 *   styles      one record an item, at most OOF_MOST_ITEMS; only read
 *   layouts     one record an item; a box's is written when it is laid out, at its node's place
 *   working     room for the claimed candidates, whole records, at most OOF_MOST_RECORDS
 *   unclaimed   room for the others, the same
 *   tally       one word an item: how many of the run's questions about it are answered
 *   state       what the run keeps between calls
 *   answer      the question or the finish
 * A run is lent slices of the same lengths throughout. Their words are read afresh at each call.
 *
 * The tally tells which items are costly, as a label is whose text is measured again and again. It goes by the styles' length:
 * n items have n words, and no items have 0.
 *   - An accepted opening writes 0 to every word of it, whatever stood there, also where the answer is a finish at once.
 *   - An accepted reply adds 1 to one word: that of the box whose question is open, by the node that its record in the working
 *     list has at this call. A lay-out reply counts for the box that is laid out, not for the one that is asked about next.
 *   - A refused call writes no word of it.
 *   - A node that was claimed twice has the questions of both boxes in its word. An item that isn't asked about has 0.
 * Its words add up to the questions answered so far, state[OOF_STATE_ANSWERED], and at the finish to its count,
 * answer[OOF_FINISH_COUNT]. This holds after an accepted opening, while nobody else writes the tally and each call gets the
 * state that the last one returned. So no word is above the count then, and no reply is refused for one. Of the other words a
 * host may write any between the calls, and calls that are refused count for nothing. A host that goes back to a state that it
 * kept puts the tally back with it: else a word may be above that state's count, and the reply is refused with 6.
 * Entries that read a finished run aren't lent the tally, and don't look at its length in the state. */

/* Opens a run over an area: its size, and its offset x and y in the caller's coordinates (any floats).
 *   direction   OOF_DIRECTION_LTR or OOF_DIRECTION_RTL
 *   claims      which candidates are placed here: OOF_CLAIMS_ABSOLUTE, OOF_CLAIMS_FIXED, both (3) or none
 *   overflow_x, overflow_y   of the container: OOF_OVERFLOW_VISIBLE to OOF_OVERFLOW_SCROLL
 *   candidates  any number of whole records; only read. The claimed ones go to `working`, the others to `unclaimed`.
 * Without a claimed candidate the answer is a finish at once. Refuses with 1, 2, 3, 4, 5, tested in this order: with 2 also
 * where the tally isn't one word an item. */
uint32_t oof_open(float width, float height, float x, float y,
                  uint32_t direction, uint32_t claims, uint32_t overflow_x, uint32_t overflow_y,
                  const uint32_t *styles, size_t styles_len,
                  const uint32_t *candidates, size_t candidates_len,
                  uint32_t *layouts, size_t layouts_len,
                  uint32_t *working, size_t working_len,
                  uint32_t *unclaimed, size_t unclaimed_len,
                  uint32_t *tally, size_t tally_len,
                  uint32_t *state, uint32_t *answer);

/* The replies refuse with 2, 6, 3, 4, 5, tested in this order: with 2 also where the tally isn't one word an item or has another
 * length than at the opening, with 6 also where some word of it is above state[OOF_STATE_ANSWERED], as these stand before the
 * reply. */

/* Replies to OOF_MEASURE_BOTH: the width and height of the node's box, padding and border included. */
uint32_t oof_reply_both(float width, float height,
                        const uint32_t *styles, size_t styles_len,
                        uint32_t *layouts, size_t layouts_len,
                        uint32_t *working, size_t working_len,
                        uint32_t *unclaimed, size_t unclaimed_len,
                        uint32_t *tally, size_t tally_len,
                        uint32_t *state, uint32_t *answer);

/* Replies to OOF_MEASURE_WIDTH. */
uint32_t oof_reply_width(float width,
                         const uint32_t *styles, size_t styles_len,
                         uint32_t *layouts, size_t layouts_len,
                         uint32_t *working, size_t working_len,
                         uint32_t *unclaimed, size_t unclaimed_len,
                         uint32_t *tally, size_t tally_len,
                         uint32_t *state, uint32_t *answer);

/* Replies to OOF_MEASURE_HEIGHT. */
uint32_t oof_reply_height(float height,
                          const uint32_t *styles, size_t styles_len,
                          uint32_t *layouts, size_t layouts_len,
                          uint32_t *working, size_t working_len,
                          uint32_t *unclaimed, size_t unclaimed_len,
                          uint32_t *tally, size_t tally_len,
                          uint32_t *state, uint32_t *answer);

/* Replies to OOF_LAY_OUT, once the host has laid the node out at the final size: its own scrollable overflow, in x counted
 * from the start edge (leftwards in a right-to-left container), and the candidates that surfaced from within it, whole
 * records in the box's coordinates; they are shifted by the box's location, then claimed or not. They have layers of their
 * own, not the box's. The box's layout is written. A reply refused because a list is full can be made again with fewer
 * records. */
uint32_t oof_reply_laid_out(float left, float right, float top, float bottom,
                            const uint32_t *surfaced, size_t surfaced_len,
                            const uint32_t *styles, size_t styles_len,
                            uint32_t *layouts, size_t layouts_len,
                            uint32_t *working, size_t working_len,
                            uint32_t *unclaimed, size_t unclaimed_len,
                            uint32_t *tally, size_t tally_len,
                            uint32_t *state, uint32_t *answer);

/* ---- previews: another style tried first
 *
 * An editor shows an overlay with a changed style while the live screen stays up. A preview is a run over a copy of the table of
 * styles in which one record is replaced; the copy is never made, and the table stays as it is:
 *
 *     memcpy(style, styles + OOF_STYLE_WORDS * node, sizeof style);           // uint32_t style[OOF_STYLE_WORDS]
 *     oof_set_length(style, OOF_STYLE_INSET_LEFT, OOF_TAG_PX, 200);           // moved
 *     result = oof_preview_open(.., styles, styles_len, node, style, OOF_STYLE_WORDS, .., own_state, own_answer);
 *     while (result == 0 && own_answer[OOF_ANSWER_KIND] != OOF_FINISH)
 *         result = oof_preview_reply_..(.., styles, styles_len, node, style, OOF_STYLE_WORDS, .., own_state, own_answer);
 *
 * Each entry takes what the entry of a run takes that has its name without "preview_", and after the styles
 *   node        whose record is replaced: a whole word, below the number of records in the table
 *   style       the replacement, one record: style_len must be OOF_STYLE_WORDS; only read. It may be a record of the table itself
 * A call that is lent such a node and one record does what that entry does over a copy of the table with the replacement written
 * in at `node`: the same result, state, answer, layouts, lists and tally, bit for bit. So all that is said of a run holds, of
 * questions, counts and the finish too. Each box of the node has the replacement; all other boxes have the live table's words.
 *   - The table and the replacement are only read: no call writes a word of them, whatever its result.
 *   - A preview's layouts, working and unclaimed lists, tally, state and answer are its own. They must not be those of the live run,
 *     which would be written over. With slices of its own a preview may go on between the calls of the live run, before or after
 *     it, and beside other previews.
 *   - Nothing of node and replacement is kept in the state: both are lent at each call. A later call may be lent another
 *     replacement, or another node: it is then the call over the copy with that one, and what earlier calls wrote stays. The same
 *     at each call makes one run over one copy.
 *   - Of the table every record counts but the one that is replaced. A live record in which a word breaks a code rule doesn't
 *     matter at `node`; a replacement with such a word is refused with 3, also where no candidate names the node.
 *     oof_first_bad_word(style, OOF_STYLE_WORDS, found) says which word of a replacement that is.
 * A finished preview is read as a finished run: oof_reach, oof_drawing_order and oof_touch take its own layouts, lists and
 * state, and the live table, of which only the length counts there. To put a tried style into effect, write it into the table,
 * and open a run. */

/* Opens a preview. Refuses with 1, 2, 4, 3, 4, 5, tested in this order: with 2 as oof_open, and where the replacement isn't one
 * record; then with 4 if the table has no such node, which over an empty table is always so; then with 3, 4, 5 as oof_open over the
 * copy. Direction 2 beside a replacement of 78 words is 1; 78 words beside a node that the table hasn't are 2; such a node
 * beside a bad style is 4. What a refused opening leaves in the state is what a run's leaves, with the lengths as lent. */
uint32_t oof_preview_open(float width, float height, float x, float y,
                          uint32_t direction, uint32_t claims, uint32_t overflow_x, uint32_t overflow_y,
                          const uint32_t *styles, size_t styles_len,
                          uint32_t node, const uint32_t *style, size_t style_len,
                          const uint32_t *candidates, size_t candidates_len,
                          uint32_t *layouts, size_t layouts_len,
                          uint32_t *working, size_t working_len,
                          uint32_t *unclaimed, size_t unclaimed_len,
                          uint32_t *tally, size_t tally_len,
                          uint32_t *state, uint32_t *answer);

/* A preview's replies refuse with 2, 4, 6, 3, 4, 5, tested in this order: with 2 as a run's, and where the replacement isn't one
 * record; then with 4 if the table has no such node, also where no question is open; then with 6, 3, 4, 5 as a run's over the copy.
 * A finished preview and a node that the table hasn't are 4, and so are such a node and a word of the tally above the count. */

/* Replies to OOF_MEASURE_BOTH. */
uint32_t oof_preview_reply_both(float width, float height,
                                const uint32_t *styles, size_t styles_len,
                                uint32_t node, const uint32_t *style, size_t style_len,
                                uint32_t *layouts, size_t layouts_len,
                                uint32_t *working, size_t working_len,
                                uint32_t *unclaimed, size_t unclaimed_len,
                                uint32_t *tally, size_t tally_len,
                                uint32_t *state, uint32_t *answer);

/* Replies to OOF_MEASURE_WIDTH. */
uint32_t oof_preview_reply_width(float width,
                                 const uint32_t *styles, size_t styles_len,
                                 uint32_t node, const uint32_t *style, size_t style_len,
                                 uint32_t *layouts, size_t layouts_len,
                                 uint32_t *working, size_t working_len,
                                 uint32_t *unclaimed, size_t unclaimed_len,
                                 uint32_t *tally, size_t tally_len,
                                 uint32_t *state, uint32_t *answer);

/* Replies to OOF_MEASURE_HEIGHT. */
uint32_t oof_preview_reply_height(float height,
                                  const uint32_t *styles, size_t styles_len,
                                  uint32_t node, const uint32_t *style, size_t style_len,
                                  uint32_t *layouts, size_t layouts_len,
                                  uint32_t *working, size_t working_len,
                                  uint32_t *unclaimed, size_t unclaimed_len,
                                  uint32_t *tally, size_t tally_len,
                                  uint32_t *state, uint32_t *answer);

/* Replies to OOF_LAY_OUT. */
uint32_t oof_preview_reply_laid_out(float left, float right, float top, float bottom,
                                    const uint32_t *surfaced, size_t surfaced_len,
                                    const uint32_t *styles, size_t styles_len,
                                    uint32_t node, const uint32_t *style, size_t style_len,
                                    uint32_t *layouts, size_t layouts_len,
                                    uint32_t *working, size_t working_len,
                                    uint32_t *unclaimed, size_t unclaimed_len,
                                    uint32_t *tally, size_t tally_len,
                                    uint32_t *state, uint32_t *answer);

/* ---- boxes that no scrolling brings up */

/* Whether scrolling can bring a box of a finished run into view, and by how little.
 *   place       of the box in the hoisted order, from 0: below state[OOF_STATE_WORKING]
 *   styles, layouts, working, unclaimed, state   as the run's last call left them; only read. Of styles the length counts, of
 *               unclaimed the length and how many records are filled
 *   verdict     written on 0 only
 * OOF_SEEN: there are scroll offsets, across and down, at which box and area share a patch of positive width and height. The
 * verdict has the least on each axis; these two together are such offsets. OOF_UNSEEN: there are none. Each axis is worked out
 * by itself, by exact sums:
 *   - The box is counted from the area's start edge: down from the top, across from the left, in a right-to-left container
 *     leftwards from the right.
 *   - An axis that scrolls (OOF_OVERFLOW_HIDDEN or OOF_OVERFLOW_SCROLL, by its own code) has the offsets 0, 1, 2 and so on,
 *     in eighths of a pixel, up to the overflow rectangle's far edge less the area's size, or 0 alone if that is negative. The
 *     far edges are the finish's right and bottom, in both directions. An axis that doesn't scroll has 0 alone.
 *   - Nothing scrolls before 0: a box that ends at or before the start edge of an axis is unseen.
 *   - To touch is not to share. A box or an area whose width or height is 0 or negative shares nothing.
 * In an area of 8 eighths that scrolls, with a far edge of 24, a box from 20 to 24 is seen at 13; at 12 it touches. With a far
 * edge of 20 the last offset is 12, and the box is unseen.
 * An offset is at most 9,999,998, so that offset / 8.0f is exact. It counts in scroll direction, away from the start edge: a
 * browser's scrollLeft in a right-to-left element is its negative.
 * Refuses with 2, 6, 4, 9, tested in this order:
 *   2   A slice is one that a reply refuses: not whole records, too long, or of another length than at the opening. Or no box
 *       has that place; a run without boxes, and the state of a refused opening, have a box at no place. Lend the run's own
 *       slices, and ask for places below state[OOF_STATE_WORKING].
 *   6   The run isn't finished, or the state counts more filled records than a list has. Answer the open question first, and
 *       lend the state as it came. Its counts of boxes begun and questions answered aren't looked at.
 *   4   A filled record of the working list, this box's or another's, has a node outside the table, a code outside its list or
 *       a layer above OOF_MOST_LAYER. The run left none such: somebody else wrote there. Records of the unclaimed list aren't
 *       looked at.
 *   9   A number isn't one that oof_pixels accepts: the area's width, height, x or y, this box's x, y, width or height, or the
 *       overflow rectangle's left, right, top or bottom, needed or not. Nothing is known of this box then. If the number is
 *       the box's own, other boxes may have answers; if it is the area's or the rectangle's, none has. One box that stands half
 *       an eighth off (see oof_pixels) and reaches farthest is enough for that. A finished run of whole quarter pixels, as
 *       oof_pixels asks for them, has an answer for every box.
 * What it doesn't promise:
 *   - That a seen box has a pixel in view. The patch may be an eighth wide: oof_pixels gives 3 to 4 eighths a pixel, and 4 to 5
 *     eighths none.
 *   - That an unseen box is nowhere on the screen. Visible counts as clip: what is painted outside a visible area isn't seen.
 *   - That nothing covers a seen box, or that the area itself is in view.
 * The words are read as they are: a layout that somebody wrote after the finish counts. A node that was claimed twice has its
 * last layout at both places. */
uint32_t oof_reach(size_t place,
                   const uint32_t *styles, size_t styles_len,
                   const uint32_t *layouts, size_t layouts_len,
                   const uint32_t *working, size_t working_len,
                   const uint32_t *unclaimed, size_t unclaimed_len,
                   const uint32_t *state, uint32_t *verdict);

/* ---- which box is drawn over which */

/* The order in which the boxes of a finished run are drawn: lower layers first, and within one layer the hoisted order.
 *   styles, layouts, working, unclaimed, state   as the run's last call left them; only read. Of styles and layouts the lengths
 *               count, of unclaimed the length and how many records are filled
 *   order       one word a box: order_len must be state[OOF_STATE_WORKING]. Written on 0 only
 * Each word is a place in the hoisted order, from 0, and not a node: order[0] is the place of the box that is drawn first,
 * under all others, and the last word is that of the box over all others. Each place below order_len stands there exactly once.
 * Nodes 5, 5, 2 with layers 1, 0, 0 have the order 1, 2, 0. To draw the boxes:
 *
 *     static uint32_t order[OOF_MOST_RECORDS]; // as many as there can be
 *     size_t boxes = state[OOF_STATE_WORKING];
 *     if (oof_drawing_order(styles, styles_len, .., state, order, boxes) == OOF_ACCEPTED)
 *         for (size_t k = 0; k < boxes; k++) {
 *             uint32_t node = working[OOF_CANDIDATE_WORDS * order[k] + OOF_CANDIDATE_NODE];
 *             draw(node, layouts + OOF_LAYOUT_WORDS * node);
 *         }
 *
 * A node that was claimed twice has two places and is drawn twice, both times with its last layout, on the layer of each place.
 * A run without boxes, and the state of a refused opening, have an order of 0 words, and nothing is written. The pointer isn't
 * null there either.
 * Refuses with 2, 6, 4, tested in this order:
 *   2   A slice is one that a reply refuses: not whole records, too long, or of another length than at the opening. Or
 *       order_len isn't state[OOF_STATE_WORKING], also where 6 would come next. Lend the run's own slices, and an order of that
 *       many words.
 *   6   The run isn't finished, or the state counts more filled records than a list has. Answer the open question first, and
 *       lend the state as it came. Its counts of boxes begun and questions answered aren't looked at.
 *   4   A filled record of the working list has a node outside the table, a code outside its list or a layer above
 *       OOF_MOST_LAYER. The run left none such: somebody else wrote there. Records of the unclaimed list aren't looked at.
 * It reads no float: boxes that oof_pixels, oof_reach and oof_touch refuse with 9 are drawn in their turn too. The words are
 * read as they are: a layer that somebody wrote into the working list after the finish counts.
 * What it doesn't promise: that a box hides what it is drawn over, or that two boxes overlap at all.
 * Its time grows with the boxes times the layers in use, however high these are. */
uint32_t oof_drawing_order(const uint32_t *styles, size_t styles_len,
                           const uint32_t *layouts, size_t layouts_len,
                           const uint32_t *working, size_t working_len,
                           const uint32_t *unclaimed, size_t unclaimed_len,
                           const uint32_t *state, uint32_t *order, size_t order_len);

/* ---- what a touch driver reads */

/* The boxes of a finished run as a touch driver reads them: five words a box, in hoisted order.
 *   styles, layouts, working, unclaimed, state   as the run's last call left them; only read. Of styles the length counts, of
 *               unclaimed the length and how many records are filled, of a box's layout x, y, width and height
 *   words       five words a box: words_len must be OOF_TOUCH_WORDS * state[OOF_STATE_WORKING]. Written on 0 only
 * The words of the box at place k begin at word OOF_TOUCH_WORDS * k: its node, then the pixel edges of its layout, left, right,
 * top and bottom. They are those of oof_pixels, counted from the left and top edge of the run's area, each as a word: -1 is
 * FFFFFFFF hex. A box of 8 by 8 eighths at -5, 0 eighths from that corner has the words node, FFFFFFFF, 0, 0, 1.
 * A box covers the pixel x, y, counted from there too, where left <= x < right and top <= y < bottom; it covers none where its
 * width or height is 0 or negative. Of the boxes that cover a pixel, the one that is drawn last is touched:
 *
 *     static uint32_t words[OOF_TOUCH_WORDS * OOF_MOST_RECORDS], order[OOF_MOST_RECORDS]; // as many as there can be
 *     size_t boxes = state[OOF_STATE_WORKING];
 *     if (oof_touch(styles, styles_len, .., state, words, OOF_TOUCH_WORDS * boxes) == OOF_ACCEPTED &&
 *         oof_drawing_order(styles, styles_len, .., state, order, boxes) == OOF_ACCEPTED)
 *         for (size_t k = boxes; k > 0; k--) {
 *             const uint32_t *box = words + OOF_TOUCH_WORDS * order[k - 1];
 *             if (covers(box, x, y)) // of edges as oof_signed reads them
 *                 return box[OOF_TOUCH_NODE];
 *         }
 *
 * A node that was claimed twice stands there twice, at each of its places, both times with its one layout, the last. A run without
 * boxes, and the state of a refused opening, have 0 words, and nothing is written. The pointer isn't null there either.
 * A driver can't tell apart two runs whose areas have the same x and y, with the same hoisted order and, at each of its nodes, the
 * same x, y, width and height (0 and -0 are the same): the words are identical, or both are refused with 9. Padding, border,
 * margins, scrollbars, child overflow and order of their layouts may be any, the area's size and direction, layers, styles and the
 * layouts of other nodes too.
 * Refuses with 2, 6, 4, 9, tested in this order:
 *   2   A slice is one that a reply refuses: not whole records, too long, or of another length than at the opening. Or
 *       words_len isn't five for each of the state[OOF_STATE_WORKING] boxes, also where 6 would come next. Lend the run's own
 *       slices, and that many words.
 *   6   The run isn't finished, or the state counts more filled records than a list has. Answer the open question first, and
 *       lend the state as it came. Its counts of boxes begun and questions answered aren't looked at.
 *   4   A filled record of the working list has a node outside the table, a code outside its list or a layer above
 *       OOF_MOST_LAYER. The run left none such: somebody else wrote there. Records of the unclaimed list aren't looked at.
 *   9   A number isn't one that oof_pixels accepts: some box's x, y, width or height, or the area's x or y. One such box refuses
 *       the whole list, and no word is written of any other: oof_pixels says which box it is, and gives the others' edges; for a bad
 *       x or y of the area it refuses each box. Auto margins that share an odd count of eighths put their box on a sixteenth (see
 *       oof_pixels), and then there are no words for the driver at all. A finished run of whole quarter pixels, as oof_pixels asks
 *       for them, isn't refused. The area's width and height aren't read, nor are layouts of nodes without a box; where there is no
 *       box at all, x and y may be any.
 * The words are read as they are: a layout that somebody wrote after the finish counts. Edges are not mirrored (see oof_pixels). */
uint32_t oof_touch(const uint32_t *styles, size_t styles_len,
                   const uint32_t *layouts, size_t layouts_len,
                   const uint32_t *working, size_t working_len,
                   const uint32_t *unclaimed, size_t unclaimed_len,
                   const uint32_t *state, uint32_t *words, size_t words_len);

/* ---- whole pixels */

/* The pixel edges of a box, counted from the left and top edge of an area at x, y: left, right, top and bottom, by exact
 * sums. An edge of n eighths of a pixel goes to the floor of (n + 4) / 8, also below zero: to the nearest pixel edge, and a
 * half to the right or down. -5, -4, 3 and 4 eighths go to -1, 0, 0 and 1.
 *   layout      one record. Its x, y, width and height are read, as they stand; the other words may hold any bits. A node that
 *               no run placed has whatever words the host left there
 *   x, y        the area's offset, as it was given to oof_open
 *   edges       written on 0 only, each within 3,750,000 of 0
 * The box covers the pixels from left up to, and not including, right, and so from top to bottom. No size is rounded by
 * itself: boxes of one area that touch before still touch, and one of less than a pixel may have none (4 to 11 eighths: left
 * and right are 1). Boxes of two areas needn't: an edge at 12 eighths is 2 in an area at 0, and 1 in one at 3 eighths, which
 * itself is drawn at pixel 0. Negative sizes are taken: the right edge is then left of the left one, or equal to it, and the
 * bottom one above the top one, or equal to it.
 * Refuses with 9 unless each of the six numbers is a whole eighth of a pixel, and at most 9,999,999 eighths (1,249,999.875
 * pixels) in size. A run whose area, lengths, scrollbar widths, static areas and replies are whole quarter pixels of at most
 * 4,096, without percentage, sum and ratio and without surfaced boxes that are claimed, has no box that is refused, while
 * nobody else writes the lent words.
 *   - A centered box whose free space is an odd count of eighths stands half an eighth off, and gets 9: in an area of 800 at
 *     0, with left and right inset 0, auto margins and width 100.125, x is 349.9375.
 *   - Pixel edges are not mirrored: a half goes to the right in a right-to-left area too. In an area of 16 eighths a box from
 *     4 to 12 eighths is its own mirror image. Its edges are 1 and 2; the mirror image of these would be 0 and 1. */
uint32_t oof_pixels(const uint32_t *layout, float x, float y, int32_t *edges);

/* ---- a table of styles that is being edited */

/* The first word of a table of styles that breaks a code rule: of the first item that has one, the first in the order of the
 * words. An editor, in which half-typed styles are common, can point at it.
 *   styles      item after item, any number of words; only read. The walk ends at the word found. A trailing part of a record
 *               isn't looked at, items above OOF_MOST_ITEMS are: extents are for a run to refuse
 *   found       written on 1 only: which item, and which word of its style, each from 0 and modulo 2^32. oof_style_word_name
 *               has the word's name
 * The result is 1 if there is such a word, and 0 if there is none. It is no refusal: 1 isn't OOF_BAD_AREA here, and any words
 * have an answer. Which words break a rule:
 *   - A tag that its field doesn't take. Whole words are compared: 257 is no OOF_TAG_PX, and 385 no OOF_TAG_SUM.
 *   - A code above the last of its list: above 1 for ratio present, box sizing and direction, 3 for the flags and either
 *     overflow, 10 for justify and align, 255 for contain.
 *   - A safety above 2, unless the keyword before it is OOF_ALIGN_ABSENT. With a keyword of 11 and a safety of 7 the keyword is
 *     the first, with 9 and 7 the safety, and with 10 and 7 neither is bad.
 *   - No float: values, second values, ratio and scrollbar width may hold any bits, those of a NaN too.
 * An opening or a reply is refused with OOF_BAD_STYLE exactly if this entry gives 1 for its table (of a preview: for the copy) and
 * none of the tests before that one refuses it: 1 and 2 of an opening, 2 and 6 of a reply, and a preview's node. */
uint32_t oof_first_bad_word(const uint32_t *styles, size_t styles_len, uint32_t *found);

#ifdef __cplusplus
}
#endif

#endif
