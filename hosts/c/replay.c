/* Replays stored runs through the entries. Standard input has openings and replies, damaged ones among them; what is answered
 * and written is printed, and at the end what a touch driver reads. run.sh holds it to replay.stdout: what the published Rust
 * answered or, where request #106 doesn't compare with the Rust, the second implementation, or the refusal that document 01
 * names. With an argument, `preview`, each run is played as a preview, and must come to the same: one record of its table is lent
 * as the replacement, and in the table noise stands in its place; a run over an empty table, of which there is no preview, ends the
 * program. Exits with 1 where a call, refused or not, wrote a word that it must keep, or where the input is no such runs.
 *
 * replay.stdin, in hexadecimal words (tools/samples/replays.py writes it, and replay.stdout): the number of openings, each with
 * its replies, and of each
 *   - the lengths of styles, candidates, layouts, working and unclaimed list, and tally;
 *   - the area's width, height, x and y; direction, claims, overflow x and y;
 *   - the words of the styles and of the candidates;
 *   - the number of its replies, and of each
 *       - what is forged of the state (see forge), and the number that it gets;
 *       - a place in the styles and the word that is written there, then the same for the working list and for the tally; ffffffff
 *         is no place;
 *       - its kind (see reply), four words of values, the length of what surfaced, and its words. */
#include <inttypes.h>
#include <stdio.h>
#include <stdlib.h>
#include "oof.h"

enum { ROOM = 20 * OOF_CANDIDATE_WORDS, BEYOND = 4, NOISE = 0x5A };

/* the kinds of reply, as replay.stdin has them */
enum { REPLY_BOTH, REPLY_WIDTH, REPLY_HEIGHT, REPLY_LAID_OUT };

typedef struct {
    uint32_t length, words[ROOM];
} slice;

/* What the calls of a run are lent, and words beyond it that no call may write: 32-bit words and no padding, so that two
 * compare as bytes. */
typedef struct {
    slice styles, candidates, surfaced, layouts, working, unclaimed, tally;
    uint32_t node;
    slice table, style; /* of a preview, in place of the styles */
    uint32_t state[OOF_STATE_WORDS], beyond_state[BEYOND], answer[OOF_ANSWER_WORDS], beyond_answer[BEYOND];
} lent;

#define SLICE(s) (s).words, (s).length
#define FINISHED(w) SLICE((w)->styles), SLICE((w)->layouts), SLICE((w)->working), SLICE((w)->unclaimed), (w)->state
#define WRITTEN(w) SLICE((w)->layouts), SLICE((w)->working), SLICE((w)->unclaimed), SLICE((w)->tally), (w)->state, (w)->answer

/* of a preview: the table, the node and the replacement */
#define TRIED(w) SLICE((w)->table), (w)->node, SLICE((w)->style)

static int are_previews;
static uint32_t opening_number;

static void must(int so, const char *else_what)
{
    if (!so) {
        fprintf(stderr, "hosts/c: stored opening %" PRIu32 ": %s\n", opening_number, else_what);
        exit(EXIT_FAILURE);
    }
}

/* ---- input */

static uint32_t read_word(void)
{
    uint32_t word;
    must(scanf("%8" SCNx32, &word) == 1, "the input has no word where one must stand");
    return word;
}

static void read_floats(float floats[4])
{
    for (size_t i = 0; i < 4; i++)
        floats[i] = oof_float(read_word());
}

static void read_length(slice *s)
{
    s->length = read_word();
    must(s->length <= ROOM, "a slice is longer than its room");
}

static void read_words(slice *s)
{
    for (size_t i = 0; i < s->length; i++)
        s->words[i] = read_word();
}

/* ---- output */

/* either zero is 0: the Rust leaves a zero's sign open */
static void print_word(uint32_t word)
{
    printf(" %" PRIx32, word == 0x80000000 ? 0 : word);
}

static void print_words(const char *name, const slice *s)
{
    printf("%s", name);
    for (size_t i = 0; i < s->length; i++)
        print_word(s->words[i]);
    putchar('\n');
}

/* a known size, or none; then its float is 0 */
static void print_known(const uint32_t side[2])
{
    if (side[0] == OOF_KNOWN) {
        print_word(side[1]);
    } else {
        must(side[0] == OOF_NOT_KNOWN && side[1] == 0, "a known size is of no kind, or none and not 0");
        printf(" none");
    }
}

/* a space, or a keyword; then its float is 0 */
static void print_space(const uint32_t side[2])
{
    if (side[0] == OOF_SPACE_DEFINITE) {
        print_word(side[1]);
    } else {
        must(side[0] <= OOF_SPACE_MAX_CONTENT && side[1] == 0, "a space is of no kind, or a keyword and not 0");
        printf("%s", side[0] == OOF_SPACE_MIN_CONTENT ? " min" : " max");
    }
}

static void print_question(const uint32_t *answer)
{
    static const char *const names[] = {[OOF_MEASURE_BOTH] = "both", [OOF_MEASURE_WIDTH] = "width",
                                        [OOF_MEASURE_HEIGHT] = "height", [OOF_LAY_OUT] = "layout"};
    must(answer[OOF_ANSWER_KIND] <= OOF_LAY_OUT, "the answer is of no kind");
    printf("%s", names[answer[OOF_ANSWER_KIND]]);
    print_word(answer[OOF_QUESTION_NODE]);
    print_known(answer + OOF_QUESTION_KNOWN_WIDTH);
    print_known(answer + OOF_QUESTION_KNOWN_HEIGHT);
    print_space(answer + OOF_QUESTION_AVAILABLE_WIDTH);
    print_space(answer + OOF_QUESTION_AVAILABLE_HEIGHT);
    putchar('\n');
}

static void print_finish(const uint32_t *answer)
{
    printf("finish");
    for (size_t side = OOF_FINISH_LEFT; side <= OOF_FINISH_BOTTOM; side++)
        print_word(answer[side]);
    for (size_t rest = OOF_FINISH_BOTTOM + 1; rest < OOF_ANSWER_WORDS; rest++)
        must(answer[rest] == 0, "a finish has a word behind its last that isn't 0");
    printf(" %" PRIu32 "\n", answer[OOF_FINISH_COUNT]);
}

/* what a call answered, and the counts that then stand in the state */
static void print_call(uint32_t result, const lent *w)
{
    if (result != OOF_ACCEPTED)
        printf("refused %" PRIu32 "\n", result);
    else if (w->answer[OOF_ANSWER_KIND] == OOF_FINISH)
        print_finish(w->answer);
    else
        print_question(w->answer);
    printf("counts");
    for (size_t count = OOF_STATE_WORKING; count <= OOF_STATE_ANSWERED; count++)
        printf(" %" PRIu32, w->state[count]);
    putchar('\n');
}

/* ---- damage by the host, before a reply */

/* a state that no call wrote: one of its words gets another number */
static void forge(uint32_t *state)
{
    static const size_t places[] = {0, /* nothing is forged */
                                    OOF_STATE_PROGRESS, OOF_STATE_WORKING, OOF_STATE_UNCLAIMED, OOF_STATE_BEGUN,
                                    OOF_STATE_ANSWERED, OOF_STATE_LENGTHS, OOF_STATE_LENGTHS + 1, OOF_STATE_LENGTHS + 2,
                                    OOF_STATE_LENGTHS + 3, OOF_STATE_LENGTHS + 4};
    uint32_t what = read_word();
    uint32_t number = read_word();
    must(what < sizeof places / sizeof *places, "no such word of the state");
    if (what != 0)
        state[places[what]] = number;
}

static void rewrite(slice *s)
{
    uint32_t place = read_word();
    uint32_t word = read_word();
    if (place < s->length)
        s->words[place] = word;
}

/* ---- calls */

static void take_words(slice *to, const slice *from)
{
    memcpy(to->words, from->words, to->length * sizeof *to->words);
}

/* what an accepted call may write; all else must be as before, and so must what lies beyond a slice's length */
static void take_written(lent *to, const lent *from)
{
    take_words(&to->layouts, &from->layouts);
    take_words(&to->working, &from->working);
    take_words(&to->unclaimed, &from->unclaimed);
    take_words(&to->tally, &from->tally);
    memcpy(to->state, from->state, sizeof to->state);
    memcpy(to->answer, from->answer, sizeof to->answer);
}

static int same(const lent *a, const lent *b)
{
    return memcmp(a, b, sizeof *a) == 0;
}

/* For a preview: the table that is lent has noise at the node, and the replacement is what stands there in the styles. */
static void set_apart(lent *w)
{
    const uint32_t items = w->styles.length / OOF_STYLE_WORDS;
    must(items > 0, "its table has no item that a preview could replace");
    w->node = opening_number % items;
    w->table = w->styles;
    uint32_t *record = w->table.words + w->node * OOF_STYLE_WORDS;
    memset(&w->style, NOISE, sizeof w->style);
    w->style.length = OOF_STYLE_WORDS;
    memcpy(w->style.words, record, OOF_STYLE_WORDS * sizeof *record);
    memset(record, NOISE, OOF_STYLE_WORDS * sizeof *record);
}

static uint32_t open_any(const float area[4], const uint32_t codes[4], lent *w)
{
    if (are_previews)
        return oof_preview_open(area[0], area[1], area[2], area[3], codes[0], codes[1], codes[2], codes[3], TRIED(w),
                                SLICE(w->candidates), WRITTEN(w));
    return oof_open(area[0], area[1], area[2], area[3], codes[0], codes[1], codes[2], codes[3], SLICE(w->styles),
                    SLICE(w->candidates), WRITTEN(w));
}

static void play_opening(lent *w)
{
    float area[4];
    uint32_t codes[4];
    read_floats(area);
    for (size_t i = 0; i < 4; i++)
        codes[i] = read_word();
    read_words(&w->styles);
    read_words(&w->candidates);
    if (are_previews)
        set_apart(w);
    lent before = *w;
    uint32_t result = open_any(area, codes, w);
    print_call(result, w);
    if (result == OOF_ACCEPTED) {
        take_written(&before, w);
        must(same(&before, w), "an opening wrote beyond what it may write");
    } else {
        memcpy(before.state, w->state, sizeof before.state);
        must(same(&before, w), "a refused opening wrote a word that isn't the state's");
    }
}

/* What surfaced is lent with the last kind only. */
static uint32_t reply(uint32_t kind, const float values[4], lent *w)
{
    switch (kind) {
    case REPLY_BOTH: return oof_reply_both(values[0], values[1], SLICE(w->styles), WRITTEN(w));
    case REPLY_WIDTH: return oof_reply_width(values[0], SLICE(w->styles), WRITTEN(w));
    case REPLY_HEIGHT: return oof_reply_height(values[0], SLICE(w->styles), WRITTEN(w));
    default:
        must(kind == REPLY_LAID_OUT, "no such kind of reply");
        return oof_reply_laid_out(values[0], values[1], values[2], values[3], SLICE(w->surfaced), SLICE(w->styles),
                                  WRITTEN(w));
    }
}

static uint32_t preview_reply(uint32_t kind, const float values[4], lent *w)
{
    switch (kind) {
    case REPLY_BOTH: return oof_preview_reply_both(values[0], values[1], TRIED(w), WRITTEN(w));
    case REPLY_WIDTH: return oof_preview_reply_width(values[0], TRIED(w), WRITTEN(w));
    case REPLY_HEIGHT: return oof_preview_reply_height(values[0], TRIED(w), WRITTEN(w));
    default:
        must(kind == REPLY_LAID_OUT, "no such kind of reply");
        return oof_preview_reply_laid_out(values[0], values[1], values[2], values[3], SLICE(w->surfaced), TRIED(w), WRITTEN(w));
    }
}

/* After a refusal the host goes on with the state as it was before it was forged. */
static void play_reply(lent *w)
{
    uint32_t kept[OOF_STATE_WORDS];
    float values[4];
    memcpy(kept, w->state, sizeof kept);
    forge(w->state);
    rewrite(&w->styles);
    rewrite(&w->working);
    rewrite(&w->tally);
    uint32_t kind = read_word();
    read_floats(values);
    memset(&w->surfaced, NOISE, sizeof w->surfaced);
    read_length(&w->surfaced);
    read_words(&w->surfaced);
    if (are_previews)
        set_apart(w);
    lent before = *w;
    uint32_t result = are_previews ? preview_reply(kind, values, w) : reply(kind, values, w);
    print_call(result, w);
    if (result == OOF_ACCEPTED) {
        take_written(&before, w);
        must(same(&before, w), "a reply wrote beyond what it may write");
    } else {
        must(same(&before, w), "a refused reply wrote a word");
        memcpy(w->state, kept, sizeof kept);
    }
}

/* The run is finished, or the opening was refused. */
static void print_touch(const lent *w)
{
    lent before = *w;
    slice words, noise;
    memset(&words, NOISE, sizeof words);
    words.length = OOF_TOUCH_WORDS * w->state[OOF_STATE_WORKING];
    must(words.length <= ROOM, "there are more boxes than room for a touch driver's words");
    noise = words;
    uint32_t result = oof_touch(FINISHED(w), SLICE(words));
    if (result == OOF_ACCEPTED)
        print_words("touch", &words);
    else
        printf("touch refused %" PRIu32 "\n", result);
    must(same(&before, w), "a call for a touch driver wrote a word that it may only read");
    if (result == OOF_ACCEPTED)
        take_words(&noise, &words);
    must(memcmp(&noise, &words, sizeof words) == 0, "a call for a touch driver wrote beyond its words, or though it was refused");
}

/* An opening and its replies. Layouts and lists begin as zeros; tally, state, answer and what lies beyond as noise. */
static void play_run(void)
{
    lent w;
    memset(&w, NOISE, sizeof w);
    read_length(&w.styles);
    read_length(&w.candidates);
    slice *written[] = {&w.layouts, &w.working, &w.unclaimed};
    for (size_t i = 0; i < 3; i++) {
        read_length(written[i]);
        memset(written[i]->words, 0, written[i]->length * sizeof(uint32_t));
    }
    read_length(&w.tally);
    play_opening(&w);
    for (uint32_t replies = read_word(); replies > 0; replies--)
        play_reply(&w);
    print_words("layouts", &w.layouts);
    print_words("working", &w.working);
    print_words("unclaimed", &w.unclaimed);
    print_words("tally", &w.tally);
    print_touch(&w);
}

int main(int arguments, char **argument)
{
    char more;
    are_previews = arguments > 1 && strcmp(argument[1], "preview") == 0;
    uint32_t openings = read_word();
    for (opening_number = 1; opening_number <= openings; opening_number++)
        play_run();
    must(scanf(" %c", &more) == EOF, "the input goes on after the last run");
    return EXIT_SUCCESS;
}
