/*
 * A bench in C: plays the scope paper's worked script by calls and prints what the script player prints for it, then
 * a batch and its answers, then a drain in write-through, then drains to two words of a line and their flush, then marks
 * that are set and returned to, then loads that wait, their line requested or not, then loads fed from held stores, then
 * previews and their replies, then a ways study. It checks the boundary: words, what the image tells, refused calls, numbers
 * that no call and no profile has, loads that wait, loads fed from held stores, previews, dirty marks, checkpoints, both
 * profiles, show line, batches, and studies. Exits with 1, and a line on standard error, where a check fails.
 */
#include "nicoisetarn.h"

#include <stdio.h>
#include <stdlib.h>

/* All that a bench owns: one set, one way, 32 bytes of memory. */
typedef struct {
    nicoisetarn_image image;
    uint8_t cache[NICOISETARN_CACHE_BYTES(1, 1)];
    uint8_t memory[32];
} bench;

NICOISETARN_ASSERT(sizeof(bench) == NICOISETARN_IMAGE_BYTES + 48, "a bench has no bytes between its parts");

/* The bench, as it is lent to each call. */
static nicoisetarn_unit lent(bench *b) {
    return (nicoisetarn_unit){&b->image, b->cache, sizeof b->cache, b->memory, sizeof b->memory};
}

#define CHECK(holds)                                                            \
    do {                                                                        \
        if (!(holds)) {                                                         \
            fprintf(stderr, "%s:%d: not so: %s\n", __FILE__, __LINE__, #holds); \
            exit(1);                                                            \
        }                                                                       \
    } while (0)

/* An answer of at most two numbers. */
static nicoisetarn_answer answer_of(uint32_t kind, uint32_t first, uint32_t second) {
    return (nicoisetarn_answer){kind, first, second, 0, 0, 0};
}

/* It is this one. */
static int same(nicoisetarn_answer answer, uint32_t kind, uint32_t first, uint32_t second) {
    const nicoisetarn_answer wanted = answer_of(kind, first, second);
    return memcmp(&answer, &wanted, sizeof answer) == 0;
}

/* ---- 01's worked script */

/* How many numbers an answer of a kind has. */
static int numbers_of(uint32_t kind) {
    switch (kind) {
    case NICOISETARN_KIND_IDLE:
    case NICOISETARN_KIND_READY:
    case NICOISETARN_KIND_RAN:
    case NICOISETARN_KIND_NO_SUCH_CALL:
        return 0;
    case NICOISETARN_KIND_VALUE:
    case NICOISETARN_KIND_SHOWN:
        return 2;
    case NICOISETARN_KIND_PREVIEWED:
        return 5;
    default:
        return 1;
    }
}

/* Prints an answer, as the script player does where it has one. */
static void print(nicoisetarn_answer answer) {
    const uint32_t numbers[] = {answer.first, answer.second, answer.third, answer.fourth, answer.fifth};
    CHECK(*nicoisetarn_kind_word(answer.kind) != '\0');
    fputs(nicoisetarn_kind_word(answer.kind), stdout);
    for (int place = 0; place < numbers_of(answer.kind); place++) {
        printf(" %lu", (unsigned long)numbers[place]);
    }
    putchar('\n');
}

/* Zeroes the memory; the image and the cache bytes before a start may be anything. */
static void clear(bench *b) {
    memset(&b->image, 0xA5, sizeof b->image);
    memset(b->cache, 0xA5, sizeof b->cache);
    memset(b->memory, 0, sizeof b->memory);
}

/* G 1 1 32. */
static nicoisetarn_answer start(bench *b) {
    nicoisetarn_unit unit = lent(b);
    clear(b);
    return nicoisetarn_start(&unit, 1, 1);
}

/* The same in a profile. */
static nicoisetarn_answer start_with(bench *b, uint32_t profile) {
    nicoisetarn_unit unit = lent(b);
    clear(b);
    return nicoisetarn_start_with(&unit, 1, 1, profile);
}

/* The script, line by line. */
static void play(bench *b) {
    nicoisetarn_unit unit = lent(b);
    print(start(b));                         /* G 1 1 32 */
    print(nicoisetarn_store(&unit, 4, 1, 7)); /* S 4 1 7 */
    print(nicoisetarn_load(&unit, 4, 1));    /* L 4 1 */
    print(nicoisetarn_load(&unit, 5, 1));    /* L 5 1 */
    print(nicoisetarn_abort(&unit, 3));      /* X 3 */
    print(nicoisetarn_commit(&unit, 2));     /* C 2 */
    print(nicoisetarn_idle(&unit));          /* I */
    print(nicoisetarn_reply(&unit));         /* R */
    print(nicoisetarn_idle(&unit));          /* I */
    print(nicoisetarn_flush(&unit));         /* F */
    print(nicoisetarn_load(&unit, 5, 1));    /* L 5 1 */
}

/* ---- a batch, printed */

static const uint32_t listed[] = {
    NICOISETARN_CALL_STORE, 4, 1, 7, 0, 0,
    NICOISETARN_CALL_LOAD, 4, 1, 0, 0, 0,
    NICOISETARN_CALL_LOAD, 4, 3, 0, 0, 0,        /* refused: 3 is no width */
    NICOISETARN_CALL_PREVIEW + 1, 4, 1, 0, 0, 0, /* no such call */
    NICOISETARN_CALL_CHECKPOINT, 6, 0, 0, 0, 0,
    NICOISETARN_CALL_STORE, 4, 1, 9, 0, 0,
    NICOISETARN_CALL_RESTORE, 6, 0, 0, 0, 0, /* that store is dropped */
    NICOISETARN_CALL_COMMIT, 2, 0, 0, 0, 0,
    NICOISETARN_CALL_IDLE, 0, 0, 0, 0, 0,
    NICOISETARN_CALL_PREVIEW, 0, 0, 0, 0, 0, /* way 0, which is invalid */
    NICOISETARN_CALL_REPLY, 0, 0, 0, 0, 0,
    NICOISETARN_CALL_IDLE, 0, 0, 0, 0, 0,
    NICOISETARN_CALL_FLUSH, 0, 0, 0, 0, 0,
    NICOISETARN_CALL_SHOW_LINE, 4, 0, 0, 0, 0,
};

enum { LISTED = sizeof listed / sizeof *listed / NICOISETARN_CALL_STRIDE };

static void play_batch(bench *b) {
    uint32_t answers[LISTED * NICOISETARN_ANSWER_STRIDE] = {0};
    nicoisetarn_unit unit = lent(b);
    print(start(b));
    print(nicoisetarn_run(&unit, listed, answers, LISTED));
    for (size_t place = 0; place < LISTED; place++) {
        print(nicoisetarn_answer_at(answers, place));
    }
    CHECK(nicoisetarn_shown(&unit, nicoisetarn_answer_at(answers, LISTED - 1))[4] == 7);
}

/* ---- a drain in write-through, printed */

/* All of so many bytes are zero. */
static int all_zero(const uint8_t *bytes, size_t length) {
    for (size_t at = 0; at < length; at++) {
        if (bytes[at] != 0) {
            return 0;
        }
    }
    return 1;
}

static void play_write_through(bench *b) {
    nicoisetarn_unit unit = lent(b);
    print(start_with(b, NICOISETARN_WRITE_THROUGH));
    print(nicoisetarn_store(&unit, 20, 1, 7)); /* its line is absent */
    print(nicoisetarn_commit(&unit, 1));
    print(nicoisetarn_idle(&unit)); /* and is not asked for */
    CHECK(b->memory[20] == 7);
    CHECK(all_zero(b->cache, sizeof b->cache));
    print(nicoisetarn_flush(&unit));
    const bench before = *b;
    print(nicoisetarn_start_with(&unit, 1, 1, NICOISETARN_WRITE_THROUGH + 1)); /* no such profile */
    CHECK(memcmp(b, &before, sizeof before) == 0);
}

/* ---- dirty words, printed */

static void play_dirty_words(bench *b) {
    nicoisetarn_unit unit = lent(b);
    print(start(b));
    print(nicoisetarn_store(&unit, 1, 1, 7));      /* to word 0 of line 0 */
    print(nicoisetarn_store(&unit, 8, 4, 0x8090)); /* to word 2 */
    print(nicoisetarn_store(&unit, 2, 2, 9));      /* to word 0 again */
    print(nicoisetarn_commit(&unit, 3));
    print(nicoisetarn_idle(&unit));
    print(nicoisetarn_reply(&unit));
    print(nicoisetarn_idle(&unit));
    print(nicoisetarn_idle(&unit));
    print(nicoisetarn_idle(&unit));
    const nicoisetarn_tag tag = nicoisetarn_tag_at(&b->image, 0);
    CHECK(tag.dirty == (1 | 1 << 2));
    CHECK(nicoisetarn_is_dirty(tag, 0) && !nicoisetarn_is_dirty(tag, 1) && nicoisetarn_is_dirty(tag, 2));
    CHECK(nicoisetarn_dirty_words(tag) == 2);
    CHECK(all_zero(b->memory, sizeof b->memory));
    print(nicoisetarn_flush(&unit)); /* two words, and not three stores or one line */
    CHECK(nicoisetarn_tag_at(&b->image, 0).dirty == 0);
    CHECK(b->memory[1] == 7 && b->memory[2] == 9 && b->memory[8] == 0x90 && b->memory[9] == 0x80);
    CHECK(memcmp(b->memory, b->cache, NICOISETARN_LINE) == 0);
}

/* ---- checkpoints, printed */

/* The marks in force are these, in order of setting; all other places are free. */
static void check_marks(const nicoisetarn_image *image, const nicoisetarn_mark *wanted, size_t count) {
    const nicoisetarn_mark none = {0, 0, 0};
    for (size_t place = 0; place <= NICOISETARN_CHECKPOINTS; place++) {
        const nicoisetarn_mark found = nicoisetarn_mark_at(image, place);
        CHECK(memcmp(&found, place < count ? &wanted[place] : &none, sizeof found) == 0);
    }
}

static void play_checkpoints(bench *b) {
    const nicoisetarn_mark marks[] = {{3, 2, 1}, {1, 4, 2}};
    nicoisetarn_unit unit = lent(b);
    print(start(b));
    print(nicoisetarn_store(&unit, 4, 1, 7));
    const bench before = *b;
    print(nicoisetarn_checkpoint(&unit, 3)); /* at the next number */
    check_marks(&b->image, marks, 1);
    print(nicoisetarn_store(&unit, 4, 1, 8));
    print(nicoisetarn_load(&unit, 4, 1));    /* the new value */
    print(nicoisetarn_checkpoint(&unit, 1)); /* a second mark */
    check_marks(&b->image, marks, 2);
    print(nicoisetarn_checkpoint(&unit, 9)); /* no name */
    print(nicoisetarn_checkpoint(&unit, 3)); /* in use */
    print(nicoisetarn_restore(&unit, 2));    /* not in use */
    check_marks(&b->image, marks, 2);
    print(nicoisetarn_restore(&unit, 3)); /* as an abort at 2 */
    check_marks(&b->image, marks, 0);     /* both are gone */
    CHECK(memcmp(b, &before, sizeof before) == 0);
    print(nicoisetarn_load(&unit, 4, 1)); /* the old value; the number is given again */
}

/* ---- loads that wait, printed */

static void play_waits(bench *b) {
    nicoisetarn_unit unit = lent(b);
    print(start(b));
    print(nicoisetarn_load(&unit, 24, 1)); /* line 1 */
    print(nicoisetarn_load(&unit, 20, 2)); /* line 1 again */
    print(nicoisetarn_commit(&unit, 1));
    print(nicoisetarn_retry(&unit, 2));    /* nobody has requested it */
    print(nicoisetarn_idle(&unit));        /* now it is, for load 1 */
    print(nicoisetarn_retry(&unit, 2));    /* load 2, uncommitted, says so too */
    print(nicoisetarn_load(&unit, 4, 1));  /* line 0 */
    print(nicoisetarn_load(&unit, 28, 4)); /* line 1: said at once */
    print(nicoisetarn_reply(&unit));
    print(nicoisetarn_retry(&unit, 4));
    print(nicoisetarn_retry(&unit, 3)); /* nobody has requested line 0 */
}

/* ---- one set of two ways, 48 bytes of memory */

typedef struct {
    nicoisetarn_image image;
    uint8_t cache[NICOISETARN_CACHE_BYTES(1, 2)];
    uint8_t memory[48];
} two_ways;

NICOISETARN_ASSERT(sizeof(two_ways) == NICOISETARN_IMAGE_BYTES + 80, "no bytes between the parts of two ways");

static nicoisetarn_unit lent_two(two_ways *b) {
    return (nicoisetarn_unit){&b->image, b->cache, sizeof b->cache, b->memory, sizeof b->memory};
}

static void start_two(two_ways *b, uint32_t profile) {
    nicoisetarn_unit unit = lent_two(b);
    memset(b, 0, sizeof *b);
    CHECK(nicoisetarn_start_with(&unit, 1, 2, profile).kind == NICOISETARN_KIND_READY);
}

/* An absent line is requested for a load of its first byte, and all is committed. */
static void request(nicoisetarn_unit *unit, uint32_t line) {
    CHECK(nicoisetarn_load(unit, NICOISETARN_LINE * line, 1).kind == NICOISETARN_KIND_WAITS);
    CHECK(nicoisetarn_commit(unit, nicoisetarn_last(unit->image)).kind == NICOISETARN_KIND_COMMITTED);
    CHECK(same(nicoisetarn_idle(unit), NICOISETARN_KIND_REQUEST, NICOISETARN_LINE * line, 0));
}

/* Lines 0 and 1 are present, line 1 used last; two operations are committed. */
static void make_two(two_ways *b, uint32_t profile) {
    nicoisetarn_unit unit = lent_two(b);
    start_two(b, profile);
    for (uint32_t number = 1; number <= 2; number++) {
        request(&unit, number - 1);
        CHECK(nicoisetarn_reply(&unit).kind == NICOISETARN_KIND_FILLED);
        CHECK(nicoisetarn_retry(&unit, number).kind == NICOISETARN_KIND_VALUE);
    }
}

/* ---- loads fed from held stores, printed */

/* Load 5 reads so many bytes of line 0, one of them out of store 3; line 2 then evicts the line that was used longer ago. */
static void play_fed(uint32_t width) {
    two_ways b;
    nicoisetarn_unit unit = lent_two(&b);
    make_two(&b, NICOISETARN_WRITE_BACK);
    print(nicoisetarn_store(&unit, 0, 1, 7));
    print(nicoisetarn_store(&unit, 16, 1, 8));
    print(nicoisetarn_load(&unit, 0, width));
    print(nicoisetarn_commit(&unit, 4));
    print(nicoisetarn_idle(&unit)); /* store 3 drains to line 0, */
    print(nicoisetarn_idle(&unit)); /* and store 4 to line 1 */
    print(nicoisetarn_commit(&unit, 5)); /* uses line 0, if the load is not fed whole */
    print(nicoisetarn_load(&unit, 32, 1));
    print(nicoisetarn_commit(&unit, 6));
    print(nicoisetarn_idle(&unit));
    print(nicoisetarn_reply(&unit));
    print(nicoisetarn_load(&unit, 0, 1)); /* line 0 */
    print(nicoisetarn_load(&unit, 16, 1)); /* line 1 */
}

/* ---- previews and their replies, printed */

/* Both ways are invalid, and line 1 is requested. */
static void make_invalid_victim(two_ways *b) {
    nicoisetarn_unit unit = lent_two(b);
    start_two(b, NICOISETARN_WRITE_BACK);
    request(&unit, 1);
}

/* Words 0 and 2 of line 1 are dirty, line 0 is used last, and line 2 is requested. */
static void make_dirty_victim(two_ways *b) {
    nicoisetarn_unit unit = lent_two(b);
    make_two(b, NICOISETARN_WRITE_BACK);
    CHECK(same(nicoisetarn_store(&unit, 17, 1, 7), NICOISETARN_KIND_STORED, 3, 0));
    CHECK(same(nicoisetarn_store(&unit, 24, 4, 0x8090), NICOISETARN_KIND_STORED, 4, 0));
    CHECK(same(nicoisetarn_commit(&unit, 4), NICOISETARN_KIND_COMMITTED, 4, 0));
    CHECK(same(nicoisetarn_idle(&unit), NICOISETARN_KIND_DRAINED, 3, 0));
    CHECK(same(nicoisetarn_idle(&unit), NICOISETARN_KIND_DRAINED, 4, 0));
    CHECK(same(nicoisetarn_load(&unit, 0, 1), NICOISETARN_KIND_VALUE, 5, 0));
    CHECK(same(nicoisetarn_commit(&unit, 5), NICOISETARN_KIND_COMMITTED, 5, 0));
    request(&unit, 2);
}

/* Prints the four parts, with the ages of two ways. */
static void print_parts(nicoisetarn_preview_parts parts) {
    printf("previewed: way %lu, ", (unsigned long)parts.way);
    if (parts.evicts) {
        printf("line %lu evicted, ", (unsigned long)parts.line);
    } else {
        fputs("no line evicted, ", stdout);
    }
    printf("words %lu, ages %lu %lu\n", (unsigned long)parts.words, (unsigned long)parts.ages[0],
           (unsigned long)parts.ages[1]);
}

/* Memory has the words previewed as the evicted line had them, and is as before in every other byte. */
static void check_written(const two_ways *after, const two_ways *before, nicoisetarn_preview_parts parts) {
    for (size_t at = 0; at < sizeof after->memory; at++) {
        const size_t in_line = at % NICOISETARN_LINE;
        const int evicted = parts.evicts && at / NICOISETARN_LINE == parts.line;
        const int written = evicted && (parts.words >> in_line / NICOISETARN_WORD & 1) != 0;
        const uint8_t cached = before->cache[NICOISETARN_LINE * parts.way + in_line];
        CHECK(after->memory[at] == (written ? cached : before->memory[at]));
    }
}

/* The requested line stands in the way previewed, and the ages are those; the line that is evicted stood there. */
static void check_placed(const two_ways *after, const two_ways *before, nicoisetarn_preview_parts parts) {
    const nicoisetarn_tag was = nicoisetarn_tag_at(&before->image, parts.way);
    const nicoisetarn_tag is = nicoisetarn_tag_at(&after->image, parts.way);
    CHECK(was.valid == parts.evicts && was.line == parts.line && was.dirty == parts.words);
    CHECK(is.valid == 1 && is.line == nicoisetarn_requested_line(&before->image) && is.dirty == 0);
    for (size_t way = 0; way < NICOISETARN_MAX_WAYS; way++) {
        CHECK(nicoisetarn_tag_at(&after->image, way).age == parts.ages[way]);
    }
}

/* A preview on a state that is made for it, which stays, and then the reply, which does what was previewed. */
static void play_preview(void (*make)(two_ways *)) {
    two_ways b, before;
    nicoisetarn_unit unit = lent_two(&b);
    make(&b);
    before = b;
    const nicoisetarn_preview_parts parts = nicoisetarn_previewed(nicoisetarn_preview(&unit));
    print_parts(parts);
    CHECK(memcmp(&b, &before, sizeof b) == 0);
    print(nicoisetarn_reply(&unit));
    check_placed(&b, &before, parts);
    check_written(&b, &before, parts);
    CHECK(!parts.evicts || same(nicoisetarn_show_line(&unit, NICOISETARN_LINE * parts.line), NICOISETARN_KIND_SHOWN, 0, 0));
    before = b;
    print(nicoisetarn_preview(&unit)); /* nothing is requested any more */
    CHECK(memcmp(&b, &before, sizeof b) == 0);
}

/* ---- words */

/* Each kind and each refusal has words; other numbers have none. */
static void check_words(void) {
    for (uint32_t kind = 0; kind < 300; kind++) {
        const int known = kind <= NICOISETARN_KIND_PREVIEWED || kind == NICOISETARN_KIND_RAN ||
                          kind == NICOISETARN_KIND_NO_SUCH_CALL;
        const int waits = kind == NICOISETARN_KIND_WAITS || kind == NICOISETARN_KIND_WAITS_REQUESTED;
        CHECK((*nicoisetarn_kind_word(kind) != '\0') == known);
        CHECK(nicoisetarn_waits(answer_of(kind, 1, 0)) == waits);
    }
    for (uint32_t number = 0; number < 300; number++) {
        const int known = (number >= NICOISETARN_REFUSED_FIGURES && number <= NICOISETARN_REFUSED_VALUE) ||
                          (number >= NICOISETARN_REFUSED_STATE && number <= NICOISETARN_REFUSED_STUDY);
        CHECK((*nicoisetarn_refusal_words(number) != '\0') == known);
    }
    CHECK(strcmp(nicoisetarn_refusal_words(NICOISETARN_REFUSED_NO_REQUEST), "reply or preview: register free") == 0);
    CHECK(strcmp(nicoisetarn_refusal_words(NICOISETARN_REFUSED_FLUSH), "flush: a committed store is held") == 0);
    CHECK(strcmp(nicoisetarn_refusal_words(NICOISETARN_REFUSED_NAME_IN_USE), "set: name in use") == 0);
    CHECK(strcmp(nicoisetarn_kind_word(NICOISETARN_KIND_CHECKPOINTED), "checkpointed") == 0);
    CHECK(strcmp(nicoisetarn_kind_word(NICOISETARN_KIND_WAITS_REQUESTED), "waits-requested") == 0);
    CHECK(strcmp(nicoisetarn_kind_word(NICOISETARN_KIND_PREVIEWED), "previewed") == 0);
}

/* ---- what the image tells */

/* A store held, a load that waits, a load fed from that store, and the waiting load's line requested. */
static void make_busy(bench *b) {
    nicoisetarn_unit unit = lent(b);
    CHECK(same(start(b), NICOISETARN_KIND_READY, 0, 0));
    CHECK(same(nicoisetarn_load(&unit, 16, 2), NICOISETARN_KIND_WAITS, 1, 0));
    CHECK(same(nicoisetarn_commit(&unit, 1), NICOISETARN_KIND_COMMITTED, 1, 0));
    CHECK(same(nicoisetarn_idle(&unit), NICOISETARN_KIND_REQUEST, 16, 0));
    CHECK(same(nicoisetarn_store(&unit, 8, 4, 0xCAFE), NICOISETARN_KIND_STORED, 2, 0));
    CHECK(same(nicoisetarn_load(&unit, 8, 2), NICOISETARN_KIND_VALUE, 3, 0xCAFE));
}

static void check_figures(const nicoisetarn_image *image) {
    CHECK(nicoisetarn_sets(image) == 1);
    CHECK(nicoisetarn_ways(image) == 1);
    CHECK(nicoisetarn_profile(image) == NICOISETARN_WRITE_BACK);
    CHECK(nicoisetarn_memory_length(image) == 32);
    CHECK(nicoisetarn_last(image) == 3);
    CHECK(nicoisetarn_committed(image) == 1);
    CHECK(nicoisetarn_requested(image));
    CHECK(nicoisetarn_requested_line(image) == 1);
}

static void check_queues(const nicoisetarn_image *image) {
    const nicoisetarn_held_store store = {2, 8, 4, 0xCAFE}, no_store = {0, 0, 0, 0};
    const nicoisetarn_listed_load waiting = {1, 16, 2, 1, 0}, answered = {3, 8, 2, 0, 1}, no_load = {0, 0, 0, 0, 0};
    for (size_t place = 0; place <= NICOISETARN_STORES; place++) {
        const nicoisetarn_held_store found = nicoisetarn_store_at(image, place);
        CHECK(memcmp(&found, place == 0 ? &store : &no_store, sizeof found) == 0);
    }
    for (size_t place = 0; place <= NICOISETARN_LOADS; place++) {
        const nicoisetarn_listed_load found = nicoisetarn_load_at(image, place);
        const nicoisetarn_listed_load *wanted = place == 0 ? &waiting : place == 1 ? &answered : &no_load;
        CHECK(memcmp(&found, wanted, sizeof found) == 0);
    }
}

/* The one record in use; all others are zero. */
static void check_records(const nicoisetarn_image *image, nicoisetarn_tag wanted) {
    const nicoisetarn_tag none = {0, 0, 0, 0};
    for (size_t record = 0; record <= NICOISETARN_RECORDS; record++) {
        const nicoisetarn_tag found = nicoisetarn_tag_at(image, record);
        CHECK(memcmp(&found, record == 0 ? &wanted : &none, sizeof found) == 0);
    }
}

static void check_image(void) {
    bench b;
    nicoisetarn_unit unit = lent(&b);
    make_busy(&b);
    check_figures(&b.image);
    check_queues(&b.image);
    check_records(&b.image, (nicoisetarn_tag){0, 0, 0, 0});
    CHECK(same(nicoisetarn_reply(&unit), NICOISETARN_KIND_FILLED, 16, 0));
    CHECK(!nicoisetarn_requested(&b.image) && nicoisetarn_requested_line(&b.image) == 0);
    check_records(&b.image, (nicoisetarn_tag){1, 0, 1, 0});
    CHECK(same(nicoisetarn_retry(&unit, 1), NICOISETARN_KIND_VALUE, 1, 0));
    CHECK(nicoisetarn_load_at(&b.image, 0).number == 3);
    CHECK(nicoisetarn_load_at(&b.image, 1).number == 0);
}

/* ---- refused calls */

/* Refused by this number, with image, cache and memory as before. */
static void check_refused(nicoisetarn_answer answer, uint32_t refusal, const bench *seen, const bench *before) {
    CHECK(same(answer, NICOISETARN_KIND_REFUSED, refusal, 0));
    CHECK(memcmp(seen, before, sizeof *seen) == 0);
}

static void check_refusals(void) {
    bench b, before;
    nicoisetarn_unit unit = lent(&b);
    make_busy(&b);
    before = b;
    check_refused(nicoisetarn_load(&unit, 0, 3), NICOISETARN_REFUSED_WIDTH, &b, &before);
    check_refused(nicoisetarn_load(&unit, 2, 4), NICOISETARN_REFUSED_ALIGNMENT, &b, &before);
    check_refused(nicoisetarn_store(&unit, 32, 4, 0), NICOISETARN_REFUSED_ADDRESS, &b, &before);
    check_refused(nicoisetarn_store(&unit, 0, 1, 256), NICOISETARN_REFUSED_VALUE, &b, &before);
    check_refused(nicoisetarn_retry(&unit, 3), NICOISETARN_REFUSED_RETRY, &b, &before);
    check_refused(nicoisetarn_commit(&unit, 4), NICOISETARN_REFUSED_COMMIT, &b, &before);
    check_refused(nicoisetarn_abort(&unit, 1), NICOISETARN_REFUSED_ABORT, &b, &before);
    CHECK(nicoisetarn_commit(&unit, 2).kind == NICOISETARN_KIND_COMMITTED);
    before = b;
    check_refused(nicoisetarn_flush(&unit), NICOISETARN_REFUSED_FLUSH, &b, &before);
    CHECK(nicoisetarn_reply(&unit).kind == NICOISETARN_KIND_FILLED);
    before = b;
    check_refused(nicoisetarn_reply(&unit), NICOISETARN_REFUSED_NO_REQUEST, &b, &before);
    check_refused(nicoisetarn_preview(&unit), NICOISETARN_REFUSED_NO_REQUEST, &b, &before);
}

static void check_full_queues(void) {
    bench b, before;
    nicoisetarn_unit unit = lent(&b);
    CHECK(start(&b).kind == NICOISETARN_KIND_READY);
    for (uint32_t number = 1; number <= NICOISETARN_STORES; number++) {
        CHECK(same(nicoisetarn_store(&unit, 0, 1, 1), NICOISETARN_KIND_STORED, number, 0));
    }
    for (uint32_t number = 17; number < 17 + NICOISETARN_LOADS; number++) {
        CHECK(same(nicoisetarn_load(&unit, 0, 1), NICOISETARN_KIND_VALUE, number, 1));
    }
    before = b;
    check_refused(nicoisetarn_store(&unit, 0, 1, 1), NICOISETARN_REFUSED_STORES_FULL, &b, &before);
    check_refused(nicoisetarn_load(&unit, 0, 1), NICOISETARN_REFUSED_LOADS_FULL, &b, &before);
}

/* Lengths that disagree, images that no run leads to, and starts that are not allowed. */
static void check_damaged(void) {
    bench b, before;
    nicoisetarn_unit unit = lent(&b), no_cache = unit, short_memory = unit;
    no_cache.cache_length = 0;
    short_memory.memory_length = 16;
    make_busy(&b);
    before = b;
    check_refused(nicoisetarn_idle(&no_cache), NICOISETARN_REFUSED_FIGURES, &b, &before);
    check_refused(nicoisetarn_idle(&short_memory), NICOISETARN_REFUSED_FIGURES, &b, &before);
    check_refused(nicoisetarn_start(&unit, 3, 1), NICOISETARN_REFUSED_FIGURES, &b, &before);
    b.image.nicoisetarn_words[NICOISETARN_AT_REQUESTED / 4] = 2;
    before = b;
    check_refused(nicoisetarn_idle(&unit), NICOISETARN_REFUSED_STATE, &b, &before);
    CHECK(same(nicoisetarn_show_line(&unit, 0), NICOISETARN_KIND_SHOWN, 0, 0));
    memset(&b.image, 0xA5, sizeof b.image);
    before = b;
    check_refused(nicoisetarn_idle(&unit), NICOISETARN_REFUSED_FIGURES, &b, &before);
    CHECK(same(nicoisetarn_show_line(&unit, 0), NICOISETARN_KIND_SHOWN, 0, 0));
    CHECK(memcmp(&b, &before, sizeof b) == 0);
    memset(&b.image, 0, sizeof b.image);
    before = b;
    check_refused(nicoisetarn_idle(&unit), NICOISETARN_REFUSED_FIGURES, &b, &before);
}

/* A number that no call has: the library says so, and nothing changes, whatever the image is. */
static void check_no_such_call(void) {
    const uint32_t numbers[] = {NICOISETARN_CALL_PREVIEW + 1, NICOISETARN_KIND_NO_SUCH_CALL, UINT32_MAX};
    bench b, before;
    make_busy(&b);
    for (size_t image = 0; image < 2; image++) {
        before = b;
        for (size_t place = 0; place < sizeof numbers / sizeof *numbers; place++) {
            CHECK(same(nicoisetarn_step_24_in(&b.image, numbers[place], 1, 2, 3, b.cache, 0, b.memory, 32),
                       NICOISETARN_KIND_NO_SUCH_CALL, 0, 0));
        }
        CHECK(memcmp(&b, &before, sizeof b) == 0);
        memset(&b.image, 0xA5, sizeof b.image);
    }
}

/* ---- loads that wait */

/* The two words in a profile: before line 1 is requested, while it is, and behind its reply. An inquiry leaves no trace. */
static void check_waits(uint32_t profile) {
    bench b, before;
    nicoisetarn_unit unit = lent(&b);
    CHECK(same(start_with(&b, profile), NICOISETARN_KIND_READY, 0, 0));
    CHECK(same(nicoisetarn_load(&unit, 16, 2), NICOISETARN_KIND_WAITS, 1, 0));
    CHECK(same(nicoisetarn_commit(&unit, 1), NICOISETARN_KIND_COMMITTED, 1, 0));
    CHECK(same(nicoisetarn_retry(&unit, 1), NICOISETARN_KIND_WAITS, 1, 0));
    CHECK(same(nicoisetarn_idle(&unit), NICOISETARN_KIND_REQUEST, 16, 0));
    before = b;
    CHECK(same(nicoisetarn_retry(&unit, 1), NICOISETARN_KIND_WAITS_REQUESTED, 1, 0));
    CHECK(memcmp(&b, &before, sizeof b) == 0);
    CHECK(same(nicoisetarn_load(&unit, 31, 1), NICOISETARN_KIND_WAITS_REQUESTED, 2, 0));
    CHECK(nicoisetarn_load_at(&b.image, 1).waiting == 1);
    CHECK(same(nicoisetarn_load(&unit, 15, 1), NICOISETARN_KIND_WAITS, 3, 0));
    CHECK(same(nicoisetarn_store(&unit, 16, 1, 7), NICOISETARN_KIND_STORED, 4, 0));
    CHECK(same(nicoisetarn_load(&unit, 16, 1), NICOISETARN_KIND_VALUE, 5, 7)); /* the store has all of it */
    CHECK(same(nicoisetarn_load(&unit, 16, 2), NICOISETARN_KIND_WAITS_REQUESTED, 6, 0)); /* and here a byte */
    CHECK(same(nicoisetarn_reply(&unit), NICOISETARN_KIND_FILLED, 16, 0));
    CHECK(same(nicoisetarn_retry(&unit, 6), NICOISETARN_KIND_VALUE, 6, 7));
    CHECK(same(nicoisetarn_retry(&unit, 3), NICOISETARN_KIND_WAITS, 3, 0));
}

/* A line that is requested for a store, in write-back alone. */
static void check_waits_for_store(void) {
    bench b;
    nicoisetarn_unit unit = lent(&b);
    CHECK(same(start(&b), NICOISETARN_KIND_READY, 0, 0));
    CHECK(same(nicoisetarn_store(&unit, 0, 1, 7), NICOISETARN_KIND_STORED, 1, 0));
    CHECK(same(nicoisetarn_commit(&unit, 1), NICOISETARN_KIND_COMMITTED, 1, 0));
    CHECK(same(nicoisetarn_load(&unit, 1, 1), NICOISETARN_KIND_WAITS, 2, 0));
    CHECK(same(nicoisetarn_idle(&unit), NICOISETARN_KIND_REQUEST, 0, 0));
    CHECK(same(nicoisetarn_retry(&unit, 2), NICOISETARN_KIND_WAITS_REQUESTED, 2, 0));
    CHECK(same(nicoisetarn_load(&unit, 16, 1), NICOISETARN_KIND_WAITS, 3, 0));
}

/* ---- loads fed from held stores */

/* Wholly, by two stores; in part; not at all; and in part by a load that waits. Only the first is forwarded. */
static void check_fed(uint32_t profile) {
    const uint32_t forwarded[] = {1, 0, 0, 0}, waiting[] = {0, 0, 0, 1};
    two_ways b;
    nicoisetarn_unit unit = lent_two(&b);
    make_two(&b, profile);
    CHECK(same(nicoisetarn_store(&unit, 0, 1, 7), NICOISETARN_KIND_STORED, 3, 0));
    CHECK(same(nicoisetarn_store(&unit, 1, 1, 8), NICOISETARN_KIND_STORED, 4, 0));
    CHECK(same(nicoisetarn_store(&unit, 32, 1, 9), NICOISETARN_KIND_STORED, 5, 0));
    CHECK(same(nicoisetarn_load(&unit, 0, 2), NICOISETARN_KIND_VALUE, 6, 0x0807));
    CHECK(same(nicoisetarn_load(&unit, 0, 4), NICOISETARN_KIND_VALUE, 7, 0x0807));
    CHECK(same(nicoisetarn_load(&unit, 2, 1), NICOISETARN_KIND_VALUE, 8, 0));
    CHECK(same(nicoisetarn_load(&unit, 32, 2), NICOISETARN_KIND_WAITS, 9, 0));
    for (size_t place = 0; place < 4; place++) {
        const nicoisetarn_listed_load load = nicoisetarn_load_at(&b.image, place);
        CHECK(load.number == 6 + place && load.waiting == waiting[place] && load.forwarded == forwarded[place]);
    }
    CHECK(nicoisetarn_tag_at(&b.image, 0).age == 1);
    CHECK(same(nicoisetarn_commit(&unit, 6), NICOISETARN_KIND_COMMITTED, 6, 0));
    CHECK(nicoisetarn_tag_at(&b.image, 0).age == 1); /* load 6 has left, and line 0 is not used */
    CHECK(nicoisetarn_load_at(&b.image, 0).number == 7 && nicoisetarn_load_at(&b.image, 0).forwarded == 0);
    CHECK(same(nicoisetarn_commit(&unit, 7), NICOISETARN_KIND_COMMITTED, 7, 0));
    CHECK(nicoisetarn_tag_at(&b.image, 0).age == 0); /* load 7 uses it */
}

/* A load that waits and is forwarded, a free place that is, and a flag that is neither 0 nor 1. */
static void check_damaged_fed(void) {
    const size_t at = NICOISETARN_AT_LOADS / 4 + 3;
    bench b, before;
    nicoisetarn_unit unit = lent(&b);
    make_busy(&b);
    for (size_t place = 0; place < NICOISETARN_LOADS; place++) {
        const uint32_t good = b.image.nicoisetarn_words[at + 4 * place];
        b.image.nicoisetarn_words[at + 4 * place] = place == 1 ? UINT32_C(2) << 16 : good | UINT32_C(1) << 16;
        before = b;
        check_refused(nicoisetarn_idle(&unit), NICOISETARN_REFUSED_STATE, &b, &before);
        b.image.nicoisetarn_words[at + 4 * place] = good;
        CHECK(nicoisetarn_load_at(&b.image, place).forwarded == (place == 1));
    }
    CHECK(nicoisetarn_idle(&unit).kind == NICOISETARN_KIND_IDLE);
}

/* ---- previews */

/* The parts of a preview's five numbers; an answer of another kind has none. */
static void check_parts(void) {
    const nicoisetarn_preview_parts wanted = {3, 1, 4095, 10, {2, 0, 3, 1}}, none = {0, 0, 0, 0, {0, 0, 0, 0}};
    for (uint32_t kind = 0; kind < 300; kind++) {
        const nicoisetarn_answer answer = {kind, 3, 1, 4095, 10, 0x01030002};
        const nicoisetarn_preview_parts parts = nicoisetarn_previewed(answer);
        CHECK(memcmp(&parts, kind == NICOISETARN_KIND_PREVIEWED ? &wanted : &none, sizeof parts) == 0);
    }
}

/* A clean line is evicted, in either profile: no word is written. */
static void check_clean_victim(uint32_t profile) {
    const nicoisetarn_answer wanted = {NICOISETARN_KIND_PREVIEWED, 0, 1, 0, 0, 0x0100}; /* ages 0 and 1 */
    two_ways b;
    nicoisetarn_unit unit = lent_two(&b);
    make_two(&b, profile);
    request(&unit, 2);
    const nicoisetarn_answer answer = nicoisetarn_preview(&unit);
    CHECK(memcmp(&answer, &wanted, sizeof answer) == 0);
}

/* Lengths that disagree and a damaged image are refused as by a reply. */
static void check_refused_previews(void) {
    bench b, before;
    nicoisetarn_unit unit = lent(&b), no_cache = unit, short_memory = unit;
    no_cache.cache_length = 0;
    short_memory.memory_length = 16;
    make_busy(&b);
    before = b;
    check_refused(nicoisetarn_preview(&no_cache), NICOISETARN_REFUSED_FIGURES, &b, &before);
    check_refused(nicoisetarn_preview(&short_memory), NICOISETARN_REFUSED_FIGURES, &b, &before);
    b.image.nicoisetarn_words[NICOISETARN_AT_REQUESTED / 4] = 2;
    before = b;
    check_refused(nicoisetarn_preview(&unit), NICOISETARN_REFUSED_STATE, &b, &before);
    check_refused(nicoisetarn_preview(&short_memory), NICOISETARN_REFUSED_FIGURES, &b, &before);
}

/* ---- dirty marks */

/* Line 0, clean. */
static void make_present(bench *b) {
    nicoisetarn_unit unit = lent(b);
    CHECK(same(start(b), NICOISETARN_KIND_READY, 0, 0));
    CHECK(same(nicoisetarn_load(&unit, 0, 1), NICOISETARN_KIND_WAITS, 1, 0));
    CHECK(same(nicoisetarn_commit(&unit, 1), NICOISETARN_KIND_COMMITTED, 1, 0));
    CHECK(same(nicoisetarn_idle(&unit), NICOISETARN_KIND_REQUEST, 0, 0));
    CHECK(same(nicoisetarn_reply(&unit), NICOISETARN_KIND_FILLED, 0, 0));
    CHECK(same(nicoisetarn_retry(&unit, 1), NICOISETARN_KIND_VALUE, 1, 0));
}

/* Its dirty marks stand behind valid. */
static void put_dirty_marks(bench *b, uint8_t marks) {
    memcpy((uint8_t *)&b->image + NICOISETARN_AT_RECORDS + 1, &marks, 1);
}

/* Every call is refused by 10, show line gives the empty part, and all stays. */
static void check_ill_formed(bench *b) {
    nicoisetarn_unit unit = lent(b);
    const bench before = *b;
    for (uint32_t call = NICOISETARN_CALL_LOAD; call <= NICOISETARN_CALL_PREVIEW; call++) {
        if (call != NICOISETARN_CALL_SHOW_LINE) {
            check_refused(nicoisetarn_step(&unit, (nicoisetarn_call)call, 1, 1, 1), NICOISETARN_REFUSED_STATE, b, &before);
        }
    }
    CHECK(same(nicoisetarn_show_line(&unit, 0), NICOISETARN_KIND_SHOWN, 0, 0));
}

/* Any marks of the four words are taken, and a flush counts them; a fifth mark is refused. */
static void check_dirty_marks(void) {
    bench b;
    nicoisetarn_unit unit = lent(&b);
    make_present(&b);
    for (uint32_t marks = 0; marks < 256; marks++) {
        const uint32_t words = (marks & 1) + (marks >> 1 & 1) + (marks >> 2 & 1) + (marks >> 3 & 1);
        put_dirty_marks(&b, (uint8_t)marks);
        const nicoisetarn_tag tag = nicoisetarn_tag_at(&b.image, 0);
        CHECK(tag.dirty == marks);
        for (uint32_t word = 0; word < 8; word++) {
            CHECK(nicoisetarn_is_dirty(tag, word) == (word < 4 && (marks >> word & 1) != 0));
        }
        CHECK(!nicoisetarn_is_dirty(tag, 32) && nicoisetarn_dirty_words(tag) == words);
        if (marks < 16) {
            CHECK(same(nicoisetarn_flush(&unit), NICOISETARN_KIND_FLUSHED, words, 0));
            check_records(&b.image, (nicoisetarn_tag){1, 0, 0, 0});
        } else {
            check_ill_formed(&b);
        }
    }
}

/* A word without a mark must be that of memory; one with a mark need not. */
static void check_clean_words(void) {
    bench b;
    nicoisetarn_unit unit = lent(&b);
    make_present(&b);
    b.cache[6] = 7; /* in word 1 */
    check_ill_formed(&b);
    put_dirty_marks(&b, 1 | 1 << 2 | 1 << 3);
    check_ill_formed(&b);
    put_dirty_marks(&b, 1 << 1);
    CHECK(same(nicoisetarn_flush(&unit), NICOISETARN_KIND_FLUSHED, 1, 0));
    CHECK(b.memory[6] == 7);
}

/* ---- checkpoints */

/* Refusals of set and return, with all as before. Where no number is left none is set, and a return goes on. */
static void check_refused_checkpoints(void) {
    const uint32_t outside[] = {0, NICOISETARN_CHECKPOINTS + 1, UINT32_MAX};
    bench b, before;
    nicoisetarn_unit unit = lent(&b);
    make_busy(&b);
    CHECK(same(nicoisetarn_checkpoint(&unit, 8), NICOISETARN_KIND_CHECKPOINTED, 4, 0));
    b.image.nicoisetarn_words[NICOISETARN_AT_LAST / 4] = UINT32_MAX;
    before = b;
    for (size_t place = 0; place < sizeof outside / sizeof *outside; place++) {
        check_refused(nicoisetarn_checkpoint(&unit, outside[place]), NICOISETARN_REFUSED_NAME, &b, &before);
        check_refused(nicoisetarn_restore(&unit, outside[place]), NICOISETARN_REFUSED_NAME, &b, &before);
    }
    check_refused(nicoisetarn_checkpoint(&unit, 8), NICOISETARN_REFUSED_NAME_IN_USE, &b, &before);
    check_refused(nicoisetarn_checkpoint(&unit, 1), NICOISETARN_REFUSED_NO_CHECKPOINT, &b, &before);
    check_refused(nicoisetarn_restore(&unit, 1), NICOISETARN_REFUSED_NO_CHECKPOINT, &b, &before);
    CHECK(same(nicoisetarn_restore(&unit, 8), NICOISETARN_KIND_KEPT, 3, 0));
    check_marks(&b.image, NULL, 0);
}

/* Every place in use, and which marks a commit, an abort and a return leave. */
static void check_marks_left(void) {
    const nicoisetarn_mark fourth = {4, 4, 1}, fourth_and_fifth[] = {{4, 4, 1}, {5, 5, 2}};
    bench b;
    nicoisetarn_unit unit = lent(&b);
    CHECK(start(&b).kind == NICOISETARN_KIND_READY);
    for (uint32_t name = 1; name <= NICOISETARN_CHECKPOINTS; name++) {
        CHECK(same(nicoisetarn_checkpoint(&unit, name), NICOISETARN_KIND_CHECKPOINTED, name, 0));
        CHECK(same(nicoisetarn_store(&unit, 0, 1, name), NICOISETARN_KIND_STORED, name, 0));
        const nicoisetarn_mark found = nicoisetarn_mark_at(&b.image, name - 1);
        CHECK(found.name == name && found.number == name && found.rank == name);
    }
    CHECK(same(nicoisetarn_commit(&unit, 3), NICOISETARN_KIND_COMMITTED, 3, 0)); /* ranks close up */
    CHECK(same(nicoisetarn_abort(&unit, 5), NICOISETARN_KIND_KEPT, 4, 0));       /* a mark at 5 stays */
    check_marks(&b.image, fourth_and_fifth, 2);
    CHECK(same(nicoisetarn_restore(&unit, 5), NICOISETARN_KIND_KEPT, 4, 0));
    check_marks(&b.image, &fourth, 1);
    CHECK(same(nicoisetarn_restore(&unit, 4), NICOISETARN_KIND_KEPT, 3, 0));
    check_marks(&b.image, NULL, 0);
}

/* Marks that no run leads to: one of rank 2 alone, one of name 9, one at the committed number, a rank in a free place. */
static void check_damaged_checkpoints(void) {
    const nicoisetarn_mark damaged[] = {{1, 4, 2}, {9, 4, 1}, {1, 1, 1}, {0, 0, 1}};
    bench b;
    nicoisetarn_unit unit = lent(&b);
    make_busy(&b);
    CHECK(same(nicoisetarn_checkpoint(&unit, 1), NICOISETARN_KIND_CHECKPOINTED, 4, 0));
    for (size_t place = 0; place < sizeof damaged / sizeof *damaged; place++) {
        memcpy(&b.image.nicoisetarn_words[NICOISETARN_AT_CHECKPOINTS / 4], &damaged[place], sizeof *damaged);
        check_marks(&b.image, &damaged[place], 1);
        check_ill_formed(&b);
    }
}

/* ---- profiles */

static void put_profile(bench *b, uint32_t profile) {
    b->image.nicoisetarn_words[NICOISETARN_AT_PROFILE / 4] = profile;
}

/* A state that is one of write-back alone, in other profiles. */
static void check_damaged_profile(bench *b) {
    const uint32_t numbers[] = {NICOISETARN_WRITE_THROUGH, NICOISETARN_WRITE_THROUGH + 1, 255, UINT32_MAX};
    nicoisetarn_unit unit = lent(b), short_memory = unit;
    short_memory.memory_length = 16;
    for (size_t place = 0; place < sizeof numbers / sizeof *numbers; place++) {
        put_profile(b, numbers[place]);
        CHECK(nicoisetarn_profile(&b->image) == numbers[place]);
        const bench before = *b;
        check_refused(nicoisetarn_idle(&unit), NICOISETARN_REFUSED_STATE, b, &before);
        check_refused(nicoisetarn_idle(&short_memory), NICOISETARN_REFUSED_FIGURES, b, &before);
        CHECK(same(nicoisetarn_show_line(&unit, 0), NICOISETARN_KIND_SHOWN, 0, 0));
    }
    put_profile(b, NICOISETARN_WRITE_BACK);
}

/* A line requested for a store, and a dirty one, which there are in write-back alone. */
static void check_profiles(void) {
    bench b, plain;
    nicoisetarn_unit unit = lent(&b);
    CHECK(same(start(&plain), NICOISETARN_KIND_READY, 0, 0));
    CHECK(same(start_with(&b, NICOISETARN_WRITE_BACK), NICOISETARN_KIND_READY, 0, 0));
    CHECK(memcmp(&b, &plain, sizeof b) == 0);
    CHECK(same(nicoisetarn_store(&unit, 20, 1, 7), NICOISETARN_KIND_STORED, 1, 0));
    CHECK(same(nicoisetarn_commit(&unit, 1), NICOISETARN_KIND_COMMITTED, 1, 0));
    CHECK(same(nicoisetarn_idle(&unit), NICOISETARN_KIND_REQUEST, 16, 0));
    check_damaged_profile(&b);
    CHECK(same(nicoisetarn_reply(&unit), NICOISETARN_KIND_FILLED, 16, 0));
    CHECK(same(nicoisetarn_idle(&unit), NICOISETARN_KIND_DRAINED, 1, 0));
    check_damaged_profile(&b);
    CHECK(same(nicoisetarn_flush(&unit), NICOISETARN_KIND_FLUSHED, 1, 0));
}

/* A drain to a line that is present: memory and line are written, and the line stays clean. */
static void check_write_through(void) {
    bench b;
    nicoisetarn_unit unit = lent(&b);
    CHECK(same(start_with(&b, NICOISETARN_WRITE_THROUGH), NICOISETARN_KIND_READY, 0, 0));
    CHECK(nicoisetarn_profile(&b.image) == NICOISETARN_WRITE_THROUGH);
    CHECK(same(nicoisetarn_load(&unit, 16, 1), NICOISETARN_KIND_WAITS, 1, 0));
    CHECK(same(nicoisetarn_commit(&unit, 1), NICOISETARN_KIND_COMMITTED, 1, 0));
    CHECK(same(nicoisetarn_idle(&unit), NICOISETARN_KIND_REQUEST, 16, 0));
    CHECK(same(nicoisetarn_reply(&unit), NICOISETARN_KIND_FILLED, 16, 0));
    CHECK(same(nicoisetarn_retry(&unit, 1), NICOISETARN_KIND_VALUE, 1, 0));
    CHECK(same(nicoisetarn_store(&unit, 20, 1, 7), NICOISETARN_KIND_STORED, 2, 0));
    CHECK(same(nicoisetarn_commit(&unit, 2), NICOISETARN_KIND_COMMITTED, 2, 0));
    CHECK(same(nicoisetarn_idle(&unit), NICOISETARN_KIND_DRAINED, 2, 0));
    CHECK(b.memory[20] == 7 && b.cache[4] == 7);
    check_records(&b.image, (nicoisetarn_tag){1, 0, 1, 0});
    CHECK(same(nicoisetarn_flush(&unit), NICOISETARN_KIND_FLUSHED, 0, 0));
}

/* A number that no profile has: the library says so, and nothing changes, whatever image, figures and lengths are. */
static void check_no_such_profile(void) {
    const uint32_t numbers[] = {NICOISETARN_WRITE_THROUGH + 1, 255, 256, UINT32_MAX};
    bench b, before;
    nicoisetarn_unit unit = lent(&b), no_cache = unit;
    no_cache.cache_length = 0;
    make_busy(&b);
    memset(b.cache, 0xA5, sizeof b.cache); /* a start would zero it */
    for (size_t image = 0; image < 2; image++) {
        before = b;
        for (size_t place = 0; place < sizeof numbers / sizeof *numbers; place++) {
            CHECK(same(nicoisetarn_start_with(&unit, 1, 1, numbers[place]), NICOISETARN_KIND_NO_SUCH_CALL, 0, 0));
            CHECK(same(nicoisetarn_start_with(&unit, 3, 1, numbers[place]), NICOISETARN_KIND_NO_SUCH_CALL, 0, 0));
            CHECK(same(nicoisetarn_start_with(&no_cache, 1, 1, numbers[place]), NICOISETARN_KIND_NO_SUCH_CALL, 0, 0));
        }
        CHECK(memcmp(&b, &before, sizeof b) == 0);
        memset(&b.image, 0xA5, sizeof b.image);
    }
}

/* ---- show line */

/* Two sets of two ways: line 3 fills the first way of set 1, so it stands at place 2 * 16. */
static void check_shown(void) {
    nicoisetarn_image image = {{0}};
    uint8_t cache[NICOISETARN_CACHE_BYTES(2, 2)] = {0}, memory[64];
    nicoisetarn_unit unit = {&image, cache, sizeof cache, memory, sizeof memory};
    for (size_t at = 0; at < sizeof memory; at++) {
        memory[at] = (uint8_t)(at + 1);
    }
    CHECK(nicoisetarn_start(&unit, 2, 2).kind == NICOISETARN_KIND_READY);
    CHECK(same(nicoisetarn_load(&unit, 52, 4), NICOISETARN_KIND_WAITS, 1, 0));
    CHECK(nicoisetarn_commit(&unit, 1).kind == NICOISETARN_KIND_COMMITTED);
    CHECK(same(nicoisetarn_idle(&unit), NICOISETARN_KIND_REQUEST, 48, 0));
    CHECK(nicoisetarn_shown(&unit, nicoisetarn_show_line(&unit, 52)) == NULL);
    CHECK(same(nicoisetarn_reply(&unit), NICOISETARN_KIND_FILLED, 48, 0));
    const nicoisetarn_answer shown = nicoisetarn_show_line(&unit, 63);
    CHECK(same(shown, NICOISETARN_KIND_SHOWN, 32, 16));
    CHECK(nicoisetarn_shown(&unit, shown) == cache + 32);
    CHECK(memcmp(nicoisetarn_shown(&unit, shown), memory + 48, 16) == 0);
    CHECK(same(nicoisetarn_show_line(&unit, 64), NICOISETARN_KIND_SHOWN, 0, 0));
    CHECK(same(nicoisetarn_step(&unit, NICOISETARN_CALL_SHOW_LINE, 63, 0, 0), NICOISETARN_KIND_SHOWN, 32, 16));
}

/* On bytes that nobody may write. */
static void check_shown_of_const(void) {
    bench b;
    nicoisetarn_unit unit = lent(&b);
    make_busy(&b);
    CHECK(same(nicoisetarn_reply(&unit), NICOISETARN_KIND_FILLED, 16, 0));
    const bench seen = b;
    CHECK(same(nicoisetarn_show_line_24_in(&seen.image, 16, seen.cache, sizeof seen.cache, seen.memory,
                                           sizeof seen.memory),
               NICOISETARN_KIND_SHOWN, 0, 16));
}

/* ---- batches */

/* Answers that no batch gives. */
enum { UNTOUCHED = 0xA5 };

/* The answer in a place is this, by its six numbers. */
static void check_answer(const uint32_t *answers, size_t place, nicoisetarn_answer wanted) {
    const nicoisetarn_answer answer = nicoisetarn_answer_at(answers, place);
    CHECK(memcmp(&answer, &wanted, sizeof answer) == 0);
    CHECK(memcmp(answers + NICOISETARN_ANSWER_STRIDE * place, &wanted, sizeof wanted) == 0);
}

/* The batch that is printed, beside the same calls one by one. */
static void check_batch(void) {
    bench b, single;
    nicoisetarn_unit unit = lent(&b);
    uint32_t answers[LISTED * NICOISETARN_ANSWER_STRIDE];
    memset(answers, UNTOUCHED, sizeof answers);
    CHECK(start(&b).kind == NICOISETARN_KIND_READY && start(&single).kind == NICOISETARN_KIND_READY);
    CHECK(same(nicoisetarn_run(&unit, listed, answers, LISTED), NICOISETARN_KIND_RAN, 0, 0));
    for (size_t place = 0; place < LISTED; place++) {
        const uint32_t *call = listed + NICOISETARN_CALL_STRIDE * place;
        check_answer(answers, place,
                     nicoisetarn_step_24_in(&single.image, call[0], call[1], call[2], call[3], single.cache,
                                            sizeof single.cache, single.memory, sizeof single.memory));
    }
    CHECK(memcmp(&b, &single, sizeof b) == 0);
}

/* The two words of a load that waits. */
static void check_batch_waits(void) {
    bench b;
    nicoisetarn_unit unit = lent(&b);
    uint32_t calls[3 * NICOISETARN_CALL_STRIDE], answers[3 * NICOISETARN_ANSWER_STRIDE];
    memset(answers, UNTOUCHED, sizeof answers);
    nicoisetarn_put_call(calls, 0, NICOISETARN_CALL_RETRY, 1, 0, 0);
    nicoisetarn_put_call(calls, 1, NICOISETARN_CALL_LOAD, 20, 4, 0);
    nicoisetarn_put_call(calls, 2, NICOISETARN_CALL_LOAD, 0, 4, 0);
    make_busy(&b);
    CHECK(same(nicoisetarn_run(&unit, calls, answers, 3), NICOISETARN_KIND_RAN, 0, 0));
    check_answer(answers, 0, answer_of(NICOISETARN_KIND_WAITS_REQUESTED, 1, 0));
    check_answer(answers, 1, answer_of(NICOISETARN_KIND_WAITS_REQUESTED, 4, 0));
    check_answer(answers, 2, answer_of(NICOISETARN_KIND_WAITS, 5, 0));
}

/* A preview before its reply and one behind it: the list answers as the calls alone do. */
static void check_batch_preview(void) {
    const nicoisetarn_answer wanted = {NICOISETARN_KIND_PREVIEWED, 1, 1, 1, 5, 0x0001}; /* ages 1 and 0 */
    two_ways b, single;
    nicoisetarn_unit unit = lent_two(&b), alone = lent_two(&single);
    uint32_t calls[3 * NICOISETARN_CALL_STRIDE], answers[3 * NICOISETARN_ANSWER_STRIDE];
    memset(answers, UNTOUCHED, sizeof answers);
    nicoisetarn_put_call(calls, 0, NICOISETARN_CALL_PREVIEW, 0, 0, 0);
    nicoisetarn_put_call(calls, 1, NICOISETARN_CALL_REPLY, 0, 0, 0);
    nicoisetarn_put_call(calls, 2, NICOISETARN_CALL_PREVIEW, 0, 0, 0);
    make_dirty_victim(&b);
    single = b;
    CHECK(same(nicoisetarn_run(&unit, calls, answers, 3), NICOISETARN_KIND_RAN, 0, 0));
    check_answer(answers, 0, wanted);
    check_answer(answers, 0, nicoisetarn_preview(&alone));
    check_answer(answers, 1, nicoisetarn_reply(&alone));
    check_answer(answers, 2, nicoisetarn_preview(&alone));
    check_answer(answers, 2, answer_of(NICOISETARN_KIND_REFUSED, NICOISETARN_REFUSED_NO_REQUEST, 0));
    CHECK(memcmp(&b, &single, sizeof b) == 0);
}

/* Lengths that do not fit change nothing, the answers neither; an empty list runs. */
static void check_batch_lengths(void) {
    const size_t lengths[][2] = {{0, 6}, {6, 0}, {5, 5}, {6, 12}, {7, 7}, {12, 6}, {6, 5}};
    bench b, before;
    uint32_t answers[12], untouched[12];
    memset(answers, UNTOUCHED, sizeof answers);
    memcpy(untouched, answers, sizeof answers);
    make_busy(&b);
    before = b;
    for (size_t place = 0; place < sizeof lengths / sizeof *lengths; place++) {
        CHECK(same(nicoisetarn_run_24_in(&b.image, listed, lengths[place][0], answers, lengths[place][1], b.cache,
                                         sizeof b.cache, b.memory, sizeof b.memory),
                   NICOISETARN_KIND_NO_SUCH_CALL, 0, 0));
    }
    nicoisetarn_unit unit = lent(&b);
    CHECK(same(nicoisetarn_run(&unit, listed, answers, 0), NICOISETARN_KIND_RAN, 0, 0));
    CHECK(same(nicoisetarn_run(&unit, listed, answers, SIZE_MAX / NICOISETARN_CALL_STRIDE + 1),
               NICOISETARN_KIND_NO_SUCH_CALL, 0, 0));
    CHECK(memcmp(&b, &before, sizeof b) == 0);
    CHECK(memcmp(answers, untouched, sizeof answers) == 0);
}

/* On a damaged image every call has the refusal for an answer, show line the empty part; what is no call stays none. */
static void check_batch_refused(void) {
    bench b, before;
    nicoisetarn_unit unit = lent(&b);
    uint32_t calls[5 * NICOISETARN_CALL_STRIDE], answers[5 * NICOISETARN_ANSWER_STRIDE];
    memset(answers, UNTOUCHED, sizeof answers);
    nicoisetarn_put_call(calls, 0, NICOISETARN_CALL_STORE, 0, 1, 256);
    nicoisetarn_put_call(calls, 1, NICOISETARN_CALL_SHOW_LINE, 16, 0, 0);
    for (size_t place = 2; place < 5; place++) {
        nicoisetarn_put_call(calls, place, NICOISETARN_CALL_IDLE, 0, 0, 0);
    }
    calls[3 * NICOISETARN_CALL_STRIDE + 4] = 1;
    calls[4 * NICOISETARN_CALL_STRIDE + 5] = 1;
    make_busy(&b);
    b.image.nicoisetarn_words[NICOISETARN_AT_REQUESTED / 4] = 2;
    before = b;
    CHECK(same(nicoisetarn_run(&unit, calls, answers, 5), NICOISETARN_KIND_RAN, 0, 0));
    check_answer(answers, 0, answer_of(NICOISETARN_KIND_REFUSED, NICOISETARN_REFUSED_STATE, 0));
    check_answer(answers, 1, answer_of(NICOISETARN_KIND_SHOWN, 0, 0));
    check_answer(answers, 2, answer_of(NICOISETARN_KIND_REFUSED, NICOISETARN_REFUSED_STATE, 0));
    check_answer(answers, 3, answer_of(NICOISETARN_KIND_NO_SUCH_CALL, 0, 0));
    check_answer(answers, 4, answer_of(NICOISETARN_KIND_NO_SUCH_CALL, 0, 0));
    CHECK(memcmp(&b, &before, sizeof b) == 0);
}

/* ---- the ways study */

/* Sixteen line numbers, in one set: one hits with two ways, two more with three, and one more with four. */
static const uint32_t lines[] = {0, 1, 0, 2, 1, 3, 2, 0, 4, 5, 6, 7, 8, 9, 10, 11};

enum { LINES = sizeof lines / sizeof *lines };

/* Line numbers in the scratch, which a study must not see. */
static void fill_scratch(uint32_t *scratch, size_t length) {
    for (size_t at = 0; at < length; at++) {
        scratch[at] = (uint32_t)at % 5;
    }
}

static void play_study(void) {
    uint32_t scratch[NICOISETARN_STUDY_SCRATCH];
    fill_scratch(scratch, NICOISETARN_STUDY_SCRATCH);
    const nicoisetarn_study study = nicoisetarn_study_ways(lines, LINES, 1, scratch, NICOISETARN_STUDY_SCRATCH);
    CHECK(study.refusal == 0);
    for (size_t place = 0; place < NICOISETARN_STUDY_WAYS; place++) {
        printf("ways %lu: hits %lu, rate %lu\n", (unsigned long)place + 1, (unsigned long)study.hits[place],
               (unsigned long)study.rates[place]);
    }
    CHECK(all_zero((const uint8_t *)scratch, sizeof scratch));
}

/* An empty list gives zeros, and clears the scratch. */
static void check_empty_study(void) {
    const nicoisetarn_study zeros = {0, {0, 0, 0, 0}, {0, 0, 0, 0}};
    uint32_t scratch[NICOISETARN_STUDY_SCRATCH];
    fill_scratch(scratch, NICOISETARN_STUDY_SCRATCH);
    const nicoisetarn_study study = nicoisetarn_study_ways(lines, 0, 64, scratch, NICOISETARN_STUDY_SCRATCH);
    CHECK(memcmp(&study, &zeros, sizeof study) == 0);
    CHECK(all_zero((const uint8_t *)scratch, sizeof scratch));
}

/* As many items as a study takes, and one more, all of line 0. */
static const uint32_t many[NICOISETARN_STUDY_ITEMS + 1];

/* 22 for each figure alone: the result is zeros, and the scratch stays, whatever its length. */
static void check_refused_studies(void) {
    const uint32_t too_high[] = {0, NICOISETARN_STUDY_LINES};
    const struct {
        const uint32_t *items;
        size_t length;
        uint32_t sets;
        size_t scratch;
    } refused[] = {
        {many, NICOISETARN_STUDY_ITEMS + 1, 1, NICOISETARN_STUDY_SCRATCH},
        {too_high, 2, 1, NICOISETARN_STUDY_SCRATCH},
        {lines, LINES, 0, NICOISETARN_STUDY_SCRATCH},
        {lines, LINES, 3, NICOISETARN_STUDY_SCRATCH},
        {lines, LINES, 128, NICOISETARN_STUDY_SCRATCH},
        {lines, LINES, 1, 0},
        {lines, LINES, 1, 256},
        {lines, LINES, 1, NICOISETARN_STUDY_SCRATCH - 1},
        {lines, LINES, 1, NICOISETARN_STUDY_SCRATCH + 1},
    };
    const nicoisetarn_study wanted = {NICOISETARN_REFUSED_STUDY, {0, 0, 0, 0}, {0, 0, 0, 0}};
    uint32_t scratch[NICOISETARN_STUDY_SCRATCH + 1], before[NICOISETARN_STUDY_SCRATCH + 1];
    fill_scratch(scratch, NICOISETARN_STUDY_SCRATCH + 1);
    memcpy(before, scratch, sizeof scratch);
    for (size_t place = 0; place < sizeof refused / sizeof *refused; place++) {
        const nicoisetarn_study study = nicoisetarn_study_ways(
            refused[place].items, refused[place].length, refused[place].sets, scratch, refused[place].scratch);
        CHECK(memcmp(&study, &wanted, sizeof study) == 0);
        CHECK(memcmp(scratch, before, sizeof scratch) == 0);
    }
}

/* The longest list is accepted, and nothing past the scratch is written. */
static void check_longest_study(void) {
    uint32_t scratch[NICOISETARN_STUDY_SCRATCH + 1];
    memset(scratch, 0xA5, sizeof scratch);
    const uint32_t behind = scratch[NICOISETARN_STUDY_SCRATCH];
    const nicoisetarn_study study =
        nicoisetarn_study_ways(many, NICOISETARN_STUDY_ITEMS, 1, scratch, NICOISETARN_STUDY_SCRATCH);
    CHECK(study.hits[0] == NICOISETARN_STUDY_ITEMS - 1 && study.rates[0] == 1000);
    CHECK(scratch[NICOISETARN_STUDY_SCRATCH - 1] == 0 && scratch[NICOISETARN_STUDY_SCRATCH] == behind);
}

int main(void) {
    bench b;
    play(&b);
    play_batch(&b);
    play_write_through(&b);
    play_dirty_words(&b);
    play_checkpoints(&b);
    play_waits(&b);
    play_fed(1); /* fed whole */
    play_fed(2); /* half of it */
    play_preview(make_invalid_victim);
    play_preview(make_dirty_victim);
    play_study();
    check_words();
    check_image();
    check_refusals();
    check_full_queues();
    check_damaged();
    check_no_such_call();
    check_waits(NICOISETARN_WRITE_BACK);
    check_waits(NICOISETARN_WRITE_THROUGH);
    check_waits_for_store();
    check_fed(NICOISETARN_WRITE_BACK);
    check_fed(NICOISETARN_WRITE_THROUGH);
    check_damaged_fed();
    check_parts();
    check_clean_victim(NICOISETARN_WRITE_BACK);
    check_clean_victim(NICOISETARN_WRITE_THROUGH);
    check_refused_previews();
    check_dirty_marks();
    check_clean_words();
    check_refused_checkpoints();
    check_marks_left();
    check_damaged_checkpoints();
    check_profiles();
    check_write_through();
    check_no_such_profile();
    check_shown();
    check_shown_of_const();
    check_batch();
    check_batch_waits();
    check_batch_preview();
    check_batch_lengths();
    check_batch_refused();
    check_empty_study();
    check_refused_studies();
    check_longest_study();
    return 0;
}
