/*
 * The load/store unit for benches in C and C++: a data cache, a store queue, a load queue, one miss register and
 * a main memory that the bench lends. C11 or C++11, x86-64 (System V). Link with libnicoisetarn.a, which
 * `bindings/library` writes.
 *
 *     static nicoisetarn_image image;
 *     static uint8_t cache[16], memory[32];
 *     nicoisetarn_unit unit = {&image, cache, sizeof cache, memory, sizeof memory};
 *
 *     nicoisetarn_start(&unit, 1, 1);            one set of one way: ready
 *     nicoisetarn_store(&unit, 4, 1, 7);         stored, number 1
 *     nicoisetarn_load(&unit, 4, 1);             value, number 2: 7, out of the store queue
 *
 * A load that waits: commit it, idle (request), reply (filled), retry (value). An uncommitted load never asks for
 * its line. An idle call may write an older store first (drained), and there is one request at a time. While its line
 * is requested, for whichever load or store, a load that waits says "waits-requested" in place of "waits".
 *
 *     nicoisetarn_load(&unit, 20, 1);            waits, number 3: its line is absent
 *     nicoisetarn_commit(&unit, 3);              committed 3
 *     nicoisetarn_idle(&unit);                   request 16, the line's first address
 *     nicoisetarn_retry(&unit, 3);               waits-requested, number 3: its line is on its way
 *     nicoisetarn_reply(&unit);                  filled 16
 *     nicoisetarn_retry(&unit, 3);               value, number 3: the byte of memory
 *
 * A drained store stands in its line until the line is evicted or the unit is flushed. Then the words of 4 bytes that were
 * written go to memory, and no others. A preview (02: preview of a reply) tells what a reply will evict and where it puts
 * its line, and changes nothing.
 *
 *     nicoisetarn_idle(&unit);                   request 0, for the store
 *     nicoisetarn_preview(&unit);                previewed: way 0, line 1 evicted, none of its words written, age 0
 *     nicoisetarn_reply(&unit);                  filled 0
 *     nicoisetarn_idle(&unit);                   drained 1
 *     nicoisetarn_flush(&unit);                  flushed 1: a word
 *
 * A load whose bytes all came from held stores (02: fed from held stores) does not use its line when it commits, so that
 * the ages of its set stay. Every other load uses its line, if that is present, when it has its answer and is committed.
 *
 * A checkpoint (02: set a mark) has a name, 1 to 8, and remembers the next operation number. A restore (02: return to a
 * mark) drops what was loaded and stored since, as an abort at that number does, and forgets the mark and all set later.
 *
 *     nicoisetarn_checkpoint(&unit, 3);          checkpointed 4: the next number
 *     nicoisetarn_store(&unit, 4, 1, 8);         stored, number 4
 *     nicoisetarn_restore(&unit, 3);             kept 3
 *
 * A start may choose write-through without write-allocate in place of write-back: a drain then needs no line. It writes
 * memory, and also the cached line where there is one, which it uses. Idle requests no line for a store, no line is
 * dirty, and an accepted flush answers 0.
 *
 *     nicoisetarn_start_with(&unit, 1, 1, NICOISETARN_WRITE_THROUGH);
 *
 * A batch is a list of calls, six numbers each, that the library makes one after the other. The unit is opened and
 * checked once for the list and not at each call.
 *
 *     static const uint32_t calls[] = {NICOISETARN_CALL_STORE, 8, 1, 9, 0, 0,
 *                                      NICOISETARN_CALL_LOAD, 8, 1, 0, 0, 0};
 *     static uint32_t answers[2 * NICOISETARN_ANSWER_STRIDE];
 *
 *     nicoisetarn_run(&unit, calls, answers, 2); ran
 *     nicoisetarn_answer_at(answers, 1);         value, number 5: 9
 *
 * The ways study needs no unit: how often a list of line numbers would hit in caches of 1, 2, 3 and 4 ways, with 1, 2, 4, 8,
 * 16, 32 or 64 sets.
 *
 *     static const uint32_t lines[] = {0, 1, 0, 1};
 *     static uint32_t scratch[NICOISETARN_STUDY_SCRATCH];
 *
 *     nicoisetarn_study_ways(lines, 4, 1, scratch, NICOISETARN_STUDY_SCRATCH);
 *                                                hits 0, 2, 2, 2; rates 0, 500, 500, 500 per thousand
 *
 * Who owns what. The bench owns everything: the image of the unit's state, the cache bytes and the memory bytes.
 * A nicoisetarn_unit only says where they are. The library keeps nothing between calls, allocates nothing and may
 * be called from several threads on different units, and for studies with different scratches. Image, cache and memory
 * can be copied and stored byte for byte, as long as the three stay together.
 *
 * What the bench owes at each call. The three pointers are not NULL, also where a length is 0; they point to
 * initialised bytes that can be read and written, and that do not overlap; nobody else writes them during the
 * call. (A start only reads the memory, and nicoisetarn_show_line only reads all three.) The image's bytes may be
 * anything, also before a start. For the two lists of a batch the same holds, and both are aligned as uint32_t are:
 * the answers are no part of the calls, neither is NULL for an empty list, and the calls, which are only read, may be
 * any numbers.
 *
 * What a refusal means. A refused call has changed nothing: image, cache and memory are as before, byte for byte.
 * An image that is damaged, or was never started, is refused by every call but a start (show line gives the empty
 * part), in a batch by each call of the list, and is never repaired.
 */
#ifndef NICOISETARN_H
#define NICOISETARN_H

#include <stddef.h>
#include <stdint.h>
#include <string.h>

#ifdef __cplusplus
#define NICOISETARN_ASSERT(holds, says) static_assert(holds, says)
#define NICOISETARN_ALIGNMENT(type) alignof(type)
extern "C" {
#else
#define NICOISETARN_ASSERT(holds, says) _Static_assert(holds, says)
#define NICOISETARN_ALIGNMENT(type) _Alignof(type)
#endif

/* ---- numbers of the unit */

#define NICOISETARN_LINE 16          /* bytes of a line */
#define NICOISETARN_WORD 4           /* bytes of a word: each aligned word of a line has a dirty mark */
#define NICOISETARN_MAX_SETS 64      /* sets: 1, 2, 4, 8, 16, 32 or 64 */
#define NICOISETARN_MAX_WAYS 4       /* ways: 1 to 4 */
#define NICOISETARN_MIN_MEMORY 16    /* memory: a multiple of 16 bytes, at least so many */
#define NICOISETARN_MAX_MEMORY 65536 /* and at most so many */
#define NICOISETARN_STORES 16        /* places of the store queue */
#define NICOISETARN_LOADS 8          /* places of the load queue */
#define NICOISETARN_CHECKPOINTS 8    /* places of marks, and the greatest name of one */
#define NICOISETARN_RECORDS 256      /* tag records: set * ways + way names one */
#define NICOISETARN_IMAGE_BYTES 2048 /* bytes of an image */
#define NICOISETARN_STUDY_WAYS 4     /* ways study: with 1 to so many ways */
#define NICOISETARN_STUDY_ITEMS 65536 /* ways study: the most line numbers of a list */
#define NICOISETARN_STUDY_LINES 4096 /* ways study: each line number is below so many */
#define NICOISETARN_STUDY_SCRATCH 640 /* ways study: numbers of the scratch */

/* Profiles that a start may choose: what a drain does with a store. */
typedef enum nicoisetarn_write_profile {
    NICOISETARN_WRITE_BACK = 0,   /* with write-allocate: written to its line, where its word becomes dirty */
    NICOISETARN_WRITE_THROUGH = 1 /* without write-allocate: written to memory, and to its line where that is present */
} nicoisetarn_write_profile;

/* Bytes of the cache that a start of these figures asks for. */
#define NICOISETARN_CACHE_BYTES(sets, ways) ((size_t)(sets) * (size_t)(ways) * NICOISETARN_LINE)

/* ---- what is lent */

/* The image of a state. Opaque: look at it by the functions below and change it by calls alone. */
typedef struct nicoisetarn_image {
    uint32_t nicoisetarn_words[NICOISETARN_IMAGE_BYTES / 4];
} nicoisetarn_image;

NICOISETARN_ASSERT(sizeof(nicoisetarn_image) == NICOISETARN_IMAGE_BYTES, "an image has 2048 bytes");
NICOISETARN_ASSERT(NICOISETARN_ALIGNMENT(nicoisetarn_image) == 4, "an image is aligned to 4");

/*
 * What is lent at every call: where the image is, the cache and the memory, each with its length. A length that
 * is not allowed, or that disagrees with the image, is refused (1); nothing is read or written past it.
 */
typedef struct nicoisetarn_unit {
    nicoisetarn_image *image;
    uint8_t *cache; /* exactly sets * ways * 16 bytes */
    size_t cache_length;
    uint8_t *memory; /* as many bytes as at the start */
    size_t memory_length;
} nicoisetarn_unit;

/* ---- answers */

/* What a call answers: its kind, and the numbers that the kind has; the others are 0. */
typedef struct nicoisetarn_answer {
    uint32_t kind; /* a nicoisetarn_kind */
    uint32_t first;
    uint32_t second;
    uint32_t third;
    uint32_t fourth;
    uint32_t fifth;
} nicoisetarn_answer;

NICOISETARN_ASSERT(sizeof(nicoisetarn_answer) == 24, "an answer has 24 bytes");
NICOISETARN_ASSERT(offsetof(nicoisetarn_answer, first) == 4, "first stands behind kind");
NICOISETARN_ASSERT(offsetof(nicoisetarn_answer, second) == 8, "second stands behind first");
NICOISETARN_ASSERT(offsetof(nicoisetarn_answer, third) == 12, "third stands behind second");
NICOISETARN_ASSERT(offsetof(nicoisetarn_answer, fourth) == 16, "fourth stands behind third");
NICOISETARN_ASSERT(offsetof(nicoisetarn_answer, fifth) == 20, "fifth stands behind fourth");

/* Kinds of answers, with their numbers from first on. Kinds from 16 to 253 are free for answers to come. */
typedef enum nicoisetarn_kind {
    NICOISETARN_KIND_REFUSED = 0,      /* a nicoisetarn_refusal */
    NICOISETARN_KIND_STORED = 1,       /* the store's number */
    NICOISETARN_KIND_VALUE = 2,        /* the load's number, the value */
    NICOISETARN_KIND_WAITS = 3,        /* the load's number: it waits, and its line is not requested */
    NICOISETARN_KIND_COMMITTED = 4,    /* the committed number that is in force */
    NICOISETARN_KIND_KEPT = 5,         /* the last number that is in force */
    NICOISETARN_KIND_DRAINED = 6,      /* the number of the store that was written */
    NICOISETARN_KIND_REQUEST = 7,      /* the first address of the requested line */
    NICOISETARN_KIND_IDLE = 8,         /* an idle call had nothing to do */
    NICOISETARN_KIND_FILLED = 9,       /* the first address of the line that was filled */
    NICOISETARN_KIND_FLUSHED = 10,     /* the words of 4 bytes written to memory */
    NICOISETARN_KIND_SHOWN = 11,       /* the part's place in the cache, its length: 16, or 0 at place 0 */
    NICOISETARN_KIND_READY = 12,       /* an accepted start */
    NICOISETARN_KIND_CHECKPOINTED = 13, /* the operation number that the mark remembers */
    NICOISETARN_KIND_WAITS_REQUESTED = 14, /* the load's number: it waits, and its line is requested */
    NICOISETARN_KIND_PREVIEWED = 15,   /* way, evicts, line, words, and the ages in bytes: nicoisetarn_preview_parts */
    NICOISETARN_KIND_RAN = 254,        /* a batch: each call of the list has its own answer, accepted or refused */
    NICOISETARN_KIND_NO_SUCH_CALL = 255 /* no such call or profile, or a batch of lengths that do not fit: nothing changed */
} nicoisetarn_kind;

/*
 * Refusals, by the numbers of the scope paper. The first that applies is given, in the order 1, 10, 2, 3, 4, 5,
 * 13, then 11 or 12; each of 14 to 18 follows 10, and so do 19, 20 and 21, in this order. 22 is the ways study's, and its
 * only one. (6 is the script player's, for a line that it cannot read.)
 */
typedef enum nicoisetarn_refusal {
    NICOISETARN_REFUSED_FIGURES = 1,      /* sets, ways or a length is not allowed or disagrees with the image */
    NICOISETARN_REFUSED_WIDTH = 2,        /* load, store: the width is not 1, 2 or 4 */
    NICOISETARN_REFUSED_ALIGNMENT = 3,    /* load, store: the address is not a multiple of the width */
    NICOISETARN_REFUSED_ADDRESS = 4,      /* load, store: address + width exceeds the memory length */
    NICOISETARN_REFUSED_VALUE = 5,        /* store: the value is 256 to the power width or more */
    NICOISETARN_REFUSED_STATE = 10,       /* the image with its cache and memory is not well formed */
    NICOISETARN_REFUSED_STORES_FULL = 11, /* store: 16 are held */
    NICOISETARN_REFUSED_LOADS_FULL = 12,  /* load: 8 are listed */
    NICOISETARN_REFUSED_NUMBERS = 13,     /* load, store: the last number is 4294967295 */
    NICOISETARN_REFUSED_RETRY = 14,       /* retry: no waiting load has that number */
    NICOISETARN_REFUSED_COMMIT = 15,      /* commit: the number is below the committed one or above the last */
    NICOISETARN_REFUSED_ABORT = 16,       /* abort: the number is at most the committed one, or above last + 1 */
    NICOISETARN_REFUSED_NO_REQUEST = 17,  /* reply, preview: the miss register is free */
    NICOISETARN_REFUSED_FLUSH = 18,       /* flush: a committed store is held */
    NICOISETARN_REFUSED_NAME = 19,        /* checkpoint, restore: the name is not 1 to 8 */
    NICOISETARN_REFUSED_NAME_IN_USE = 20, /* checkpoint: a mark in force has the name */
    NICOISETARN_REFUSED_NO_CHECKPOINT = 21, /* restore: no mark has the name; checkpoint: the last number is 4294967295 */
    NICOISETARN_REFUSED_STUDY = 22 /* ways study: the list, an item, the set count or the scratch is not allowed */
} nicoisetarn_refusal;

/* The word of a kind, as the script player prints it; empty where there is no such kind. */
static inline const char *nicoisetarn_kind_word(uint32_t kind) {
    switch (kind) {
    case NICOISETARN_KIND_REFUSED: return "refused";
    case NICOISETARN_KIND_STORED: return "stored";
    case NICOISETARN_KIND_VALUE: return "value";
    case NICOISETARN_KIND_WAITS: return "waits";
    case NICOISETARN_KIND_WAITS_REQUESTED: return "waits-requested";
    case NICOISETARN_KIND_COMMITTED: return "committed";
    case NICOISETARN_KIND_KEPT: return "kept";
    case NICOISETARN_KIND_DRAINED: return "drained";
    case NICOISETARN_KIND_REQUEST: return "request";
    case NICOISETARN_KIND_IDLE: return "idle";
    case NICOISETARN_KIND_FILLED: return "filled";
    case NICOISETARN_KIND_FLUSHED: return "flushed";
    case NICOISETARN_KIND_SHOWN: return "shown"; /* not printed by the player */
    case NICOISETARN_KIND_READY: return "ready";
    case NICOISETARN_KIND_CHECKPOINTED: return "checkpointed"; /* nor are these */
    case NICOISETARN_KIND_PREVIEWED: return "previewed";
    case NICOISETARN_KIND_RAN: return "ran";
    case NICOISETARN_KIND_NO_SUCH_CALL: return "no such call";
    default: return "";
    }
}

/* Not 0: a load waits, by either word. Its number is first. */
static inline int nicoisetarn_waits(nicoisetarn_answer answer) {
    return answer.kind == NICOISETARN_KIND_WAITS || answer.kind == NICOISETARN_KIND_WAITS_REQUESTED;
}

/* When a refusal is given, in the scope paper's words; empty where the library has no refusal of that number. */
static inline const char *nicoisetarn_refusal_words(uint32_t number) {
    switch (number) {
    case NICOISETARN_REFUSED_FIGURES:
        return "sets, ways, memory or cache length is not allowed, or a lent length disagrees with the state";
    case NICOISETARN_REFUSED_WIDTH: return "width is not 1, 2 or 4";
    case NICOISETARN_REFUSED_ALIGNMENT: return "address is not a multiple of width";
    case NICOISETARN_REFUSED_ADDRESS: return "address + width exceeds memory length";
    case NICOISETARN_REFUSED_VALUE: return "a stored value is 256 to the power width or more";
    case NICOISETARN_REFUSED_STATE: return "state not well formed";
    case NICOISETARN_REFUSED_STORES_FULL: return "store: 16 are held";
    case NICOISETARN_REFUSED_LOADS_FULL: return "load: 8 are listed";
    case NICOISETARN_REFUSED_NUMBERS: return "load or store: last is 4294967295";
    case NICOISETARN_REFUSED_RETRY: return "inquiry: no waiting load of that number";
    case NICOISETARN_REFUSED_COMMIT: return "commit: k is below h or above last";
    case NICOISETARN_REFUSED_ABORT: return "abort: n is at most h or above last + 1";
    case NICOISETARN_REFUSED_NO_REQUEST: return "reply or preview: register free";
    case NICOISETARN_REFUSED_FLUSH: return "flush: a committed store is held";
    case NICOISETARN_REFUSED_NAME: return "name outside 1 to 8";
    case NICOISETARN_REFUSED_NAME_IN_USE: return "set: name in use";
    case NICOISETARN_REFUSED_NO_CHECKPOINT: return "return: name not in use, or set when last is 4294967295";
    case NICOISETARN_REFUSED_STUDY: return "study: list, item, set count or scratch outside its figures";
    default: return "";
    }
}

/* Call numbers of nicoisetarn_step_24_in and of a batch, with the operands that each takes. */
typedef enum nicoisetarn_call {
    NICOISETARN_CALL_LOAD = 0,       /* address, width */
    NICOISETARN_CALL_STORE = 1,      /* address, width, value */
    NICOISETARN_CALL_RETRY = 2,      /* number */
    NICOISETARN_CALL_COMMIT = 3,     /* number */
    NICOISETARN_CALL_ABORT = 4,      /* number */
    NICOISETARN_CALL_IDLE = 5,       /* none */
    NICOISETARN_CALL_REPLY = 6,      /* none */
    NICOISETARN_CALL_FLUSH = 7,      /* none */
    NICOISETARN_CALL_SHOW_LINE = 8,  /* address */
    NICOISETARN_CALL_CHECKPOINT = 9, /* name */
    NICOISETARN_CALL_RESTORE = 10,   /* name */
    NICOISETARN_CALL_PREVIEW = 11    /* none */
} nicoisetarn_call;

#define NICOISETARN_CALL_STRIDE 6   /* numbers of a call in a batch: the call's, x, y, z, and two that must be 0 */
#define NICOISETARN_ANSWER_STRIDE 6 /* numbers of an answer in a batch: kind, first to fifth */

NICOISETARN_ASSERT(sizeof(nicoisetarn_answer) == 4 * NICOISETARN_ANSWER_STRIDE, "a batch has all numbers of an answer");

/* ---- the functions of the library; the calls by name, below, are what a bench wants */

/*
 * Their names have the length of an answer, 24, and that of the start has the length of an image too, 2048: the caller gives
 * the room for both, so that an object file made for other lengths must not link.
 */

/*
 * A start in a profile, on an image where it is stored. It reads the memory alone. A number that no profile has is
 * answered by NICOISETARN_KIND_NO_SUCH_CALL: nothing changes, and figures, image, cache and memory are not looked at.
 */
nicoisetarn_answer nicoisetarn_start_2048_24_in(nicoisetarn_image *image, uint32_t sets, uint32_t ways,
                                                uint32_t profile, uint8_t *cache, size_t cache_length,
                                                const uint8_t *memory, size_t memory_length);

/*
 * Any other call by its number. Operands that the call does not take are not looked at. A number that no call has
 * is answered by NICOISETARN_KIND_NO_SUCH_CALL: nothing changes, and image, cache and memory are not looked at.
 */
nicoisetarn_answer nicoisetarn_step_24_in(nicoisetarn_image *image, uint32_t call,
                                          uint32_t x, uint32_t y, uint32_t z,
                                          uint8_t *cache, size_t cache_length,
                                          uint8_t *memory, size_t memory_length);

/*
 * A batch: calls made one after the other. Answers, image, cache and memory are those of nicoisetarn_step_24_in, call by
 * call: a refused call changes nothing, and the list goes on. A call whose number no call has, or whose fifth or sixth
 * number is not 0, is answered by NICOISETARN_KIND_NO_SUCH_CALL in its place and changes nothing, and the list goes on.
 * Call k begins at calls[k * NICOISETARN_CALL_STRIDE], its answer at answers[k * NICOISETARN_ANSWER_STRIDE]. The
 * lengths count numbers: that of the calls must be a multiple of their stride, and there must be room for as many
 * answers and no more.
 * It answers NICOISETARN_KIND_RAN, with no numbers, where the lengths fit, also for an empty list and on an image that is
 * refused: then each call has the refusal 1 or 10 (show line the empty part, an unknown call its own answer), and image,
 * cache and memory stay. Where they do not fit it answers NICOISETARN_KIND_NO_SUCH_CALL, and nothing changes, the
 * answers neither.
 * Of a show line the answer is place and length. The bytes in the cache are those of that moment only if no later
 * call of the list writes them: a bench that wants to see them ends its list there.
 */
nicoisetarn_answer nicoisetarn_run_24_in(nicoisetarn_image *image,
                                         const uint32_t *calls, size_t calls_length,
                                         uint32_t *answers, size_t answers_length,
                                         uint8_t *cache, size_t cache_length,
                                         uint8_t *memory, size_t memory_length);

/* Show line on an image and bytes that are only read: what NICOISETARN_CALL_SHOW_LINE answers. */
nicoisetarn_answer nicoisetarn_show_line_24_in(const nicoisetarn_image *image, uint32_t address,
                                               const uint8_t *cache, size_t cache_length,
                                               const uint8_t *memory, size_t memory_length);

/* A call by its number on a unit. For the functions below. */
static inline nicoisetarn_answer nicoisetarn_step(nicoisetarn_unit *unit, nicoisetarn_call call,
                                                  uint32_t x, uint32_t y, uint32_t z) {
    return nicoisetarn_step_24_in(unit->image, (uint32_t)call, x, y, z,
                                  unit->cache, unit->cache_length, unit->memory, unit->memory_length);
}

/* ---- the calls by name */

/*
 * Each but start and show line may also be refused by 1 (a length disagrees, or the image holds no allowed sets, ways
 * and memory length: never started) or 10 (image, cache or memory is damaged).
 */

/*
 * Start, with these sets and ways, in a profile (a nicoisetarn_write_profile): ready. The image becomes that of a unit
 * with both queues empty, no mark in force, no line present and last and committed number 0; way w of each set has age
 * w; the cache bytes become zero; the memory stays as found. It looks at no earlier image.
 * Refused by 1 alone: sets or ways is not allowed, the cache has not exactly sets * ways * 16 bytes, or the memory
 * is no multiple of 16 bytes from 16 to 65536. Image and cache then stay as they were.
 * A number that no profile has is no refusal: NICOISETARN_KIND_NO_SUCH_CALL, before 1, and nothing changes.
 */
static inline nicoisetarn_answer nicoisetarn_start_with(nicoisetarn_unit *unit, uint32_t sets, uint32_t ways,
                                                        uint32_t profile) {
    return nicoisetarn_start_2048_24_in(unit->image, sets, ways, profile, unit->cache, unit->cache_length,
                                        unit->memory, unit->memory_length);
}

/* Start in write-back. */
static inline nicoisetarn_answer nicoisetarn_start(nicoisetarn_unit *unit, uint32_t sets, uint32_t ways) {
    return nicoisetarn_start_with(unit, sets, ways, NICOISETARN_WRITE_BACK);
}

/*
 * Load of width bytes: it takes the next number and joins the load queue. Each byte comes from the youngest older
 * held store that covers it, else from the cached line: value. While some byte has neither the load waits:
 * waits-requested where the miss register names its line, for whichever load or store, else waits. It requests
 * nothing and changes no age: a load is not yet known to be wanted. The queue keeps whether all of its bytes came from held
 * stores (forwarded).
 * Refused by 2 (width), 3 (alignment), 4 (address), 13 (no number left), 12 (8 loads are listed).
 */
static inline nicoisetarn_answer nicoisetarn_load(nicoisetarn_unit *unit, uint32_t address, uint32_t width) {
    return nicoisetarn_step(unit, NICOISETARN_CALL_LOAD, address, width, 0);
}

/*
 * Store of a value in width bytes, lowest byte first: it takes the next number and is held, uncommitted: stored.
 * Refused by 2 (width), 3 (alignment), 4 (address), 5 (value), 13 (no number left), 11 (16 stores are held).
 */
static inline nicoisetarn_answer nicoisetarn_store(nicoisetarn_unit *unit, uint32_t address, uint32_t width,
                                                   uint32_t value) {
    return nicoisetarn_step(unit, NICOISETARN_CALL_STORE, address, width, value);
}

/*
 * Retry of a load that waits (the scope paper's inquiry): value, or waits or waits-requested still, as the miss
 * register is now. Once answered, a committed load leaves the queue and uses its line if that is present; an
 * uncommitted one is marked answered.
 * Refused by 14: no waiting load has that number.
 */
static inline nicoisetarn_answer nicoisetarn_retry(nicoisetarn_unit *unit, uint32_t number) {
    return nicoisetarn_step(unit, NICOISETARN_CALL_RETRY, number, 0, 0);
}

/*
 * Commit of everything up to a number: committed. Answered loads up to it leave the queue in number order, each
 * using its line if that is present, but for those that are forwarded, which use none, also where their stores have
 * drained since; waiting ones stay. Marks that remember a number up to it are forgotten.
 * Refused by 15: the number is below the committed one or above the last.
 */
static inline nicoisetarn_answer nicoisetarn_commit(nicoisetarn_unit *unit, uint32_t number) {
    return nicoisetarn_step(unit, NICOISETARN_CALL_COMMIT, number, 0, 0);
}

/*
 * Abort of everything from a number on (a squash): kept, with the last number that is left. Stores and loads from
 * it on leave their queues, and the numbers are given again. No trace of them is left in any line or age. Marks that
 * remember a number above it are forgotten.
 * Refused by 16: the number is at most the committed one, or above last + 1.
 */
static inline nicoisetarn_answer nicoisetarn_abort(nicoisetarn_unit *unit, uint32_t number) {
    return nicoisetarn_step(unit, NICOISETARN_CALL_ABORT, number, 0, 0);
}

/*
 * Checkpoint (02: set a mark): checkpointed, with the next operation number, which the mark remembers. It takes none.
 * Refused by 19 (the name is not 1 to 8), 20 (a mark in force has it), 21 (no number left).
 */
static inline nicoisetarn_answer nicoisetarn_checkpoint(nicoisetarn_unit *unit, uint32_t name) {
    return nicoisetarn_step(unit, NICOISETARN_CALL_CHECKPOINT, name, 0, 0);
}

/*
 * Restore (02: return to a mark): kept, as the abort at the number that the mark remembers. The mark is forgotten, and
 * all that were set later; those set earlier stay, also at the same number.
 * Refused by 19 (the name is not 1 to 8), 21 (no mark in force has it).
 */
static inline nicoisetarn_answer nicoisetarn_restore(nicoisetarn_unit *unit, uint32_t name) {
    return nicoisetarn_step(unit, NICOISETARN_CALL_RESTORE, name, 0, 0);
}

/*
 * Idle, the unit's background work, does the first of these that it can.
 * drained: the oldest held store is committed, no older load waits, and its line is present: it is written there,
 * its word of 4 bytes becomes dirty, the line is used, and the store leaves the queue.
 * request: the miss register is free, and a committed load waits whose line is absent (the oldest such load), or
 * else the oldest held store is committed, no older load waits and its line is absent: the line is asked for.
 * idle: there is nothing to do.
 * In write-through a drain needs no line: the store is written to memory, and to its line where that is present, which
 * is used and stays clean. No line is requested for a store. The line may be requested for a load at that time: the
 * request stands, and the reply brings the new bytes.
 */
static inline nicoisetarn_answer nicoisetarn_idle(nicoisetarn_unit *unit) {
    return nicoisetarn_step(unit, NICOISETARN_CALL_IDLE, 0, 0, 0);
}

/*
 * The memory's reply to the request: filled. The requested line is copied from memory into the lowest invalid way
 * of its set, else into the way of greatest age, whose dirty words are written to memory first. The line is clean and
 * used, and the miss register becomes free.
 * Refused by 17: the miss register is free.
 */
static inline nicoisetarn_answer nicoisetarn_reply(nicoisetarn_unit *unit) {
    return nicoisetarn_step(unit, NICOISETARN_CALL_REPLY, 0, 0, 0);
}

/*
 * Preview (02: preview of a reply): previewed, with what a reply would do here: the way that the line will take, the line
 * that is evicted, which of its words are written to memory, and the ages of the set after it. nicoisetarn_previewed gives
 * these parts. Nothing changes: image, cache and memory stay, and the request stands.
 * Refused as a reply is, by 17: the miss register is free.
 */
static inline nicoisetarn_answer nicoisetarn_preview(nicoisetarn_unit *unit) {
    return nicoisetarn_step(unit, NICOISETARN_CALL_PREVIEW, 0, 0, 0);
}

/*
 * What a preview tells. way: the one that the line will take, from 0. evicts: 1 where a line is evicted, 0 where the way is
 * invalid. line: the number of the evicted line, its first address divided by 16, else 0. words: which of its words are
 * written to memory, 0 to 15, that of the word at 4 * n of the line being 1 << n; none in write-through. ages[w]: that of
 * way w after the reply, 0 behind the last way.
 */
typedef struct nicoisetarn_preview_parts {
    uint32_t way, evicts, line, words;
    uint32_t ages[NICOISETARN_MAX_WAYS];
} nicoisetarn_preview_parts;

/* The parts that a preview answered, the age of way w in byte w of fifth; all zero where the answer is of another kind. */
static inline nicoisetarn_preview_parts nicoisetarn_previewed(nicoisetarn_answer answer) {
    nicoisetarn_preview_parts parts = {0, 0, 0, 0, {0, 0, 0, 0}};
    if (answer.kind != NICOISETARN_KIND_PREVIEWED) {
        return parts;
    }
    parts.way = answer.first;
    parts.evicts = answer.second;
    parts.line = answer.third;
    parts.words = answer.fourth;
    for (uint32_t way = 0; way < NICOISETARN_MAX_WAYS; way++) {
        parts.ages[way] = answer.fifth >> 8 * way & 0xFF;
    }
    return parts;
}

/*
 * Flush: every dirty word is written to memory and marked clean; flushed, with how many: 0 in write-through. Ages stay.
 * Refused by 18: a committed store is held (drain it by idle calls first).
 */
static inline nicoisetarn_answer nicoisetarn_flush(nicoisetarn_unit *unit) {
    return nicoisetarn_step(unit, NICOISETARN_CALL_FLUSH, 0, 0, 0);
}

/*
 * Show line: the 16 bytes of the line of an address as a part of the cache, or the empty part where the line is
 * absent, the address is outside memory, or another call would be refused by 1 or 10. It is never refused, and all
 * that is lent is only read: a bench whose bytes are const calls nicoisetarn_show_line_24_in. nicoisetarn_shown gives
 * the bytes.
 */
static inline nicoisetarn_answer nicoisetarn_show_line(const nicoisetarn_unit *unit, uint32_t address) {
    return nicoisetarn_show_line_24_in(unit->image, address, unit->cache, unit->cache_length,
                                       unit->memory, unit->memory_length);
}

/*
 * The 16 bytes of the cache that a show line answered, or NULL where the part is empty. They are what stands there now:
 * a call made since, or a later one of the same batch, may have written them.
 */
static inline const uint8_t *nicoisetarn_shown(const nicoisetarn_unit *unit, nicoisetarn_answer shown) {
    if (shown.kind != NICOISETARN_KIND_SHOWN || shown.second == 0) {
        return NULL;
    }
    return unit->cache + shown.first;
}

/* ---- a batch */

/* Writes a call of a batch in its place, counted from 0. Operands that the call does not take are not looked at. */
static inline void nicoisetarn_put_call(uint32_t *calls, size_t place, nicoisetarn_call call,
                                        uint32_t x, uint32_t y, uint32_t z) {
    const uint32_t numbers[NICOISETARN_CALL_STRIDE] = {(uint32_t)call, x, y, z, 0, 0};
    memcpy(calls + place * NICOISETARN_CALL_STRIDE, numbers, sizeof numbers);
}

/*
 * Makes count calls and writes as many answers: ran. nicoisetarn_run_24_in says how. The calls have at least
 * count * NICOISETARN_CALL_STRIDE numbers, and the answers count * NICOISETARN_ANSWER_STRIDE. More calls than a list
 * of any length has are answered as lengths that do not fit.
 */
static inline nicoisetarn_answer nicoisetarn_run(nicoisetarn_unit *unit, const uint32_t *calls, uint32_t *answers,
                                                 size_t count) {
    if (count > SIZE_MAX / NICOISETARN_CALL_STRIDE) {
        const nicoisetarn_answer none = {NICOISETARN_KIND_NO_SUCH_CALL, 0, 0, 0, 0, 0};
        return none;
    }
    return nicoisetarn_run_24_in(unit->image, calls, count * NICOISETARN_CALL_STRIDE,
                                 answers, count * NICOISETARN_ANSWER_STRIDE,
                                 unit->cache, unit->cache_length, unit->memory, unit->memory_length);
}

/* The answer to the call in a place, counted from 0. */
static inline nicoisetarn_answer nicoisetarn_answer_at(const uint32_t *answers, size_t place) {
    const uint32_t *numbers = answers + place * NICOISETARN_ANSWER_STRIDE;
    const nicoisetarn_answer answer = {numbers[0], numbers[1], numbers[2], numbers[3], numbers[4], numbers[5]};
    return answer;
}

/* ---- the ways study */

/*
 * What a study gives. refusal: 0, or NICOISETARN_REFUSED_STUDY, and then all the others are 0. hits[n]: the items that hit
 * with n + 1 ways. rates[n]: those hits per thousand items, rounded to the nearest, a half up; 0 for an empty list.
 */
typedef struct nicoisetarn_study {
    uint32_t refusal;
    uint32_t hits[NICOISETARN_STUDY_WAYS];
    uint32_t rates[NICOISETARN_STUDY_WAYS];
} nicoisetarn_study;

NICOISETARN_ASSERT(sizeof(nicoisetarn_study) == 36, "a study has 36 bytes");
NICOISETARN_ASSERT(offsetof(nicoisetarn_study, hits) == 4, "hits stand behind the refusal");
NICOISETARN_ASSERT(offsetof(nicoisetarn_study, rates) == 20, "rates stand behind hits");

/*
 * Runs a list of line numbers through the tags of four caches of so many sets, with 1, 2, 3 and 4 ways. All begin empty.
 * An item hits where its line is present; an absent line takes the lowest invalid way of its set, else the one used
 * longest ago; every item uses its line. What hits with some ways hits with more.
 * The lengths count numbers. The items are only read. The scratch may hold anything, is zero afterwards, and is no part of
 * the items; neither is NULL, also where its length is 0; both are aligned as uint32_t are, and nobody else writes them
 * during the call.
 * Refused by 22: the list has more than NICOISETARN_STUDY_ITEMS items, an item is not below NICOISETARN_STUDY_LINES, the
 * sets are not 1, 2, 4, 8, 16, 32 or 64, or the scratch has not exactly NICOISETARN_STUDY_SCRATCH numbers. The scratch
 * then stays as it was.
 */
nicoisetarn_study nicoisetarn_study_ways(const uint32_t *items, size_t items_length, uint32_t sets,
                                         uint32_t *scratch, size_t scratch_length);

/* ---- what an image holds, to be printed or compared; these read whatever is there, refused or not */

/* Where things stand in an image, in bytes. For the functions below alone. */
enum {
    NICOISETARN_AT_SETS = 0,
    NICOISETARN_AT_WAYS = 4,
    NICOISETARN_AT_PROFILE = 8,
    NICOISETARN_AT_MEMORY_LENGTH = 12,
    NICOISETARN_AT_LAST = 16,
    NICOISETARN_AT_COMMITTED = 20,
    NICOISETARN_AT_REQUESTED = 24,
    NICOISETARN_AT_REQUESTED_LINE = 28,
    NICOISETARN_AT_STORES = 32, /* 16 bytes each: number, address, width, value */
    NICOISETARN_AT_LOADS = 288, /* 16 bytes each: number, address, width, waiting (2), forwarded (2) */
    NICOISETARN_AT_CHECKPOINTS = 416, /* 12 bytes each: name, number, rank */
    NICOISETARN_AT_RECORDS = 512 /* 6 bytes each: valid, dirty marks, line (2), age, 0 */
};

NICOISETARN_ASSERT(NICOISETARN_AT_STORES == NICOISETARN_AT_REQUESTED_LINE + 4, "stores behind numbers");
NICOISETARN_ASSERT(NICOISETARN_AT_LOADS == NICOISETARN_AT_STORES + 16 * NICOISETARN_STORES, "loads behind stores");
NICOISETARN_ASSERT(NICOISETARN_AT_CHECKPOINTS == NICOISETARN_AT_LOADS + 16 * NICOISETARN_LOADS, "marks behind loads");
NICOISETARN_ASSERT(NICOISETARN_AT_RECORDS == NICOISETARN_AT_CHECKPOINTS + 12 * NICOISETARN_CHECKPOINTS,
                   "records behind marks");
NICOISETARN_ASSERT(NICOISETARN_IMAGE_BYTES == NICOISETARN_AT_RECORDS + 6 * NICOISETARN_RECORDS, "nothing behind");

/* A held store; all zero where the place is free. */
typedef struct nicoisetarn_held_store {
    uint32_t number, address, width, value;
} nicoisetarn_held_store;

/*
 * A listed load; all zero where the place is free. waiting: 1 while it waits, 0 once it is answered. forwarded: 1 where each
 * of its bytes came from a held store when it was answered, else 0; an image with a load that waits and is forwarded is
 * refused by 10.
 */
typedef struct nicoisetarn_listed_load {
    uint32_t number, address, width, waiting, forwarded;
} nicoisetarn_listed_load;

/*
 * A mark in force; all zero where the place is free. name: 1 to 8. number: the operation number that it remembers. rank:
 * 1 for the mark set first, 2 for the next, and so on; other ranks are refused by 10.
 */
typedef struct nicoisetarn_mark {
    uint32_t name, number, rank;
} nicoisetarn_mark;

/*
 * A tag record. valid: 0 or 1. dirty: 0 to 15, a mark for each aligned word of 4 bytes, that of the word at 4 * n of the
 * line being 1 << n; an image with a fifth mark is refused by 10. A word is dirty when a store was written to it since the
 * line was filled or last flushed, never in write-through. age 0 is the way of its set used last; after a start way w has
 * age w, invalid ways too. A use of a line gives its way age 0 and adds 1 to each smaller age of the set.
 */
typedef struct nicoisetarn_tag {
    uint32_t valid, dirty, line, age;
} nicoisetarn_tag;

/* Not 0: a word of the record's line is dirty. A line has words 0 to 3: the byte at an address is in word address % 16 / 4. */
static inline int nicoisetarn_is_dirty(nicoisetarn_tag tag, uint32_t word) {
    return word < NICOISETARN_LINE / NICOISETARN_WORD && (tag.dirty >> word & 1) != 0;
}

/* How many words of the record's line are dirty: what its eviction writes to memory. */
static inline uint32_t nicoisetarn_dirty_words(nicoisetarn_tag tag) {
    uint32_t words = 0;
    for (uint32_t word = 0; word < NICOISETARN_LINE / NICOISETARN_WORD; word++) {
        words += (uint32_t)nicoisetarn_is_dirty(tag, word);
    }
    return words;
}

/* The 32-bit number that stands so many bytes into an image. */
static inline uint32_t nicoisetarn_number_at(const nicoisetarn_image *image, size_t at) {
    return image->nicoisetarn_words[at / 4];
}

/* The sets of the cache. */
static inline uint32_t nicoisetarn_sets(const nicoisetarn_image *image) {
    return nicoisetarn_number_at(image, NICOISETARN_AT_SETS);
}

/* The ways of each set. */
static inline uint32_t nicoisetarn_ways(const nicoisetarn_image *image) {
    return nicoisetarn_number_at(image, NICOISETARN_AT_WAYS);
}

/* The profile, a nicoisetarn_write_profile; an image with another number is refused. */
static inline uint32_t nicoisetarn_profile(const nicoisetarn_image *image) {
    return nicoisetarn_number_at(image, NICOISETARN_AT_PROFILE);
}

/* The bytes of the memory. */
static inline uint32_t nicoisetarn_memory_length(const nicoisetarn_image *image) {
    return nicoisetarn_number_at(image, NICOISETARN_AT_MEMORY_LENGTH);
}

/* The last operation number given. */
static inline uint32_t nicoisetarn_last(const nicoisetarn_image *image) {
    return nicoisetarn_number_at(image, NICOISETARN_AT_LAST);
}

/* The committed number (the scope paper's h): everything up to it is committed. */
static inline uint32_t nicoisetarn_committed(const nicoisetarn_image *image) {
    return nicoisetarn_number_at(image, NICOISETARN_AT_COMMITTED);
}

/* Not 0: the miss register (the scope paper's request register) names a line, that of the next function. */
static inline int nicoisetarn_requested(const nicoisetarn_image *image) {
    return nicoisetarn_number_at(image, NICOISETARN_AT_REQUESTED) != 0;
}

/* The line number that the miss register names, its first address divided by 16; 0 where it is free. */
static inline uint32_t nicoisetarn_requested_line(const nicoisetarn_image *image) {
    return nicoisetarn_number_at(image, NICOISETARN_AT_REQUESTED_LINE);
}

/* The held store in a place, the oldest in place 0; all zero past the last place. */
static inline nicoisetarn_held_store nicoisetarn_store_at(const nicoisetarn_image *image, size_t place) {
    nicoisetarn_held_store found = {0, 0, 0, 0};
    if (place < NICOISETARN_STORES) {
        memcpy(&found, &image->nicoisetarn_words[NICOISETARN_AT_STORES / 4 + 4 * place], sizeof found);
    }
    return found;
}

/* The listed load in a place, the oldest in place 0; all zero past the last place. */
static inline nicoisetarn_listed_load nicoisetarn_load_at(const nicoisetarn_image *image, size_t place) {
    nicoisetarn_listed_load found = {0, 0, 0, 0, 0};
    if (place < NICOISETARN_LOADS) {
        const uint32_t *words = &image->nicoisetarn_words[NICOISETARN_AT_LOADS / 4 + 4 * place];
        found.number = words[0];
        found.address = words[1];
        found.width = words[2];
        found.waiting = words[3] & 0xFFFF;
        found.forwarded = words[3] >> 16;
    }
    return found;
}

/* The mark in a place, the one set first in place 0; all zero past the last place. */
static inline nicoisetarn_mark nicoisetarn_mark_at(const nicoisetarn_image *image, size_t place) {
    nicoisetarn_mark found = {0, 0, 0};
    if (place < NICOISETARN_CHECKPOINTS) {
        memcpy(&found, &image->nicoisetarn_words[NICOISETARN_AT_CHECKPOINTS / 4 + 3 * place], sizeof found);
    }
    return found;
}

/* The tag record of a number, set * ways + way; all zero past the last one. Its bytes stand at 16 * record. */
static inline nicoisetarn_tag nicoisetarn_tag_at(const nicoisetarn_image *image, size_t record) {
    nicoisetarn_tag found = {0, 0, 0, 0};
    if (record < NICOISETARN_RECORDS) {
        const uint8_t *bytes = (const uint8_t *)image + NICOISETARN_AT_RECORDS + 6 * record;
        found.valid = bytes[0];
        found.dirty = bytes[1];
        found.line = bytes[2] | (uint32_t)bytes[3] << 8;
        found.age = bytes[4];
    }
    return found;
}

#ifdef __cplusplus
}
#endif

#endif
