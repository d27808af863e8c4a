/* Furzepenny: the calls of the proved engine, for C and C++.
 *
 * Platform. x86-64 with the System V calling convention, as on Linux; C99 or later, or C++. The archive needs memcpy, memmove and memset, and nothing else.
 *
 * Texts and buffers. A text is lent as its bytes and their number, a buffer likewise; a null pointer goes with the number 0 alone. Texts are
 * only read: they may overlap, and need no byte 0 at their end. Of a string of C its strlen is lent, without its byte 0, which would be a
 * byte of the text. A buffer must not overlap a text that is lent to the same call.
 *
 * Held things. A held model and a held marking are passed and returned by value: the engine keeps no pointer, shares no memory and
 * allocates none. Any bytes may be passed as a held thing; one that no reading gives is refused. For a caller who keeps them behind
 * pointers each call that takes or returns one has a second form, whose name ends in _at; it is the call, with its answer laid where the
 * pointers say; the rest of the answer is a struct, whose name may end in _at too. The pointers are not null. A refused reading or step
 * leaves what stands there as it was.
 *
 * Threads. The engine has no state; any number of threads may call it at once. Who shares a marking behind a pointer locks it.
 *
 * Stack. The engine uses no heap; what a call needs is on the stack, and too little is a crash. FP_STACK_... is enough for the call of
 * that name and for its form in _at, what is passed and returned by value included, from a function that makes one such call; FP_STACK is
 * enough for any. A function with several calls by value may have room for the answer of each in its frame: that comes on top.
 *
 * Structs have no padding: each is as long as its fields together.
 *
 * Levels. The calls are grouped by the level that they are sold in, each level on top of the one before: Reader, Runner, Keeper. The archive
 * of a level has its calls, those of the levels before it, and fp_version. */
#ifndef FURZEPENNY_H
#define FURZEPENNY_H

#if !defined(__x86_64__) || defined(_WIN32)
#error "furzepenny: the archive is for x86-64 with the System V calling convention"
#endif

#include <stdbool.h>
#include <stddef.h>
#include <stdint.h>

#ifdef __cplusplus
extern "C" {
#endif

/* The version of this header, here 6.0.0: 10,000 times its first number, 100 times its second, and its third. The first is raised when what
 * is here changes, so that a caller has to be compiled anew; the second when something is added; the third for all else. */
#define FP_VERSION 60000

/* ==== What is answered: a number, and what stands beside it. The first cause in the stated order is answered: FP_TOO_LONG, FP_NOT_HELD,
 * then those of the lines in turn, then the others in the order of their numbers; FP_NO_ROOM of a start is a line's, behind its FP_SYNTAX and
 * FP_RANGE. Lines are counted from 1, those of a step from its own `fire` line. 4 is not answered.
 *
 * column is the byte of the line, counted from 1, at which a text is refused with FP_SYNTAX or FP_RANGE; 0 beside all else. Of FP_SYNTAX it
 * is the first byte where no right line could go on, at an early end the one after the last, and 1 where the line is missing or one too
 * many; of FP_RANGE the first digit or sign of the first number out of range. */
#define FP_ACCEPTED 0        /* accepted, passed, fired, written; beside it 0 */
#define FP_TOO_LONG 1        /* text over FP_TEXT bytes; 0 */
#define FP_SYNTAX 2          /* key, syntax, list length, missing or unended line, bytes after the last line; the line */
#define FP_RANGE 3           /* number out of range; the line (of fp_ways: 1 the tokens, 2 the racks) */
#define FP_IDLING 5          /* idling at a place without a net, or an event without a move with another net or with no transition; the line */
#define FP_ALL_ZERO 6        /* all weights 0; the last line */
#define FP_UNBALANCED 7      /* an event's effect is not 0; the least such event */
#define FP_OUTER 8           /* racks taken or given do not fit the event; the `take` or `give` line */
#define FP_INNER_TAKEN 9     /* the racks taken hold too little for the event; the least such net */
#define FP_INNER_GIVEN 10    /* the racks given do not hold what the event leaves; the least such net */
#define FP_NOT_IN_MARKING 11 /* racks taken are not in the marking; the first token line of which, with its likes before, there are too few */
#define FP_NO_ROOM 12        /* in a start more than FP_TIMES alike; the token line at which they are. After a step more than FP_TOKENS unlike,
                              * or else more than FP_TIMES alike; the `give` line */
#define FP_BUFFER 13         /* lent buffer too small; the bytes needed */
#define FP_NOT_HELD 14       /* held model or marking that no accepted reading gives; 0 */
#define FP_NOT_REPLACED 21   /* idling events that cannot be replaced by one; the least such event */

/* ==== Limits. */
#define FP_NETS 8              /* object nets of a model */
#define FP_PLACES 32           /* places of the system net, at least 1; inner places of an object net, at least 1 */
#define FP_MOVES 32            /* moves of the system net */
#define FP_TRANSITIONS 32      /* transitions of an object net */
#define FP_EVENTS 64           /* events of a model */
#define FP_TOKENS 256          /* unlike net-tokens of a marking */
#define FP_TIMES 65535         /* times that one net-token is in a marking; times of a token line */
#define FP_LINES 256           /* token lines of a start, of a take, and of a give */
#define FP_ARC 255             /* an arc's number; the count of a transition in an event */
#define FP_COUNT 65535         /* a net-token's count on an inner place */
#define FP_WEIGHT 1000         /* a weight, so far from 0 at most, on either side */
#define FP_TEXT 1048576        /* bytes of a text */
#define FP_FILE 65536          /* bytes of a text of fp_listing */
#define FP_MARKING_TEXT 53002  /* bytes of the longest text that fp_write_marking writes */
#define FP_LISTING_TEXT 65536  /* bytes into which every text that fp_listing writes fits */
#define FP_SPREAD_TOKENS 31    /* tokens of fp_ways */
#define FP_SPREAD_RACKS 16     /* racks of fp_ways */
#define FP_STACK (560 * 1024)  /* bytes of stack, for any call */

/* ==== Held things. Their fields may be read; they are made by readings and steps. */

/* An object net. The arcs of transition t at place p stand at t * FP_PLACES + p, both from 0. Unused room is 0. */
typedef struct fp_object_net {
    size_t places;
    size_t transitions;
    uint8_t pre[FP_TRANSITIONS * FP_PLACES];
    uint8_t post[FP_TRANSITIONS * FP_PLACES];
} fp_object_net;

#define FP_UNUSED 0 /* kinds of an event: unused room, */
#define FP_MOVE 1   /* a move, */
#define FP_IDLE 2   /* idling at a place, */
#define FP_ALONE 3  /* and idling on any one rack of a net */

/* An event; index is the move's, the place's or the net's number, from 1. The count of transition t of net n stands at n * FP_TRANSITIONS + t. */
typedef struct fp_event {
    uint8_t kind;
    uint8_t index;
    uint8_t sync[FP_NETS * FP_TRANSITIONS];
} fp_event;

#define FP_WITH_IDLE 1  /* headers of a model: with it events idle at places, */
#define FP_WITH_ALONE 2 /* and with it on any one rack of a net */

/* A held model. header is the number of its text's first line, FP_WITH_IDLE or FP_WITH_ALONE. types has the net of each place, from 1, or 0.
 * The arcs of move k at place p stand at k * FP_PLACES + p; listed is the number of events. Unused room is 0. */
typedef struct fp_model {
    size_t header;
    size_t nets;
    size_t places;
    size_t moves;
    size_t listed;
    uint8_t types[FP_PLACES];
    uint8_t pre[FP_MOVES * FP_PLACES];
    uint8_t post[FP_MOVES * FP_PLACES];
    fp_object_net objects[FP_NETS];
    fp_event events[FP_EVENTS];
} fp_model;

/* A net-token: its place's number, from 1, and its count on each inner place. Unused room is 0. */
typedef struct fp_token {
    uint16_t place;
    uint16_t counts[FP_PLACES];
} fp_token;

/* A net-token, and how many times it is there, from 1 to FP_TIMES. */
typedef struct fp_entry {
    fp_token token;
    uint16_t times;
} fp_entry;

/* A held marking: len entries, each of another net-token, strictly ascending by place, then by counts from the first on; times is no part of
 * the order. Unused room is 0. */
typedef struct fp_marking {
    size_t len;
    fp_entry entries[FP_TOKENS];
} fp_marking;

/* The answer of a form in _at that reads. */
typedef struct fp_read_at {
    size_t number;
    size_t beside;
    size_t column;
} fp_read_at;

/* A text written: how many bytes; 0 where it was refused. */
typedef struct fp_written {
    size_t number;
    size_t beside;
    size_t column;
    size_t bytes;
} fp_written;

/* ==== Of every level. */

/* FP_VERSION of the archive. If its first number is not the header's, no other call may be made. */
#define FP_STACK_VERSION (1 * 1024)
size_t fp_version(void);

/* ==== Reader. */

/* Reads a model and its start. The text: `eos=1` or `eos=2`; `nets`, `places`, `type`, `moves`; for each move `pre`, `post`; for each net
 * `inner`, `steps`, and for each transition `pre`, `post`; `events`; for each `event`, or with `eos=1` `idle` and with `eos=2` `alone`, and
 * for each net `sync`; `start`, and so many `token` lines. A token line says its net-token once, or ends in `*` and the times from 2 on; lines
 * may repeat a net-token. Refused by 1, 2, 3, 5 and 12; the model is then the empty one, which every other call refuses, and the start has no
 * net-token. The form in _at leaves both as they were. */
#define FP_STACK_READ_MODEL (528 * 1024)
typedef struct fp_read_model_answer {
    size_t number;
    size_t beside;
    size_t column;
    fp_model model;
    fp_marking start;
} fp_read_model_answer;

fp_read_model_answer fp_read_model(const uint8_t *text, size_t len);

static inline fp_read_at fp_read_model_at(const uint8_t *text, size_t len, fp_model *model, fp_marking *start) {
    fp_read_model_answer r = fp_read_model(text, len);
    fp_read_at a = {r.number, r.beside, r.column};
    if (r.number == FP_ACCEPTED) {
        *model = r.model;
        *start = r.start;
    }
    return a;
}

/* Reads a marking of a held model. The text: `start`, and so many `token` lines in any order, as those of a model. Refused by 1, 14, 2, 3 and
 * 12; the marking then has no net-token. The form in _at leaves it as it was. */
#define FP_STACK_READ_MARKING (208 * 1024)
typedef struct fp_read_marking_answer {
    size_t number;
    size_t beside;
    size_t column;
    fp_marking marking;
} fp_read_marking_answer;

fp_read_marking_answer fp_read_marking(fp_model model, const uint8_t *text, size_t len);

static inline fp_read_at fp_read_marking_at(const fp_model *model, const uint8_t *text, size_t len, fp_marking *marking) {
    fp_read_marking_answer r = fp_read_marking(*model, text, len);
    fp_read_at a = {r.number, r.beside, r.column};
    if (r.number == FP_ACCEPTED)
        *marking = r.marking;
    return a;
}

/* Whether some accepted reading gives this held model. */
#define FP_STACK_TEST_MODEL (128 * 1024)
bool fp_test_model(fp_model model);

static inline bool fp_test_model_at(const fp_model *model) {
    return fp_test_model(*model);
}

/* Whether some accepted reading gives this held model and this held marking of it. */
#define FP_STACK_TEST_MARKING (192 * 1024)
bool fp_test_marking(fp_model model, fp_marking marking);

static inline bool fp_test_marking_at(const fp_model *model, const fp_marking *marking) {
    return fp_test_marking(*model, *marking);
}

/* Writes a held marking of a held model: `start` and a `token` line for each entry in its order, at most FP_MARKING_TEXT bytes; no line repeats
 * a net-token. Refused by 14, 13, with no byte written; bytes of the buffer past the text are left as they were. */
#define FP_STACK_WRITE_MARKING (192 * 1024)
fp_written fp_write_marking(fp_model model, fp_marking marking, uint8_t *out, size_t room);

static inline fp_written fp_write_marking_at(const fp_model *model, const fp_marking *marking, uint8_t *out, size_t room) {
    return fp_write_marking(*model, *marking, out, room);
}

/* Converts a held model: idling events that are like, at places of one net with the same counts, are replaced by one event on any one rack of
 * the net, where the first of them stood, and only if every place of the net has one; the others move up. numbers has the new number of each
 * event, from 1, and 0 past the last. A model with FP_WITH_ALONE comes back as it is. A marking held for the one is held for the other.
 * Refused by 14 and 21; the model is then the empty one, and no event has a number. The form in _at leaves both as they were; both models may
 * be one. */
#define FP_STACK_CONVERT (400 * 1024)
typedef struct fp_converted {
    size_t number;
    size_t beside;
    size_t column;
    fp_model model;
    uint8_t numbers[FP_EVENTS];
} fp_converted;

fp_converted fp_convert(fp_model model);

static inline fp_read_at fp_convert_at(const fp_model *model, fp_model *converted, uint8_t numbers[FP_EVENTS]) {
    fp_converted r = fp_convert(*model);
    fp_read_at a = {r.number, r.beside, r.column};
    if (r.number == FP_ACCEPTED) {
        *converted = r.model;
        for (size_t k = 0; k < FP_EVENTS; k++)
            numbers[k] = r.numbers[k];
    }
    return a;
}

/* ==== Runner. */

/* Fires a step on a held marking of a held model. The text begins with the step: `fire`; `take`, and so many `token` lines; `give`, and so
 * many `token` lines; what follows is not read. Gives the bytes that the step used and the marking after it, which is the marking less the
 * racks taken plus those given. Refused by 1, 14, 2, 3, 8 to 12, with 0 bytes used and the marking as it was lent. */
#define FP_STACK_STEP (352 * 1024)
typedef struct fp_stepped {
    size_t number;
    size_t beside;
    size_t column;
    size_t used;
    fp_marking marking;
} fp_stepped;

fp_stepped fp_step(fp_model model, fp_marking marking, const uint8_t *text, size_t len);

typedef struct fp_stepped_at {
    size_t number;
    size_t beside;
    size_t column;
    size_t used;
} fp_stepped_at;

static inline fp_stepped_at fp_step_at(const fp_model *model, fp_marking *marking, const uint8_t *text, size_t len) {
    fp_stepped r = fp_step(*model, *marking, text, len);
    fp_stepped_at a = {r.number, r.beside, r.column, r.used};
    *marking = r.marking;
    return a;
}

/* Runs a trace on a held marking of a held model, to its end or the first step that is turned down. The text: `run=1`, then steps. Gives the
 * steps fired, the marking then, and the byte of the text where the run stopped: where the step that was turned down begins, or the whole
 * length at the end. Refused before the first step by 1, 14, or 2 at the first line, with 0 steps, byte 0 and the marking as it was lent;
 * a step that is turned down stops the run with its number, and the steps before it stay fired. */
#define FP_STACK_RUN (400 * 1024)
typedef struct fp_ran {
    size_t number;
    size_t beside;
    size_t column;
    size_t fired;
    size_t at;
    fp_marking marking;
} fp_ran;

fp_ran fp_run(fp_model model, fp_marking marking, const uint8_t *text, size_t len);

typedef struct fp_ran_at {
    size_t number;
    size_t beside;
    size_t column;
    size_t fired;
    size_t at;
} fp_ran_at;

static inline fp_ran_at fp_run_at(const fp_model *model, fp_marking *marking, const uint8_t *text, size_t len) {
    fp_ran r = fp_run(*model, *marking, text, len);
    fp_ran_at a = {r.number, r.beside, r.column, r.fired, r.at};
    *marking = r.marking;
    return a;
}

/* The spread: the number of ordered ways to share so many like tokens among so many racks. Refused by 3, with 0 ways. */
#define FP_STACK_WAYS (6 * 1024)
typedef struct fp_spread {
    size_t number;
    size_t beside;
    size_t column;
    uint64_t ways;
} fp_spread;

fp_spread fp_ways(size_t tokens, size_t racks);

/* ==== Keeper. */

/* Checks weights for a held model, and weighs a held marking of it. The text: `inv=1`, `outer`, and for each net `inner`. Gives the weighted
 * sum of the marking, each net-token as many times as it is there, as its part above 0 and its part below 0, of which one is 0 and neither is
 * more than 35,183,315,132,160,000, and cover, 1 or 0. Refused by 1, 14, 2, 3, 6, 7, with sum 0 and cover 0. */
#define FP_STACK_CHECK_WEIGHTS (352 * 1024)
typedef struct fp_weighed {
    size_t number;
    size_t beside;
    size_t column;
    uint64_t above;
    uint64_t below;
    size_t cover;
} fp_weighed;

fp_weighed fp_check_weights(fp_model model, fp_marking marking, const uint8_t *text, size_t len);

static inline fp_weighed fp_check_weights_at(const fp_model *model, const fp_marking *marking, const uint8_t *text, size_t len) {
    return fp_check_weights(*model, *marking, text, len);
}

/* Writes what the program rackrun prints for the texts of its three files, any bytes, at most FP_LISTING_TEXT bytes; a text over FP_FILE
 * bytes is 1 in it. Refused by 13, with no byte written; bytes of the buffer past the text are left as they were. */
#define FP_STACK_LISTING (560 * 1024)
fp_written fp_listing(const uint8_t *model, size_t model_len, const uint8_t *weights, size_t weights_len,
                      const uint8_t *trace, size_t trace_len, uint8_t *out, size_t room);

#ifdef __cplusplus
}
#endif

#endif
