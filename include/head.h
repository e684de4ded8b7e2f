/*
 * The calls of one capture head, for C and C++. The rules are document 01's,
 * "Specification of the build and its rules"; words in quotes are from there.
 *
 * Link with libffi.a (`rt lib` in crates/ffi_c writes it as out/libffi_c.a, and
 * outside/gate/10-library copies it to target/staticlib/libffi.a), for x86-64
 * Linux. It needs nothing but memcpy and memset, keeps nothing between calls,
 * allocates nothing.
 *
 * A head has two things. Its record, HEAD_WORDS words, stands in durable
 * storage. Its session is volatile: "each call takes the head's session and
 * hands it back". Give each call the session that the head's last call handed
 * back, or none: all zeros. Calls that do not fit are refused with a number and
 * then "record, session and output buffer keep their contents".
 *
 * What the caller guarantees, and nothing checks:
 * - a pointer is valid for as many elements as the length after it says, and
 *   aligned as its type is; where it is not const, the elements are writable;
 * - a pointer is never NULL, not even with length 0, where nothing is read
 *   through it: the calls take slices, and a slice of no elements has an address;
 * - what two pointers of one call point to does not overlap, and nothing else
 *   writes it during the call.
 * Every number, length, record, session and line is allowed.
 *
 * Storing durably
 *
 * "Words are stored singly, in this order": a head that loses power must find
 * the words of the first k stores of its call and no others. head_enter,
 * head_decide, head_form and head_recover change only the words lent to them,
 * and take the number of stores that they may make. So, with `durable` a copy
 * of what is stored, beside the words before the call:
 *
 *   for stores = 0, 1, 2, ..
 *     make the call on a copy of the words before the call, with the session
 *       from before the call and that number of stores;
 *     the copy now differs from `durable` in at most one word: store that word,
 *       wait until it is kept, and put it in `durable`;
 *     if the answer is not HEAD_CUT, it is the call's answer, and its session
 *       is the head's session. Stop.
 *
 * A store that puts the value that is there changes nothing, so no word
 * differs and nothing has to be written. No call makes more than
 * HEAD_STORES_MOST stores. Nothing may be sent before the loop has ended.
 * After a loss of power, or a store that failed: read the words back, make
 * head_recover on them in the same way, and go on with no session. Words of
 * which the last store may or may not have been made are fine; words that
 * something else changed are not.
 *
 * head_start is not cut. Its order is free, so store word 0 as 0 first, then
 * words 1 to 51, and word 0 last: until then the words are not a whole record,
 * head_recover refuses them, and the head is started again.
 *
 * outside/examples/three_heads.c does all of this.
 */
#ifndef HEAD_H
#define HEAD_H

#include <stddef.h>
#include <stdint.h>

#ifdef __cplusplus
#define HEAD_LAID_OUT(what) static_assert(what, "not laid out as the library's")
extern "C" {
#else
#define HEAD_LAID_OUT(what) \
    _Static_assert(what, "not laid out as the library's")
#endif

/* The limits. */
#define HEAD_HEADS 16        /* heads 0 to 15 */
#define HEAD_PLACES 16       /* places for ambiguous sessions */
#define HEAD_WORDS 52        /* words of a record */
#define HEAD_TOP 4294967295  /* the largest number and view */
#define HEAD_STATE_ROOM 419  /* characters that a state line asks for */
#define HEAD_ATTEMPT_ROOM 13 /* characters of an attempt line */
#define HEAD_STORES_MOST 68  /* decide: 16 marks, 18 to adopt, 32 to clear, 2 to
                                attempt */

/* The words of a record. */
#define HEAD_WORD_GROUP 0   /* W0 in bits 0-15, Q in 16-23, own head in 24-31 */
#define HEAD_WORD_VIEW 1    /* highest view entered, 0 before any */
#define HEAD_WORD_NUMBER 2  /* session number */
#define HEAD_WORD_PRIMARY 3 /* last primary */
#define HEAD_WORD_FORMED 4  /* last formed, for heads 0-15 */
#define HEAD_WORD_PLACE 20  /* ambiguous sessions, 0 if free */
#define HEAD_WORD_MARKS 36  /* the marks of each place */

/* A session word: its heads in bits 0 to 15, its number in bits 16 to 47;
   0 is none. */
#define HEAD_HEADS_OF(word) ((uint16_t)((word) & 0xffff))
#define HEAD_NUMBER_OF(word) ((uint32_t)((word) >> 16))

/* What a call answers, in the `code` handed back. */
enum head_answer {
    HEAD_DONE = 0, /* started, recovered, entered, heard, formed, written */

    /* "Numbers a refused call returns" */
    HEAD_REFUSED_GROUP = 1,      /* start: head over 15; start and quorum test:
                                    W0 empty, Q over its size; quorum test: Q 0 */
    HEAD_REFUSED_RECORD = 2,     /* record not 52 words or not whole, or session
                                    not fitting it */
    HEAD_REFUSED_LINE = 3,       /* the line breaks a rule, or is of the other
                                    kind */
    HEAD_REFUSED_STRANGER = 4,   /* own head (enter) or sender not in M */
    HEAD_REFUSED_OLD_VIEW = 5,   /* enter: view at or below word 1 */
    HEAD_REFUSED_NO_SESSION = 6, /* the session given is none */
    HEAD_REFUSED_OTHER_VIEW = 7, /* line of another view */
    HEAD_REFUSED_HEARD = 8,      /* this sender was heard, or is own head */
    HEAD_REFUSED_MISSING = 9,    /* decide or form with a member not yet heard */
    HEAD_REFUSED_DECIDED = 10,   /* decide or write state after deciding; form
                                    after forming */
    HEAD_REFUSED_UNDECIDED = 11, /* form or write attempt before deciding */
    HEAD_REFUSED_CLOSED = 12,    /* session closed by decide */
    HEAD_REFUSED_SHORT = 13,     /* output under HEAD_STATE_ROOM or
                                    HEAD_ATTEMPT_ROOM characters */

    HEAD_CUT = 64, /* needs more stores than given; no session is handed back */

    /* decide; the last three close the session */
    HEAD_ATTEMPTED = 65,
    HEAD_NO_QUORUM = 66,
    HEAD_NUMBERS_RUN_OUT = 67,
    HEAD_NO_PLACE = 68,

    /* the quorum test */
    HEAD_QUORUM_YES = 69,
    HEAD_QUORUM_NO = 70
};

/* How far a session is, in its `stage`. */
enum head_stage {
    HEAD_STAGE_NONE = 0,
    HEAD_STAGE_UNDECIDED = 1,
    HEAD_STAGE_CLOSED = 2, /* by no quorum, numbers run out or no place */
    HEAD_STAGE_ATTEMPTED = 3,
    HEAD_STAGE_FORMED = 4 /* the head is primary */
};

/* What a line is, in head_line_read's `kind`. */
enum head_kind {
    HEAD_KIND_BROKEN = 0,
    HEAD_KIND_STATE = 1,
    HEAD_KIND_ATTEMPT = 2
};

/* What a state line carries. Sessions are session words; the first `count`
   places are its places, "in rising number". */
struct head_state {
    uint32_t number;
    uint64_t primary;
    uint64_t formed[HEAD_HEADS];
    size_t count;
    uint64_t places[HEAD_PLACES];
};

/* A head's session. To read; only the calls make one, but for none, which is
   all zeros. */
struct head_session {
    uint8_t stage;
    uint32_t view;
    uint16_t members;  /* M */
    uint16_t states;   /* heads whose state was heard, own head among them */
    uint16_t attempts; /* heads whose attempt was heard, own head among them */
    struct head_state held[HEAD_HEADS];
};

/* What a call ends with. */
struct head_end {
    struct head_session session;
    uint8_t code;
};

/* The same of a call that writes a line. */
struct head_line {
    struct head_session session;
    size_t length; /* of the line with its newline; 0 if none was written */
    uint8_t code;
};

/* A line that was read. */
struct head_line_read {
    uint8_t kind;
    uint8_t rule;   /* of a broken line, the first broken rule, 1 to 7 */
    uint8_t sender; /* 0 of a broken line */
    uint32_t view;  /* 0 of a broken line */
    size_t left;    /* how many of the lent bytes come after the line */
    struct head_state state; /* of a state line */
};

HEAD_LAID_OUT(sizeof(size_t) == 8);
HEAD_LAID_OUT(sizeof(struct head_state) == 280);
HEAD_LAID_OUT(sizeof(struct head_session) == 4496);
HEAD_LAID_OUT(sizeof(struct head_end) == 4504);
HEAD_LAID_OUT(sizeof(struct head_line) == 4512);
HEAD_LAID_OUT(sizeof(struct head_line_read) == 296);

/*
 * The quorum test: "sub-quorum of S by T", in a group with the core W0 and the
 * minimum Q. HEAD_QUORUM_YES, HEAD_QUORUM_NO, or refusal 1. False for S none,
 * given as 0.
 */
uint8_t head_quorum(uint16_t core, uint8_t least, uint16_t s, uint16_t t);

/*
 * Start: the fresh record of this head, in a group with the core W0 and the
 * minimum Q; "a start given Q as 0 takes the default 1". What the words held
 * does not matter, and all of them are written. Refusals: 1, 2 (not 52 words).
 * Only for a head number that was never started in this group: a head that
 * starts again teaches its peers that it formed and attempted nothing.
 */
uint8_t head_start(uint64_t *words, size_t len, uint8_t head, uint16_t core,
                   uint8_t least);

/* 1 for a whole record, 0 for any other words. */
uint8_t head_whole(const uint64_t *words, size_t len);

/*
 * Recovery of a cut record: it "stores only words that change", and "the
 * recovered record is the one after the done changes". A whole record stays as
 * it is. Leaves no session. HEAD_DONE, HEAD_CUT, or refusal 2 (not whole even
 * after its steps).
 */
uint8_t head_recover(uint64_t *words, size_t len, uint64_t stores);

/*
 * Reads a line: judges the first line of the lent bytes, and says how many of
 * them come after it, 0 if there is no newline. No refusal.
 */
struct head_line_read head_read_line(const uint8_t *bytes, size_t len);

/*
 * Enter (view, heads M): "stores word 1, ends any session, opens one. Own state
 * and own attempt count as heard." The session given may be none. HEAD_DONE,
 * HEAD_CUT. Refusals: 2, 4 (own head not in M), 5 (view at or below word 1).
 */
struct head_end head_enter(uint64_t *words, size_t len,
                           struct head_session session, uint32_t view,
                           uint16_t heads, uint64_t stores);

/*
 * Hear a state line. "The bytes given are one line; anything after its newline
 * breaks rule 1." HEAD_DONE. Refusals: 2, 3, 6, 7, 4, 8.
 */
struct head_end head_hear_state(const uint64_t *words, size_t len,
                                struct head_session session,
                                const uint8_t *line, size_t line_len);

/*
 * Hear an attempt line. "An attempt may come before the head has decided; it is
 * kept." HEAD_DONE. Refusals: 2, 3, 6, 7, 4, 12, 8.
 */
struct head_end head_hear_attempt(const uint64_t *words, size_t len,
                                  struct head_session session,
                                  const uint8_t *line, size_t line_len);

/*
 * Decide, "once all states of M are in". HEAD_ATTEMPTED: the attempt stands in
 * a place, and the attempt line may be written. HEAD_NO_QUORUM,
 * HEAD_NUMBERS_RUN_OUT and HEAD_NO_PLACE close the session and keep what was
 * learnt. HEAD_CUT. Refusals: 2, 6, 10, 9.
 */
struct head_end head_decide(uint64_t *words, size_t len,
                            struct head_session session, uint64_t stores);

/*
 * Form, "once all attempts of M are in: (M, word 2) becomes last primary .. the
 * head is primary until it enters another view or stops". HEAD_DONE, HEAD_CUT.
 * Refusals: 2, 6, 12, 10, 11, 9.
 */
struct head_end head_form(uint64_t *words, size_t len,
                          struct head_session session, uint64_t stores);

/*
 * Writes the state line, "of the record's values, from entry until decided", at
 * the front of the output; "output past the written line keeps its bytes".
 * HEAD_DONE. Refusals: 2, 6, 10, 13 (output under HEAD_STATE_ROOM characters,
 * however long the line is).
 */
struct head_line head_write_state(const uint64_t *words, size_t len,
                                  struct head_session session, uint8_t *out,
                                  size_t out_len);

/*
 * Writes the attempt line, "once attempted", also after forming. HEAD_DONE.
 * Refusals: 2, 6, 12, 11, 13 (output under HEAD_ATTEMPT_ROOM characters).
 */
struct head_line head_write_attempt(const uint64_t *words, size_t len,
                                    struct head_session session, uint8_t *out,
                                    size_t out_len);

#ifdef __cplusplus
}
#endif

#undef HEAD_LAID_OUT

#endif
