/*
 * Three heads run to a formed session; the third loses power while it forms.
 * outside/head/examples/three_heads.rs does the same and prints the same.
 */
#include "head.h"

#include <inttypes.h>
#include <stdbool.h>
#include <stdio.h>
#include <stdlib.h>
#include <string.h>

#define HEADS 3
#define CORE 0x0007
#define LEAST 2
#define VIEW 1
#define ALL_LEFT UINT_FAST32_MAX
#define POWER_LOST (-1)

struct capture_head {
    uint64_t stored[HEAD_WORDS]; /* stands for the durable storage */
    unsigned written;            /* how many words were stored */
    uint_fast32_t left;          /* how many more before the power is lost */
    uint64_t words[HEAD_WORDS];  /* the stored words, as the head knows them */
    struct head_session session;
};

struct line {
    uint8_t bytes[HEAD_STATE_ROOM];
    size_t length;
};

struct call {
    enum { ENTER, DECIDE, FORM, RECOVER } kind;
    uint32_t view;
    uint16_t heads;
};

typedef struct head_line line_writer(const uint64_t *, size_t,
                                     struct head_session, uint8_t *, size_t);
typedef struct head_end line_hearer(const uint64_t *, size_t,
                                    struct head_session, const uint8_t *,
                                    size_t);

static void expect(bool is_so, const char *what)
{
    if (!is_so) {
        fprintf(stderr, "unexpected: %s\n", what);
        exit(1);
    }
}

/* Stores one word; false if the power was lost before. */
static bool store(struct capture_head *h, size_t index, uint64_t word)
{
    if (h->left == 0)
        return false;
    h->left--;
    h->stored[index] = word;
    h->written++;
    return true;
}

static bool put(struct capture_head *h, size_t index, uint64_t word)
{
    if (h->words[index] == word)
        return true;
    if (!store(h, index, word))
        return false;
    h->words[index] = word;
    return true;
}

static bool put_all(struct capture_head *h, const uint64_t *words)
{
    for (size_t i = 0; i < HEAD_WORDS; i++)
        if (!put(h, i, words[i]))
            return false;
    return true;
}

static struct head_end make(struct call call, uint64_t *words,
                            struct head_session session, uint64_t stores)
{
    struct head_end end = {0};
    switch (call.kind) {
    case ENTER:
        return head_enter(words, HEAD_WORDS, session, call.view, call.heads,
                          stores);
    case DECIDE:
        return head_decide(words, HEAD_WORDS, session, stores);
    case FORM:
        return head_form(words, HEAD_WORDS, session, stores);
    case RECOVER:
        end.code = head_recover(words, HEAD_WORDS, stores);
    }
    return end;
}

/* Makes a call store by store, as head.h says; the answer, or POWER_LOST. */
static int storing(struct capture_head *h, struct call call)
{
    uint64_t before[HEAD_WORDS], words[HEAD_WORDS];
    memcpy(before, h->words, sizeof before);
    for (uint64_t stores = 0; stores <= HEAD_STORES_MOST; stores++) {
        memcpy(words, before, sizeof words);
        struct head_end end = make(call, words, h->session, stores);
        if (!put_all(h, words))
            return POWER_LOST;
        if (end.code != HEAD_CUT) {
            h->session = end.session;
            return end.code;
        }
    }
    return HEAD_CUT;
}

/* Starts: word 0 as 0 first, and in full last. */
static bool start(struct capture_head *h, uint8_t own)
{
    uint64_t fresh[HEAD_WORDS];
    expect(head_start(fresh, HEAD_WORDS, own, CORE, LEAST) == HEAD_DONE,
           "start was refused");
    uint64_t group = fresh[HEAD_WORD_GROUP];
    fresh[HEAD_WORD_GROUP] = 0;
    return put_all(h, fresh) && put(h, HEAD_WORD_GROUP, group);
}

/* Starts and enters. */
static void begin(struct capture_head *h, uint8_t own, uint_fast32_t left)
{
    memset(h, 0, sizeof *h);
    h->left = left;
    expect(start(h, own), "start was stopped");
    unsigned started = h->written;
    struct call enter = {ENTER, VIEW, CORE};
    expect(storing(h, enter) == HEAD_DONE, "no entry");
    printf("head %u started, %u words stored; ", own, started);
    printf("entered view %u with %04x, %u stored\n", VIEW, CORE,
           h->written - started);
}

static void write_line(struct capture_head *h, line_writer *writer,
                       struct line *line)
{
    struct head_line end = writer(h->words, HEAD_WORDS, h->session, line->bytes,
                                  sizeof line->bytes);
    expect(end.code == HEAD_DONE, "no line was written");
    h->session = end.session;
    line->length = end.length;
}

static void hear_others(struct capture_head *h, unsigned own, line_hearer *hear,
                        const struct line *lines)
{
    for (unsigned sender = 0; sender < HEADS; sender++) {
        if (sender == own)
            continue;
        struct head_end end = hear(h->words, HEAD_WORDS, h->session,
                                   lines[sender].bytes, lines[sender].length);
        expect(end.code == HEAD_DONE, "a line was refused");
        h->session = end.session;
    }
}

static void show_session(uint64_t word)
{
    if (word == 0)
        printf("none");
    else
        printf("(%04x, %" PRIu32 ")", HEAD_HEADS_OF(word), HEAD_NUMBER_OF(word));
}

static void show_state(const struct line *line)
{
    struct head_line_read read = head_read_line(line->bytes, line->length);
    expect(read.kind == HEAD_KIND_STATE && read.left == 0, "no state line");
    printf("head %u sends its state in view %" PRIu32 ": number %" PRIu32,
           read.sender, read.view, read.state.number);
    printf(", last primary ");
    show_session(read.state.primary);
    printf(", places %zu\n", read.state.count);
}

/* Hears the other heads' states and decides. */
static void decide(struct capture_head *h, unsigned own,
                   const struct line *states)
{
    hear_others(h, own, head_hear_state, states);
    unsigned before = h->written;
    struct call call = {DECIDE, 0, 0};
    expect(storing(h, call) == HEAD_ATTEMPTED, "no attempt");
    printf("head %u heard all states and attempted number %" PRIu64, own,
           h->words[HEAD_WORD_NUMBER]);
    printf(", %u words stored\n", h->written - before);
}

/* Hears the other heads' attempts and forms. */
static int form(struct capture_head *h, unsigned own,
                const struct line *attempts)
{
    hear_others(h, own, head_hear_attempt, attempts);
    unsigned before = h->written;
    struct call call = {FORM, 0, 0};
    int answer = storing(h, call);
    printf("head %u heard all attempts and ", own);
    if (answer == HEAD_DONE)
        printf("formed, %u words stored\n", h->written - before);
    else
        printf("lost power forming, %u word stored\n", h->written - before);
    return answer;
}

/* Takes the head up again from its storage; its session is gone. */
static void recover(struct capture_head *h, unsigned own)
{
    unsigned before = h->written;
    h->left = ALL_LEFT;
    memcpy(h->words, h->stored, sizeof h->words);
    memset(&h->session, 0, sizeof h->session);
    struct call call = {RECOVER, 0, 0};
    expect(storing(h, call) == HEAD_DONE, "not recovered");
    expect(head_whole(h->words, HEAD_WORDS) == 1, "not whole");
    printf("head %u recovered, %u words stored\n", own, h->written - before);
}

static void show_end(const struct capture_head *h, unsigned own)
{
    uint64_t primary = h->words[HEAD_WORD_PRIMARY];
    expect(HEAD_HEADS_OF(primary) == CORE && HEAD_NUMBER_OF(primary) == 1,
           "another last primary");
    printf("head %u: last primary ", own);
    show_session(primary);
    printf(", primary now: %s\n",
           h->session.stage == HEAD_STAGE_FORMED ? "yes" : "no");
}

int main(void)
{
    /* Head 2 stores 8 words before it forms, and then one more. */
    static const uint_fast32_t left[HEADS] = {ALL_LEFT, ALL_LEFT, 9};
    static struct capture_head heads[HEADS];
    static struct line states[HEADS], attempts[HEADS];

    expect(head_quorum(CORE, LEAST, CORE, 0x0003) == HEAD_QUORUM_YES,
           "no quorum");
    printf("core %04x, minimum %u: 0003 may follow %04x\n", CORE, LEAST, CORE);
    for (unsigned own = 0; own < HEADS; own++)
        begin(&heads[own], (uint8_t)own, left[own]);
    for (unsigned own = 0; own < HEADS; own++)
        write_line(&heads[own], head_write_state, &states[own]);
    for (unsigned own = 0; own < HEADS; own++)
        show_state(&states[own]);
    for (unsigned own = 0; own < HEADS; own++)
        decide(&heads[own], own, states);
    for (unsigned own = 0; own < HEADS; own++)
        write_line(&heads[own], head_write_attempt, &attempts[own]);
    expect(form(&heads[0], 0, attempts) == HEAD_DONE, "head 0 did not form");
    expect(form(&heads[1], 1, attempts) == HEAD_DONE, "head 1 did not form");
    expect(form(&heads[2], 2, attempts) == POWER_LOST, "head 2 was not cut");
    recover(&heads[2], 2);
    for (unsigned own = 0; own < HEADS; own++)
        show_end(&heads[own], own);
    return 0;
}
