/* The splitter's nine services, proved: each answers and writes what crates/split_c/src/lib.rt
 * promises, for any bytes. For C11 and C++11, and later; include/split.rs has the same for Rust.
 * include/board.h has the last two alone, for a program that has sheets only.
 *
 * To link, on x86-64 Linux (with -Wl,--gc-sections what is not called is left out):
 *
 *     (cd crates/split_c && rt lib)                            writes crates/split_c/out/libsplit_c.a
 *     cc -I include program.c crates/split_c/out/libsplit_c.a
 *
 * What it needs: memcpy and memset, and nothing else. With these two given it links under
 * -ffreestanding -nostdlib. It has no data and no bss, takes no heap and makes no system call. It
 * is code for x86-64 only (System V calls, SSE2, red zone): for the host that plans, not yet for a
 * board. In bytes, at most:
 *
 *                     code     stack
 *     split_check   17,408    61,440
 *     split_steps    9,216    25,600
 *     split_name     8,192    22,528
 *     split_run     15,360    61,440
 *     split_thin    15,360    92,160
 *     split_merge   19,456    93,184
 *     split_quote   17,408    92,160
 *     split_sheet    6,144     6,144
 *     split_board    7,168     6,144
 *     all nine      35,840    93,184
 *
 * Both are measured, not proved, and rounded up; tests/library/check measures again. Code is what
 * the library adds to a program that calls this service only, linked with --gc-sections, its
 * constants included. Stack is how far down a call wrote into a stack filled with a pattern, on the
 * texts of examples/ and bench/texts and their sheets, whole and cut short. What a signal or an
 * interrupt takes comes on top.
 *
 * What a call takes: a slice is passed as a pointer and a length. If the length is 0 nothing is
 * read or written through the pointer, and it may be null: an empty text is refused as misformed
 * (1, line 1), an empty sheet as bad (15, line 1); if the text passes or the sheet is good, a list
 * of no events or names runs to its end, and an output of length 0 is refused by 13 with the size
 * needed, which is a way to ask for it (a plan without steps needs none). A null pointer with
 * another length is not allowed. What is lent for output must overlap nothing else that is passed.
 * A call keeps no state and may run in several threads at once. board.h says what a good sheet is.
 *
 * What a call leaves: number is SPLIT_ANSWERED and the answer is in the other fields; or number is
 * another of enum split_refusal, detail and second are its two details, the other fields are 0 and
 * no lent byte is changed. Fields that are not in use are 0. */
#ifndef SPLIT_H
#define SPLIT_H

#if !defined(__x86_64__) || defined(_WIN32)
#error "the library is code for x86-64 with System V calls"
#endif

#include <stddef.h>
#include <stdint.h>

#ifdef __cplusplus
extern "C" {
#endif

/* What number says. Beside each stand detail and second, then what is wrong. */
enum split_refusal {
    SPLIT_ANSWERED = 0,     /* 0, 0: not refused */
    SPLIT_MISFORMED = 1,    /* line, 0: it breaks the text's form, or line 1 or 2 is missing */
    SPLIT_OVERSIZE = 2,     /* line, 0: it breaks a bound; 0, 0: the text is over 32,768 bytes */
    SPLIT_STRANGER = 3,     /* line, 0: an undeclared state or event, or an event declared twice */
    SPLIT_STANDSTILL = 4,   /* line, 0: the step ends where it began */
    SPLIT_FORK = 5,         /* line, earlier line: both steps have the same state and event */
    SPLIT_IDLE_EVENT = 6,   /* event, 0: it has no step */
    SPLIT_UNREACHED = 7,    /* state, 0: it is not reached from the start */
    SPLIT_DOUBLED = 8,      /* machine, state: the machine lists the state twice */
    SPLIT_MISSING = 9,      /* machine, state: the state is in no place of the machine */
    SPLIT_UNEVEN = 10,      /* machine, event: a place is no region, as the event's steps show */
    SPLIT_UNHELD = 11,      /* event, 0: it is on no machine */
    SPLIT_OPEN = 12,        /* event, state: the machines would run the event there, not the plan */
    SPLIT_SHORT_SHEET = 13, /* size needed, 0: what is lent for output is too short */
    SPLIT_ODD_CALL = 14,    /* position, 0: no such event, or a name on no move or not ended */
    SPLIT_BAD_SHEET = 15    /* line, 0: the first that is not good, or missing; line 0: too long */
};

/* A step of the plan: from-state, event number, to-state. */
struct split_step {
    uint8_t source, event, target;
};

struct split_answer {
    size_t number, detail, second;
    size_t size; /* how many bytes or steps are written */
};

struct split_part {
    size_t number, detail, second;
    size_t from, size; /* the name is text[from] to text[from + size - 1] */
};

struct split_run_answer {
    size_t number, detail, second;
    size_t blocked;      /* 0: the list ran to its end; 1: a machine blocked */
    size_t ran, machine; /* if blocked: how many events ran, and the lowest machine that blocked */
    uint8_t places[16];  /* where each machine then stands */
};

struct split_set {
    size_t number, detail, second;
    size_t machines, size; /* the kept machines, bit i for machine i, and how many they are */
};

/* Check and sheet: the sheet into the first bytes of out. 32,768 always suffice; 13 has the size
 * needed. */
struct split_answer split_check(const uint8_t *text, size_t text_len, uint8_t *out, size_t out_len);

/* The plan's steps, in line order, into the first entries of out. 1,024 always suffice; 13 has the
 * count needed. */
struct split_answer split_steps(const uint8_t *text, size_t text_len, struct split_step *out,
                                size_t out_len);

/* Where the name of an event stands in the text. 14 has position 0. */
struct split_part split_name(const uint8_t *text, size_t text_len, size_t event);

/* Runs a list of event numbers, a byte each, on the machines together. 14 has the position of the
 * first that is not declared. */
struct split_run_answer split_run(const uint8_t *text, size_t text_len, const uint8_t *events,
                                  size_t events_len);

/* Drops machines that add nothing, from the highest to the lowest. */
struct split_set split_thin(const uint8_t *text, size_t text_len);

/* Fewer places: merges two of a machine wherever 11 and 12 still pass, from the lowest machine and
 * pair on, and writes the merged split's sheet into the first bytes of out. 32,768 always suffice;
 * 13 has the size needed. */
struct split_answer split_merge(const uint8_t *text, size_t text_len, uint8_t *out, size_t out_len);

/* The quotation of the thinned split in cents, into the first bytes of out: a line for each machine
 * that is kept, each event that two or more of these share and each machine that is dropped, then
 * the total, which may be negative. 32,768 always suffice; 13 has the size needed. */
struct split_answer split_quote(const uint8_t *text, size_t text_len, uint8_t *out, size_t out_len);

/* Loads a sheet and writes it again, into the first bytes of out: the same bytes, if the sheet is
 * good. 32,768 always suffice; 13 has the size needed. Refused by 13 and 15 only. */
struct split_answer split_sheet(const uint8_t *sheet, size_t sheet_len, uint8_t *out,
                                size_t out_len);

/* Loads a sheet and runs a list of events on its machines together, by their names, each ended by
 * byte 10. 14 has the position of the first that is on no move, or that nothing ends. Refused by 14
 * and 15 only. */
struct split_run_answer split_board(const uint8_t *sheet, size_t sheet_len, const uint8_t *names,
                                    size_t names_len);

#ifdef __cplusplus
}
#define SPLIT_ASSERT(layout) static_assert(layout, "the library is built for x86-64")
#else
#define SPLIT_ASSERT(layout) _Static_assert(layout, "the library is built for x86-64")
#endif

/* The layout that the library has, #[repr(C)]: a compiler that has another stops here. */
#define SPLIT_AT(name, field, place) SPLIT_ASSERT(offsetof(struct name, field) == (place))
#define SPLIT_REFUSAL_FIRST(name) \
    SPLIT_AT(name, number, 0);    \
    SPLIT_AT(name, detail, 8);    \
    SPLIT_AT(name, second, 16)

SPLIT_ASSERT(sizeof(size_t) == 8);
SPLIT_ASSERT(sizeof(struct split_step) == 3);
SPLIT_AT(split_step, source, 0);
SPLIT_AT(split_step, event, 1);
SPLIT_AT(split_step, target, 2);
SPLIT_ASSERT(sizeof(struct split_answer) == 32);
SPLIT_REFUSAL_FIRST(split_answer);
SPLIT_AT(split_answer, size, 24);
SPLIT_ASSERT(sizeof(struct split_part) == 40);
SPLIT_REFUSAL_FIRST(split_part);
SPLIT_AT(split_part, from, 24);
SPLIT_AT(split_part, size, 32);
SPLIT_ASSERT(sizeof(struct split_run_answer) == 64);
SPLIT_REFUSAL_FIRST(split_run_answer);
SPLIT_AT(split_run_answer, blocked, 24);
SPLIT_AT(split_run_answer, ran, 32);
SPLIT_AT(split_run_answer, machine, 40);
SPLIT_AT(split_run_answer, places, 48);
SPLIT_ASSERT(sizeof(struct split_set) == 40);
SPLIT_REFUSAL_FIRST(split_set);
SPLIT_AT(split_set, machines, 24);
SPLIT_AT(split_set, size, 32);

#undef SPLIT_REFUSAL_FIRST
#undef SPLIT_AT
#undef SPLIT_ASSERT

#endif
