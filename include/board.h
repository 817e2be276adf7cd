/* What a board needs of the splitter, proved: it loads its sheet and runs events by name, with no
 * plan. The two calls answer and write what crates/board_c/src/lib.rt promises, for any bytes:
 * what split_sheet and split_board of split.h do. For C11 and C++11, and later; include/board.rs
 * has the same for Rust.
 *
 * To link, on x86-64 Linux (with -Wl,--gc-sections what is not called is left out), alone or beside
 * the library of split.h:
 *
 *     (cd crates/board_c && rt lib)                            writes crates/board_c/out/libboard_c.a
 *     cc -I include program.c crates/board_c/out/libboard_c.a
 *
 * What it needs: memcpy and memset, and nothing else. With these two given it links under
 * -ffreestanding -nostdlib. It has no data and no bss, takes no heap and makes no system call. It
 * is code for x86-64 only (System V calls, SSE2, red zone). In bytes, at most:
 *
 *                     code     stack
 *     board_sheet    6,144     6,144
 *     board_run      7,168     6,144
 *     both           7,168     6,144
 *
 * Both are measured, not proved, and rounded up; tests/library/check measures again, as split.h
 * says. What a signal or an interrupt takes comes on top.
 *
 * What a call takes: a slice is passed as a pointer and a length. If the length is 0 nothing is
 * read or written through the pointer, and it may be null: an empty sheet is refused as bad (15,
 * line 1); if the sheet is good, a list of no names runs to its end, and an output of length 0 is
 * refused by 13 with the size needed. A null pointer with another length is not allowed. What is
 * lent for output must overlap nothing else that is passed. A call keeps no state and may run in
 * several threads at once.
 *
 * A good sheet has at most 32,768 bytes: a line (accepted N), N from 1 to 16, then for each machine
 * K from 0 to N - 1 a line (machine K (places P) (start Q) (move NAME FROM TO) ..), each ended by
 * byte 10. P is 1 to 64; Q and the ends of moves are below P, and the two ends of a move differ. A
 * machine names an event once, and at most 64 names occur. The order of moves is free.
 *
 * What a call leaves: number is BOARD_ANSWERED and the answer is in the other fields; or number is
 * another of enum board_refusal, detail and second are its two details, the other fields are 0 and
 * no lent byte is changed. Fields that are not in use are 0. */
#ifndef BOARD_H
#define BOARD_H

#if !defined(__x86_64__) || defined(_WIN32)
#error "the library is code for x86-64 with System V calls"
#endif

#include <stddef.h>
#include <stdint.h>

#ifdef __cplusplus
extern "C" {
#endif

/* What number says, as in split.h. Beside each stand detail and second, then what is wrong. */
enum board_refusal {
    BOARD_ANSWERED = 0,     /* 0, 0: not refused */
    BOARD_SHORT_SHEET = 13, /* size needed, 0: what is lent for output is too short */
    BOARD_ODD_CALL = 14,    /* position, 0: the name there is on no move, or not ended */
    BOARD_BAD_SHEET = 15    /* line, 0: the first that is not good, or missing; line 0: too long */
};

struct board_answer {
    size_t number, detail, second;
    size_t size; /* how many bytes are written */
};

struct board_run_answer {
    size_t number, detail, second;
    size_t blocked;      /* 0: the list ran to its end; 1: a machine blocked */
    size_t ran, machine; /* if blocked: how many events ran, and the lowest machine that blocked */
    uint8_t places[16];  /* where each machine then stands */
};

/* Loads a sheet and writes it again, into the first bytes of out: the same bytes, if the sheet is
 * good. 32,768 always suffice; 13 has the size needed. */
struct board_answer board_sheet(const uint8_t *sheet, size_t sheet_len, uint8_t *out,
                                size_t out_len);

/* Loads a sheet and runs a list of events on its machines together, by their names, each ended by
 * byte 10. 14 has the position of the first that is on no move, or that nothing ends. */
struct board_run_answer board_run(const uint8_t *sheet, size_t sheet_len, const uint8_t *names,
                                  size_t names_len);

#ifdef __cplusplus
}
#define BOARD_ASSERT(layout) static_assert(layout, "the library is built for x86-64")
#else
#define BOARD_ASSERT(layout) _Static_assert(layout, "the library is built for x86-64")
#endif

/* The layout that the library has, #[repr(C)]: a compiler that has another stops here. */
#define BOARD_AT(name, field, place) BOARD_ASSERT(offsetof(struct name, field) == (place))

BOARD_ASSERT(sizeof(size_t) == 8);
BOARD_ASSERT(sizeof(struct board_answer) == 32);
BOARD_AT(board_answer, number, 0);
BOARD_AT(board_answer, detail, 8);
BOARD_AT(board_answer, second, 16);
BOARD_AT(board_answer, size, 24);
BOARD_ASSERT(sizeof(struct board_run_answer) == 64);
BOARD_AT(board_run_answer, number, 0);
BOARD_AT(board_run_answer, detail, 8);
BOARD_AT(board_run_answer, second, 16);
BOARD_AT(board_run_answer, blocked, 24);
BOARD_AT(board_run_answer, ran, 32);
BOARD_AT(board_run_answer, machine, 40);
BOARD_AT(board_run_answer, places, 48);

#undef BOARD_AT
#undef BOARD_ASSERT

#endif
