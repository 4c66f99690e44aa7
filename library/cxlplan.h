/*
 * libcxlplan: plans, simulates and checks CXL memory regions. The calls below answer what the command line of cxlplan
 * answers, over bytes in memory in place of files.
 *
 * What is proved. Each function checks its pointers in C and then makes one call of proved code. Of that call it is proved, for
 * each input, that status and text are those of the command that is named, or, where no command is, those that the function's
 * comment tells, over these bytes (a clause `answered` of the crate cxl_c; docs/PROVED.md says what that means for each); that
 * `*written` is at most `out_len` (`within`); that status 6 comes only where the room is full (`full`); and that nothing beyond
 * the room, and nothing that the caller passed to be read, is written. Sentences marked (C) below are none of these: they rest on
 * the C file cxlplan.c and on what you owe.
 *
 * What goes in. Bytes with their length, which are read during the call and never kept. A null pointer stands for no bytes, and
 * is allowed with length 0 alone (C). Lengths are the lengths of what is really there: nothing can check that.
 *
 * What comes out. The text goes into `out`, a room of `out_len` bytes of yours, without a byte 0 behind it. `*written` is how many
 * bytes were put there; `written` may be null, then that is not told (C). `out` may overlap neither what is read nor `*written`,
 * nor these each other; where they do the status is 1, and 0 bytes are written (C).
 *
 * What comes back. The exit status of the command, below. Where the room is too small it is CXLPLAN_WRITE_FAULT, the room is full
 * of the text's front, and the call can be made again with a larger one: no call keeps anything from one to the next, but for those
 * on a session, at the end of this header.
 *
 * Where it runs. From any thread, also from several at once, each with rooms of its own; not from a signal handler, and not in the
 * forked child of a process with threads, since calls use malloc, realloc and free (C). No call takes more than CXLPLAN_STACK
 * bytes of stack; that is measured and not proved. Memory that a call takes is given back before it returns (C: it was tried under
 * valgrind and AddressSanitizer).
 */
#ifndef CXLPLAN_H
#define CXLPLAN_H

#include <stddef.h>
#include <stdint.h>

#ifdef __cplusplus
extern "C" {
#endif

/* What a call comes to: the exit status of the command (clause `answered`). */
enum cxlplan_status {
    CXLPLAN_DONE = 0,        /* it was carried out, and all its text is in the room */
    CXLPLAN_USAGE = 1,       /* a line or a number asks for nothing; there is no session, or one already where one is opened; or,
                                before any proved code runs: a null pointer with a length, a length that no object has, or rooms
                                that overlap (C) */
    CXLPLAN_FETCH_FAULT = 2, /* never from these calls: all bytes are there */
    CXLPLAN_BAD_TABLE = 3,   /* the table has a fault; the text says which and where */
    CXLPLAN_BAD_TOPO = 4,    /* the topology has a fault; the text says which */
    CXLPLAN_READ_FAULT = 5,  /* never from these calls: reading a script in memory does not fail */
    CXLPLAN_WRITE_FAULT = 6, /* the room is too small; it is full (clause `full`) */
    CXLPLAN_BUS_FAULT = 7,   /* never from these calls: the simulator's registers do not fail */
    CXLPLAN_REFUSED = 8,     /* the command has no answer; the text says why */
    CXLPLAN_NO_MEMORY = 9,   /* memory ran out */
    CXLPLAN_BAD_IMAGE = 10,  /* the image has a fault; the text says which and where */
    CXLPLAN_TOO_MUCH = 11,   /* the script has more than 16,777,216 bytes; its lines within them are answered */
    CXLPLAN_TOO_LARGE = 12   /* table, topology or image has more than 1,048,576 bytes */
};

/* The version of this header: the first number is that of libcxlplan.so. */
#define CXLPLAN_VERSION "1.0.0"

/* Stack that a call may take, in bytes. Measured were 25,000, and for a topology of 13 KB that is made to be hard to read 1,600,000 on
   x86-64 and 2,500,000 on arm64. */
#ifdef __aarch64__
#define CXLPLAN_STACK 3145728
#else
#define CXLPLAN_STACK 2097152
#endif

/* Where a host address goes: its window, position and host bridge, as `cxlplan route CEDT HPA` tells them.
   Statuses 0, 1, 3, 6, 8, 9, 12. */
int cxlplan_route(const void *cedt, size_t cedt_len, uint64_t hpa, void *out, size_t out_len, size_t *written);

/* A line for each record of a table, as `cxlplan list CEDT` writes them. Statuses 0, 1, 3, 6, 9, 12. */
int cxlplan_list(const void *cedt, size_t cedt_len, void *out, size_t out_len, size_t *written);

/* The table's own bytes with its reserved fields zero, as `cxlplan normal CEDT` writes them: no text. As many as the table has.
   Statuses 0, 1, 3, 6, 9, 12. */
int cxlplan_normal(const void *cedt, size_t cedt_len, void *out, size_t out_len, size_t *written);

/* The regions of a register image, or the first rule that it breaks (status 8), as `cxlplan check CEDT TOPO IMAGE` tells them.
   Statuses 0, 1, 3, 4, 6, 8, 9, 10, 12. */
int cxlplan_check(const void *cedt, size_t cedt_len, const void *topo, size_t topo_len, const void *image, size_t image_len,
                  void *out, size_t out_len, size_t *written);

/* The registers that make a region on the host after reset, or why there is none (status 8), as `cxlplan plan CEDT TOPO LINE`
   tells them. The line asks for a region, as `create r0 pmem 0x20000000 d1 d2` does. Statuses 0, 1, 3, 4, 6, 8, 9, 12. */
int cxlplan_plan(const void *cedt, size_t cedt_len, const void *topo, size_t topo_len, const void *line, size_t line_len,
                 void *out, size_t out_len, size_t *written);

/* What the lines of a script are answered, each in turn, as `cxlplan run CEDT TOPO [IMAGE] < SCRIPT` answers them: on the host
   after reset where `image` is null and its length 0 (C), or else on the host with the registers of the image. A line that asks
   for nothing is answered by its fault, and the status is still 0. With status 8 the image is refused, and no line was carried out.
   Statuses 0, 1, 3, 4, 6, 8, 9, 10, 11, 12. */
int cxlplan_run(const void *cedt, size_t cedt_len, const void *topo, size_t topo_len, const void *image, size_t image_len,
                const void *script, size_t script_len, void *out, size_t out_len, size_t *written);

/* The register words that the last line of a script sends, which no command tells: a line for each, in their order,
     w NODE OFFSET VALUE
   with the node by its number, as cxlplan_tree tells it. The session opens and the lines are carried out as by cxlplan_run, whose
   replies are told by that alone; a line that is refused sends nothing and ends nothing. So `create r0 ram 0x20000000 e0 e1` has the
   words that make the region, and `destroy r0` in a line behind it those that take it down. A last line that is blank or a comment
   sends none, and an empty script has the words with which each session opens: they let the endpoints decode. Status 9 also where
   one line sends 65,536 words, which none is known to do. Statuses and `image` as of cxlplan_run, but with status 11 no line is
   carried out. */
int cxlplan_words(const void *cedt, size_t cedt_len, const void *topo, size_t topo_len, const void *image, size_t image_len,
                  const void *script, size_t script_len, void *out, size_t out_len, size_t *written);

/* The register image behind a script, which no command tells: the bytes of an image file, as cxlplan_check takes them, and no text.
   Statuses and `image` as of cxlplan_words. */
int cxlplan_image(const void *cedt, size_t cedt_len, const void *topo, size_t topo_len, const void *image, size_t image_len,
                  const void *script, size_t script_len, void *out, size_t out_len, size_t *written);

/* A topology as lines, which no command tells: first `frames N`, then each node by number, one of
     node N NAME bridge uid UID ..
     node N NAME switch parent NAME port PORT ..
     node N NAME endpoint ram BYTES pmem BYTES parent NAME port PORT ..
   and for `..` each time, also where the file leaves it to a default,
     cap WORD decoders N targets N low BIT high BIT ways3 BIT ways16 BIT passthrough BIT
   Statuses 0, 1, 4, 6, 9, 12. */
int cxlplan_tree(const void *topo, size_t topo_len, void *out, size_t out_len, size_t *written);

/* The decoder blocks of any image, also of one that breaks a rule, which no command tells: for each node, by number,
     block N NAME cap WORD control WORD
   and behind it each of its decoders, with `targets PORT,..` where it is a port's and `skip BYTES` where it is an endpoint's,
     decoder NAME N base ADDRESS size BYTES ways N gran BYTES codes WAYS GRAN lock BIT commit BIT committed BIT error BIT
     host-only BIT targets PORT,.. words WORD WORD WORD WORD WORD WORD WORD WORD
   on one line. A ways code that stands for nothing counts as one way. Statuses 0, 1, 4, 6, 9, 10, 12. */
int cxlplan_decoders(const void *topo, size_t topo_len, const void *image, size_t image_len, void *out, size_t out_len,
                     size_t *written);

/* All places that break the rule which an image breaks first, which no command tells: with status 8 a line for each, as
   `cxlplan check CEDT TOPO IMAGE` tells the first of them, and with status 0 no text, where no rule is broken.
   Statuses 0, 1, 3, 4, 6, 8, 9, 10, 12. */
int cxlplan_breaches(const void *cedt, size_t cedt_len, const void *topo, size_t topo_len, const void *image, size_t image_len,
                     void *out, size_t out_len, size_t *written);

/* The windows of a table as a topology lets them be used, which no command tells: for each, in the table's order,
     window N base ADDRESS size BYTES ways N gran BYTES xor BIT restrict BITS qtg GROUP targets UID,.. verdict VERDICT
   on one line. VERDICT is what a check or a plan over this topology finds: `usable`, or the first of
     align                  the base is no multiple of 256 MiB
     size                   the size is 0, or no multiple of 256 MiB for each way
     too-high               the end exceeds 2^52
     overlap N              an earlier window, of number N, has one of its addresses
     target UID no-chbs     the table has no host bridge of this UID
     target UID no-cxl2     it has one, but none of CXL 2.0
     target UID no-bridge   it has one, but the topology has no bridge of this UID
     repeat UID             the target stands in the list twice
     maps no-cxims          the table has no XOR maps of this granularity
     maps few HAVE NEED     it has so many, and the ways need more
     maps unfit             of those that the ways need, one is of no use
   Statuses 0, 1, 3, 4, 6, 9, 12. */
int cxlplan_windows(const void *cedt, size_t cedt_len, const void *topo, size_t topo_len, void *out, size_t out_len, size_t *written);

/* The generated system of 4 * number endpoints, for a number from 1 to 32, carried out, as `cxlplan gen N` tells it.
   Statuses 0, 1, 6, 9. */
int cxlplan_gen(uint32_t number, void *out, size_t out_len, size_t *written);

/* The version of the library, a line, as `cxlplan --version` tells it. Statuses 0, 1, 6, 9. */
int cxlplan_version(void *out, size_t out_len, size_t *written);

/*
 * A session that you keep. It is opened once and asked often: a session of many lines takes the time of one run over all of them.
 *
 * The handle is a struct of yours, which begins as CXLPLAN_NO_SESSION. You owe four things (C): that it begins so; that nobody but
 * these calls changes it, and nobody copies it; that one call at a time has it, from whichever thread; and that it is closed in the
 * end, or its memory is lost. Sessions share nothing, so each thread may have its own.
 *
 * Of each call it is proved what its comment tells, from whatever state the session is in, by a clause of the crate cxl_c
 * (`opened`, `acted`, `told`, `same`), and `within` and `full` as above. With status 1 that comes of the checks in C nothing is
 * written at all, `*written` neither (C): of a null handle, one that is not aligned, or parts that overlap, the handle among them.
 * No call takes more of the stack than CXLPLAN_STACK.
 */
struct cxlplan_session {
    void *held; /* not to be looked at, but that it is null where there is no session */
};

#define CXLPLAN_NO_SESSION {0}

/* A register word that a session sent. */
struct cxlplan_word {
    uint32_t node;   /* the number of the node, as cxlplan_tree tells it */
    uint32_t offset; /* where in the node's block of registers, in bytes */
    uint32_t value;
};

/* Opens a session, as cxlplan_run does before its first line: on the host after reset where `image` is null and its length 0 (C), or
   else on the host with the registers of the image. With status 0 it is open, and there is no text; with any other it is not, and
   the text says why, as that of cxlplan_run does. A session that is open stays as it is, with status 1 and no text.
   Statuses 0, 1, 3, 4, 6, 8, 9, 10, 12. */
int cxlplan_session_open(struct cxlplan_session *session, const void *cedt, size_t cedt_len, const void *topo, size_t topo_len,
                         const void *image, size_t image_len, void *out, size_t out_len, size_t *written);

/* Carries out lines on a session, one or more, and tells what they are answered, as cxlplan_run tells it of the same lines: a line
   that is refused ends nothing, and the status is still 0. With status 6 the room is full of the answers' front: the lines up to that
   whose answer is cut are carried out, and none behind it. With status 9 the session is as the lines before the one that met want of
   memory left it. With status 1 there is no session, and no text. Status 11 as of cxlplan_run, for the lines of one call.
   The registers take 65,536 words of one call, and fail behind them: a line that would send more is answered as where a bus fails, so
   a long script goes in parts, or line by line. Statuses 0, 1, 6, 9, 11. */
int cxlplan_session_act(struct cxlplan_session *session, const void *lines, size_t lines_len, void *out, size_t out_len,
                        size_t *written);

/* The register words that the last command or call of cxlplan_session_act sent, of all its lines, in their order; before the first such
   call those that opening the session sent. As many from the front as there are rows for are put into `rows`, and the rows behind them stay.
   `*count` is how many there are, also where there are fewer rows; `count` may be null (C). With status 1 there is no session, and
   `*count` is 0. Statuses 0, 1. */
int cxlplan_session_words(struct cxlplan_session *session, struct cxlplan_word *rows, size_t rows_len, size_t *count);

/* The register image of a session as it is: the bytes of an image file, as cxlplan_check takes them, and no text. Its size stays as long
   as the session is open. With status 1 there is no session. Statuses 0, 1, 6, 9. */
int cxlplan_session_image(struct cxlplan_session *session, void *out, size_t out_len, size_t *written);

/* Closes a session, and gives its memory back. Where there is none it does nothing. Statuses 0, 1. */
int cxlplan_session_close(struct cxlplan_session *session);

/*
 * One command on a session, by numbers and bytes in place of its line: what the line would do, and its answer as a record. Status 0:
 * it was carried out, and the answer stands in the record. Status 8: it was refused, the record stays as it was, the session, too, and
 * `refusal`, which may be null (C), says why. Status 1: nothing was asked, and nothing is written: there is no session, or a name or
 * a number of bytes is none that a line could state. Status 9: memory ran out before anything changed, and nothing is written. With
 * status 0 or 8 cxlplan_session_words tells the words of this command: these send none.
 */

/* A name: `len` bytes from the front, 1 to 15, and zeros behind them. */
struct cxlplan_name {
    uint8_t len;
    uint8_t bytes[15];
};

/* A port on the way of an address. */
struct cxlplan_via {
    uint32_t node;    /* the number of its node */
    uint16_t decoder; /* of the region, by its number in the node */
    uint16_t entry;   /* the place in the decoder's target list */
};

/* Where a host address goes. */
struct cxlplan_place {
    uint64_t dpa;              /* the device address */
    uint32_t endpoint;         /* the number of the endpoint's node */
    uint32_t slot;             /* of the region */
    uint32_t position;         /* among the window's targets */
    uint32_t via_count;        /* how many ports are on its way */
    struct cxlplan_via via[5]; /* these, from the host bridge down; those behind them are zero */
    struct cxlplan_name region;
};

/* The host address that goes to a byte of a device. */
struct cxlplan_host_byte {
    uint64_t hpa;
    struct cxlplan_name region;
};

/* Why a command was refused. Of the calls below come those with a letter: d down, u up, l load, s store. */
enum cxlplan_refusal_kind {
    CXLPLAN_NOT_REFUSED = 0,
    CXLPLAN_BAD_LINE = 1,
    CXLPLAN_BUSY = 2,
    CXLPLAN_NAME_TAKEN = 3,
    CXLPLAN_NO_REGION = 4,
    CXLPLAN_NO_ENDPOINT = 5, /* u: no endpoint has the name */
    CXLPLAN_REGIONS_FULL = 6,
    CXLPLAN_FULL = 7,      /* s: frames that are needed, and those that are free */
    CXLPLAN_LOCKED = 8,    /* a node and a decoder */
    CXLPLAN_NOT_LAST = 9,  /* a node and a decoder */
    CXLPLAN_UNMAPPED = 10, /* d l s: no region holds the address; u: none the byte */
    CXLPLAN_CROSSES_END = 11, /* l s: the bytes begin in a region and end past it */
    CXLPLAN_NO_PLAN = 12,
    CXLPLAN_NO_SET = 13,
    CXLPLAN_SAME_REGION = 14,
    CXLPLAN_SIZES_DIFFER = 15, /* both sizes */
    CXLPLAN_POISON_SHORT = 16,
    CXLPLAN_POISON_COUNT = 17, /* records that are said, and those that there is room for */
    CXLPLAN_BUS_UNDONE = 18,
    CXLPLAN_BUS_PENDING = 19, /* register writes that are done, and all of the job */
    CXLPLAN_BUS_READ = 20,
    CXLPLAN_NOTHING_PENDING = 21
};

struct cxlplan_refusal {
    uint32_t kind;          /* one of the above */
    uint32_t count;         /* how many numbers it tells: 0, or 2 */
    uint64_t first, second; /* these, or 0 */
};

/* Where a host address goes, as `down HPA` tells it. Takes no memory. Statuses 0, 1, 8. */
int cxlplan_session_down(struct cxlplan_session *session, uint64_t hpa, struct cxlplan_place *place, struct cxlplan_refusal *refusal);

/* Which host address goes to a byte of a device, as `up ENDPOINT DPA` tells it, the endpoint by its name. Takes no memory.
   Statuses 0, 1, 8. */
int cxlplan_session_up(struct cxlplan_session *session, const void *endpoint, size_t endpoint_len, uint64_t dpa,
                       struct cxlplan_host_byte *byte, struct cxlplan_refusal *refusal);

/* The `bytes_len` bytes from a host address on, 1 to 256, as `load HPA LEN` tells them: all of `bytes` is filled with status 0, and none
   of it with another. Statuses 0, 1, 8, 9. */
int cxlplan_session_load(struct cxlplan_session *session, uint64_t hpa, void *bytes, size_t bytes_len, struct cxlplan_refusal *refusal);

/* Puts bytes from a host address on, 1 to 256, as `store HPA BYTES` does: all of them, or none. Statuses 0, 1, 8, 9. */
int cxlplan_session_store(struct cxlplan_session *session, uint64_t hpa, const void *bytes, size_t bytes_len,
                          struct cxlplan_refusal *refusal);

#ifdef __cplusplus
}
#endif

#endif
