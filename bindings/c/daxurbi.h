/* Daxurbi: transactions of AMQP 1.0 (OASIS part 4), the side of the resource, as a proved library.
 *
 * One slot is one session. A call of `daxurbi_step` is one step of it, with what the caller's own
 * layer below will answer: ask first (`daxurbi_pending`), then tell. What the session answers and
 * what it handed is read afterwards (`daxurbi_report`). The library keeps no record of the session:
 * what a step handed stands in the slot until the next step that is answered.
 *
 * The library starts no thread, takes no lock and has no global state. Two slots may be used by two
 * threads at the same time; one slot is used by one call at a time, and may be passed from one
 * thread to another between calls. It takes memory by malloc, realloc and free of the program,
 * which are of one allocator. So no call is made from a signal handler, nor in the forked child of
 * a process with threads. A call needs some stack; where that runs out, the system ends the
 * process.
 */
#ifndef DAXURBI_H
#define DAXURBI_H

#include <stdbool.h>
#include <stddef.h>
#include <stdint.h>

#ifdef __cplusplus
extern "C" {
#endif

/* ---- slots ------------------------------------------------------------------------------------
 *
 * A slot is the caller's memory. Before its first use it is all zero (`daxurbi_slot slot = {0};`):
 * that is a closed slot. Its fields are the library's: they are neither read nor written nor copied
 * by the caller. An open slot stays where it is or is moved whole (the old copy isn't used again).
 * An open slot owns memory until it is closed. The pointer to it is never NULL. */
typedef struct daxurbi_slot {
    void *session;
    bool is_open;
} daxurbi_slot;

/* ---- what a call answers ------------------------------------------------------------------------
 *
 * Each call answers with one of these numbers. But for DAXURBI_OK and DAXURBI_STOPPED, the call has
 * changed nothing that a later call could show: neither the slot nor a buffer, except that
 * DAXURBI_SHORT_BUFFER sets `*needed`, and of `daxurbi_message` `*kind` too. */
enum {
    DAXURBI_OK = 0,
    /* The step stopped the session, which is never DAXURBI_OK again but for `daxurbi_close`,
     * `daxurbi_report` and `daxurbi_pending`. The report says why and what was handed. */
    DAXURBI_STOPPED = 1,
    /* The session had stopped before this step. The report is still that of the step that stopped
     * it. */
    DAXURBI_STOPPED_BEFORE = 2,
    /* Out of memory. The call may be made again. (A step that hands frames may be DAXURBI_STOPPED
     * instead: see DAXURBI_TAKE.) */
    DAXURBI_NO_MEMORY = 3,
    /* The slot is closed. */
    DAXURBI_NOT_OPEN = 4,
    /* The slot is open already. */
    DAXURBI_ALREADY_OPEN = 5,
    /* The octets are no step line (an empty line, one with a line feed, and NULL with length 0 are
     * none). */
    DAXURBI_NOT_A_STEP = 6,
    /* The number is none of the answers of a layer below. */
    DAXURBI_NOT_AN_ANSWER = 7,
    /* The buffer is shorter than what is to be written, and nothing was written; `*needed` says how
     * long that is. */
    DAXURBI_SHORT_BUFFER = 8,
    /* No transaction with this id is live. */
    DAXURBI_NOT_LIVE = 9,
    /* A seed has 32 octets. */
    DAXURBI_NOT_A_SEED = 10,
    /* A list of ids is 1 to 64 times 16 octets. */
    DAXURBI_NOT_IDS = 11,
    /* An id has at most 32 octets. */
    DAXURBI_NOT_AN_ID = 12,
    /* The number is none of the kinds of a control message, or the octets spell none. */
    DAXURBI_NOT_A_MESSAGE = 13,
    /* 2^64 - 1 control links were opened on the session; it takes no step any more. */
    DAXURBI_NO_LINK_LEFT = 14
};

/* ---- octets and buffers -------------------------------------------------------------------------
 *
 * `const uint8_t *octets, size_t octets_len`: octets that the call reads. With length 0 the pointer
 * may be NULL.
 *
 * `uint8_t *out, size_t out_len, size_t *needed`: a buffer that the call writes. `*needed` is set
 * to the length of what is to be written, whether it was or not, with DAXURBI_OK and
 * DAXURBI_SHORT_BUFFER alone. Where `out_len` is at least that, the first `*needed` octets of the
 * buffer are written and the rest stays (there is no octet of 0 at the end), and the call answers
 * DAXURBI_OK. Else the call answers DAXURBI_SHORT_BUFFER. So a length can be asked for with NULL
 * and 0; or a buffer of the caller's is given at once and the call made again where it was too
 * short. No buffer overlaps another or the slot, and `needed` isn't NULL. */

/* ---- opening and closing --------------------------------------------------------------------- */

/* Opens a slot with a new session: no live id, no link, not stopped, an empty report. The ids of
 * its declares are version 4 uuids (16 octets each), made of what ChaCha with 20 rounds gives for
 * this seed. The seed is 32 octets that the caller takes from its system's source of random numbers
 * (as getrandom), new ones for each session.
 *
 *   DAXURBI_OK, DAXURBI_ALREADY_OPEN, DAXURBI_NOT_A_SEED (where seed_len isn't 32),
 *   DAXURBI_NO_MEMORY; where more than one would do, the first of them in this order that isn't
 *   DAXURBI_OK. */
uint32_t daxurbi_open(daxurbi_slot *slot, const uint8_t *seed, size_t seed_len);

/* Opens a slot whose session's declares draw these ids, 16 octets each, in their order, and then
 * the last one again and again (for tests and for runs that are to be made again).
 *
 *   DAXURBI_OK, DAXURBI_ALREADY_OPEN, DAXURBI_NOT_IDS (where ids_len isn't 16, 32, .. or 1024),
 *   DAXURBI_NO_MEMORY; in this order. */
uint32_t daxurbi_open_with_ids(daxurbi_slot *slot, const uint8_t *ids, size_t ids_len);

/* Closes a slot and gives back its memory. It may be opened again.
 *
 *   DAXURBI_OK, DAXURBI_NOT_OPEN. */
uint32_t daxurbi_close(daxurbi_slot *slot);

/* ---- steps --------------------------------------------------------------------------------------
 *
 * What the caller's layer below answers to whatever this step calls there. */
enum {
    /* It takes each frame, opens the control link, lets the disposition be sent, accepts the
     * commit. Where the library lacks the memory to keep what a plain frame or a commit hands, the
     * step is answered as with DAXURBI_REFUSE_NO_MEMORY: it stops the session with
     * `below-no-memory`, and nothing was handed. */
    DAXURBI_TAKE = 0,
    /* It vetoes the commit (of a transaction under which at least one frame came): it is rolled
     * back, and the reply is `rejected rollback`. To all that is no commit it is DAXURBI_TAKE. */
    DAXURBI_VETO = 1,
    /* It refuses with this error:
     *  - a frame under no transaction: the step stops the session, with the word of the error;
     *  - the attach of a control link: the reply is `attach-refused WORD`, and the session goes on;
     *  - a post whose reply would give back a disposition: stops the session, with the word;
     *  - a commit of at least one frame: DAXURBI_REFUSE_NO_MEMORY stops the session with
     *    `below-no-memory`, and nothing was handed; every other one is a DAXURBI_VETO;
     *  - every other step calls nothing below, and is answered as with DAXURBI_TAKE. */
    DAXURBI_REFUSE_UNATTACHED_HANDLE = 2,      /* unattached-handle */
    DAXURBI_REFUSE_LINK_NAME_NOT_FOUND = 3,    /* link-name-not-found */
    DAXURBI_REFUSE_HANDLE_IN_USE = 4,          /* handle-in-use */
    DAXURBI_REFUSE_ILLEGAL_STATE = 5,          /* illegal-state */
    DAXURBI_REFUSE_TRANSFER_TO_SENDER = 6,     /* transfer-to-sender */
    DAXURBI_REFUSE_CONNECTION_STOPPED = 7,     /* below-connection-stopped */
    DAXURBI_REFUSE_REMOTE_ENDED = 8,           /* below-remote-ended */
    DAXURBI_REFUSE_NO_MEMORY = 9               /* below-no-memory */
};

/* One step, as a step line of docs/FORMATS.md ("Step lines"), without a line feed:
 *
 *   attach NAME H                    link NAME H ROLE              flow H N     flow -
 *   transfer H ID SET PAYLOAD        post T H ID SET OUT PAYLOAD
 *   disposition ROLE FIRST LAST BOOL OUT
 *   retire T ROLE FIRST LAST BOOL OUT
 *   detach H BOOL                    control K PAYLOAD             link-end K
 *   end                              remote-end                    connection-stop
 *
 *   DAXURBI_OK: the step was answered. DAXURBI_STOPPED: it stopped the session: the layer below
 *   refused, the frame is under an id that isn't live, or the step is an end. In both cases the
 *   report is that of this step.
 *   DAXURBI_NOT_OPEN, DAXURBI_NOT_AN_ANSWER, DAXURBI_STOPPED_BEFORE, DAXURBI_NOT_A_STEP,
 *   DAXURBI_NO_LINK_LEFT, DAXURBI_NO_MEMORY (in this order, but that memory may run out while the
 *   line is read): nothing changed, and the report is still that of the step before. */
uint32_t daxurbi_step(daxurbi_slot *slot, const uint8_t *line, size_t line_len, uint32_t answer);

/* The report of the last step that was answered or that stopped the session; empty before the
 * first. Lines, each with a line feed at its end, as in docs/FORMATS.md ("The report").
 *
 * Of a step that was answered:
 *   one line of the reply: `ok`, `attached K`, `attach-refused WORD`, `link-ended`, `no-link`,
 *     `link-closed not-allowed`, `declared T`, `accepted`, `rejected unknown-id`,
 *     `rejected unknown-id global-id`, `rejected unknown-id ids-repeat`, `rejected rollback`;
 *   a line `out FRAME` for each frame to be sent back to the peer, in order;
 *   a line `taken FRAME` for each frame that was handed to the layer below, in order: one for a
 *     frame under no transaction, for an accepted commit those of its transaction, for all else
 *     none.
 * Of a step that stopped the session:
 *   `stop WORD`, then `handed N`, then N lines `taken FRAME`, the frames of this step that were
 *   handed before it was refused (N is 0 with the layer of this library).
 *
 *   FRAME is `attach NAME H ROLE`, `flow H N`, `transfer H ID SET STATE PAYLOAD`,
 *   `disposition ROLE FIRST LAST BOOL STATE` or `detach H BOOL` (docs/FORMATS.md, "The report").
 *
 *   DAXURBI_OK, DAXURBI_NOT_OPEN, DAXURBI_NO_MEMORY, DAXURBI_SHORT_BUFFER. It changes nothing in
 *   the slot, so it may be read again. */
uint32_t daxurbi_report(daxurbi_slot *slot, uint8_t *out, size_t out_len, size_t *needed);

/* Which frames a commit of this id would hand, in order: a line `FRAME` for each, with a line feed
 * at its end; none for a transaction without work. The id is octets (not hexadecimal digits).
 *
 *   DAXURBI_OK, DAXURBI_NOT_OPEN, DAXURBI_NOT_AN_ID, DAXURBI_NOT_LIVE, DAXURBI_NO_MEMORY,
 *   DAXURBI_SHORT_BUFFER. It changes nothing in the slot. Of a session that stopped it tells what
 *   it still keeps. */
uint32_t daxurbi_pending(daxurbi_slot *slot, const uint8_t *id, size_t id_len, uint8_t *out,
                         size_t out_len, size_t *needed);

/* ---- control messages: calls without a session ----------------------------------------------- */

enum {
    DAXURBI_DECLARE = 0,             /* a declare; it has no id */
    DAXURBI_DECLARE_GLOBAL = 1,      /* a declare with a global id */
    DAXURBI_DISCHARGE = 2,           /* a discharge of an id, without `fail`: a commit */
    DAXURBI_DISCHARGE_COMMIT = 3,    /* with `fail` false: a commit */
    DAXURBI_DISCHARGE_ROLLBACK = 4   /* with `fail` true: a rollback */
};

/* The payload of a control message: its canonical octets (at most 44), as docs/FORMATS.md has them
 * ("Control payloads"). The id has at most 32 octets; for DAXURBI_DECLARE it isn't looked at.
 *
 *   DAXURBI_OK, DAXURBI_NOT_A_MESSAGE (the kind is none of the above), DAXURBI_NOT_AN_ID (more than
 *   32 octets, of a kind that has an id), DAXURBI_SHORT_BUFFER; in this order. */
uint32_t daxurbi_payload(uint32_t kind, const uint8_t *id, size_t id_len, uint8_t *out,
                         size_t out_len, size_t *needed);

/* What a payload spells. With DAXURBI_OK and DAXURBI_SHORT_BUFFER, `*kind` is the kind of its
 * message and `*needed` the length of its id (0 for DAXURBI_DECLARE; at most 32).
 *
 *   DAXURBI_OK, DAXURBI_NOT_A_MESSAGE (no control message), DAXURBI_SHORT_BUFFER (for the id). */
uint32_t daxurbi_message(const uint8_t *payload, size_t payload_len, uint32_t *kind, uint8_t *id,
                         size_t id_cap, size_t *needed);

#ifdef __cplusplus
}
#endif

#endif
