/*
 * The dash register: one site's engine, and whole runs, for a C host.
 *
 * Every function is proved to do what its comment says, for every input.
 *
 * Memory. The caller owns every buffer and lends it for the length of the call; nothing is kept and nothing is allocated.
 * A buffer is a pointer and a length; a null pointer goes with length 0 only. Buffers of one call must not overlap.
 * A buffer of a fixed size may be longer than that: what is past the size named here is not looked at and not changed.
 * `book`, `log`, and the `message` that is received are taken whole. Any address will do; one divisible by 8 is best for speed.
 *
 * A site is lent with its whole size, and ends within it: after its header, register and deliveries (632 bytes) it has a row of sets heard
 * (88 bytes) for each round up to its span, the number in bytes 6 and 7. What is past its last row may be anything; it is not looked at
 * and not changed.
 *
 * Answers. 0 is success. Any other answer is a refusal: its number is one of DASH_REGISTER_REFUSED_.. below, and the call
 * has changed no byte of anything lent. Where several causes refuse, the first in the order 9, 2, 1, 3, 4, 6, 7, 8 is answered.
 * A record of deliveries that is full (9) is a cause only where the step would else be carried out. Nothing is refused for being busy.
 *
 * What each call judges. `table` must start with the 2 bytes of a site table, n and f: 1 to 11 sites, of which 0 to 2 may be faulty,
 * n at least 5 f + 1 (2). It may be longer, as a run's header is: the mask there is not looked at, a site does not know who is faulty.
 * `book` must be a book of commands (1). `log` must be whole entries of 18 bytes, and a `message` that is received the 10 bytes of one (3).
 * `site` must be the bytes of a site for this table and book; where a log is lent, the site's log position must be within it, and no entry
 * before that position may be one that a log read would refuse (4). Numbers and sets must be in range (4). Whether the site's fields fit
 * each other is not asked: it is stepped as it is.
 *
 * Messages. A turn writes 10 bytes, which the host sends to every site, the sender's own included. Where they arrive, the host hands them
 * to dash_register_receive as they are, with the number of the site that sent them. It need not read them: whatever the bytes of a faulty
 * site are, they are judged there. A message may arrive late, repeatedly or never.
 *
 * The host checks signatures and channel keys, so that the sender it names is the one who sent, and supplies the atomic broadcast behind
 * the log: the log that every site is lent is the same, and grows only at its end.
 *
 * Formats are described in docs/FORMAT.md. Numbers of several bytes have the least significant byte first.
 */
#ifndef DASH_REGISTER_H
#define DASH_REGISTER_H

#include <stddef.h>
#include <stdint.h>

#ifdef __cplusplus
extern "C" {
#endif

/* Sizes in bytes. */
#define DASH_REGISTER_TABLE_BYTES 2         /* a site table: n, f; the first bytes of a run's header */
#define DASH_REGISTER_MARKED_TABLE_BYTES 4  /* the same with the mask of the faulty sites (2): for dash_register_judge_table */
#define DASH_REGISTER_SITE_BYTES 3536       /* one site's state */
#define DASH_REGISTER_MESSAGE_BYTES 10      /* one message: kind (1), round (1), set (8) */
#define DASH_REGISTER_ENTRY_BYTES 18        /* one log entry: site, round, NC (8), C (8) */
#define DASH_REGISTER_STATUS_BYTES 5        /* see dash_register_status */
#define DASH_REGISTER_BIKE_BYTES 8          /* reading (4), dash (4) */
#define DASH_REGISTER_DELIVERY_BYTES 5      /* command (1), answer (4, two's complement) */
#define DASH_REGISTER_MAX_RUN_BYTES 60000   /* a whole run */
#define DASH_REGISTER_PRINT_BYTES 670890    /* room for the print of any run */
#define DASH_REGISTER_RUN_SITES_BYTES 38896 /* what a run works on: its sites, one after the other, */
#define DASH_REGISTER_RUN_LOG_BYTES 12690   /* its log entries, */
#define DASH_REGISTER_RUN_SENT_BYTES 189486 /* and what its sites have sent */

/* Kinds of message: the first byte of one. */
#define DASH_REGISTER_ACKNOWLEDGMENT 1
#define DASH_REGISTER_CHECK 2               /* a check message; the turn that writes one writes a log entry too */

/* Limits. */
#define DASH_REGISTER_MAX_SITES 11
#define DASH_REGISTER_MAX_FAULTS 2
#define DASH_REGISTER_MAX_COMMANDS 64
#define DASH_REGISTER_BIKES 32
#define DASH_REGISTER_MAX_READING 999999
#define DASH_REGISTER_LAST_LOG_ROUND 32     /* a site's round is at most one more */

/* Refusals. */
#define DASH_REGISTER_TAKEN 0
#define DASH_REGISTER_REFUSED_BOOK 1        /* unknown kind, cut operand, bike or start out of range, 65th command */
#define DASH_REGISTER_REFUSED_TABLE 2       /* site table cut, or against its limits */
#define DASH_REGISTER_REFUSED_FORM 3        /* a log that ends in a cut entry, a message of another length or of an unknown kind */
#define DASH_REGISTER_REFUSED_RANGE 4       /* a number or set out of range, a lent site out of range */
#define DASH_REGISTER_REFUSED_ROLE 5        /* only in runs: a correct site where a faulty one is meant, or the reverse */
#define DASH_REGISTER_REFUSED_DISABLED 6    /* the step is not enabled */
#define DASH_REGISTER_REFUSED_THIRD 7       /* a third log entry of a site in a round */
#define DASH_REGISTER_REFUSED_LAST 8        /* a turn in round 33 that would propose */
#define DASH_REGISTER_REFUSED_SIZE 9        /* a lent buffer too short, a full record of deliveries */

/* Whether a site table with its mask, the first 4 bytes of a run's header, is within its limits: beside those of n and f, the mask marks
 * at most f faulty sites and none from n on. Fewer than 4 bytes are a cut table. 0 or 2. */
uint32_t dash_register_judge_table(const uint8_t *table, size_t table_length);

/* Whether some bytes are a book of 0 to 64 commands. 0 or 1. */
uint32_t dash_register_judge_book(const uint8_t *book, size_t book_length);

/* Writes a fresh site: acknowledging in round 1, nothing received, heard or delivered, log position 0, the initial register. Its span is 0,
 * so that only the first 632 bytes are written. 0 or 9. */
uint32_t dash_register_fresh(uint8_t *site, size_t site_length);

/* A command reached the site: it joins what the site has received. 0, 1, 2, 4 or 9. */
uint32_t dash_register_receive_command(const uint8_t *table, size_t table_length, const uint8_t *book, size_t book_length,
                                       uint8_t *site, size_t site_length, size_t command);

/* A message of site number `sender` reached the site: the bytes that a turn wrote there, or whatever a faulty site sends. Refused as 3
 * where they are not 10 or their kind is neither 1 nor 2; as 4 where the sender is not below n, the round not 1 to 33, or the set has
 * a command beyond the book, whatever the kind. Else the set joins what the site has received, be the round past, present or to come.
 * The set of an acknowledgment is also kept under its sender and its own round, united with what was there. Where the site has no row for
 * that round, its span becomes the round and the new rows are cleared first. No other step changes the span or the rows, nor does
 * a check message. 0, 1, 2, 3, 4 or 9. */
uint32_t dash_register_receive(const uint8_t *table, size_t table_length, const uint8_t *book, size_t book_length,
                               uint8_t *site, size_t site_length, size_t sender, const uint8_t *message, size_t message_length);

/* The turn of site number `own`. Not enabled (6) while it waits, and where nothing it received is outside what it delivered and has pending.
 * Where no two undelivered commands conflict, the site acknowledges them: `message` becomes an acknowledgment of its round with these
 * commands, to be sent to all sites, and `entry` is left as it was. Else it proposes and waits: `message` becomes its check message,
 * to be sent to all sites, and `entry` the entry to append to the log. So there is an entry where message[0] is DASH_REGISTER_CHECK.
 * Both buffers need their whole size, whatever the turn does. Refused as 7 where the log has two entries of this site and round, and
 * as 8 in round 33. 0, 1, 2, 3, 4, 6, 7, 8 or 9. */
uint32_t dash_register_turn(const uint8_t *table, size_t table_length, const uint8_t *book, size_t book_length,
                            uint8_t *site, size_t site_length, const uint8_t *log, size_t log_length, size_t own,
                            uint8_t *message, size_t message_length, uint8_t *entry, size_t entry_length);

/* Delivers `command` fast: it is pending, not yet delivered fast, and n - f senders have acknowledged it in the site's round.
 * It is executed on the site's register and its answer recorded. 0, 1, 2, 4, 6 or 9. */
uint32_t dash_register_fast_delivery(const uint8_t *table, size_t table_length, const uint8_t *book, size_t book_length,
                                     uint8_t *site, size_t site_length, size_t command);

/* Reads the next log entry. 6 where none is left, 4 for an entry out of range, 7 for a third of its site and round. 0 or 1, 2, 3, 4, 6, 7, 9. */
uint32_t dash_register_log_read(const uint8_t *table, size_t table_length, const uint8_t *book, size_t book_length,
                                uint8_t *site, size_t site_length, const uint8_t *log, size_t log_length);

/* Ends the round of a waiting site where the entries that it has read decide it: delivers what is decided and not delivered yet,
 * the non-conflicting commands first, each part in number order, and goes on to the next round. 0, 1, 2, 3, 4, 6 or 9. */
uint32_t dash_register_round_end(const uint8_t *table, size_t table_length, const uint8_t *book, size_t book_length,
                                 uint8_t *site, size_t site_length, const uint8_t *log, size_t log_length);

/* Writes round (1), phase (1: 0 acknowledging, 1 waiting), number of deliveries (1) and log position (2). 0, 1, 2, 4 or 9. */
uint32_t dash_register_status(const uint8_t *table, size_t table_length, const uint8_t *book, size_t book_length,
                              const uint8_t *site, size_t site_length, uint8_t *status, size_t status_length);

/* Writes a bike's reading (4) and dash (4). 0, 1, 2, 4 or 9. */
uint32_t dash_register_bike(const uint8_t *table, size_t table_length, const uint8_t *book, size_t book_length,
                            const uint8_t *site, size_t site_length, size_t bike, uint8_t *out, size_t out_length);

/* Writes the k-th delivery, from 0: command (1) and answer (4). 4 where there is none. 0, 1, 2, 4 or 9. */
uint32_t dash_register_delivery(const uint8_t *table, size_t table_length, const uint8_t *book, size_t book_length,
                                const uint8_t *site, size_t site_length, size_t k, uint8_t *out, size_t out_length);

/* Plays a whole run and writes its print at the start of `out`; answers the number of bytes written.
 *
 * `out` needs DASH_REGISTER_PRINT_BYTES; `sites`, `log` and `sent` are memory to work on, of DASH_REGISTER_RUN_SITES_BYTES, _LOG_BYTES and
 * _SENT_BYTES. Where one of the four is shorter, 0 is answered and nothing is changed. What the working memory holds before does not
 * matter, so it need not be cleared between runs.
 *
 * A run that is refused changes `out` alone. After a run that is played `sites` starts with the n sites of its table as the last step
 * left them, DASH_REGISTER_SITE_BYTES each: dash_register_status, _bike and _delivery look at them, with the run's header as the table and
 * the run's book. What follows them, and what is past the last row of each, is as it was. `log` starts with the log's entries; of the other
 * bytes of `log` and of `sent` up to their sizes nothing is meant for the caller. */
size_t dash_register_run(const uint8_t *run, size_t run_length, uint8_t *sites, size_t sites_length, uint8_t *log, size_t log_length,
                         uint8_t *sent, size_t sent_length, uint8_t *out, size_t out_length);

#ifdef __cplusplus
}
#endif

#endif
