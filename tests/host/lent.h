/* What the C tests lend to the calls of one site, and what they look at afterwards: a refused call must leave every byte lent as it was;
 * a call that is taken must leave what is past its buffers. */
#ifndef LENT_H
#define LENT_H

#include "check.h"
#include "dash_register.h"

#include <stdio.h>
#include <string.h>

#define GUARD 16
#define LOG_ROOM (4 * DASH_REGISTER_ENTRY_BYTES)

/* Where a site's span and its sets heard stand (docs/FORMAT.md), and the bytes of a row of them. */
#define SPAN 6
#define HEARD 632
#define ROW 88

/* Every buffer lent, each with bytes after it that no call may change. */
static struct {
  uint8_t table[DASH_REGISTER_MARKED_TABLE_BYTES + GUARD];
  uint8_t book[16 + GUARD];
  uint8_t site[DASH_REGISTER_SITE_BYTES + GUARD];
  uint8_t log[LOG_ROOM + GUARD];
  uint8_t message[DASH_REGISTER_MESSAGE_BYTES + GUARD];
  uint8_t entry[DASH_REGISTER_ENTRY_BYTES + GUARD];
  uint8_t out[DASH_REGISTER_BIKE_BYTES + GUARD];
} lent, before;

static size_t table_length, book_length, site_length, log_length, message_length, entry_length, out_length;

/* How many bytes of each output a call has written. */
struct outputs {
  size_t message, entry, out;
};

static const struct outputs nothing = {0, 0, 0};
static const struct outputs a_message = {DASH_REGISTER_MESSAGE_BYTES, 0, 0};
static const struct outputs a_proposal = {DASH_REGISTER_MESSAGE_BYTES, DASH_REGISTER_ENTRY_BYTES, 0};
static const struct outputs a_status = {0, 0, DASH_REGISTER_STATUS_BYTES};
static const struct outputs a_bike = {0, 0, DASH_REGISTER_BIKE_BYTES};
static const struct outputs a_delivery = {0, 0, DASH_REGISTER_DELIVERY_BYTES};

static inline void expect(const char *what, uint32_t answer, uint32_t wanted) {
  if (answer != wanted) {
    printf("%s answered %u, not %u\n", what, answer, wanted);
  }
  check(what, answer == wanted);
}

/* Document 01's book: bike 5 gets dash 7 with the reading 14,000, and is read. */
static const uint8_t two_commands[] = {0x02, 0x05, 0x07, 0, 0, 0, 0xB0, 0x36, 0, 0, 0x03, 0x05};

/* All that is past a site's last row is as it was. */
static inline void past_kept(const char *what) {
  size_t end = HEARD + ROW * (lent.site[SPAN] + 256u * lent.site[SPAN + 1]);
  check(what, end <= DASH_REGISTER_SITE_BYTES);
  check(what, memcmp(lent.site + end, before.site + end, sizeof lent.site - end) == 0);
}

static inline void keep(void) { before = lent; }

static inline void set_table(uint8_t n, uint8_t f) {
  lent.table[0] = n;
  lent.table[1] = f;
}

/* The buffers hold other bytes, of which the fresh site leaves those past its end. */
static inline void start(void) {
  memset(&lent, 0xA5, sizeof lent);
  set_table(1, 0);
  memcpy(lent.book, two_commands, sizeof two_commands);
  table_length = DASH_REGISTER_TABLE_BYTES;
  book_length = sizeof two_commands;
  site_length = DASH_REGISTER_SITE_BYTES;
  log_length = 0;
  message_length = DASH_REGISTER_MESSAGE_BYTES;
  entry_length = DASH_REGISTER_ENTRY_BYTES;
  out_length = DASH_REGISTER_BIKE_BYTES;
  keep();
  expect("fresh", dash_register_fresh(lent.site, site_length), DASH_REGISTER_TAKEN);
  check("a fresh site has no rows", lent.site[SPAN] == 0 && lent.site[SPAN + 1] == 0);
  past_kept("fresh");
}

/* After a call that changes nothing. */
static inline void unchanged(const char *what, uint32_t answer, uint32_t wanted) {
  expect(what, answer, wanted);
  check(what, memcmp(&lent, &before, sizeof lent) == 0);
}

static inline void refused(const char *what, uint32_t answer, uint32_t refusal) { unchanged(what, answer, refusal); }

/* After a call that may change the site, and so many bytes of its outputs. */
static inline void taken(const char *what, uint32_t answer, struct outputs to) {
  expect(what, answer, DASH_REGISTER_TAKEN);
  check(what, memcmp(lent.table, before.table, sizeof lent.table) == 0);
  check(what, memcmp(lent.book, before.book, sizeof lent.book) == 0);
  check(what, memcmp(lent.log, before.log, sizeof lent.log) == 0);
  past_kept(what);
  check(what, memcmp(lent.message + to.message, before.message + to.message, sizeof lent.message - to.message) == 0);
  check(what, memcmp(lent.entry + to.entry, before.entry + to.entry, sizeof lent.entry - to.entry) == 0);
  check(what, memcmp(lent.out + to.out, before.out + to.out, sizeof lent.out - to.out) == 0);
}

/* What every call of one site is lent first. */
#define TABLE_AND_BOOK lent.table, table_length, lent.book, book_length

static inline uint32_t receive_command(size_t command) {
  keep();
  return dash_register_receive_command(TABLE_AND_BOOK, lent.site, site_length, command);
}

/* The message as its bytes are. */
static inline uint32_t receive_bytes(size_t sender) {
  keep();
  return dash_register_receive(TABLE_AND_BOOK, lent.site, site_length, sender, lent.message, message_length);
}

static inline uint32_t receive(size_t sender, uint8_t kind, uint8_t round, uint8_t set) {
  memset(lent.message, 0, DASH_REGISTER_MESSAGE_BYTES);
  lent.message[0] = kind;
  lent.message[1] = round;
  lent.message[2] = set;
  return receive_bytes(sender);
}

static inline uint32_t receive_acknowledgment(size_t sender, uint8_t round, uint8_t set) {
  return receive(sender, DASH_REGISTER_ACKNOWLEDGMENT, round, set);
}

static inline uint32_t receive_check(size_t sender, uint8_t round, uint8_t set) { return receive(sender, DASH_REGISTER_CHECK, round, set); }

static inline uint32_t turn(size_t own) {
  keep();
  return dash_register_turn(TABLE_AND_BOOK, lent.site, site_length, lent.log, log_length, own, lent.message, message_length, lent.entry,
                            entry_length);
}

static inline uint32_t fast_delivery(size_t command) {
  keep();
  return dash_register_fast_delivery(TABLE_AND_BOOK, lent.site, site_length, command);
}

static inline uint32_t log_read(void) {
  keep();
  return dash_register_log_read(TABLE_AND_BOOK, lent.site, site_length, lent.log, log_length);
}

static inline uint32_t round_end(void) {
  keep();
  return dash_register_round_end(TABLE_AND_BOOK, lent.site, site_length, lent.log, log_length);
}

static inline uint32_t status(void) {
  keep();
  return dash_register_status(TABLE_AND_BOOK, lent.site, site_length, lent.out, out_length);
}

static inline uint32_t bike(size_t number) {
  keep();
  return dash_register_bike(TABLE_AND_BOOK, lent.site, site_length, number, lent.out, out_length);
}

static inline uint32_t delivery(size_t k) {
  keep();
  return dash_register_delivery(TABLE_AND_BOOK, lent.site, site_length, k, lent.out, out_length);
}

static inline uint32_t judge_table(void) {
  keep();
  return dash_register_judge_table(lent.table, table_length);
}

static inline void written(const char *what, const uint8_t *out, const uint8_t *bytes, size_t length) {
  check(what, memcmp(out, bytes, length) == 0);
}

/* An entry of a site in a round, with NC empty and both commands in C, joins the log. */
static inline void append(uint8_t site, uint8_t round) {
  uint8_t *entry = lent.log + log_length;
  memset(entry, 0, DASH_REGISTER_ENTRY_BYTES);
  entry[0] = site;
  entry[1] = round;
  entry[10] = 3;
  log_length += DASH_REGISTER_ENTRY_BYTES;
}

#endif
