/* Whole runs on lent working memory that is full of other bytes: the print, the sites that a run leaves, and all that a call must leave
 * as it was, with a buffer too short, with a run that is refused, and past the sizes. */
#include "check.h"
#include "dash_register.h"

#include <stdio.h>
#include <string.h>

#define GUARD 16

/* Every buffer lent, each with bytes after it that no call may change. */
static struct {
  uint8_t sites[DASH_REGISTER_RUN_SITES_BYTES + GUARD];
  uint8_t log[DASH_REGISTER_RUN_LOG_BYTES + GUARD];
  uint8_t sent[DASH_REGISTER_RUN_SENT_BYTES + GUARD];
  uint8_t out[DASH_REGISTER_PRINT_BYTES + GUARD];
} lent, before;

static size_t sites_length, log_length, sent_length, out_length;

/* Document 01's book: bike 5 gets dash 7 with the reading 14,000, and is read. */
static const uint8_t book[] = {0x02, 0x05, 0x07, 0, 0, 0, 0xB0, 0x36, 0, 0, 0x03, 0x05};

/* One site gets both commands, which conflict; it takes a turn, reads the log and ends its round. */
static const uint8_t one_site[] = {1, 0, 0, 0, sizeof book, 0, 0x02, 0x05, 0x07, 0, 0, 0, 0xB0, 0x36, 0, 0, 0x03, 0x05,
                                   1, 0, 0, 1, 0, 1, 7, 0, 9, 0, 10, 0};
static const char one_site_print[] = "run 1 sites 0 liars 2 commands\nsite 00 round 02 delivered 00=0 01=14000\n";

/* Of six sites, site 3 gets command 0 and takes a turn; its acknowledgment reaches site 1. */
static const uint8_t six_sites[] = {6, 1, 0, 0, sizeof book, 0, 0x02, 0x05, 0x07, 0, 0, 0, 0xB0, 0x36, 0, 0, 0x03, 0x05, 1, 3, 0, 7, 3,
                                    2, 1, 3, 1, 1};

/* The table and book of a run, for a call of one site: the run itself is lent as the table. */
#define RUN(run) run, sizeof run, book, sizeof book

/* Other bytes each time, in every buffer. */
static void start(uint32_t seed) {
  uint8_t *byte = (uint8_t *)&lent;
  for (size_t k = 0; k < sizeof lent; k++) {
    seed = seed * 1664525 + 1013904223;
    byte[k] = (uint8_t)(seed >> 24);
  }
  sites_length = DASH_REGISTER_RUN_SITES_BYTES;
  log_length = DASH_REGISTER_RUN_LOG_BYTES;
  sent_length = DASH_REGISTER_RUN_SENT_BYTES;
  out_length = DASH_REGISTER_PRINT_BYTES;
}

static size_t run(const uint8_t *bytes, size_t length) {
  before = lent;
  return dash_register_run(bytes, length, lent.sites, sites_length, lent.log, log_length, lent.sent, sent_length, lent.out, out_length);
}

static void printed(const char *what, size_t answer, const char *print) {
  size_t n = strlen(print);
  check(what, answer == n);
  check(what, memcmp(lent.out, print, n) == 0);
  check(what, memcmp(lent.out + n, before.out + n, sizeof lent.out - n) == 0);
}

/* What is past the sizes, and past the sites of the table. */
static void rest_kept(const char *what, size_t sites) {
  size_t n = sites * DASH_REGISTER_SITE_BYTES;
  check(what, memcmp(lent.sites + n, before.sites + n, sizeof lent.sites - n) == 0);
  check(what, memcmp(lent.log + DASH_REGISTER_RUN_LOG_BYTES, before.log + DASH_REGISTER_RUN_LOG_BYTES, GUARD) == 0);
  check(what, memcmp(lent.sent + DASH_REGISTER_RUN_SENT_BYTES, before.sent + DASH_REGISTER_RUN_SENT_BYTES, GUARD) == 0);
}

static void play_one_site(uint32_t seed, size_t more) {
  static const uint8_t status[DASH_REGISTER_STATUS_BYTES] = {2, 0, 2, 1, 0};
  static const uint8_t bike[DASH_REGISTER_BIKE_BYTES] = {0xB0, 0x36, 0, 0, 7, 0, 0, 0};
  static const uint8_t delivery[DASH_REGISTER_DELIVERY_BYTES] = {1, 0xB0, 0x36, 0, 0};
  uint8_t seen[8];
  start(seed);
  sites_length += more;
  log_length += more;
  sent_length += more;
  out_length += more;
  printed("print", run(one_site, sizeof one_site), one_site_print);
  rest_kept("past the sizes", 1);
  check("status", dash_register_status(RUN(one_site), lent.sites, sites_length, seen, sizeof seen) == DASH_REGISTER_TAKEN);
  check("status", memcmp(seen, status, sizeof status) == 0);
  check("bike", dash_register_bike(RUN(one_site), lent.sites, sites_length, 5, seen, sizeof seen) == DASH_REGISTER_TAKEN);
  check("bike", memcmp(seen, bike, sizeof bike) == 0);
  check("delivery", dash_register_delivery(RUN(one_site), lent.sites, sites_length, 1, seen, sizeof seen) == DASH_REGISTER_TAKEN);
  check("delivery", memcmp(seen, delivery, sizeof delivery) == 0);
}

/* The sites are those of the one-site engine after the same steps, on the same bytes. */
static void play_six_sites(uint32_t seed) {
  size_t size = DASH_REGISTER_SITE_BYTES;
  uint8_t *site_1 = before.sites + size, *site_3 = before.sites + 3 * size;
  uint8_t message[DASH_REGISTER_MESSAGE_BYTES], entry[DASH_REGISTER_ENTRY_BYTES];
  start(seed);
  check("answer", run(six_sites, sizeof six_sites) > 0);
  rest_kept("past six sites", 6);
  for (size_t i = 0; i < 6; i++)
    check("fresh", dash_register_fresh(before.sites + i * size, size) == DASH_REGISTER_TAKEN);
  check("command", dash_register_receive_command(RUN(six_sites), site_3, size, 0) == DASH_REGISTER_TAKEN);
  check("turn", dash_register_turn(RUN(six_sites), site_3, size, NULL, 0, 3, message, sizeof message, entry, sizeof entry) ==
                    DASH_REGISTER_TAKEN);
  check("acknowledgment", dash_register_receive(RUN(six_sites), site_1, size, 3, message, sizeof message) == DASH_REGISTER_TAKEN);
  check("the sites' bytes", memcmp(lent.sites, before.sites, 6 * size) == 0);
}

static void refused(const char *what, size_t answer) {
  check(what, answer == 0);
  check(what, memcmp(&lent, &before, sizeof lent) == 0);
}

/* Each buffer one byte too short, and one that is not there. */
static void refuse_sizes(void) {
  start(1);
  sites_length--;
  refused("sites too short", run(one_site, sizeof one_site));
  start(2);
  log_length--;
  refused("log too short", run(one_site, sizeof one_site));
  start(3);
  sent_length--;
  refused("sent too short", run(one_site, sizeof one_site));
  start(4);
  out_length--;
  refused("out too short", run(one_site, sizeof one_site));
  start(5);
  before = lent;
  refused("no sites", dash_register_run(one_site, sizeof one_site, NULL, 0, lent.log, log_length, lent.sent, sent_length, lent.out, out_length));
}

/* A run without a site is refused: its line is printed, and the working memory stays. */
static void refuse_run(void) {
  start(6);
  printed("a refused run", run((const uint8_t[]){0, 0, 0, 0, 0, 0}, 6), "refused 2\n");
  check("sites", memcmp(lent.sites, before.sites, sizeof lent.sites) == 0);
  check("log", memcmp(lent.log, before.log, sizeof lent.log) == 0);
  check("sent", memcmp(lent.sent, before.sent, sizeof lent.sent) == 0);
}

int main(void) {
  play_one_site(7, 0);
  play_one_site(8, GUARD / 2);
  play_six_sites(9);
  refuse_sizes();
  refuse_run();
  return closing_line();
}
