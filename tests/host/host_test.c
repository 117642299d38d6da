/* One site driven through document 01's case, through fast delivery, and through messages of all rounds. */
#include "lent.h"

/* Document 01's case, with buffers as long as they must be or longer. */
static void play_case(size_t more) {
  static const uint8_t sent[DASH_REGISTER_MESSAGE_BYTES] = {DASH_REGISTER_CHECK, 1, 3};
  static const uint8_t proposed[DASH_REGISTER_ENTRY_BYTES] = {0, 1, [10] = 3};
  static const uint8_t first[] = {0, 0, 0, 0, 0}, second[] = {1, 0xB0, 0x36, 0, 0};
  static const uint8_t reading[] = {0xB0, 0x36, 0, 0, 7, 0, 0, 0}, ended[] = {2, 0, 2, 1, 0};
  start();
  table_length += more;
  site_length += more;
  message_length += more;
  entry_length += more;
  out_length += more;
  taken("command 0", receive_command(0), nothing);
  taken("command 1", receive_command(1), nothing);
  taken("turn", turn(0), a_proposal);
  written("a check message of round 1 with both commands", lent.message, sent, sizeof sent);
  written("a proposal", lent.entry, proposed, sizeof proposed);
  memcpy(lent.log, lent.entry, DASH_REGISTER_ENTRY_BYTES);
  log_length = DASH_REGISTER_ENTRY_BYTES;
  refused("turn while waiting", turn(0), DASH_REGISTER_REFUSED_DISABLED);
  refused("round end before the entry is read", round_end(), DASH_REGISTER_REFUSED_DISABLED);
  taken("log read", log_read(), nothing);
  refused("log read past the end", log_read(), DASH_REGISTER_REFUSED_DISABLED);
  taken("round end", round_end(), nothing);
  taken("delivery 0", delivery(0), a_delivery);
  written("00=0", lent.out, first, sizeof first);
  taken("delivery 1", delivery(1), a_delivery);
  written("01=14000", lent.out, second, sizeof second);
  refused("delivery 2", delivery(2), DASH_REGISTER_REFUSED_RANGE);
  taken("bike 5", bike(5), a_bike);
  written("reading 14000, dash 7", lent.out, reading, sizeof reading);
  taken("status", status(), a_status);
  written("round 2, two deliveries, one entry read", lent.out, ended, sizeof ended);
}

/* A command alone is acknowledged and delivered fast; its own acknowledgment is brought to the site as the turn wrote it. */
static void play_fast(void) {
  static const uint8_t acknowledged[DASH_REGISTER_MESSAGE_BYTES] = {DASH_REGISTER_ACKNOWLEDGMENT, 1, 1};
  start();
  taken("check message", receive_check(0, 1, 1), nothing);
  taken("turn, which leaves the entry as it was", turn(0), a_message);
  written("an acknowledgment of round 1", lent.message, acknowledged, sizeof acknowledged);
  refused("turn with nothing new", turn(0), DASH_REGISTER_REFUSED_DISABLED);
  lent.site[HEARD] = 1;
  refused("not acknowledged by all, whatever is past the span", fast_delivery(0), DASH_REGISTER_REFUSED_DISABLED);
  taken("acknowledgment", receive_bytes(0), nothing);
  taken("acknowledgment of a later round", receive_acknowledgment(0, 33, 0), nothing);
  taken("fast delivery", fast_delivery(0), nothing);
  refused("fast delivery again", fast_delivery(0), DASH_REGISTER_REFUSED_DISABLED);
}

/* There are so many rows, all clear but for the set of sender 0 in the last one. */
static void rows_are(const char *what, size_t rows, uint8_t set) {
  static uint8_t wanted[DASH_REGISTER_SITE_BYTES];
  memset(wanted, 0, sizeof wanted);
  wanted[ROW * (rows - 1)] = set;
  check(what, lent.site[SPAN] == rows && lent.site[SPAN + 1] == 0);
  check(what, memcmp(lent.site + HEARD, wanted, ROW * rows) == 0);
}

/* Rows come with the acknowledgments, and are clear but for these, whatever was there. */
static void hear(void) {
  start();
  taken("an empty acknowledgment", receive_acknowledgment(0, 2, 0), nothing);
  rows_are("two rows", 2, 0);
  taken("an acknowledgment within the span", receive_acknowledgment(0, 2, 1), nothing);
  taken("another one", receive_acknowledgment(0, 2, 2), nothing);
  rows_are("both united", 2, 3);
  lent.site[HEARD + ROW] = 0;
  taken("an acknowledgment of the last round", receive_acknowledgment(0, 33, 1), nothing);
  rows_are("all rows", 33, 1);
}

/* A check message of any round is received, and of it nothing else is kept. */
static void receive_checks(void) {
  start();
  taken("a check message of the last round in round 1", receive_check(0, 33, 1), nothing);
  check("it is received", lent.site[8] == 1);
  lent.site[8] = 0;
  check("nothing else is changed", memcmp(lent.site, before.site, sizeof lent.site) == 0);
  start();
  taken("an acknowledgment", receive_acknowledgment(0, 2, 1), nothing);
  taken("a check message within the span", receive_check(0, 2, 2), nothing);
  taken("a check message past the span", receive_check(0, 3, 2), nothing);
  rows_are("two rows, the check messages not among them", 2, 1);
  check("all three are received", lent.site[8] == 3);
}

/* Only rows up to the span are judged. */
static void judge_rows(void) {
  start();
  lent.site[HEARD] = 4;
  taken("a set past the span", receive_command(0), nothing);
  taken("acknowledgment", receive_acknowledgment(0, 1, 1), nothing);
  lent.site[HEARD] = 4;
  refused("a set heard beyond the book", receive_command(0), DASH_REGISTER_REFUSED_RANGE);
  lent.site[HEARD] = 0;
  lent.site[HEARD + ROW - 1] = 1;
  refused("a set heard of no sender", receive_command(0), DASH_REGISTER_REFUSED_RANGE);
  start();
  lent.site[SPAN] = 34;
  refused("span 34", status(), DASH_REGISTER_REFUSED_RANGE);
  lent.site[SPAN] = 0;
  lent.site[SPAN + 1] = 1;
  refused("span in its last byte", receive_command(0), DASH_REGISTER_REFUSED_RANGE);
}

int main(void) {
  play_case(0);
  play_case(GUARD / 2);
  play_fast();
  hear();
  receive_checks();
  judge_rows();
  return closing_line();
}
