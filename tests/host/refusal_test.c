/* Every refusal that one site gives, and which of several causes comes first. */
#include "lent.h"

static void refuse_sizes(void) {
  start();
  set_table(12, 0);
  site_length = DASH_REGISTER_SITE_BYTES - 1;
  refused("short site before a bad table", receive_command(0), DASH_REGISTER_REFUSED_SIZE);
  refused("short site before a bad message", receive(0, 0, 1, 1), DASH_REGISTER_REFUSED_SIZE);
  refused("short site, turn", turn(0), DASH_REGISTER_REFUSED_SIZE);
  refused("short site, status", status(), DASH_REGISTER_REFUSED_SIZE);
  keep();
  refused("short site, fresh", dash_register_fresh(lent.site, site_length), DASH_REGISTER_REFUSED_SIZE);
  site_length = DASH_REGISTER_SITE_BYTES;
  out_length = DASH_REGISTER_STATUS_BYTES - 1;
  refused("short status", status(), DASH_REGISTER_REFUSED_SIZE);
  refused("short delivery", delivery(0), DASH_REGISTER_REFUSED_SIZE);
  refused("short bike", bike(0), DASH_REGISTER_REFUSED_SIZE);
}

/* A turn that would acknowledge needs room for an entry too. */
static void refuse_sizes_of_a_turn(void) {
  start();
  taken("command 0", receive_command(0), nothing);
  message_length = DASH_REGISTER_MESSAGE_BYTES - 1;
  refused("short message", turn(0), DASH_REGISTER_REFUSED_SIZE);
  message_length = DASH_REGISTER_MESSAGE_BYTES;
  entry_length = DASH_REGISTER_ENTRY_BYTES - 1;
  refused("short entry", turn(0), DASH_REGISTER_REFUSED_SIZE);
  entry_length = DASH_REGISTER_ENTRY_BYTES;
  taken("turn", turn(0), a_message);
}

static void refuse_tables(void) {
  start();
  set_table(6, 1);
  for (table_length = 0; table_length < DASH_REGISTER_TABLE_BYTES; table_length++) {
    refused("a cut table", receive_command(0), DASH_REGISTER_REFUSED_TABLE);
    refused("a cut table before a bad message", receive(0, 0, 1, 1), DASH_REGISTER_REFUSED_TABLE);
    refused("a cut table, turn", turn(0), DASH_REGISTER_REFUSED_TABLE);
    refused("a cut table, status", status(), DASH_REGISTER_REFUSED_TABLE);
  }
  keep();
  refused("no table", dash_register_status(NULL, 0, lent.book, book_length, lent.site, site_length, lent.out, out_length),
          DASH_REGISTER_REFUSED_TABLE);
  taken("n and f alone", receive_command(0), nothing);
  lent.table[2] = lent.table[3] = 0xFF;
  table_length = DASH_REGISTER_MARKED_TABLE_BYTES;
  taken("a longer table, whatever its mask", receive_acknowledgment(5, 1, 1), nothing);
  set_table(5, 1);
  refused("five sites, one of them faulty", receive_command(0), DASH_REGISTER_REFUSED_TABLE);
}

static void judge_tables(void) {
  start();
  set_table(6, 1);
  lent.table[2] = 32;
  lent.table[3] = 0;
  for (table_length = 0; table_length < DASH_REGISTER_MARKED_TABLE_BYTES; table_length++)
    refused("a table that is cut", judge_table(), DASH_REGISTER_REFUSED_TABLE);
  unchanged("table judged", judge_table(), DASH_REGISTER_TAKEN);
  table_length++;
  unchanged("a longer table judged", judge_table(), DASH_REGISTER_TAKEN);
  lent.table[2] = 64;
  refused("bit from n on", judge_table(), DASH_REGISTER_REFUSED_TABLE);
  lent.table[2] = 3;
  refused("more bits than f", judge_table(), DASH_REGISTER_REFUSED_TABLE);
  lent.table[2] = 0;
  lent.table[3] = 128;
  refused("the mask's last bit", judge_table(), DASH_REGISTER_REFUSED_TABLE);
}

static void refuse_books(void) {
  start();
  lent.book[0] = 5;
  log_length = 17;
  refused("book before the log", turn(0), DASH_REGISTER_REFUSED_BOOK);
  refused("book", receive_command(9), DASH_REGISTER_REFUSED_BOOK);
  refused("book before a bad message", receive(0, 0, 1, 1), DASH_REGISTER_REFUSED_BOOK);
  set_table(1, 1);
  refused("table before the book", turn(0), DASH_REGISTER_REFUSED_TABLE);
  refused("table", status(), DASH_REGISTER_REFUSED_TABLE);
  expect("book judged", dash_register_judge_book(two_commands, sizeof two_commands), DASH_REGISTER_TAKEN);
  expect("cut operand", dash_register_judge_book(two_commands, sizeof two_commands - 1), DASH_REGISTER_REFUSED_BOOK);
  expect("no commands", dash_register_judge_book(NULL, 0), DASH_REGISTER_TAKEN);
}

/* Messages of another form are refused before the site is looked at, those out of range after it, whatever their kind. */
static void refuse_messages(void) {
  start();
  lent.site[0] = 34;
  refused("kind 0", receive(0, 0, 1, 1), DASH_REGISTER_REFUSED_FORM);
  refused("kind 3", receive(0, 3, 1, 1), DASH_REGISTER_REFUSED_FORM);
  refused("kind 255", receive(0, 255, 1, 1), DASH_REGISTER_REFUSED_FORM);
  message_length = DASH_REGISTER_MESSAGE_BYTES - 1;
  refused("a cut message", receive_acknowledgment(0, 1, 1), DASH_REGISTER_REFUSED_FORM);
  message_length = DASH_REGISTER_MESSAGE_BYTES + 1;
  refused("a longer message", receive_check(0, 1, 1), DASH_REGISTER_REFUSED_FORM);
  keep();
  refused("no message", dash_register_receive(TABLE_AND_BOOK, lent.site, site_length, 0, NULL, 0), DASH_REGISTER_REFUSED_FORM);
  message_length = DASH_REGISTER_MESSAGE_BYTES;
  refused("round 34 of a site", receive_check(0, 1, 1), DASH_REGISTER_REFUSED_RANGE);
  start();
  for (uint8_t kind = DASH_REGISTER_ACKNOWLEDGMENT; kind <= DASH_REGISTER_CHECK; kind++) {
    refused("sender", receive(1, kind, 1, 1), DASH_REGISTER_REFUSED_RANGE);
    refused("a sender of which a narrow number keeps 0", receive(SIZE_MAX / 2 + 1, kind, 1, 1), DASH_REGISTER_REFUSED_RANGE);
    refused("round 0", receive(0, kind, 0, 1), DASH_REGISTER_REFUSED_RANGE);
    refused("round 34", receive(0, kind, 34, 1), DASH_REGISTER_REFUSED_RANGE);
    refused("set beyond the book", receive(0, kind, 1, 4), DASH_REGISTER_REFUSED_RANGE);
    lent.message[2] = 0;
    lent.message[9] = 0x80;
    refused("the last bit of a set", receive_bytes(0), DASH_REGISTER_REFUSED_RANGE);
    taken("nothing out of range", receive(0, kind, 33, 3), nothing);
  }
}

static void refuse_form_and_range(void) {
  start();
  log_length = 19;
  lent.site[0] = 34;
  refused("cut entry before the site", log_read(), DASH_REGISTER_REFUSED_FORM);
  refused("cut entry, round end", round_end(), DASH_REGISTER_REFUSED_FORM);
  refused("round 34 of a site", status(), DASH_REGISTER_REFUSED_RANGE);
  start();
  lent.site[HEARD - 1] = 1;
  refused("answer where nothing is recorded", receive_command(0), DASH_REGISTER_REFUSED_RANGE);
  start();
  lent.site[5] = 1;
  refused("number of deliveries in its last byte", receive_command(0), DASH_REGISTER_REFUSED_RANGE);
  start();
  refused("command beyond the book", receive_command(2), DASH_REGISTER_REFUSED_RANGE);
  refused("fast delivery beyond the book", fast_delivery(2), DASH_REGISTER_REFUSED_RANGE);
  refused("own number before an idle turn", turn(1), DASH_REGISTER_REFUSED_RANGE);
  refused("bike 32", bike(DASH_REGISTER_BIKES), DASH_REGISTER_REFUSED_RANGE);
  lent.site[2] = 1;
  refused("position past the log", log_read(), DASH_REGISTER_REFUSED_RANGE);
  taken("position not judged without a log", receive_command(0), nothing);
  lent.site[2] = 0;
  append(9, 1);
  refused("next entry of no site", log_read(), DASH_REGISTER_REFUSED_RANGE);
  lent.site[2] = 1;
  refused("entry read before of no site", round_end(), DASH_REGISTER_REFUSED_RANGE);
}

static void refuse_entries(void) {
  start();
  taken("command 0", receive_command(0), nothing);
  taken("command 1", receive_command(1), nothing);
  append(0, 1);
  append(0, 1);
  refused("a third entry by a turn", turn(0), DASH_REGISTER_REFUSED_THIRD);
  taken("first entry", log_read(), nothing);
  taken("second entry", log_read(), nothing);
  append(0, 1);
  refused("a third entry read", log_read(), DASH_REGISTER_REFUSED_THIRD);
  lent.site[2] = 3;
  refused("a third entry before the position", turn(0), DASH_REGISTER_REFUSED_RANGE);
  lent.site[2] = 0;
  lent.site[0] = 33;
  refused("a proposal in round 33", turn(0), DASH_REGISTER_REFUSED_LAST);
}

/* A record of deliveries that is full refuses only where the step would else be carried out. */
static void refuse_full_record(void) {
  start();
  taken("command 0", receive_command(0), nothing);
  taken("turn", turn(0), a_message);
  taken("acknowledgment", receive_acknowledgment(0, 1, 1), nothing);
  lent.site[4] = 2;
  refused("a full record", fast_delivery(0), DASH_REGISTER_REFUSED_SIZE);
  refused("a full record, not enabled", fast_delivery(1), DASH_REGISTER_REFUSED_DISABLED);
}

int main(void) {
  refuse_sizes();
  refuse_sizes_of_a_turn();
  refuse_tables();
  judge_tables();
  refuse_books();
  refuse_messages();
  refuse_form_and_range();
  refuse_entries();
  refuse_full_record();
  return closing_line();
}
