/*
 * Six dealer sites in one process, over a network with random delays, one of them faulty.
 *
 * The host's part is what document 01 leaves to it: carrying bytes from site to site, naming their senders, and keeping one log that is
 * the same for all. It reads no message; the library judges those of the faulty site too.
 * Each correct site is 3,536 bytes that the library steps. The faulty site says something else to everybody and logs twice.
 * At the end each correct site's deliveries and readings are printed, and compared.
 *
 *     sh examples/host.sh [SEED]
 */
#include "dash_register.h"

#include <stdio.h>
#include <stdlib.h>
#include <string.h>

enum { SITES = 6, FAULTS = 1, FAULTY = 5, MESSAGES = 4096, ENTRIES = 704, TICKS = 4000 };

static const uint8_t table[DASH_REGISTER_TABLE_BYTES] = {SITES, FAULTS};

/* The book: ADD, ADD, READ on bike 3; FIT, TRIM, READ on bike 7; ADD, ADD on bike 9. */
static const uint8_t book[] = {
    1, 3, 120, 0, 1, 3, 45, 0, 3, 3,
    2, 7, 77, 0, 0, 0, 0xB0, 0x36, 0, 0, 4, 7, 0x0C, 0xFE, 3, 7,
    1, 9, 10, 0, 1, 9, 20, 0,
};
enum { COMMANDS = 8 };

/* What the network carries: the bytes of a message, or a command's number in one byte. */
struct packet {
    int to, from, due;
    size_t length;
    uint8_t bytes[DASH_REGISTER_MESSAGE_BYTES];
};

static uint8_t site[SITES][DASH_REGISTER_SITE_BYTES];
static uint8_t shared_log[ENTRIES * DASH_REGISTER_ENTRY_BYTES];
static size_t log_bytes;
static struct packet network[MESSAGES];
static int packets;
static uint32_t random_state = 1;

/* What every call on site i is lent first. */
#define SITE(i) table, sizeof table, book, sizeof book, site[i], sizeof site[i]

static uint32_t draw(uint32_t range)
{
    random_state = 1664525u * random_state + 1013904223u;
    return (random_state >> 16) % range;
}

static void expect(uint32_t answer, const char *what)
{
    if (answer != DASH_REGISTER_TAKEN) {
        printf("%s was refused as %u\n", what, answer);
        exit(1);
    }
}

static void send_to(int to, int from, const uint8_t *bytes, size_t length, int now)
{
    if (packets == MESSAGES) {
        printf("the network is full\n");
        exit(1);
    }
    struct packet *packet = &network[packets++];
    *packet = (struct packet){.to = to, .from = from, .due = now + 1 + (int)draw(40), .length = length};
    memcpy(packet->bytes, bytes, length);
}

static void send_to_all(int from, const uint8_t *bytes, size_t length, int now)
{
    for (int to = 0; to < SITES; to++)
        send_to(to, from, bytes, length, now);
}

/* A packet of one byte is a command; any other is a message, handed on as it came. One of the faulty site may be refused: it is dropped. */
static void deliver(const struct packet *packet)
{
    if (packet->to == FAULTY)
        return;
    if (packet->length == 1) {
        expect(dash_register_receive_command(SITE(packet->to), packet->bytes[0]), "a command");
        return;
    }
    uint32_t answer = dash_register_receive(SITE(packet->to), (size_t)packet->from, packet->bytes, packet->length);
    if (packet->from != FAULTY)
        expect(answer, "a message");
}

static int deliver_due(int now)
{
    int carried = 0;
    for (int k = 0; k < packets;) {
        if (network[k].due <= now) {
            struct packet packet = network[k];
            network[k] = network[--packets];
            deliver(&packet);
            carried = 1;
        } else {
            k++;
        }
    }
    return carried;
}

static void append(const uint8_t *entry)
{
    memcpy(shared_log + log_bytes, entry, DASH_REGISTER_ENTRY_BYTES);
    log_bytes += DASH_REGISTER_ENTRY_BYTES;
}

/* A turn: the message goes to all, and where it is a check message the entry goes to the log. */
static int take_turn(int i, int now)
{
    uint8_t message[DASH_REGISTER_MESSAGE_BYTES], entry[DASH_REGISTER_ENTRY_BYTES];
    if (dash_register_turn(SITE(i), shared_log, log_bytes, (size_t)i, message, sizeof message, entry, sizeof entry))
        return 0;
    send_to_all(i, message, sizeof message, now);
    if (message[0] == DASH_REGISTER_CHECK)
        append(entry);
    return 1;
}

/* Everything that one site can do now. */
static int act(int i, int now)
{
    int moved = 0;
    while (!dash_register_log_read(SITE(i), shared_log, log_bytes))
        moved = 1;
    while (!dash_register_round_end(SITE(i), shared_log, log_bytes))
        moved = 1;
    for (size_t m = 0; m < COMMANDS; m++)
        if (!dash_register_fast_delivery(SITE(i), m))
            moved = 1;
    return take_turn(i, now) || moved;
}

/* The faulty site: other sets to everybody, at times of no kind, and two entries of one round, of which the NC may have a conflict. */
static void lie(int now)
{
    for (int to = 0; to < SITES - 1; to++)
        if (draw(4) == 0) {
            uint8_t message[DASH_REGISTER_MESSAGE_BYTES] = {0};
            message[0] = (uint8_t)draw(4);
            message[1] = (uint8_t)(1 + draw(4));
            message[2] = (uint8_t)draw(1u << COMMANDS);
            send_to(to, FAULTY, message, sizeof message, now);
        }
    if (now == 20 || now == 60) {
        uint8_t entry[DASH_REGISTER_ENTRY_BYTES] = {FAULTY, 1};
        entry[2] = (uint8_t)draw(1u << COMMANDS);
        entry[10] = (uint8_t)draw(1u << COMMANDS);
        append(entry);
    }
}

/* A number of several bytes, for the end's print. */
static uint64_t number(const uint8_t *bytes, int n)
{
    uint64_t value = 0;
    while (n-- > 0)
        value = value * 256 + bytes[n];
    return value;
}

/* The answer that site i gave to a command, and whether it gave one. */
static int answer_of(int i, size_t command, int32_t *answer)
{
    uint8_t delivery[DASH_REGISTER_DELIVERY_BYTES];
    for (size_t k = 0; !dash_register_delivery(SITE(i), k, delivery, sizeof delivery); k++)
        if (delivery[0] == command) {
            *answer = (int32_t)(uint32_t)number(delivery + 1, 4);
            return 1;
        }
    return 0;
}

static void print_site(int i)
{
    static const int bikes[] = {3, 7, 9};
    uint8_t status[DASH_REGISTER_STATUS_BYTES], delivery[DASH_REGISTER_DELIVERY_BYTES], bike[DASH_REGISTER_BIKE_BYTES];
    expect(dash_register_status(SITE(i), status, sizeof status), "a look at a site");
    printf("site %d, round %u:", i, status[0]);
    for (size_t k = 0; !dash_register_delivery(SITE(i), k, delivery, sizeof delivery); k++)
        printf(" %u=%d", delivery[0], (int)(int32_t)(uint32_t)number(delivery + 1, 4));
    for (int b = 0; b < 3; b++) {
        expect(dash_register_bike(SITE(i), (size_t)bikes[b], bike, sizeof bike), "a bike");
        printf("  bike %d %u km dash %u", bikes[b], (unsigned)number(bike, 4), (unsigned)number(bike + 4, 4));
    }
    printf("\n");
}

static int sites_agree(void)
{
    for (size_t m = 0; m < COMMANDS; m++)
        for (int i = 0; i < SITES; i++)
            for (int j = 0; j < i; j++) {
                int32_t a, b;
                if (i != FAULTY && j != FAULTY && answer_of(i, m, &a) && answer_of(j, m, &b) && a != b) {
                    printf("sites %d and %d answer command %zu differently: %d and %d\n", j, i, m, (int)b, (int)a);
                    return 0;
                }
            }
    return 1;
}

int main(int argc, char **argv)
{
    if (argc > 1)
        random_state = (uint32_t)strtoul(argv[1], NULL, 10);
    for (int i = 0; i < SITES; i++)
        expect(dash_register_fresh(site[i], sizeof site[i]), "a fresh site");
    for (uint8_t m = 0; m < COMMANDS; m++)
        send_to_all((int)draw(SITES), &m, 1, (int)draw(100));

    int now = 0, quiet = 0;
    for (; now < TICKS && quiet < 50; now++) {
        int moved = deliver_due(now);
        for (int i = 0; i < SITES; i++)
            if (i != FAULTY)
                moved |= act(i, now);
        if (now < 200)
            lie(now);
        quiet = moved || packets ? 0 : quiet + 1;
    }

    printf("after %d ticks, %zu log entries\n", now, log_bytes / DASH_REGISTER_ENTRY_BYTES);
    for (int i = 0; i < SITES; i++)
        if (i != FAULTY)
            print_site(i);
    int agree = sites_agree();
    printf("%s\n", agree ? "the correct sites agree" : "the correct sites disagree");
    return agree ? 0 : 1;
}
