/* A small classroom screen: the tree of a rack with both ends of every window and region, register writes and accesses from the
 * keyboard, where each access went, what is held at reset, and which seat may write what; the rack saved, and another opened; beside it a
 * lesson on sharing a bus. It links libmuzgante.a and decodes no register itself, but for the one bit by which a bridge resets a bus.
 *
 *     screen RACK        a rack file; the screen takes its rack records, registers too, and leaves its events to the class
 */
#include "arbiter.h"
#include "chassis.h"
#include "held.h"
#include "saved.h"
#include "seat.h"
#include "show.h"
#include "words.h"

#include <stdio.h>
#include <string.h>

/* A command of the keyboard: what it takes after its name, and what it does with that. */
struct command {
    const char *name, *takes, *help;
    unsigned words; /* of `takes` */
    void (*obey)(struct chassis *c, const char *const word[]);
};

static uint8_t call(struct chassis *c, const uint8_t *event, size_t count, uint64_t answer[RACK_ANSWER_NUMBERS])
{
    return rack_run(c->rack, c->count, c->seat, event, count, c->bridges, c->bridge_bytes, c->devices, c->device_bytes, answer);
}

/* How an event ended; a denied write and a silent card are said with what the event has of them. */
static void show_ending(const struct chassis *c, const uint8_t *event, const uint64_t answer[RACK_ANSWER_NUMBERS])
{
    switch (answer[0]) {
    case RACK_ENDED_DENIED: show_denied(c, event, answer[1]); break;
    case RACK_ENDED_SILENT: show_silent(c, event[1]); break;
    default: show_answer(c, answer);
    }
}

/* An event by the acting seat, and what came of it; its ending, or 0 where it was refused. */
static uint64_t run(struct chassis *c, const uint8_t *event, size_t count)
{
    static struct chassis before;
    before = *c;
    uint64_t answer[RACK_ANSWER_NUMBERS];
    uint8_t refusal = call(c, event, count, answer);
    if (refusal != 0) {
        show_refusal(refusal);
        return 0;
    }
    if (answer[0] == RACK_ENDED_SEAT) {
        c->seat = (uint8_t)answer[1]; /* no call keeps it */
    }
    show_ending(c, event, answer);
    show_changes(c, &before);
    return answer[0];
}

/* A number of `count` bytes, lowest byte first. */
static void put_number(uint8_t *bytes, uint64_t number, size_t count)
{
    for (size_t i = 0; i < count; i++) {
        bytes[i] = (uint8_t)(number >> 8 * i);
    }
}

/* BUS DEVICE, the first two bytes of the body of a configuration event. */
static bool read_device(const char *const word[], uint8_t *body)
{
    uint64_t bus, device;
    if (!hexadecimal(word[0], "bus", 0xFF, &bus) || !hexadecimal(word[1], "device", 0x1F, &device)) {
        return false;
    }
    body[0] = (uint8_t)bus;
    body[1] = (uint8_t)(8 * device); /* and function 0 */
    return true;
}

/* BUS DEVICE REGISTER, the first three. */
static bool read_place(const char *const word[], uint8_t *body)
{
    uint64_t at;
    if (!read_device(word, body) || !hexadecimal(word[2], "register", 0xFF, &at)) {
        return false;
    }
    body[2] = (uint8_t)at;
    return true;
}

static void obey_read(struct chassis *c, const char *const word[])
{
    uint8_t event[1 + RACK_BODY_CONFIGURATION_READ] = {RACK_KIND_CONFIGURATION_READ};
    if (read_place(word, &event[1])) {
        run(c, event, sizeof event);
    }
}

static void obey_write(struct chassis *c, const char *const word[])
{
    uint8_t event[1 + RACK_BODY_CONFIGURATION_WRITE] = {RACK_KIND_CONFIGURATION_WRITE};
    uint64_t enables, data;
    if (read_place(word, &event[1]) && hexadecimal(word[3], "set of byte enables", 0xF, &enables) &&
        hexadecimal(word[4], "data", UINT32_MAX, &data)) {
        event[4] = (uint8_t)enables;
        put_number(&event[5], data, 4);
        run(c, event, sizeof event);
    }
}

/* A message to all cards of a bus: device and function of a special cycle, register 0 and all bytes enabled. */
static void obey_special(struct chassis *c, const char *const word[])
{
    uint8_t event[1 + RACK_BODY_CONFIGURATION_WRITE] = {RACK_KIND_CONFIGURATION_WRITE, 0, RACK_DEVFN_SPECIAL_CYCLE, 0, 0xF};
    uint64_t bus, data;
    if (hexadecimal(word[0], "bus", 0xFF, &bus) && hexadecimal(word[1], "data", UINT32_MAX, &data)) {
        event[1] = (uint8_t)bus;
        put_number(&event[5], data, 4);
        run(c, event, sizeof event);
    }
}

enum { CONTROL_BYTE = RACK_CONTROL_AT % 4, CONTROL_DWORD = RACK_CONTROL_AT - CONTROL_BYTE };

/* Bridge control at a bus, device and function, as a read on a copy of the rack finds it; 0 where nobody answers. */
static uint8_t control_at(const struct chassis *c, uint8_t bus, uint8_t devfn)
{
    static struct chassis copy;
    copy = *c;
    const uint8_t event[1 + RACK_BODY_CONFIGURATION_READ] = {RACK_KIND_CONFIGURATION_READ, bus, devfn, CONTROL_DWORD};
    uint64_t answer[RACK_ANSWER_NUMBERS];
    bool is_read = call(&copy, event, sizeof event, answer) == 0 && answer[0] == RACK_ENDED_DATA;
    return (uint8_t)(is_read ? answer[2] >> 8 * CONTROL_BYTE : 0);
}

/* A write of bridge control with its bus reset bit as given and the others as they are. */
static void write_bus_reset(struct chassis *c, const char *const word[], uint8_t bit)
{
    uint8_t event[1 + RACK_BODY_CONFIGURATION_WRITE] = {RACK_KIND_CONFIGURATION_WRITE, 0, 0, CONTROL_DWORD, 1 << CONTROL_BYTE};
    if (!read_device(word, &event[1])) {
        return;
    }
    uint8_t others = (uint8_t)(control_at(c, event[1], event[2]) & ~RACK_CONTROL_BUS_RESET);
    event[5 + CONTROL_BYTE] = others | bit;
    uint64_t ended = run(c, event, sizeof event);
    if (ended == RACK_ENDED_STORED && (control_at(c, event[1], event[2]) & RACK_CONTROL_BUS_RESET) != bit) {
        printf("  no bit was set: this is a card, and has no bus below it\n");
    }
}

static void obey_hold(struct chassis *c, const char *const word[]) { write_bus_reset(c, word, RACK_CONTROL_BUS_RESET); }

static void obey_release(struct chassis *c, const char *const word[]) { write_bus_reset(c, word, 0); }

/* WHO read|write, the first two bytes of the body of an access. */
static bool read_driver(const char *const word[], uint8_t *body)
{
    uint64_t who = RACK_NODE_HOST;
    if (strcmp(word[0], "host") != 0 && !decimal(word[0], "card's number, nor 'host'", RACK_NODE_HOST - 1, &who)) {
        return false;
    }
    bool is_write = strcmp(word[1], "write") == 0;
    if (!is_write && strcmp(word[1], "read") != 0) {
        show_wrong(word[1], "direction", "read or write");
        return false;
    }
    body[0] = (uint8_t)who;
    body[1] = is_write;
    return true;
}

static void obey_memory(struct chassis *c, const char *const word[])
{
    uint8_t event[1 + RACK_BODY_MEMORY] = {RACK_KIND_MEMORY};
    uint64_t address;
    if (read_driver(word, &event[1]) && hexadecimal(word[2], "memory address", UINT64_MAX, &address)) {
        put_number(&event[3], address, 8);
        run(c, event, sizeof event);
    }
}

static void obey_io(struct chassis *c, const char *const word[])
{
    uint8_t event[1 + RACK_BODY_IO] = {RACK_KIND_IO};
    uint64_t address;
    if (read_driver(word, &event[1]) && hexadecimal(word[2], "I/O address", UINT32_MAX, &address)) {
        put_number(&event[3], address, 4);
        run(c, event, sizeof event);
    }
}

static void obey_tree(struct chassis *c, const char *const word[])
{
    (void)word;
    show_tree(c);
}

static void obey_check(struct chassis *c, const char *const word[])
{
    (void)word;
    uint64_t answer[RACK_ANSWER_NUMBERS];
    uint8_t refusal = rack_check(c->rack, c->count, c->bridges, c->bridge_bytes, c->devices, c->device_bytes, answer);
    if (refusal != 0) {
        show_refusal(refusal);
    } else {
        show_answer(c, answer);
    }
}

static void obey_node(struct chassis *c, const char *const word[])
{
    uint64_t node;
    if (c->nodes == 0) {
        printf("this rack has no node\n");
    } else if (decimal(word[0], "node", c->nodes - 1, &node)) {
        show_registers(c, (unsigned)node);
    }
}

static void obey_seat(struct chassis *c, const char *const word[])
{
    (void)word;
    show_seat(c);
}

static void obey_seat_number(struct chassis *c, const char *const word[])
{
    uint8_t event[1 + RACK_BODY_SEAT_EVENT] = {RACK_KIND_SEAT_EVENT};
    uint64_t seat;
    if (!decimal(word[0], "seat", RACK_MOST_SEATS, &seat)) {
        return;
    }
    event[1] = (uint8_t)seat;
    run(c, event, sizeof event);
    if (c->seat != seat) {
        show_seats(c);
    }
}

static void obey_arbiter(struct chassis *c, const char *const word[])
{
    (void)c;
    uint16_t set;
    if (members(word[0], &set)) {
        begin_arbiter(set);
    }
}

static void obey_request(struct chassis *c, const char *const word[])
{
    (void)c;
    uint16_t set;
    if (members(word[0], &set)) {
        request(set);
    }
}

static void obey_reset(struct chassis *c, const char *const word[])
{
    (void)word;
    reset(c);
}

static void obey_save(struct chassis *c, const char *const word[]) { save_rack(c, word[0]); }

static void obey_open(struct chassis *c, const char *const word[]) { open_rack(c, word[0]); }

static void obey_help(struct chassis *c, const char *const word[]);

static const struct command commands[] = {
    {"tree", "", "the rack with both ends of every window and region, its seats, and what is held", 0, obey_tree},
    {"write", "BUS DEVICE REGISTER ENABLES DATA", "a configuration write, all in hexadecimal", 5, obey_write},
    {"read", "BUS DEVICE REGISTER", "a configuration read, the same", 3, obey_read},
    {"special", "BUS DATA", "a special cycle on that bus, the same", 2, obey_special},
    {"hold", "BUS DEVICE", "a bus reset: the bridge there holds everything below it at reset, the same", 2, obey_hold},
    {"release", "BUS DEVICE", "its end: everything below that bridge is let go, the same", 2, obey_release},
    {"memory", "WHO read|write ADDRESS", "a memory access of the host, or of a card by its decimal number", 3, obey_memory},
    {"io", "WHO read|write ADDRESS", "an I/O access, the same", 3, obey_io},
    {"check", "", "does anyone claim what another claims?", 0, obey_check},
    {"node", "NUMBER", "the 64 registers of a node, by its decimal number", 1, obey_node},
    {"seat", "", "who acts, and what that seat may write", 0, obey_seat},
    {"seat", "NUMBER", "who acts from now on, by its decimal number; seat 0 may write every register", 1, obey_seat_number},
    {"reset", "", "every register back to its reset value", 0, obey_reset},
    {"save", "NAME", "the rack with its registers as they are now, as a file of this name", 1, obey_save},
    {"open", "NAME", "another rack file in place of this rack, with its registers", 1, obey_open},
    {"arbiter", "HIGH", "ten members share a bus: those of the high group, as 025 or none", 1, obey_arbiter},
    {"request", "MEMBERS", "who requests it now, the same: who is granted, and how the rings stand", 1, obey_request},
    {"help", "", "these lines", 0, obey_help},
    {"quit", "", "the end of the lesson", 0, NULL},
};
enum { COMMANDS = sizeof commands / sizeof *commands };

static void obey_help(struct chassis *c, const char *const word[])
{
    (void)c, (void)word;
    for (unsigned i = 0; i < COMMANDS; i++) {
        printf("%-7s %-33s %s\n", commands[i].name, commands[i].takes, commands[i].help);
    }
}

/* What a command takes; a name may stand in the table more than once, for other counts of words. */
static void show_takes(const char *name, unsigned given)
{
    const char *before = " takes";
    printf("%s", name);
    for (unsigned i = 0; i < COMMANDS; i++) {
        unsigned words = commands[i].words;
        if (strcmp(name, commands[i].name) == 0) {
            printf("%s %u %s%s%s", before, words, words == 1 ? "word" : "words", words == 0 ? "" : ", ", commands[i].takes);
            before = " or";
        }
    }
    printf(", and here %s %u\n", given == 1 ? "is" : "are", given);
}

/* One line of the keyboard; false ends the lesson. */
static bool obey(struct chassis *c, const struct words *w)
{
    bool is_command = false;
    if (w->count == 0) {
        return true;
    }
    for (unsigned i = 0; i < COMMANDS; i++) {
        const struct command *found = &commands[i];
        if (strcmp(w->word[0], found->name) != 0) {
            continue;
        }
        is_command = true;
        if (w->count - 1 != found->words) {
            continue;
        }
        if (found->obey == NULL) {
            return false;
        }
        found->obey(c, &w->word[1]);
        return true;
    }
    if (is_command) {
        show_takes(w->word[0], w->count - 1);
    } else {
        show_wrong(w->word[0], "command", "one of these");
        obey_help(c, &w->word[1]);
    }
    return true;
}

/* The prompt says who acts, where the rack has seats at all. */
static bool next_words(const struct chassis *c, struct words *w)
{
    if (has_seats(c)) {
        printf("seat %u", c->seat);
    }
    printf("> ");
    fflush(stdout);
    return read_words(w);
}

int main(int argc, char **argv)
{
    static struct chassis c;
    static struct words w;
    if (argc != 2) {
        fprintf(stderr, "usage: screen RACK\n");
        return 2;
    }
    if (!begin_with(&c, argv[1])) {
        return 1;
    }
    show_tree(&c);
    bool goes_on = true;
    while (goes_on) {
        if (next_words(&c, &w)) {
            goes_on = obey(&c, &w);
        } else {
            putchar('\n');
            goes_on = false;
        }
    }
    if (fflush(stdout) != 0 || ferror(stdout)) {
        fprintf(stderr, "screen: the output could not be written\n");
        return 1;
    }
    return 0;
}
