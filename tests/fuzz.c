/* The archive's calls on any bytes: an entry for a coverage-guided fuzzer, and a driver of its own.
 *
 * An input is one call of a script (CALLS.md, operations 8 to 12, 14 and 15), its counts cut to the bytes that are there. Every buffer ends
 * at a page that may not be touched: the archive is not compiled with a sanitizer, and a step past a buffer's end is seen all the same.
 * What a call promises in general is looked at: 0 or the number of a refusal that it has; on a refusal all 0, and both images and the lent
 * buffer untouched. 18 is given where a node below a set bit 6 is not at reset, and images that a call takes or leaves are never so. An
 * event leaves both images, but for an unclaimed one, which sets status bits, and a stored one, which changes one dword that its seat may
 * write, and where it sets bit 6 of bridge control also the nodes below, which are then at reset. A held device is silent, and no held
 * node owns, claims or drives. A saved file fits its buffer and leaves what is past it, a byte less refuses it, it opens to the registers
 * that were saved, and saved again it has the same bytes; a step of the arbiter grants a requester, and the next step takes the state that
 * it gives.
 *
 *     clang -g -O1 -fsanitize=fuzzer,address tests/fuzz.c -Ltarget/staticlib -lmuzgante     (libFuzzer)
 *     tests/fuzz [CALLS [SEED]]                                                             (gcc, the driver below)
 */
#define _DEFAULT_SOURCE
#include "../include/rack.h"

#include <stdio.h>
#include <stdlib.h>
#include <string.h>
#include <sys/mman.h>
#include <unistd.h>

int LLVMFuzzerTestOneInput(const uint8_t *input, size_t size);

enum { HEAD = 18, ROOM = 1 << 18, ANSWER_BYTES = 8 * RACK_ANSWER_NUMBERS, MOST_LENT = 16384 };

/* What a call is given, then its answer, two lent buffers, two images at reset, and what two files are opened with: each a file and both
 * images. */
enum { RACK, EVENT, BRIDGES, DEVICES, PARTS, ANSWER = PARTS, LENT, AGAIN, FRESH, OPENED = FRESH + 2, REOPENED = OPENED + 3,
       ROOMS = REOPENED + 3 };

/* Operations 8 to 15, modulo 8. */
enum { RUN, CHECK, RESET, WINDOW, STEP, SAVE = 6, OPEN = 7 };

/* Where each of them ends: a guarded page begins there. */
static uint8_t *ends[ROOMS];

static uint8_t *guard(void)
{
    size_t page = (size_t)sysconf(_SC_PAGESIZE);
    uint8_t *at = mmap(NULL, ROOM + page, PROT_READ | PROT_WRITE, MAP_PRIVATE | MAP_ANONYMOUS, -1, 0);
    if (at == MAP_FAILED || mprotect(at + ROOM, page, PROT_NONE) != 0) {
        perror("fuzz");
        exit(1);
    }
    return at + ROOM;
}

static uint8_t *put(int room, const uint8_t *bytes, size_t count) { return memcpy(ends[room] - count, bytes, count); }

static uint8_t *fill(int room, uint8_t byte, size_t count) { return memset(ends[room] - count, byte, count); }

/* A call's parts, each at the end of its room, and as they are given. */
struct call {
    const uint8_t *head, *from[PARTS];
    uint8_t *at[PARTS];
    size_t count[PARTS];
};

static size_t number(const uint8_t *at, int count)
{
    size_t value = 0;
    for (int i = count; i > 0; i--) {
        value = value << 8 | at[i - 1];
    }
    return value;
}

static size_t cut(size_t wanted, size_t *left)
{
    size_t count = wanted < *left ? wanted : *left;
    *left -= count;
    return count;
}

static void expect(int is_true, const char *what)
{
    if (!is_true) {
        fprintf(stderr, "fuzz: %s\n", what);
        abort();
    }
}

static uint8_t step(const uint8_t *head, uint64_t answer[RACK_ANSWER_NUMBERS])
{
    uint16_t mask = (uint16_t)number(head + 14, 2), requests = (uint16_t)number(head + 16, 2);
    uint8_t code = rack_grant(mask, requests, head[11], head[12], answer);
    expect(code == 0 || code == RACK_REFUSED_ARBITER, "a step of the arbiter has another refusal");
    if (code != 0) {
        return code;
    }
    int is_granted = answer[0] == RACK_GRANT_MEMBER;
    expect(is_granted == (requests != 0) && (is_granted || answer[0] == RACK_GRANT_NOBODY), "a grant without a request, or none with one");
    expect(!is_granted || (answer[1] < RACK_MOST_REQUESTERS && (requests >> answer[1] & 1) == 1), "a grant to nobody who requests");
    uint64_t next[RACK_ANSWER_NUMBERS], *state = answer + 1 + is_granted;
    expect(rack_grant(mask, requests, (uint8_t)state[0], (uint8_t)state[1], next) == 0, "the state that a step gives is refused");
    return code;
}

/* Whether a refusal is one that the operation has. */
static int is_refusal_of(int operation, uint8_t code)
{
    enum { BYTES = 0x7DE, LENGTH = 1 << 11, BITS = 1 << 12 | 1 << RACK_REFUSED_HELD, FIELD = 1 << 13, RECORD = 1 << 14, SEAT = 1 << 15 };
    static const uint32_t refusals[] = {
        [RUN] = BYTES | LENGTH | BITS | FIELD | RECORD | SEAT,
        [CHECK] = BYTES | LENGTH | BITS | RECORD,
        [RESET] = BYTES | LENGTH | RECORD,
        [WINDOW] = BYTES | LENGTH | BITS | FIELD | RECORD,
        [STEP] = 1 << RACK_REFUSED_ARBITER,
        [STEP + 1] = 1 << RACK_REFUSED_ARBITER,
        [SAVE] = BYTES | LENGTH | BITS | RECORD,
        [OPEN] = BYTES | 1 << 5 | LENGTH | FIELD | RECORD | SEAT | 1 << 16 | 1 << 17 | 1 << RACK_REFUSED_HELD,
    };
    return code < 32 && (refusals[operation] >> code & 1) == 1;
}

/* A node, and what a seat may write of it: a bit for each dword. Its registers now, before the call and at reset. */
struct node {
    int is_bridge;
    uint8_t parent;
    unsigned grant;
    const uint8_t *now, *before, *fresh;
};

struct nodes {
    size_t count;
    struct node at[RACK_MOST_NODES];
};

/* The nodes of a rack that a call took, so its records are whole. */
static void read_nodes(const uint8_t *rack, size_t count, uint8_t seat, struct nodes *nodes)
{
    static const size_t body[] = {[RACK_KIND_HOST] = RACK_BODY_HOST, [RACK_KIND_BRIDGE] = RACK_BODY_BRIDGE,
        [RACK_KIND_DEVICE] = RACK_BODY_DEVICE, [RACK_KIND_SEAT] = RACK_BODY_SEAT, [RACK_KIND_OLDER_BRIDGE] = RACK_BODY_OLDER_BRIDGE};
    nodes->count = 0;
    for (size_t at = 0; at < count; at += 1 + body[rack[at]]) {
        const uint8_t *record = rack + at;
        if (record[0] == RACK_KIND_SEAT) {
            expect(record[2] < nodes->count, "a seat record was taken before its node");
            nodes->at[record[2]].grant |= record[1] == seat ? (unsigned)number(record + 3, 2) : 0;
        } else if (record[0] != RACK_KIND_HOST) {
            nodes->at[nodes->count++] = (struct node){.is_bridge = record[0] != RACK_KIND_DEVICE, .parent = record[1]};
        }
    }
}

/* The rack's registers at reset, in rooms of their own. */
static uint8_t reset_apart(const struct call *c)
{
    uint8_t *bridges = fill(FRESH, 0xA5, c->count[BRIDGES]), *devices = fill(FRESH + 1, 0xA5, c->count[DEVICES]);
    return rack_reset(c->at[RACK], c->count[RACK], bridges, c->count[BRIDGES], devices, c->count[DEVICES]);
}

/* The nodes of a call whose rack was taken and reset, with their registers: `before` is both images as they were. */
static struct nodes nodes_of(const struct call *c, const uint8_t *const before[2])
{
    struct nodes nodes;
    const uint8_t *const fresh[] = {ends[FRESH] - c->count[BRIDGES], ends[FRESH + 1] - c->count[DEVICES]};
    read_nodes(c->at[RACK], c->count[RACK], c->head[11], &nodes);
    size_t next[2] = {0, 0};
    for (size_t i = 0; i < nodes.count; i++) {
        struct node *node = &nodes.at[i];
        int image = node->is_bridge ? 0 : 1;
        node->now = c->at[BRIDGES + image] + next[image];
        node->before = before[image] + next[image];
        node->fresh = fresh[image] + next[image];
        next[image] += RACK_NODE_BYTES;
    }
    return nodes;
}

static int is_same(const uint8_t *a, const uint8_t *b) { return memcmp(a, b, RACK_NODE_BYTES) == 0; }

static int resets(const struct node *node, const uint8_t *registers)
{
    return node->is_bridge && (registers[RACK_CONTROL_AT] & RACK_CONTROL_BUS_RESET) != 0;
}

static int is_below(const struct nodes *nodes, uint64_t i, uint64_t bridge)
{
    while (i != RACK_NODE_HOST && (i = nodes->at[i].parent) != bridge) {
    }
    return i == bridge;
}

/* Whether a node has a bridge above it whose bit 6 was set; the host has none. */
static int was_held(const struct nodes *nodes, uint64_t i)
{
    while (i != RACK_NODE_HOST && (i = nodes->at[i].parent) != RACK_NODE_HOST) {
        if (resets(&nodes->at[i], nodes->at[i].before)) {
            return 1;
        }
    }
    return 0;
}

/* Whether all that was held was at reset. */
static int agreed(const struct nodes *nodes)
{
    for (size_t i = 0; i < nodes->count; i++) {
        if (was_held(nodes, i) && !is_same(nodes->at[i].before, nodes->at[i].fresh)) {
            return 0;
        }
    }
    return 1;
}

/* The bits of a register byte that are status bits. */
static unsigned status(const struct node *node, size_t byte) { return byte == 0x07 || (node->is_bridge && byte == 0x1F) ? 0xF9 : 0; }

/* An unclaimed access sets status bits, and changes nothing else. */
static void look_at_unclaimed(const struct node *node)
{
    for (size_t byte = 0; byte < RACK_NODE_BYTES; byte++) {
        unsigned now = node->now[byte], before = node->before[byte];
        expect((now & before) == before && (now & ~before & ~status(node, byte)) == 0, "an access changed more than status bits");
    }
}

/* The node that a write changed, or that it set bit 6 of; else the host. */
static size_t written(const struct nodes *nodes)
{
    size_t found = RACK_NODE_HOST;
    for (size_t i = 0; i < nodes->count; i++) {
        const struct node *node = &nodes->at[i];
        if (resets(node, node->now) && !resets(node, node->before)) {
            return i;
        }
        found = is_same(node->now, node->before) ? found : i;
    }
    return found;
}

/* A stored write changes one dword of one node; what is below is at reset where it has set bit 6, and all others are as they were. */
static void look_at_stored(const struct nodes *nodes, uint8_t seat, uint8_t dword)
{
    size_t target = written(nodes);
    if (target == RACK_NODE_HOST) {
        return;
    }
    const struct node *node = &nodes->at[target];
    expect(!was_held(nodes, target), "a held node was written");
    expect(seat == RACK_SEAT_ALL || (node->grant >> dword & 1) == 1, "a seat wrote what it may not");
    for (size_t byte = 0; byte < RACK_NODE_BYTES; byte++) {
        expect(byte / 4 == dword || node->now[byte] == node->before[byte], "a write changed another register");
    }
    int is_reset = resets(node, node->now) && !resets(node, node->before);
    for (size_t i = 0; i < nodes->count; i++) {
        const struct node *other = &nodes->at[i];
        int goes = is_reset && is_below(nodes, i, target);
        int is_right = i == target || is_same(other->now, goes ? other->fresh : other->before);
        expect(is_right, goes ? "a node below a bus reset is not at reset" : "a write changed another node");
    }
}

static void look_at_fault(const struct nodes *nodes, const uint64_t *answer)
{
    for (int i = 4; i <= 6; i++) {
        expect(!was_held(nodes, answer[i]), "a held node is a driver or claimant of a fault");
    }
}

static void look_at_run(const struct call *c, const struct nodes *nodes, const uint64_t *answer, int is_as_before)
{
    const uint8_t *event = c->at[EVENT];
    int is_access = event[0] == RACK_KIND_MEMORY || event[0] == RACK_KIND_IO;
    expect(is_as_before || answer[0] == RACK_ENDED_STORED || answer[0] == RACK_ENDED_UNCLAIMED, "an event changed an image");
    expect(c->head[11] != RACK_SEAT_ALL || answer[0] != RACK_ENDED_DENIED, "a write of seat 0 was denied");
    expect(!is_access || !was_held(nodes, event[1]) || answer[0] == RACK_ENDED_SILENT, "a held device was not silent");
    if (answer[0] == RACK_ENDED_STORED) {
        look_at_stored(nodes, c->head[11], event[3] / 4);
    } else if (answer[0] == RACK_ENDED_UNCLAIMED) {
        for (size_t i = 0; i < nodes->count; i++) {
            look_at_unclaimed(&nodes->at[i]);
        }
    } else if (answer[0] == RACK_ENDED_FAULT) {
        look_at_fault(nodes, answer);
    }
    int is_named = answer[0] == RACK_ENDED_OWNER || answer[0] == RACK_ENDED_CLASH;
    expect(!is_named || !was_held(nodes, answer[2]), "a held node owns an access, or its bus has a clash");
    for (int i = 3; i <= 4 && answer[0] == RACK_ENDED_CLASH; i++) {
        expect(!was_held(nodes, answer[i]), "a held node claims");
    }
}

/* What a call over images promises that took them, or that refused them because they disagree. */
static void look_at_images(const struct call *c, uint8_t code, int operation, const uint64_t *answer, int is_as_before)
{
    uint8_t reset = reset_apart(c);
    expect(reset == 0 || (code != 0 && reset == RACK_REFUSED_SEAT_RECORD), "a rack that was taken cannot be reset");
    if (reset != 0) {
        return;
    }
    struct nodes nodes = nodes_of(c, &c->from[BRIDGES]);
    expect(agreed(&nodes) == (code == 0), "images that disagree are taken, or others refused");
    if (code == 0 && operation == RUN) {
        look_at_run(c, &nodes, answer, is_as_before);
        const uint8_t *const now[] = {c->at[BRIDGES], c->at[DEVICES]};
        nodes = nodes_of(c, now);
        expect(agreed(&nodes), "an event leaves images that disagree");
    } else if (code == 0 && operation == CHECK && answer[0] == RACK_ENDED_FAULT) {
        look_at_fault(&nodes, answer);
    }
}

/* A rack and its registers, saved into a buffer of so many bytes in that room: a refusal leaves all of it, a file what is past it. */
static uint8_t save_into(int room, size_t lent, const struct call *c, uint64_t answer[RACK_ANSWER_NUMBERS])
{
    uint8_t *buffer = fill(room, c->head[13], lent);
    uint8_t code = rack_save(c->at[RACK], c->count[RACK], c->at[BRIDGES], c->count[BRIDGES], c->at[DEVICES], c->count[DEVICES], buffer,
                             lent, answer);
    size_t length = code == 0 ? (size_t)answer[0] : 0;
    expect(length <= lent && length <= RACK_MOST_SAVED_BYTES, "a saved file is longer than its buffer or than any");
    for (size_t i = length; i < lent; i++) {
        expect(buffer[i] == c->head[13], "a buffer was written where nothing is saved");
    }
    return code;
}

/* A file opened in that room into images of these lengths; then `opened` is its rack and its registers. */
static uint8_t open_again(int room, const uint8_t *file, size_t count, size_t bridges, size_t devices, struct call *opened)
{
    uint64_t answer[RACK_ANSWER_NUMBERS];
    opened->at[RACK] = put(room, file, count);
    opened->at[BRIDGES] = fill(room + 1, 0xA5, opened->count[BRIDGES] = bridges);
    opened->at[DEVICES] = fill(room + 2, 0xA5, opened->count[DEVICES] = devices);
    uint8_t code = rack_open(opened->at[RACK], count, opened->at[BRIDGES], bridges, opened->at[DEVICES], devices, answer);
    if (code == 0) {
        expect(answer[0] <= count, "more bytes stand before the registers than there are");
        expect(bridges == RACK_NODE_BYTES * answer[1] && devices == RACK_NODE_BYTES * answer[2], "a file's counts are not its images'");
        opened->count[RACK] = (size_t)answer[0];
    }
    return code;
}

static void same_registers(const struct call *a, const struct call *b, const char *what)
{
    for (int i = BRIDGES; i <= DEVICES; i++) {
        expect(a->count[i] == b->count[i] && memcmp(a->at[i], b->at[i], a->count[i]) == 0, what);
    }
}

/* A saved file opens to the registers that were saved, and saved again it has the same bytes. */
static void look_at_saved(const uint8_t *file, size_t length, const struct call *c)
{
    uint64_t answer[RACK_ANSWER_NUMBERS];
    struct call opened = {.head = c->head};
    uint8_t code = open_again(REOPENED, file, length, c->count[BRIDGES], c->count[DEVICES], &opened);
    expect(code == 0, "a saved file is refused");
    same_registers(&opened, c, "a saved file opens to other registers");
    expect(save_into(AGAIN, length, &opened, answer) == 0 && answer[0] == length, "an opened file cannot be saved again");
    expect(memcmp(ends[AGAIN] - length, file, length) == 0, "an opened file is saved as another one");
}

static uint8_t save_rack(const struct call *c, uint64_t answer[RACK_ANSWER_NUMBERS])
{
    uint64_t other[RACK_ANSWER_NUMBERS];
    size_t lent = number(c->head + 14, 4) % (MOST_LENT + 1);
    uint8_t code = save_into(LENT, lent, c, answer);
    if (code == 0) {
        look_at_saved(ends[LENT] - lent, (size_t)answer[0], c);
        expect(save_into(AGAIN, (size_t)answer[0] - 1, c, other) == RACK_REFUSED_IMAGE_LENGTH, "a buffer that lacks a byte is taken");
    } else if (code == RACK_REFUSED_IMAGE_LENGTH && save_into(AGAIN, RACK_MOST_SAVED_BYTES, c, other) == 0) {
        expect(other[0] > lent, "a buffer that is long enough is refused");
    }
    return code;
}

static uint8_t open_file(const struct call *c, uint64_t answer[RACK_ANSWER_NUMBERS])
{
    uint64_t saved[RACK_ANSWER_NUMBERS];
    struct call opened = {.head = c->head};
    uint8_t code = rack_open(c->at[RACK], c->count[RACK], c->at[BRIDGES], c->count[BRIDGES], c->at[DEVICES], c->count[DEVICES], answer);
    if (code != 0 && code != RACK_REFUSED_IMAGE_LENGTH) {
        return code;
    }
    expect(answer[1] <= RACK_MOST_BRIDGES && answer[2] <= RACK_MOST_DEVICES, "an opened file has too many nodes");
    size_t bridges = RACK_NODE_BYTES * (size_t)answer[1], devices = RACK_NODE_BYTES * (size_t)answer[2];
    expect((code == 0) == (bridges == c->count[BRIDGES] && devices == c->count[DEVICES]), "11 is not what the counts say");
    uint8_t right = open_again(OPENED, c->at[RACK], c->count[RACK], bridges, devices, &opened);
    expect(right == 0, "a file with the images it asks for is refused");
    expect(save_into(LENT, RACK_MOST_SAVED_BYTES, &opened, saved) == 0, "an opened file cannot be saved");
    look_at_saved(ends[LENT] - RACK_MOST_SAVED_BYTES, (size_t)saved[0], &opened);
    if (code == 0) {
        same_registers(&opened, c, "a file opens to other registers the second time");
    } else {
        answer[1] = answer[2] = 0; /* a refusal leaves the rest 0 */
    }
    return code;
}

static uint8_t make(const struct call *c, uint64_t answer[RACK_ANSWER_NUMBERS])
{
    const uint8_t *rack = c->at[RACK], *head = c->head;
    uint8_t *bridges = c->at[BRIDGES], *devices = c->at[DEVICES];
    size_t count = c->count[RACK], bridges_count = c->count[BRIDGES], devices_count = c->count[DEVICES];
    switch (head[0] % 8) {
    case RUN:
        return rack_run(rack, count, head[11], c->at[EVENT], c->count[EVENT], bridges, bridges_count, devices, devices_count, answer);
    case CHECK:
        return rack_check(rack, count, bridges, bridges_count, devices, devices_count, answer);
    case RESET:
        memset(answer, 0, ANSWER_BYTES);
        return rack_reset(rack, count, bridges, bridges_count, devices, devices_count);
    case WINDOW:
        return rack_window(rack, count, bridges, bridges_count, devices, devices_count, head[11], head[12], answer);
    case SAVE:
        return save_rack(c, answer);
    case OPEN:
        return open_file(c, answer);
    default:
        return step(head, answer);
    }
}

static struct call call_of(const uint8_t *input, size_t size)
{
    static const int offset[] = {1, 5, 7, 9}, bytes[] = {4, 2, 2, 2};
    struct call c = {.head = input};
    size_t left = size - HEAD;
    const uint8_t *next = input + HEAD;
    for (int i = 0; i < PARTS; i++) {
        c.count[i] = cut(number(input + offset[i], bytes[i]), &left);
        c.from[i] = next;
        c.at[i] = put(i, next, c.count[i]);
        next += c.count[i];
    }
    return c;
}

static int is_as_given(const struct call *c, int part) { return memcmp(c->at[part], c->from[part], c->count[part]) == 0; }

int LLVMFuzzerTestOneInput(const uint8_t *input, size_t size)
{
    for (int i = 0; i < ROOMS && ends[i] == NULL; i++) {
        ends[i] = guard();
    }
    if (size < HEAD || size > ROOM) {
        return 0;
    }
    struct call c = call_of(input, size);
    uint64_t *answer = (uint64_t *)(void *)fill(ANSWER, 0xA5, ANSWER_BYTES), zeros[RACK_ANSWER_NUMBERS] = {0};
    int operation = input[0] % 8;
    uint8_t code = make(&c, answer);
    expect(code == 0 || is_refusal_of(operation, code), "a number that is no refusal of this call");
    expect(is_as_given(&c, RACK) && is_as_given(&c, EVENT), "the rack or the event was written");
    int is_as_before = is_as_given(&c, BRIDGES) && is_as_given(&c, DEVICES);
    expect(is_as_before || operation == RUN || operation == RESET || operation == OPEN, "a call changed an image that reads it alone");
    if (code != 0) {
        expect(memcmp(answer, zeros, ANSWER_BYTES) == 0, "a refused answer is not all 0");
        expect(is_as_before, "a refusal changed an image");
    }
    int is_over_images = operation == RUN || operation == CHECK || operation == WINDOW || operation == SAVE;
    if (is_over_images && (code == 0 || code == RACK_REFUSED_HELD)) {
        look_at_images(&c, code, operation, answer, is_as_before);
    }
    return 0;
}

#ifndef __clang__
/* Calls of a script on standard input, each as it is and then with bytes changed, as often as asked for. */
static uint64_t random_number(uint64_t *state)
{
    *state ^= *state << 13;
    *state ^= *state >> 7;
    *state ^= *state << 17;
    return *state;
}

int main(int argc, char **argv)
{
    static uint8_t call[ROOM], changed[ROOM];
    uint64_t state = argc > 2 ? strtoull(argv[2], NULL, 10) * 2 + 1 : 1;
    long rounds = argc > 1 ? atol(argv[1]) : 100, calls = 0;
    while (fread(call, 1, HEAD, stdin) == HEAD) {
        size_t rest = number(call + 1, 4) + number(call + 5, 2) + number(call + 7, 2) + number(call + 9, 2), size = HEAD + rest;
        if (size > ROOM || fread(call + HEAD, 1, rest, stdin) != rest) {
            return 1;
        }
        LLVMFuzzerTestOneInput(call, size);
        for (long i = 0; i < rounds; i++, calls++) {
            memcpy(changed, call, size);
            for (uint64_t k = random_number(&state) % 4 + 1; k > 0; k--) {
                changed[random_number(&state) % size] = (uint8_t)random_number(&state);
            }
            LLVMFuzzerTestOneInput(changed, size - random_number(&state) % 3 % size);
        }
    }
    printf("%ld changed calls of the archive kept their promises\n", calls);
    return calls > 0 ? 0 : 1;
}
#endif
