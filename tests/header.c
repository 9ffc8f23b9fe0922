/* include/rack.h beside the archive: each number that it names is the one that the calls go by. */
#include "../include/rack.h"

#include <limits.h>
#include <pthread.h>
#include <stdio.h>
#include <stdlib.h>
#include <string.h>

enum { RECORD = 1 + RACK_BODY_HOST, MOST = RACK_MOST_BYTES + 1 }; /* no event is longer than a host's record */

static void expect(int is_true, const char *what)
{
    if (!is_true) {
        fprintf(stderr, "tests/header: %s\n", what);
        exit(1);
    }
}

struct rack {
    uint8_t bytes[MOST];
    size_t count, bridges, devices;
};

static void add(struct rack *r, uint8_t kind, size_t body, uint8_t parent, uint8_t device)
{
    uint8_t *record = &r->bytes[r->count];
    record[0] = kind;
    record[1] = parent;
    record[2] = device;
    r->count += 1 + body;
    r->bridges += kind == RACK_KIND_BRIDGE || kind == RACK_KIND_OLDER_BRIDGE;
    r->devices += kind == RACK_KIND_DEVICE;
}

static void add_bridge(struct rack *r, uint8_t parent, uint8_t device) { add(r, RACK_KIND_BRIDGE, RACK_BODY_BRIDGE, parent, device); }
static void add_older_bridge(struct rack *r, uint8_t parent, uint8_t device)
{
    add(r, RACK_KIND_OLDER_BRIDGE, RACK_BODY_OLDER_BRIDGE, parent, device);
}
static void add_device(struct rack *r, uint8_t parent, uint8_t device) { add(r, RACK_KIND_DEVICE, RACK_BODY_DEVICE, parent, device); }
static void add_seat(struct rack *r, uint8_t seat, uint8_t node, uint16_t mask)
{
    add(r, RACK_KIND_SEAT, RACK_BODY_SEAT, seat, node);
    r->bytes[r->count - 2] = (uint8_t)(mask & 255);
    r->bytes[r->count - 1] = (uint8_t)(mask >> 8);
}

static void add_registers(struct rack *r, uint8_t node, const uint8_t *registers)
{
    memcpy(&r->bytes[r->count + 2], registers, RACK_NODE_BYTES);
    add(r, RACK_KIND_REGISTERS, RACK_BODY_REGISTERS, node, registers[0]);
}

/* Host memory is the address 0 alone. */
static void start(struct rack *r)
{
    memset(r, 0, sizeof *r);
    add(r, RACK_KIND_HOST, RACK_BODY_HOST, 0, 0);
}

/* Room for one node more than the most, so that one too many can be tried. */
static uint8_t bridges[RACK_NODE_BYTES * (RACK_MOST_BRIDGES + 1)], devices[RACK_NODE_BYTES * (RACK_MOST_DEVICES + 1)];

static uint8_t reset(const struct rack *r)
{
    return rack_reset(r->bytes, r->count, bridges, RACK_NODE_BYTES * r->bridges, devices, RACK_NODE_BYTES * r->devices);
}

static uint8_t run_as(const struct rack *r, uint8_t seat, const uint8_t *event, size_t count, uint64_t answer[RACK_ANSWER_NUMBERS])
{
    return rack_run(r->bytes, r->count, seat, event, count, bridges, RACK_NODE_BYTES * r->bridges, devices,
                    RACK_NODE_BYTES * r->devices, answer);
}

static uint8_t run(const struct rack *r, const uint8_t *event, size_t count, uint64_t answer[RACK_ANSWER_NUMBERS])
{
    return run_as(r, RACK_SEAT_ALL, event, count, answer);
}

static uint8_t save(const struct rack *r, uint8_t *buffer, size_t count, uint64_t answer[RACK_ANSWER_NUMBERS])
{
    return rack_save(r->bytes, r->count, bridges, RACK_NODE_BYTES * r->bridges, devices, RACK_NODE_BYTES * r->devices, buffer, count,
                     answer);
}

static uint8_t open_file(const struct rack *r, uint64_t answer[RACK_ANSWER_NUMBERS])
{
    return rack_open(r->bytes, r->count, bridges, RACK_NODE_BYTES * r->bridges, devices, RACK_NODE_BYTES * r->devices, answer);
}

static int is_all(const void *bytes, size_t count, uint8_t value)
{
    const uint8_t *at = bytes;
    size_t same = 0;
    while (same < count && at[same] == value) {
        same++;
    }
    return same == count;
}

static struct rack r;

static void rack_bodies(void)
{
    static const uint8_t kinds[] = {RACK_KIND_HOST, RACK_KIND_BRIDGE, RACK_KIND_DEVICE, RACK_KIND_SEAT, RACK_KIND_OLDER_BRIDGE};
    for (size_t i = 0; i < sizeof kinds; i++) {
        start(&r);
        if (kinds[i] == RACK_KIND_BRIDGE) {
            add_bridge(&r, RACK_NODE_HOST, 0);
        } else if (kinds[i] == RACK_KIND_DEVICE) {
            add_device(&r, RACK_NODE_HOST, 0);
        } else if (kinds[i] == RACK_KIND_OLDER_BRIDGE) {
            add_older_bridge(&r, RACK_NODE_HOST, 0);
        } else if (kinds[i] == RACK_KIND_SEAT) {
            add_device(&r, RACK_NODE_HOST, 0);
            add_seat(&r, 1, 0, 0);
        }
        expect(reset(&r) == 0, "a rack that ends with a record of a kind is refused");
        r.count--;
        expect(reset(&r) == RACK_REFUSED_CUT_SHORT, "a rack record that lacks a byte is not cut short");
        r.count += 2;
        expect(reset(&r) == RACK_REFUSED_KIND, "a byte behind a rack record is no kind");
    }
}

static void event_bodies(void)
{
    static const struct {
        uint8_t kind;
        size_t body;
        uint64_t ending;
    } events[] = {
        {RACK_KIND_CONFIGURATION_WRITE, RACK_BODY_CONFIGURATION_WRITE, RACK_ENDED_STORED},
        {RACK_KIND_CONFIGURATION_READ, RACK_BODY_CONFIGURATION_READ, RACK_ENDED_DATA},
        {RACK_KIND_MEMORY, RACK_BODY_MEMORY, RACK_ENDED_SILENT},
        {RACK_KIND_IO, RACK_BODY_IO, RACK_ENDED_SILENT},
        {RACK_KIND_CHECK, RACK_BODY_CHECK, RACK_ENDED_PASS},
        {RACK_KIND_SEAT_EVENT, RACK_BODY_SEAT_EVENT, RACK_ENDED_SEAT},
    };
    start(&r);
    add_device(&r, RACK_NODE_HOST, 0);
    expect(reset(&r) == 0, "a rack of one device is refused");
    for (size_t i = 0; i < sizeof events / sizeof *events; i++) {
        uint64_t answer[RACK_ANSWER_NUMBERS];
        uint8_t event[RECORD + 1] = {events[i].kind};
        size_t count = 1 + events[i].body;
        expect(run(&r, event, count, answer) == 0 && answer[0] == events[i].ending, "an event of zeros ends in another way");
        expect(run(&r, event, count + 1, answer) == RACK_REFUSED_CUT_SHORT, "an event with a byte too many is taken");
        expect(run(&r, event, count - 1, answer) == (count == 1 ? RACK_REFUSED_KIND : RACK_REFUSED_CUT_SHORT), "an event that lacks a byte is taken");
    }
}

/* An older bridge is a parent, no event and no initiator, and a set bit of an option that it lacks is refused. */
static void older_bridge(void)
{
    uint64_t answer[RACK_ANSWER_NUMBERS];
    uint8_t event[1 + RACK_BODY_OLDER_BRIDGE] = {RACK_KIND_OLDER_BRIDGE}, memory[1 + RACK_BODY_MEMORY] = {RACK_KIND_MEMORY};
    start(&r);
    add_older_bridge(&r, RACK_NODE_HOST, 0);
    add_device(&r, 0, 0);
    expect(reset(&r) == 0, "an older bridge is no parent");
    expect(run(&r, event, sizeof event, answer) == RACK_REFUSED_KIND, "an older bridge is run as an event");
    expect(run(&r, memory, sizeof memory, answer) == RACK_REFUSED_FIELD, "an older bridge is an initiator");
    static const uint8_t lacked[][2] = {{0x28, 1}, {0x2F, 0x80}, {0x30, 1}, {0x33, 0x80}, {0x3E, 0x10}, {0x1C, 1}, {0x24, 1}};
    for (size_t i = 0; i < sizeof lacked / sizeof *lacked; i++) {
        bridges[lacked[i][0]] = lacked[i][1];
        expect(rack_check(r.bytes, r.count, bridges, RACK_NODE_BYTES, devices, RACK_NODE_BYTES, answer) == RACK_REFUSED_FIXED_BIT,
               "a bit that an older bridge lacks is taken");
        bridges[lacked[i][0]] = 0;
    }
}

/* A special cycle answers for itself and changes nothing, no status bit either; a read of the same register is none. */
static void special_cycle(void)
{
    uint64_t answer[RACK_ANSWER_NUMBERS];
    uint8_t event[1 + RACK_BODY_CONFIGURATION_WRITE] = {RACK_KIND_CONFIGURATION_WRITE, 5, RACK_DEVFN_SPECIAL_CYCLE};
    uint8_t of_register[1 + RACK_BODY_CONFIGURATION_READ] = {RACK_KIND_CONFIGURATION_READ, 5, RACK_DEVFN_SPECIAL_CYCLE};
    start(&r);
    add_bridge(&r, RACK_NODE_HOST, 0);
    expect(reset(&r) == 0, "a rack of one bridge is refused");
    bridges[0x19] = bridges[0x1A] = 5; /* secondary and subordinate bus */
    uint8_t before[RACK_NODE_BYTES];
    memcpy(before, bridges, sizeof before);
    expect(run(&r, event, sizeof event, answer) == 0 && answer[0] == RACK_ENDED_SPECIAL && answer[1] == 1 && answer[2] == 0,
           "a special cycle ends in another way");
    expect(memcmp(before, bridges, sizeof before) == 0, "a special cycle changes a register");
    expect(run(&r, of_register, sizeof of_register, answer) == 0 && answer[0] == RACK_ENDED_UNCLAIMED, "a read is taken for a special cycle");
    expect(memcmp(before, bridges, sizeof before) != 0, "a read that nobody answers sets no status bit");
}

/* Seat 2 may write dword 1 of the device; the last seat may write nothing of the bridge, and is known for it. */
static void start_lesson(void)
{
    start(&r);
    add_bridge(&r, RACK_NODE_HOST, 0);
    add_device(&r, 0, 0);
    add_seat(&r, 2, 1, 1 << 1);
    add_seat(&r, RACK_MOST_SEATS, 0, 0);
    expect(reset(&r) == 0, "a rack with seats is refused");
    bridges[0x19] = bridges[0x1A] = 5; /* secondary and subordinate bus */
}

/* The same, with its registers apart, so that the images can be filled anew. */
static void start_apart(uint8_t bridge[RACK_NODE_BYTES], uint8_t device[RACK_NODE_BYTES])
{
    start_lesson();
    memcpy(bridge, bridges, RACK_NODE_BYTES);
    memcpy(device, devices, RACK_NODE_BYTES);
}

/* A write outside the grant is denied behind its bridge and stores nothing; inside, from 40h on, and by the seat for all it is stored. */
static void denied_write(void)
{
    uint64_t answer[RACK_ANSWER_NUMBERS];
    uint8_t command[1 + RACK_BODY_CONFIGURATION_WRITE] = {RACK_KIND_CONFIGURATION_WRITE, 5, 0, 0x04, 1, 7};
    uint8_t line[1 + RACK_BODY_CONFIGURATION_WRITE] = {RACK_KIND_CONFIGURATION_WRITE, 5, 0, 0x3C, 1, 9};
    start_lesson();
    uint8_t before[RACK_NODE_BYTES];
    memcpy(before, devices, sizeof before);
    expect(run_as(&r, 2, line, sizeof line, answer) == 0 && answer[0] == RACK_ENDED_DENIED && answer[1] == 1 && answer[2] == 0,
           "a write outside the grant ends in another way");
    expect(run_as(&r, RACK_MOST_SEATS, command, sizeof command, answer) == 0 && answer[0] == RACK_ENDED_DENIED,
           "a seat writes a node without a record of its own");
    expect(memcmp(before, devices, sizeof before) == 0, "a denied write changes a register");
    expect(run_as(&r, 2, command, sizeof command, answer) == 0 && answer[0] == RACK_ENDED_STORED && devices[4] == 7,
           "a granted write is not stored");
    expect(run(&r, line, sizeof line, answer) == 0 && answer[0] == RACK_ENDED_STORED && devices[0x3C] == 9,
           "a write of the seat for all is not stored");
    line[3] = 4 * RACK_NODE_DWORDS;
    expect(run_as(&r, 2, line, sizeof line, answer) == 0 && answer[0] == RACK_ENDED_STORED, "a write to 40h is denied");
}

/* A seat event answers with its seat and changes nothing: who acts is what the next call is told. */
static void seat_events(void)
{
    uint64_t answer[RACK_ANSWER_NUMBERS];
    uint8_t check[] = {RACK_KIND_CHECK};
    start_lesson();
    for (unsigned seat = 0; seat <= UINT8_MAX; seat++) {
        uint8_t event[] = {RACK_KIND_SEAT_EVENT, (uint8_t)seat};
        int is_known = seat == RACK_SEAT_ALL || seat == 2 || seat == RACK_MOST_SEATS;
        uint8_t code = is_known ? 0 : RACK_REFUSED_SEAT;
        expect(run(&r, event, sizeof event, answer) == code, "a seat event knows other seats than the rack");
        expect(answer[0] == (is_known ? RACK_ENDED_SEAT : 0) && answer[1] == (is_known ? seat : 0), "a seat event ends in another way");
        expect(run_as(&r, (uint8_t)seat, check, sizeof check, answer) == code, "a call knows other seats than the rack");
    }
}

/* Each fault of a seat record, in every call that takes a rack; it comes before an acting seat that is not known. */
static void seat_records(void)
{
    static const uint8_t faulty[][2] = {{0, 0}, {RACK_MOST_SEATS + 1, 0}, {UINT8_MAX, 0}, {2, 1}, {1, 2}, {1, RACK_NODE_HOST}};
    for (size_t i = 0; i < sizeof faulty / sizeof *faulty; i++) {
        uint64_t answer[RACK_ANSWER_NUMBERS];
        uint8_t check[] = {RACK_KIND_CHECK};
        const size_t one = RACK_NODE_BYTES;
        const uint8_t refused = RACK_REFUSED_SEAT_RECORD;
        start_lesson();
        add_seat(&r, faulty[i][0], faulty[i][1], 0);
        expect(reset(&r) == refused, "a faulty seat record is taken by rack_reset");
        expect(run_as(&r, 9, check, sizeof check, answer) == refused, "a faulty seat record is taken by rack_run");
        expect(rack_check(r.bytes, r.count, bridges, one, devices, one, answer) == refused, "one is taken by rack_check");
        expect(rack_window(r.bytes, r.count, bridges, one, devices, one, 0, 0, answer) == refused, "one is taken by rack_window");
        expect(rack_save(r.bytes, r.count, bridges, one, devices, one, check, 1, answer) == refused, "one is taken by rack_save");
        expect(open_file(&r, answer) == refused, "one is taken by rack_open");
    }
}

enum { FILL = 0xA5 }; /* of what a call has to leave as it is */

/* The rack's records and then the bridge's registers, since the device is at reset; what is past the file stays. */
static void saved_file(void)
{
    uint8_t buffer[RACK_MOST_SAVED_BYTES];
    uint64_t answer[RACK_ANSWER_NUMBERS];
    start_lesson();
    struct rack whole = r;
    add_registers(&whole, 0, bridges);
    memset(buffer, FILL, sizeof buffer);
    expect(save(&r, buffer, sizeof buffer, answer) == 0 && answer[0] == whole.count && is_all(&answer[1], 7 * sizeof *answer, 0),
           "a saved rack has another length");
    expect(memcmp(buffer, whole.bytes, whole.count) == 0, "a saved rack has other bytes");
    expect(is_all(&buffer[whole.count], sizeof buffer - whole.count, FILL), "a byte past the file is written");
    expect(save(&r, buffer, whole.count, answer) == 0, "a buffer that is just long enough is refused");
    memset(buffer, FILL, sizeof buffer);
    expect(save(&r, buffer, whole.count - 1, answer) == RACK_REFUSED_IMAGE_LENGTH, "a buffer that lacks a byte is taken");
    expect(is_all(buffer, sizeof buffer, FILL) && is_all(answer, sizeof answer, 0), "a short buffer or its answer is written");
}

/* Each refusal of rack_save that is not of the rack's bytes, also where the buffer is too short. */
static void refused_save(void)
{
    uint8_t none[1] = {FILL};
    uint64_t answer[RACK_ANSWER_NUMBERS];
    const size_t one = RACK_NODE_BYTES;
    start_lesson();
    expect(rack_save(r.bytes, r.count, bridges, one - 1, devices, one, none, 0, answer) == RACK_REFUSED_IMAGE_LENGTH, "a short image");
    expect(rack_save(r.bytes, r.count, bridges, one, devices, one + 1, none, 0, answer) == RACK_REFUSED_IMAGE_LENGTH, "a long image");
    devices[0]++;
    expect(save(&r, none, sizeof none, answer) == RACK_REFUSED_FIXED_BIT, "a fixed bit that is changed is saved");
    expect(none[0] == FILL && is_all(answer, sizeof answer, 0), "a refused rack_save writes");
}

/* Seats in another order and other addresses of a host without memory are the same file; with the first address equal to the last
 * there is memory. */
static void one_form(void)
{
    uint8_t one[RACK_MOST_SAVED_BYTES], other[RACK_MOST_SAVED_BYTES];
    uint64_t answer[RACK_ANSWER_NUMBERS];
    start_lesson();
    r.bytes[1] = 9;
    expect(save(&r, one, sizeof one, answer) == 0, "a rack without host memory is not saved");
    expect(one[1] == 1 && is_all(&one[2], RACK_BODY_HOST - 1, 0), "no host memory is saved as something else than 1 and 0");
    const size_t pair = 1 + RACK_BODY_SEAT;
    r.bytes[RACK_BODY_HOST] = r.bytes[8] = UINT8_MAX; /* first above last still */
    memcpy(other, &r.bytes[r.count - 2 * pair], pair);
    memmove(&r.bytes[r.count - 2 * pair], &r.bytes[r.count - pair], pair);
    memcpy(&r.bytes[r.count - pair], other, pair);
    expect(save(&r, other, sizeof other, answer) == 0 && memcmp(one, other, answer[0]) == 0, "equal racks are saved as two files");
    r.bytes[1] = 0;
    expect(save(&r, other, sizeof other, answer) == 0 && memcmp(one, other, answer[0]) != 0, "host memory of one address is none");
}

/* A file with registers and an event: what stands before them is the rack, and the images are those that a run starts from. */
static void opened_file(void)
{
    uint64_t answer[RACK_ANSWER_NUMBERS];
    uint8_t bridge[RACK_NODE_BYTES], device[RACK_NODE_BYTES];
    start_apart(bridge, device);
    struct rack whole = r;
    add_registers(&whole, 0, bridge);
    add(&whole, RACK_KIND_CHECK, RACK_BODY_CHECK, 0, 0);
    memset(bridges, FILL, sizeof bridges);
    memset(devices, FILL, sizeof devices);
    expect(rack_open(whole.bytes, whole.count, bridges, 0, devices, 0, answer) == RACK_REFUSED_IMAGE_LENGTH, "images of no bytes are taken");
    expect(answer[0] == 0 && answer[1] == r.bridges && answer[2] == r.devices, "the counts of a file are other ones");
    expect(is_all(bridges, sizeof bridges, FILL) && is_all(devices, sizeof devices, FILL), "images of the wrong length are filled");
    expect(open_file(&whole, answer) == 0 && answer[0] == r.count && answer[1] == r.bridges && answer[2] == r.devices,
           "a file is not opened, or has another rack");
    expect(memcmp(bridges, bridge, sizeof bridge) == 0 && memcmp(devices, device, sizeof device) == 0, "a file has other registers");
    expect(open_file(&r, answer) == 0 && answer[0] == r.count, "a file without registers and events has another rack");
    expect(is_all(&bridges[0x19], 2, 0), "a file without registers does not start from reset");
}

/* A refused file leaves both images and no number. */
static void expect_refused(const struct rack *file, uint8_t refused, const char *what)
{
    uint64_t answer[RACK_ANSWER_NUMBERS];
    memset(bridges, FILL, sizeof bridges);
    memset(devices, FILL, sizeof devices);
    expect(open_file(file, answer) == refused, what);
    expect(is_all(bridges, sizeof bridges, FILL) && is_all(devices, sizeof devices, FILL), "a refused file fills an image");
    expect(is_all(answer, sizeof answer, 0), "a refused file has numbers");
}

/* The register records of a lesson with both nodes changed. */
static void refused_registers(void)
{
    uint8_t bridge[RACK_NODE_BYTES], device[RACK_NODE_BYTES];
    start_apart(bridge, device);
    struct rack file = r;
    add_registers(&file, 2, device);
    expect_refused(&file, RACK_REFUSED_REGISTERS_NODE, "the registers of a missing node are taken");
    file = r;
    add_registers(&file, 1, device);
    expect_refused(&file, RACK_REFUSED_REGISTERS_VALUE, "registers at reset are taken");
    device[0]++;
    file = r;
    add_registers(&file, 1, device);
    expect_refused(&file, RACK_REFUSED_REGISTERS_VALUE, "a fixed bit that is changed is taken");
    device[0]--;
    device[4] = 7; /* command */
    file = r;
    add_registers(&file, 1, device);
    add_registers(&file, 0, bridge);
    expect_refused(&file, RACK_REFUSED_REGISTERS_NODE, "registers in another order are taken");
    file = r;
    add_registers(&file, 1, device);
    add_registers(&file, 1, device);
    expect_refused(&file, RACK_REFUSED_REGISTERS_NODE, "the same registers are taken twice");
    file.count--;
    expect_refused(&file, RACK_REFUSED_CUT_SHORT, "registers that lack a byte are taken");
}

/* What may not follow registers or an event, and faulty events, which rack_open looks at too. */
static void refused_order(void)
{
    start_lesson();
    add_registers(&r, 0, bridges);
    struct rack file = r;
    add_bridge(&file, RACK_NODE_HOST, 1);
    expect_refused(&file, RACK_REFUSED_AFTER_EVENT, "a bridge after registers is taken");
    file = r;
    add_seat(&file, 1, 0, 0);
    expect_refused(&file, RACK_REFUSED_AFTER_EVENT, "a seat after registers is taken");
    file = r;
    add(&file, RACK_KIND_HOST, RACK_BODY_HOST, 0, 0);
    expect_refused(&file, RACK_REFUSED_HOST, "a host after registers is taken");
    file = r;
    add(&file, RACK_KIND_CHECK, RACK_BODY_CHECK, 0, 0);
    add_registers(&file, 1, bridges);
    expect_refused(&file, RACK_REFUSED_AFTER_EVENT, "registers after an event are taken");
    file = r;
    add(&file, RACK_KIND_SEAT_EVENT, RACK_BODY_SEAT_EVENT, 3, 0);
    expect_refused(&file, RACK_REFUSED_SEAT, "a seat event without a record is taken");
    file = r;
    add(&file, RACK_KIND_MEMORY, RACK_BODY_MEMORY, 0, 0);
    expect_refused(&file, RACK_REFUSED_FIELD, "a bridge as initiator is taken");
    file = r;
    add(&file, 12, 0, 0, 0);
    expect_refused(&file, RACK_REFUSED_KIND, "kind 12 is taken");
}

/* Registers stand in files alone: in the rack of a call, and as an event, their kind is none. */
static void registers_in_a_call(void)
{
    uint64_t answer[RACK_ANSWER_NUMBERS];
    uint8_t check[] = {RACK_KIND_CHECK}, event[1 + RACK_BODY_REGISTERS] = {RACK_KIND_REGISTERS};
    const size_t one = RACK_NODE_BYTES;
    const uint8_t refused = RACK_REFUSED_KIND;
    start_lesson();
    expect(run(&r, event, sizeof event, answer) == refused, "registers are run as an event");
    add_registers(&r, 0, bridges);
    expect(reset(&r) == refused, "registers are taken by rack_reset");
    expect(run(&r, check, sizeof check, answer) == refused, "registers are taken by rack_run");
    expect(rack_check(r.bytes, r.count, bridges, one, devices, one, answer) == refused, "registers are taken by rack_check");
    expect(rack_window(r.bytes, r.count, bridges, one, devices, one, 0, 0, answer) == refused, "registers are taken by rack_window");
    expect(rack_save(r.bytes, r.count, bridges, one, devices, one, check, 1, answer) == refused, "registers are taken by rack_save");
}

enum { BRANCH_BRIDGES = 2, BRANCH_DEVICES = 3 };

/* Bridge 0 with an older bridge 1 below it, a device on the bus of each (2 and 3), and device 4 beside them on the root bus; both buses
 * have numbers, 1 and 2, and every device is on. Seat 1 may write bridge control of bridge 0, seat 2 command of device 2. */
static void start_branch(void)
{
    start(&r);
    add_bridge(&r, RACK_NODE_HOST, 0);
    add_older_bridge(&r, 0, 0);
    add_device(&r, 1, 0);
    add_device(&r, 0, 1);
    add_device(&r, RACK_NODE_HOST, 1);
    add_seat(&r, 1, 0, 1 << (RACK_CONTROL_AT / 4));
    add_seat(&r, 2, 2, 1 << 1);
    expect(reset(&r) == 0, "a rack of two bridges is refused");
    bridges[0x19] = 1; /* secondary bus */
    bridges[0x1A] = 2; /* subordinate bus */
    bridges[RACK_NODE_BYTES + 0x19] = bridges[RACK_NODE_BYTES + 0x1A] = 2;
    for (size_t i = 0; i < BRANCH_DEVICES; i++) {
        devices[RACK_NODE_BYTES * i + 4] = 7; /* command */
    }
}

/* Both images of the branch, and those that there would be with everything below bridge 0 at reset. */
struct branch {
    uint8_t bridges[RACK_NODE_BYTES * BRANCH_BRIDGES], devices[RACK_NODE_BYTES * BRANCH_DEVICES];
};

static struct branch branch_now(void)
{
    struct branch now;
    memcpy(now.bridges, bridges, sizeof now.bridges);
    memcpy(now.devices, devices, sizeof now.devices);
    return now;
}

static struct branch branch_below_reset(void)
{
    struct branch whole = branch_now(), below = whole;
    expect(reset(&r) == 0, "a branch cannot be reset");
    memcpy(&below.bridges[RACK_NODE_BYTES], &bridges[RACK_NODE_BYTES], RACK_NODE_BYTES);
    memcpy(below.devices, devices, 2 * RACK_NODE_BYTES);
    memcpy(bridges, whole.bridges, sizeof whole.bridges);
    memcpy(devices, whole.devices, sizeof whole.devices);
    return below;
}

static int is_branch(const struct branch *b)
{
    return memcmp(b->bridges, bridges, sizeof b->bridges) == 0 && memcmp(b->devices, devices, sizeof b->devices) == 0;
}

/* A write of bridge control of bridge 0 that ends so. */
static void write_control(uint8_t seat, uint8_t control, uint64_t ending)
{
    uint8_t event[1 + RACK_BODY_CONFIGURATION_WRITE] = {
        RACK_KIND_CONFIGURATION_WRITE, 0, 0, RACK_CONTROL_AT - RACK_CONTROL_AT % 4, 1 << RACK_CONTROL_AT % 4};
    uint64_t answer[RACK_ANSWER_NUMBERS];
    event[5 + RACK_CONTROL_AT % 4] = control;
    expect(run_as(&r, seat, event, sizeof event, answer) == 0 && answer[0] == ending, "a write of bridge control ends in another way");
}

/* The bit that is set puts all nodes below to reset, at every depth and also those that the seat may not write, and no other byte moves;
 * clearing it moves none below. A denied write and every other bit reset nothing. */
static void bus_reset(void)
{
    start_branch();
    struct branch whole = branch_now(), below = branch_below_reset();
    write_control(2, RACK_CONTROL_BUS_RESET, RACK_ENDED_DENIED);
    expect(is_branch(&whole), "a denied write resets a bus");
    write_control(1, 0x3F, RACK_ENDED_STORED);
    whole.bridges[RACK_CONTROL_AT] = 0x3F;
    expect(is_branch(&whole), "another bit of bridge control resets a bus");
    write_control(1, RACK_CONTROL_BUS_RESET, RACK_ENDED_STORED);
    below.bridges[RACK_CONTROL_AT] = RACK_CONTROL_BUS_RESET;
    expect(is_branch(&below), "a bus reset leaves other registers");
    write_control(1, 0, RACK_ENDED_STORED);
    below.bridges[RACK_CONTROL_AT] = 0;
    expect(is_branch(&below), "the end of a bus reset leaves other registers");
}

/* A held device is silent, configuration finds nobody, a special cycle is one all the same; once let go they are found. */
static void held_nodes(void)
{
    uint64_t answer[RACK_ANSWER_NUMBERS];
    uint8_t memory[1 + RACK_BODY_MEMORY] = {RACK_KIND_MEMORY, 3};
    uint8_t read[1 + RACK_BODY_CONFIGURATION_READ] = {RACK_KIND_CONFIGURATION_READ, 1};
    uint8_t special[1 + RACK_BODY_CONFIGURATION_WRITE] = {RACK_KIND_CONFIGURATION_WRITE, 1, RACK_DEVFN_SPECIAL_CYCLE};
    start_branch();
    write_control(RACK_SEAT_ALL, RACK_CONTROL_BUS_RESET, RACK_ENDED_STORED);
    expect(run(&r, memory, sizeof memory, answer) == 0 && answer[0] == RACK_ENDED_SILENT, "a held device drives");
    expect(run(&r, special, sizeof special, answer) == 0 && answer[0] == RACK_ENDED_SPECIAL && answer[2] == 0, "a special cycle is none");
    expect(run(&r, read, sizeof read, answer) == 0 && answer[0] == RACK_ENDED_UNCLAIMED && answer[1] == 1 && answer[2] == 0,
           "configuration finds a held bridge");
    memory[1] = 4;
    expect(run(&r, memory, sizeof memory, answer) == 0 && answer[0] == RACK_ENDED_HOST, "a device beside the branch is held");
    write_control(RACK_SEAT_ALL, 0, RACK_ENDED_STORED);
    expect(run(&r, read, sizeof read, answer) == 0 && answer[0] == RACK_ENDED_DATA, "configuration does not find a bridge that is let go");
}

/* Every call that reads images which break the agreement, with its own fields right and wrong: 18 is given after 12 and before 13 to 15 and
 * a short buffer. rack_reset mends them. */
static void expect_held(uint8_t refused)
{
    uint64_t answer[RACK_ANSWER_NUMBERS];
    uint8_t check[] = {RACK_KIND_CHECK}, read[] = {RACK_KIND_CONFIGURATION_READ, 0, 0, 1}; /* 1 is no register */
    uint8_t buffer[RACK_MOST_SAVED_BYTES];
    const size_t two = RACK_NODE_BYTES * r.bridges, three = RACK_NODE_BYTES * r.devices;
    struct branch given = branch_now();
    expect(run(&r, check, sizeof check, answer) == refused, "rack_run takes a held node that is not at reset");
    expect(run(&r, read, sizeof read, answer) == refused, "rack_run looks at a field before it looks at held nodes");
    expect(run_as(&r, 9, check, sizeof check, answer) == refused, "rack_run looks at the seat before it looks at held nodes");
    expect(rack_check(r.bytes, r.count, bridges, two, devices, three, answer) == refused, "rack_check takes one");
    expect(rack_window(r.bytes, r.count, bridges, two, devices, three, 0, 0, answer) == refused, "rack_window takes one");
    expect(rack_window(r.bytes, r.count, bridges, two, devices, three, 9, 0, answer) == refused, "rack_window looks for the node first");
    memset(buffer, FILL, sizeof buffer);
    expect(save(&r, buffer, sizeof buffer, answer) == refused && save(&r, buffer, 1, answer) == refused, "rack_save takes one");
    expect(is_all(buffer, sizeof buffer, FILL) && is_all(answer, sizeof answer, 0) && is_branch(&given), "a refused call writes");
}

static void refused_held(void)
{
    static uint8_t *const below[] = {&bridges[RACK_NODE_BYTES + 0x19], &devices[7], &devices[RACK_NODE_BYTES + 4],
        &bridges[RACK_NODE_BYTES + RACK_CONTROL_AT]};
    static const uint8_t values[] = {2, 0x20, 7, RACK_CONTROL_BUS_RESET};
    uint64_t answer[RACK_ANSWER_NUMBERS];
    for (size_t i = 0; i < sizeof values; i++) {
        start_branch();
        write_control(RACK_SEAT_ALL, RACK_CONTROL_BUS_RESET, RACK_ENDED_STORED);
        *below[i] = values[i];
        expect_held(RACK_REFUSED_HELD);
        devices[2 * RACK_NODE_BYTES]++; /* a fixed bit of device 4, which is not held */
        expect_held(RACK_REFUSED_FIXED_BIT);
        expect(reset(&r) == 0, "rack_reset looks at what the images held");
        expect(rack_check(r.bytes, r.count, bridges, RACK_NODE_BYTES * r.bridges, devices, RACK_NODE_BYTES * r.devices, answer) == 0,
               "rack_reset leaves a held node that is not at reset");
    }
}

/* A rack that is saved while a bus is held has no registers of held nodes, and is opened as it was. With a record for a held node it is
 * refused, after what is wrong with that record alone. */
static void held_file(void)
{
    uint8_t buffer[RACK_MOST_SAVED_BYTES], low[RACK_NODE_BYTES];
    uint64_t answer[RACK_ANSWER_NUMBERS];
    start_branch();
    write_control(RACK_SEAT_ALL, RACK_CONTROL_BUS_RESET, RACK_ENDED_STORED);
    struct branch held = branch_now();
    struct rack file = r;
    add_registers(&file, 0, bridges);
    struct rack front = file;
    add_registers(&file, 4, &devices[2 * RACK_NODE_BYTES]);
    expect(save(&r, buffer, sizeof buffer, answer) == 0 && answer[0] == file.count && memcmp(buffer, file.bytes, file.count) == 0,
           "a rack that is saved while a bus is held has another file");
    memset(bridges, FILL, sizeof bridges);
    memset(devices, FILL, sizeof devices);
    expect(open_file(&file, answer) == 0 && is_branch(&held), "a rack that was saved while a bus was held is opened as another");
    memcpy(low, held.devices, sizeof low);
    file = front;
    add_registers(&file, 2, low);
    expect_refused(&file, RACK_REFUSED_REGISTERS_VALUE, "a held node's registers at reset are taken");
    low[4] = 7; /* command */
    file = front;
    add_registers(&file, 2, low);
    expect_refused(&file, RACK_REFUSED_HELD, "a held node's registers are taken");
    low[0]++;
    file = front;
    add_registers(&file, 2, low);
    expect_refused(&file, RACK_REFUSED_REGISTERS_VALUE, "a fixed bit of a held node is taken");
}

/* Every node that there is room for with every seat, and none at reset. */
static void longest_saved(const struct rack *full)
{
    static uint8_t buffer[RACK_MOST_SAVED_BYTES];
    uint64_t answer[RACK_ANSWER_NUMBERS];
    struct rack seated = *full;
    for (unsigned i = 0; i < RACK_MOST_NODES * RACK_MOST_SEATS; i++) {
        add_seat(&seated, (uint8_t)(1 + i % RACK_MOST_SEATS), (uint8_t)(i / RACK_MOST_SEATS), UINT16_MAX);
    }
    expect(reset(&seated) == 0, "the most seats are refused");
    for (size_t i = 0; i < RACK_MOST_NODES; i++) {
        uint8_t *image = i < seated.bridges ? &bridges[RACK_NODE_BYTES * i] : &devices[RACK_NODE_BYTES * (i - seated.bridges)];
        image[4] = 7; /* command */
    }
    expect(save(&seated, buffer, sizeof buffer, answer) == 0 && answer[0] == sizeof buffer, "the longest file has another length");
    expect(save(&seated, buffer, sizeof buffer - 1, answer) == RACK_REFUSED_IMAGE_LENGTH, "the longest file is shorter");
    memcpy(seated.bytes, buffer, sizeof buffer);
    seated.count = sizeof buffer;
    expect(open_file(&seated, answer) == 0 && answer[1] == RACK_MOST_BRIDGES && answer[2] == RACK_MOST_DEVICES, "the longest file is refused");
}

static void access_of_the_host(void)
{
    uint64_t answer[RACK_ANSWER_NUMBERS];
    uint8_t event[1 + RACK_BODY_MEMORY] = {RACK_KIND_MEMORY, RACK_NODE_HOST};
    start(&r);
    add_device(&r, RACK_NODE_HOST, 0);
    expect(reset(&r) == 0, "a rack of one device is refused");
    expect(run(&r, event, sizeof event, answer) == 0 && answer[0] == RACK_ENDED_UNCLAIMED && answer[2] == RACK_NODE_HOST &&
               answer[3] == RACK_OUTCOME_ABORT,
           "the host reaches what it drives itself");
    devices[4] = 4; /* bus master */
    event[1] = 0;
    expect(run(&r, event, sizeof event, answer) == 0 && answer[0] == RACK_ENDED_HOST, "a card does not reach host memory");
}

static void limits(void)
{
    start(&r);
    for (unsigned i = 0; i < RACK_MOST_BRIDGES; i++) {
        (i % 2 == 0 ? add_bridge : add_older_bridge)(&r, (uint8_t)(i == 0 ? RACK_NODE_HOST : i - 1), 0);
    }
    expect(reset(&r) == 0, "the most bridges are refused");
    for (unsigned i = 0; i < RACK_MOST_DEVICES; i++) {
        add_device(&r, (uint8_t)(i / 15), (uint8_t)(1 + i % 15));
    }
    expect(reset(&r) == 0, "the most nodes are refused");
    expect(r.bridges + r.devices == RACK_MOST_NODES, "the most nodes are another number");
    longest_saved(&r);
    struct rack more = r;
    add_device(&more, RACK_MOST_BRIDGES - 1, 15);
    expect(reset(&more) == RACK_REFUSED_TOO_MANY, "a device too many is taken");
    more = r;
    add_bridge(&more, RACK_MOST_BRIDGES - 1, 15);
    expect(reset(&more) == RACK_REFUSED_TOO_MANY, "a bridge too many is taken");
    more = r;
    add_older_bridge(&more, RACK_MOST_BRIDGES - 1, 15);
    expect(reset(&more) == RACK_REFUSED_TOO_MANY, "an older bridge too many is taken");
    r.count = RACK_MOST_BYTES;
    expect(reset(&r) == RACK_REFUSED_KIND, "the longest rack is too long");
    r.count++;
    expect(reset(&r) == RACK_REFUSED_TOO_LONG, "a byte too many is taken");
}

static void image_length(void)
{
    start(&r);
    add_bridge(&r, RACK_NODE_HOST, 0);
    expect(rack_reset(r.bytes, r.count, bridges, RACK_NODE_BYTES + 1, devices, 0) == RACK_REFUSED_IMAGE_LENGTH, "a byte too many");
    expect(rack_reset(r.bytes, r.count, bridges, RACK_NODE_BYTES - 1, devices, 0) == RACK_REFUSED_IMAGE_LENGTH, "a byte too few");
}

/* Reset opens every window of a bridge from 0; the ends stay where they are whatever the bits say that the header names. */
static void ends_of_windows(void (*add_one)(struct rack *r, uint8_t parent, uint8_t device))
{
    static const uint64_t last[RACK_NODE_WINDOWS] = {
        [RACK_WINDOW_MEMORY] = 0xFFFFF, [RACK_WINDOW_PREFETCHABLE] = 0xFFFFF, [RACK_WINDOW_IO] = 0xFFF};
    start(&r);
    add_one(&r, RACK_NODE_HOST, 0);
    expect(reset(&r) == 0, "a rack of one bridge is refused");
    for (unsigned bits = 0; bits < 64; bits++) {
        bridges[4] = (uint8_t)(bits & 7);                          /* command: I/O, memory, master */
        bridges[RACK_CONTROL_AT] = (uint8_t)((bits >> 3 & 3) << 2); /* ISA, VGA */
        bridges[RACK_CONTROL_AT] |= (uint8_t)(bits >> 5 == 0 ? 0 : RACK_CONTROL_BUS_RESET);
        for (uint8_t k = 0; k < RACK_NODE_WINDOWS; k++) {
            uint64_t answer[RACK_ANSWER_NUMBERS];
            expect(rack_window(r.bytes, r.count, bridges, RACK_NODE_BYTES, devices, 0, 0, k, answer) == 0, "a window is refused");
            expect(answer[0] == 1 && answer[1] == 0 && answer[2] == last[k], "a bit moves the ends of a window");
        }
    }
    uint64_t answer[RACK_ANSWER_NUMBERS];
    expect(rack_window(r.bytes, r.count, bridges, RACK_NODE_BYTES, devices, 0, 0, RACK_NODE_WINDOWS, answer) == RACK_REFUSED_FIELD,
           "there is a window more");
}

/* The places and answers of the arbiter, with member 3 alone in the high group. */
static void arbiter(void)
{
    const uint16_t mask = 1 << 3, all = (1 << RACK_MOST_REQUESTERS) - 1;
    uint64_t answer[RACK_ANSWER_NUMBERS];
    expect(rack_grant(mask, 0, RACK_PLACE_NONE, RACK_PLACE_NONE, answer) == 0 && answer[0] == RACK_GRANT_NOBODY &&
               answer[1] == RACK_PLACE_NONE && answer[2] == RACK_PLACE_NONE,
           "nobody requests, and somebody is granted");
    expect(rack_grant(mask, all, RACK_PLACE_NONE, RACK_PLACE_NONE, answer) == 0 && answer[0] == RACK_GRANT_MEMBER && answer[1] == 3 &&
               answer[2] == 3 && answer[3] == RACK_PLACE_NONE,
           "the first grant goes to another than the high member");
    expect(rack_grant(mask, all, 3, RACK_PLACE_NONE, answer) == 0 && answer[0] == RACK_GRANT_MEMBER && answer[1] == 0 &&
               answer[2] == RACK_PLACE_LOW && answer[3] == 0,
           "the second goes to another than the first low member");
    for (unsigned last = 0; last <= UINT8_MAX; last++) {
        int is_high = last == 3 || last == RACK_PLACE_LOW || last == RACK_PLACE_NONE;
        int is_low = (last < RACK_MOST_REQUESTERS && last != 3) || last == RACK_PLACE_NONE;
        expect(rack_grant(mask, all, (uint8_t)last, RACK_PLACE_NONE, answer) == (is_high ? 0 : RACK_REFUSED_ARBITER), "a place of the high ring");
        expect(rack_grant(mask, all, RACK_PLACE_NONE, (uint8_t)last, answer) == (is_low ? 0 : RACK_REFUSED_ARBITER), "a place of the low ring");
    }
    for (unsigned bit = RACK_MOST_REQUESTERS; bit < 16; bit++) {
        const uint16_t more = (uint16_t)(1 << bit);
        expect(rack_grant(more, 0, RACK_PLACE_NONE, RACK_PLACE_NONE, answer) == RACK_REFUSED_ARBITER, "a mask with a bit above 9 is taken");
        expect(rack_grant(0, more, RACK_PLACE_NONE, RACK_PLACE_NONE, answer) == RACK_REFUSED_ARBITER, "a request set with one is taken");
    }
}

static void distinct(const unsigned *numbers, size_t count)
{
    for (size_t i = 0; i < count; i++) {
        for (size_t k = 0; k < i; k++) {
            expect(numbers[i] != numbers[k], "two names have one number");
        }
    }
}

static void kinds_and_endings(void)
{
    static const unsigned kinds[] = {RACK_KIND_HOST, RACK_KIND_BRIDGE, RACK_KIND_DEVICE, RACK_KIND_CONFIGURATION_WRITE,
        RACK_KIND_CONFIGURATION_READ, RACK_KIND_MEMORY, RACK_KIND_IO, RACK_KIND_CHECK, RACK_KIND_SEAT, RACK_KIND_SEAT_EVENT,
        RACK_KIND_REGISTERS, RACK_KIND_OLDER_BRIDGE};
    static const unsigned endings[] = {RACK_ENDED_DATA, RACK_ENDED_STORED, RACK_ENDED_OWNER, RACK_ENDED_HOST, RACK_ENDED_UNCLAIMED,
        RACK_ENDED_CLASH, RACK_ENDED_SILENT, RACK_ENDED_PASS, RACK_ENDED_FAULT, RACK_ENDED_DENIED, RACK_ENDED_SEAT, RACK_ENDED_SPECIAL};
    distinct(kinds, sizeof kinds / sizeof *kinds);
    distinct(endings, sizeof endings / sizeof *endings);
}

static int is_refusal(unsigned number)
{
    return (number >= RACK_REFUSED_TOO_LONG && number <= RACK_REFUSED_HELD) || number == RACK_REFUSED_ARBITER;
}

static void texts(void)
{
    const char *none = rack_refusal_text(UINT_MAX);
    for (unsigned i = 0; i <= 300; i++) {
        if (i != 0 && !is_refusal(i)) {
            expect(strcmp(rack_refusal_text(i), none) == 0, "a number that is no refusal has a text");
            continue;
        }
        expect(strcmp(rack_refusal_text(i), none) != 0, "a refusal has no text");
        for (unsigned k = 0; k < i; k++) {
            expect(strcmp(rack_refusal_text(i), rack_refusal_text(k)) != 0, "two refusals have one text");
        }
    }
}

/* The same writes and reads in every thread, on one rack and each thread's own image. */
static void *lesson(void *seed)
{
    uint8_t image[RACK_NODE_BYTES], own = *(const uint8_t *)seed;
    uint64_t answer[RACK_ANSWER_NUMBERS];
    uint8_t write[] = {RACK_KIND_CONFIGURATION_WRITE, 0, 0, 0x0C, 1, 0, 0, 0, 0}, read[] = {RACK_KIND_CONFIGURATION_READ, 0, 0, 0x0C};
    uint8_t none[1] = {0};
    int is_good = rack_reset(r.bytes, r.count, none, 0, image, sizeof image) == 0;
    for (unsigned i = 0; i < 2000; i++) {
        write[5] = (uint8_t)(own + i);
        is_good &= rack_run(r.bytes, r.count, RACK_SEAT_ALL, write, sizeof write, none, 0, image, sizeof image, answer) == 0;
        is_good &= rack_run(r.bytes, r.count, RACK_SEAT_ALL, read, sizeof read, none, 0, image, sizeof image, answer) == 0;
        is_good &= answer[0] == RACK_ENDED_DATA && answer[2] == write[5];
    }
    return is_good ? seed : NULL;
}

static void threads(void)
{
    static uint8_t seeds[] = {0, 50, 100, 150};
    pthread_t thread[sizeof seeds];
    start(&r);
    add_device(&r, RACK_NODE_HOST, 0);
    for (size_t i = 0; i < sizeof seeds; i++) {
        expect(pthread_create(&thread[i], NULL, lesson, &seeds[i]) == 0, "no thread can be made");
    }
    for (size_t i = 0; i < sizeof seeds; i++) {
        void *result = NULL;
        expect(pthread_join(thread[i], &result) == 0 && result == &seeds[i], "a call saw what another thread did");
    }
}

int main(void)
{
    rack_bodies();
    event_bodies();
    older_bridge();
    special_cycle();
    denied_write();
    seat_events();
    seat_records();
    saved_file();
    refused_save();
    one_form();
    opened_file();
    refused_registers();
    refused_order();
    registers_in_a_call();
    bus_reset();
    held_nodes();
    refused_held();
    held_file();
    access_of_the_host();
    limits();
    image_length();
    ends_of_windows(add_bridge);
    ends_of_windows(add_older_bridge);
    arbiter();
    kinds_and_endings();
    texts();
    threads();
    puts("include/rack.h names the numbers that the calls go by");
    return 0;
}
