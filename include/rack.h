/* The calls of libmuzgante.a, for C.
 *
 * A rack is the bytes of its records: a host, then bridges (of two kinds), devices and seat records, as a rack file has them before its
 * first register record or event (README.md). Its registers are two images of 64 bytes a node: the bridges' and the devices', each in
 * node order. rack_open takes a file apart into these, and rack_save makes a file of them.
 *
 * Every call returns 0 or the number of a refusal. A refused call leaves both images and the buffer as they were and `answer` all 0, but
 * for the counts of rack_open. Nothing is asked of the caller but that each pointer is good for its count of bytes (any pointer that is
 * not null where the count is 0), that `answer` has room for eight numbers, and that what a call writes overlaps nothing else that it is
 * given.
 *
 * No call keeps a pointer or any state. All of them may run side by side in threads, as long as nobody else reads or writes meanwhile
 * what one of them writes: `answer`, both images in rack_run, rack_reset and rack_open, and the buffer in rack_save.
 *
 * A bridge whose RACK_CONTROL_BUS_RESET is set holds every node below it at reset. The images have to agree with that: all 64 registers
 * of a held node have their reset values, status bits too. Every call that reads images refuses others with 18, straight after 12; those
 * that a call leaves or fills agree.
 *
 * rack_grant stands apart: a step of a bus arbiter, which has no rack and no image.
 */
#ifndef MUZGANTE_RACK_H
#define MUZGANTE_RACK_H

#include <stddef.h>
#include <stdint.h>

#ifdef __cplusplus
extern "C" {
#endif

/* Goes up where a prototype or a number below changes, a call is new or changes other bytes than before: rack_grant is there from 2 on,
 * the seat that rack_run is told from 3 on, rack_save and rack_open from 4 on, and from 5 on a write to a bridge can change the nodes
 * below it. A new name for a new number leaves it as it is. */
#define RACK_VERSION 5

/* Limits. */
enum {
    RACK_MOST_BYTES = 65536,       /* of a rack, and of a rack file */
    RACK_MOST_SAVED_BYTES = 14609, /* of a file that rack_save writes */
    RACK_MOST_BRIDGES = 32,
    RACK_MOST_DEVICES = 64,
    RACK_MOST_NODES = 96,
    RACK_NODE_BYTES = 64,          /* of a node's registers in its image */
    RACK_NODE_WINDOWS = 3,         /* windows of a bridge, regions of a device */
    RACK_NODE_DWORDS = 16,         /* registers 00h to 3Fh: a bit of a seat's mask for each */
    RACK_MOST_SEATS = 15,          /* seats 1 to 15 */
    RACK_MOST_REQUESTERS = 10,     /* of a bus: members 0 to 9 of its arbiter */
    RACK_ANSWER_NUMBERS = 8
};

/* A node is its number, from 0 as the records come; this one stands for the host, and as a parent or holder for the root bus. */
enum { RACK_NODE_HOST = 255 };

/* The seat that may write every register and needs no record; 1 to 15 may write what their records grant. */
enum { RACK_SEAT_ALL = 0 };

/* A record is a byte of its kind and then its body: first the rack's, then events. */
enum {
    RACK_KIND_HOST = 1,
    RACK_KIND_BRIDGE = 2,
    RACK_KIND_DEVICE = 3,
    RACK_KIND_CONFIGURATION_WRITE = 4,
    RACK_KIND_CONFIGURATION_READ = 5,
    RACK_KIND_MEMORY = 6,
    RACK_KIND_IO = 7,
    RACK_KIND_CHECK = 8,
    RACK_KIND_SEAT = 9,         /* a rack record: what a seat may write of a node that stands before it */
    RACK_KIND_SEAT_EVENT = 10,  /* an event: who acts from then on */
    RACK_KIND_REGISTERS = 11,   /* a rack record of files alone, after all others: the registers of a node */
    RACK_KIND_OLDER_BRIDGE = 13 /* a rack record: a bridge without 32-bit I/O, 64-bit prefetchable memory and VGA 16-bit decode */
};

/* Bridge control, a byte of a bridge's registers, and its bit 6, the secondary bus reset. A write that sets the bit puts every node below,
 * at every depth, back to reset; while it is set they are held there: they claim nothing and drive nothing, configuration finds none of
 * them, and an access that one of them starts is silent. The bridge keeps its own registers and goes on claiming. */
enum { RACK_CONTROL_AT = 0x3E, RACK_CONTROL_BUS_RESET = 0x40 };

/* The device and function of a special cycle: a configuration write to register 0 there, whatever its byte enables and data. */
enum { RACK_DEVFN_SPECIAL_CYCLE = 8 * 31 + 7 };

/* The bytes of each kind's body. */
enum {
    RACK_BODY_HOST = 16,               /* first and last address of host memory, 8 each */
    RACK_BODY_BRIDGE = 6,              /* parent, device number, vendor ID (2), device ID (2) */
    RACK_BODY_DEVICE = 12,             /* the same six, then three regions of kind and exponent */
    RACK_BODY_CONFIGURATION_WRITE = 8, /* bus, device times 8 plus function, register, byte enables, data (4) */
    RACK_BODY_CONFIGURATION_READ = 3,  /* bus, device times 8 plus function, register */
    RACK_BODY_MEMORY = 10,             /* initiator, 0 read or 1 write, address (8) */
    RACK_BODY_IO = 6,                  /* initiator, 0 read or 1 write, address (4) */
    RACK_BODY_CHECK = 0,
    RACK_BODY_SEAT = 4,       /* seat, node, mask (2): bit i for the dword at register 4 i */
    RACK_BODY_SEAT_EVENT = 1, /* seat */
    RACK_BODY_REGISTERS = 65, /* node, its 64 registers */
    RACK_BODY_OLDER_BRIDGE = 6 /* as a bridge's */
};

/* Refusals, in the order in which they are looked for, but that a call gives 18 straight after 12; 'files alone' is in rackrun and
 * rack_open. */
enum {
    RACK_REFUSED_TOO_LONG = 1,         /* more than 65,536 bytes of rack or file */
    RACK_REFUSED_KIND = 2,             /* not 1 to 3, 9 or 13 in a rack, 1 to 11 or 13 in a file, 4 to 8 or 10 in an event; no event byte */
    RACK_REFUSED_CUT_SHORT = 3,        /* a record cut short; an event of another length than its own */
    RACK_REFUSED_HOST = 4,             /* no record, a first one that is no host, or a second host */
    RACK_REFUSED_AFTER_EVENT = 5,      /* files alone: a rack record after an event, or a node or seat record after a register record */
    RACK_REFUSED_TOO_MANY = 6,         /* a 33rd bridge, of both kinds together, or a 65th device */
    RACK_REFUSED_PARENT = 7,           /* a parent that is neither 255 nor an earlier bridge */
    RACK_REFUSED_DEVICE = 8,           /* a device number above 15 */
    RACK_REFUSED_DEVICE_TAKEN = 9,     /* a device number that is taken on its bus */
    RACK_REFUSED_REGION = 10,          /* a region's kind or exponent out of range */
    RACK_REFUSED_IMAGE_LENGTH = 11,    /* an image that is not 64 times its node count long; last of all, a buffer too short for the file */
    RACK_REFUSED_FIXED_BIT = 12,       /* a fixed bit that differs from its reset value */
    RACK_REFUSED_FIELD = 13,           /* a field of the event out of range, or a node or window that is missing */
    RACK_REFUSED_SEAT_RECORD = 14,     /* a seat record for no earlier node, no seat 1 to 15, or a pair that is named already */
    RACK_REFUSED_SEAT = 15,            /* a seat other than 0 without a record, as the acting seat or in a seat event */
    RACK_REFUSED_REGISTERS_NODE = 16,  /* files alone: a register record for a missing node, or for one not above the one before */
    RACK_REFUSED_REGISTERS_VALUE = 17, /* files alone: a register record that equals reset, or changes a fixed bit */
    RACK_REFUSED_HELD = 18,            /* a held node that is not at reset; in a file it is that node's register record */
    RACK_REFUSED_ARBITER = 20          /* rack_grant alone: a bit above 9, or a state that names a place its ring lacks */
};

/* answer[0] says how an event ended; the comment says what answer[1] and the following hold then. The rest is 0. A holder is the node
 * whose bus it is. */
enum {
    RACK_ENDED_DATA = 1,      /* crossings, the dword that was read */
    RACK_ENDED_STORED = 2,    /* crossings */
    RACK_ENDED_OWNER = 3,     /* crossings, node, region, offset in the region */
    RACK_ENDED_HOST = 4,      /* crossings, offset from the host's first address */
    RACK_ENDED_UNCLAIMED = 5, /* crossings, holder, one of RACK_OUTCOME_.. */
    RACK_ENDED_CLASH = 6,     /* crossings, holder, the first two claimants */
    RACK_ENDED_SILENT = 7,    /* nothing: the initiator may not drive its bus, or is held */
    RACK_ENDED_PASS = 8,      /* nothing: no two agents claim one address */
    RACK_ENDED_FAULT = 9,     /* holder, one of RACK_SPACE_.., the address or bus number, driver, the first two claimants */
    RACK_ENDED_DENIED = 10,   /* crossings: the seat may not write that register of the node it reached, and nothing was stored */
    RACK_ENDED_SEAT = 11,     /* the seat that a seat event names; the next call has to be told */
    RACK_ENDED_SPECIAL = 12   /* crossings, holder: a special cycle, which changes no register */
};

/* What became of an access that nobody claimed. */
enum {
    RACK_OUTCOME_ABORT = 0,       /* master abort: it had crossed no bridge */
    RACK_OUTCOME_DONE = 1,        /* done all the same by the last bridge */
    RACK_OUTCOME_TARGET_ABORT = 2 /* target abort by the last bridge */
};

/* Where the check found a fault. */
enum { RACK_SPACE_MEMORY = 0, RACK_SPACE_IO = 1, RACK_SPACE_CONFIGURATION = 2 };

/* The windows of a bridge of either kind for rack_window. A device's regions have their own numbers, 0 to 2. */
enum { RACK_WINDOW_MEMORY = 0, RACK_WINDOW_PREFETCHABLE = 1, RACK_WINDOW_IO = 2 };

/* The places of an arbiter's rings are its members, 0 to 9, and these. */
enum {
    RACK_PLACE_LOW = 10, /* the whole low group, last in the high ring, also where the group is empty */
    RACK_PLACE_NONE = 15 /* of a state: none granted yet */
};

/* answer[0] of rack_grant; the comment says what follows: the state after it. */
enum {
    RACK_GRANT_MEMBER = 1, /* the member granted, high, low */
    RACK_GRANT_NOBODY = 2  /* high, low: nobody requests, and the state is as it was */
};

/* One event (a record of kind 4 to 8 or 10) on the rack by the acting seat: how it ends, and both images as it leaves them. A seat event
 * changes nothing: the call keeps no seat, so its caller passes the new one next time.
 *
 * A write that is stored changes registers of the node that it reached; one that leaves RACK_CONTROL_BUS_RESET set in a bridge puts all
 * nodes below it to reset too, also those that the seat may not write. */
uint8_t rack_run(const uint8_t *rack, size_t rack_count, uint8_t seat, const uint8_t *event, size_t event_count, uint8_t *bridges,
                 size_t bridges_count, uint8_t *devices, size_t devices_count, uint64_t answer[RACK_ANSWER_NUMBERS]);

/* The check of the rack with these registers: RACK_ENDED_PASS or RACK_ENDED_FAULT. */
uint8_t rack_check(const uint8_t *rack, size_t rack_count, const uint8_t *bridges, size_t bridges_count, const uint8_t *devices,
                   size_t devices_count, uint64_t answer[RACK_ANSWER_NUMBERS]);

/* Fills both images with the values at reset, whatever they held: nothing is held then. Refused by 1 to 4, 6 to 10, 11 and 14. */
uint8_t rack_reset(const uint8_t *rack, size_t rack_count, uint8_t *bridges, size_t bridges_count, uint8_t *devices,
                   size_t devices_count);

/* Writes the rack with these registers to `buffer` as a rack file; answer[0] is how many bytes it has, at most RACK_MOST_SAVED_BYTES.
 *
 * The file has one form: the host (without memory as first 1, last 0), the nodes, the seat records by seat and then node, and by node a
 * register record for each node that differs from reset, so none for a node that is held. So two racks with equal content have the same
 * file, byte for byte. What stands in the buffer past the file stays.
 *
 * Refused by 1 to 4, 6 to 10, 11, 12, 18 and 14, and then by 11 where the buffer is too short. */
uint8_t rack_save(const uint8_t *rack, size_t rack_count, const uint8_t *bridges, size_t bridges_count, const uint8_t *devices,
                  size_t devices_count, uint8_t *buffer, size_t buffer_count, uint64_t answer[RACK_ANSWER_NUMBERS]);

/* Takes a whole rack file apart, saved or not, with its register records and events, and fills both images with the registers that a
 * run of it starts from: those of the register records, and reset for every other node. No event is run.
 *
 * answer[0] is how many bytes stand before the first register record or event: the rack that the other calls take. answer[1] is the
 * count of bridges and answer[2] that of devices.
 *
 * Refused as a file is, by 1 to 10 and 13 to 18, its events too, and then by 11. With 11 both counts are given all the same, and
 * answer[0] is 0: a caller that does not know how long the images have to be asks first with images of no bytes. */
uint8_t rack_open(const uint8_t *file, size_t file_count, uint8_t *bridges, size_t bridges_count, uint8_t *devices,
                  size_t devices_count, uint64_t answer[RACK_ANSWER_NUMBERS]);

/* Both ends of window k of a bridge or of region k of a device: answer[0] is 1, answer[1] the first address and answer[2] the last; or
 * all is 0 where the window is empty or the device has no such region.
 *
 * Base and limit alone are decoded, of a region its base and size. Nothing else counts: not command bits 0, 1 and 2, which say whether
 * anyone claims at all, not ISA enable, which cuts holes into an I/O window, and not VGA enable, which adds addresses outside. */
uint8_t rack_window(const uint8_t *rack, size_t rack_count, const uint8_t *bridges, size_t bridges_count, const uint8_t *devices,
                    size_t devices_count, uint8_t node, uint8_t k, uint64_t answer[RACK_ANSWER_NUMBERS]);

/* One step of a bus arbiter. `mask` has a bit for each member of the high group, the others are the low group; `requests` has one for
 * each member that requests. `high` and `low` are the state: what each ring granted last. The high ring is the high members by number
 * and then RACK_PLACE_LOW, the low ring the low members by number; both begin at RACK_PLACE_NONE, and the next call is given the state
 * that this one gave.
 *
 * A grant goes to the next requesting place after the last one granted, going round; the low place hands it to the next low member after
 * the last low one. With H high and L low members, a member that keeps requesting is granted within H + 1 grants if it is high and
 * (H + 1) times L if it is low. */
uint8_t rack_grant(uint16_t mask, uint16_t requests, uint8_t high, uint8_t low, uint64_t answer[RACK_ANSWER_NUMBERS]);

/* What a refusal means, in words; for any other number, that it is none. */
static inline const char *rack_refusal_text(unsigned refusal)
{
    switch (refusal) {
    case 0: return "accepted";
    case RACK_REFUSED_TOO_LONG: return "the rack is longer than 65,536 bytes";
    case RACK_REFUSED_KIND: return "a record's kind is unknown, or none that may stand here";
    case RACK_REFUSED_CUT_SHORT: return "a record is cut short, or the event has another length than its own";
    case RACK_REFUSED_HOST: return "the host record is missing or stands twice";
    case RACK_REFUSED_AFTER_EVENT: return "a rack record follows an event, or a node or seat record follows a register record";
    case RACK_REFUSED_TOO_MANY: return "there is a 33rd bridge or a 65th device";
    case RACK_REFUSED_PARENT: return "a parent is neither the root bus nor an earlier bridge";
    case RACK_REFUSED_DEVICE: return "a device number is above 15";
    case RACK_REFUSED_DEVICE_TAKEN: return "a device number is taken on its bus";
    case RACK_REFUSED_REGION: return "a region's kind or exponent is out of range";
    case RACK_REFUSED_IMAGE_LENGTH: return "an image has the wrong length, or the buffer is too short for the file";
    case RACK_REFUSED_FIXED_BIT: return "a fixed register bit differs from its reset value";
    case RACK_REFUSED_FIELD: return "a field is out of range, or names what is not there";
    case RACK_REFUSED_SEAT_RECORD: return "a seat record names no earlier node, no seat from 1 to 15, or a seat and node that are named already";
    case RACK_REFUSED_SEAT: return "the seat has no record";
    case RACK_REFUSED_REGISTERS_NODE: return "a register record names a node that is missing, or not above the one before";
    case RACK_REFUSED_REGISTERS_VALUE: return "a register record has its node's reset values, or changes a fixed bit";
    case RACK_REFUSED_HELD: return "below a bridge whose bus reset (bridge control bit 6) is set, a register differs from its reset value";
    case RACK_REFUSED_ARBITER: return "a mask or request set has a bit above 9, or a state names a place its ring lacks";
    default: return "no refusal has this number";
    }
}

#ifdef __cplusplus
}
#endif

#endif
