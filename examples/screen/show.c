#include "show.h"

#include "held.h"
#include "seat.h"

#include <inttypes.h>
#include <stdio.h>

void show_refusal(uint8_t number) { printf("refused, %u: %s\n", number, rack_refusal_text(number)); }

static const char *kind_name(const struct chassis *c, unsigned node)
{
    switch (c->node[node][0]) {
    case RACK_KIND_BRIDGE: return "bridge";
    case RACK_KIND_OLDER_BRIDGE: return "older bridge";
    default: return "card";
    }
}

void show_name(const struct chassis *c, uint64_t node)
{
    if (node == RACK_NODE_HOST) {
        printf("the host");
    } else {
        printf("%s %" PRIu64, kind_name(c, (unsigned)node), node);
    }
}

static void show_bus(const struct chassis *c, uint64_t holder)
{
    if (holder == RACK_NODE_HOST) {
        printf("the root bus");
    } else {
        bool is_held = bus_held_by(c, (unsigned)holder) != RACK_NODE_HOST;
        printf("the bus below bridge %" PRIu64 "%s", holder, is_held ? " (held at reset)" : "");
    }
}

static const char *window_name(uint8_t k)
{
    switch (k) {
    case RACK_WINDOW_MEMORY: return "memory";
    case RACK_WINDOW_PREFETCHABLE: return "prefetchable";
    default: return "I/O";
    }
}

static void show_window(const struct chassis *c, unsigned node, uint8_t k, int indent)
{
    uint64_t answer[RACK_ANSWER_NUMBERS];
    uint8_t refusal =
        rack_window(c->rack, c->count, c->bridges, c->bridge_bytes, c->devices, c->device_bytes, (uint8_t)node, k, answer);
    if (refusal != 0) {
        show_refusal(refusal);
        return;
    }
    if (!is_bridge(c, node) && answer[0] == 0) {
        return; /* a card without this region */
    }
    printf("%*s", indent, "");
    if (is_bridge(c, node)) {
        printf("%-12s ", window_name(k));
    } else {
        printf("region %u     ", k);
    }
    if (answer[0] == 0) {
        printf("empty\n");
    } else {
        printf("%016" PRIX64 " to %016" PRIX64 "\n", answer[1], answer[2]);
    }
}

static void show_node(const struct chassis *c, unsigned node, int depth)
{
    const uint8_t *n = c->node[node];
    const uint8_t *vendor = &n[AT_VENDOR_ID], *device = &n[AT_DEVICE_ID];
    printf("%*s%s %u, device %02X (%02X%02X:%02X%02X)", 2 * depth, "", kind_name(c, node), node, n[AT_DEVICE], vendor[1], vendor[0],
           device[1], device[0]);
    show_mark(c, node);
    putchar('\n');
    for (uint8_t k = 0; k < RACK_NODE_WINDOWS; k++) {
        show_window(c, node, k, 2 * depth + 4);
    }
    show_held_bus(c, node, 2 * depth + 4);
    show_grants(c, node, 2 * depth + 4);
}

/* The nodes on the bus of a holder, and below each bridge its own. Ends: a bridge's parent has a lower number. */
static void show_below(const struct chassis *c, unsigned holder, int depth)
{
    for (unsigned i = 0; i < c->nodes; i++) {
        if (c->node[i][AT_PARENT] != holder) {
            continue;
        }
        show_node(c, i, depth);
        if (is_bridge(c, i)) {
            show_below(c, i, depth + 1);
        }
    }
}

void show_tree(const struct chassis *c) { show_below(c, RACK_NODE_HOST, 0); }

void show_crossings(uint64_t crossings)
{
    if (crossings == 0) {
        printf(" without crossing a bridge\n");
    } else {
        printf(" after crossing %" PRIu64 " %s\n", crossings, crossings == 1 ? "bridge" : "bridges");
    }
}

static void show_claimants(const struct chassis *c, uint64_t first, uint64_t second)
{
    show_name(c, first);
    printf(" and ");
    show_name(c, second);
    printf(" both claim");
}

static const char *outcome_name(uint64_t outcome)
{
    switch (outcome) {
    case RACK_OUTCOME_ABORT: return "master abort";
    case RACK_OUTCOME_DONE: return "done all the same";
    default: return "target abort";
    }
}

static void show_fault(const struct chassis *c, const uint64_t a[RACK_ANSWER_NUMBERS])
{
    printf("fault on ");
    show_bus(c, a[1]);
    printf(": ");
    show_claimants(c, a[5], a[6]);
    if (a[2] == RACK_SPACE_CONFIGURATION) {
        printf(" bus number %02" PRIX64, a[3]);
    } else {
        printf(" %s address %016" PRIX64, a[2] == RACK_SPACE_IO ? "I/O" : "memory", a[3]);
    }
    printf(" when ");
    show_name(c, a[4]);
    printf(" drives it\n");
}

void show_answer(const struct chassis *c, const uint64_t a[RACK_ANSWER_NUMBERS])
{
    switch (a[0]) {
    case RACK_ENDED_DATA:
        printf("read %08" PRIX64, a[2]);
        show_crossings(a[1]);
        break;
    case RACK_ENDED_STORED:
        printf("stored");
        show_crossings(a[1]);
        break;
    case RACK_ENDED_OWNER:
        printf("reached card %" PRIu64 ", region %" PRIu64 ", offset %016" PRIX64, a[2], a[3], a[4]);
        show_crossings(a[1]);
        break;
    case RACK_ENDED_HOST:
        printf("reached host memory, offset %016" PRIX64, a[2]);
        show_crossings(a[1]);
        break;
    case RACK_ENDED_UNCLAIMED:
        printf("unclaimed on ");
        show_bus(c, a[2]);
        printf(", %s,", outcome_name(a[3]));
        show_crossings(a[1]);
        break;
    case RACK_ENDED_CLASH:
        printf("clash on ");
        show_bus(c, a[2]);
        printf(": ");
        show_claimants(c, a[3], a[4]);
        printf(" it,");
        show_crossings(a[1]);
        break;
    case RACK_ENDED_SPECIAL:
        printf("special cycle on ");
        show_bus(c, a[2]);
        show_crossings(a[1]);
        break;
    case RACK_ENDED_SEAT:
        printf("seat %" PRIu64 " acts from now on\n", a[1]);
        break;
    case RACK_ENDED_PASS:
        printf("pass: no two parties claim one address\n");
        break;
    case RACK_ENDED_FAULT:
        show_fault(c, a);
        break;
    default:
        printf("an answer that this screen does not know: %" PRIu64 "\n", a[0]);
    }
}

static void show_bytes(const struct chassis *c, const struct chassis *before, unsigned node)
{
    const uint8_t *now = registers_of(c, node), *then = registers_of(before, node);
    for (unsigned at = 0; at < RACK_NODE_BYTES; at++) {
        if (now[at] != then[at]) {
            printf("  ");
            show_name(c, node);
            printf(", register %02X: %02X is now %02X\n", at, then[at], now[at]);
        }
    }
}

void show_changes(const struct chassis *c, const struct chassis *before)
{
    for (unsigned i = 0; i < c->nodes; i++) {
        if (!show_node_change(c, before, i)) {
            show_bytes(c, before, i);
            show_bus_change(c, before, i);
        }
    }
}

void show_registers(const struct chassis *c, unsigned node)
{
    const uint8_t *registers = registers_of(c, node);
    for (unsigned at = 0; at < RACK_NODE_BYTES; at++) {
        if (at % 16 == 0) {
            printf("  %02X:", at);
        }
        printf("%c%02X%s", is_marked(c, node, at) ? '*' : ' ', registers[at], at % 16 == 15 ? "\n" : "");
    }
    show_legend(c, node);
    show_hold(c, node);
}
