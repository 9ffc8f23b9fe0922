#include "arbiter.h"

#include "../../include/rack.h"
#include "show.h"

#include <inttypes.h>
#include <stdio.h>

/* The lesson: its groups, the state of both rings, and for each member how many grants have gone to others since it began to request. */
static struct {
    bool is_begun;
    uint16_t mask;
    uint8_t high, low;
    unsigned waited[RACK_MOST_REQUESTERS];
} lesson;

static bool has(uint16_t set, unsigned member) { return (set >> member & 1) != 0; }

static unsigned count_high(void)
{
    unsigned count = 0;
    for (unsigned i = 0; i < RACK_MOST_REQUESTERS; i++) {
        count += has(lesson.mask, i);
    }
    return count;
}

/* Within how many grants a member has its own, if it keeps requesting. Where all are high the low place never requests. */
static unsigned most_grants(unsigned member)
{
    unsigned high = count_high(), low = RACK_MOST_REQUESTERS - high;
    return has(lesson.mask, member) ? high + (low > 0) : (high + 1) * low;
}

static void show_place(const char *name, bool is_last) { printf(is_last ? " [%s]" : " %s", name); }

static void show_members(bool is_high, uint8_t last)
{
    for (unsigned i = 0; i < RACK_MOST_REQUESTERS; i++) {
        if (has(lesson.mask, i) == is_high) {
            show_place((char[]){(char)('0' + i), '\0'}, i == last);
        }
    }
}

/* Both rings in the order of their places, the one that was granted last in brackets. */
static void show_rings(void)
{
    printf("  high ring:");
    show_members(true, lesson.high);
    show_place("low", lesson.high == RACK_PLACE_LOW);
    printf("\n  low ring: ");
    show_members(false, lesson.low);
    puts(count_high() == RACK_MOST_REQUESTERS ? " nobody" : "");
}

static void show_waiting(uint16_t members, unsigned granted)
{
    for (unsigned i = 0; i < RACK_MOST_REQUESTERS; i++) {
        bool is_waiting = has(members, i) && i != granted;
        lesson.waited[i] = is_waiting ? lesson.waited[i] + 1 : 0;
        if (is_waiting) {
            printf("  member %u waits: %u %s to others so far, at most %u\n", i, lesson.waited[i], lesson.waited[i] == 1 ? "grant" : "grants",
                   most_grants(i) - 1);
        }
    }
}

void begin_arbiter(uint16_t high_members)
{
    lesson.is_begun = true;
    lesson.mask = high_members;
    lesson.high = lesson.low = RACK_PLACE_NONE;
    for (unsigned i = 0; i < RACK_MOST_REQUESTERS; i++) {
        lesson.waited[i] = 0;
    }
    show_rings();
}

void request(uint16_t members)
{
    uint64_t answer[RACK_ANSWER_NUMBERS];
    if (!lesson.is_begun) {
        printf("there is no arbiter yet: begin with its high members, as arbiter 025\n");
        return;
    }
    uint8_t refusal = rack_grant(lesson.mask, members, lesson.high, lesson.low, answer);
    if (refusal != 0) {
        show_refusal(refusal);
        return;
    }
    bool is_granted = answer[0] == RACK_GRANT_MEMBER;
    const uint64_t *state = &answer[is_granted ? 2 : 1];
    lesson.high = (uint8_t)state[0];
    lesson.low = (uint8_t)state[1];
    if (is_granted) {
        printf("member %" PRIu64 " is granted\n", answer[1]);
    } else {
        printf("nobody requests: no grant\n");
    }
    show_rings();
    show_waiting(members, is_granted ? (unsigned)answer[1] : RACK_PLACE_NONE);
}
