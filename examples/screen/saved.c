#include "saved.h"

#include "show.h"
#include "words.h"

#include <errno.h>
#include <inttypes.h>
#include <stdio.h>
#include <string.h>

/* The file that was read last. */
static struct {
    uint8_t bytes[RACK_MOST_BYTES + 1]; /* one byte more, so that a file that is too long is seen */
    size_t count;
} file;

/* Null, or why it cannot be read. */
static const char *read_file(const char *name)
{
    FILE *from = fopen(name, "rb");
    if (from == NULL) {
        return strerror(errno);
    }
    file.count = fread(file.bytes, 1, sizeof file.bytes, from);
    const char *why = ferror(from) ? strerror(errno) : NULL;
    fclose(from);
    return why;
}

static bool load_file(struct chassis *c)
{
    uint8_t refusal = load(c, file.bytes, file.count);
    if (refusal != 0) {
        show_refusal(refusal);
    }
    return refusal == 0;
}

static void show_trouble(const char *name, const char *trouble, const char *why)
{
    show_word(name);
    printf(" %s: %s\n", trouble, why);
}

static bool write_file(const char *name, const uint8_t *bytes, size_t count)
{
    FILE *to = fopen(name, "wb");
    if (to == NULL) {
        show_trouble(name, "cannot be written", strerror(errno));
        return false;
    }
    bool is_written = fwrite(bytes, 1, count, to) == count;
    is_written = fclose(to) == 0 && is_written; /* a full disk may show only now */
    if (!is_written) {
        show_trouble(name, "could not be written whole", strerror(errno));
        printf("  do not open it: a part of a rack file can be another rack\n");
    }
    return is_written;
}

/* The nodes that differ from reset, which are those that a saved rack has registers of. */
static unsigned count_changed(const struct chassis *c)
{
    static struct chassis at_reset;
    unsigned count = 0;
    at_reset = *c;
    reset(&at_reset);
    for (unsigned i = 0; i < c->nodes; i++) {
        count += memcmp(registers_of(c, i), registers_of(&at_reset, i), RACK_NODE_BYTES) != 0;
    }
    return count;
}

static void show_content(const struct chassis *c)
{
    unsigned changed = count_changed(c);
    if (changed == 0) {
        printf("the rack, with every register at reset\n");
    } else {
        printf("the rack, with the registers of %u of its %u %s\n", changed, c->nodes, c->nodes == 1 ? "node" : "nodes");
    }
}

bool begin_with(struct chassis *c, const char *name)
{
    const char *why = read_file(name);
    if (why != NULL) {
        fprintf(stderr, "%s: %s\n", name, why);
    }
    return why == NULL && load_file(c);
}

void open_rack(struct chassis *c, const char *name)
{
    const char *why = read_file(name);
    if (why != NULL) {
        show_trouble(name, "cannot be read", why);
    }
    if (why != NULL || !load_file(c)) {
        printf("  the present rack stays\n");
        return;
    }
    printf("opened ");
    show_word(name);
    printf(": ");
    show_content(c);
    show_tree(c);
}

void save_rack(const struct chassis *c, const char *name)
{
    static uint8_t saved[RACK_MOST_SAVED_BYTES];
    uint64_t answer[RACK_ANSWER_NUMBERS];
    uint8_t refusal =
        rack_save(c->rack, c->count, c->bridges, c->bridge_bytes, c->devices, c->device_bytes, saved, sizeof saved, answer);
    if (refusal != 0) {
        show_refusal(refusal);
        return;
    }
    if (write_file(name, saved, (size_t)answer[0])) {
        printf("saved as ");
        show_word(name);
        printf(", %" PRIu64 " bytes: ", answer[0]);
        show_content(c);
    }
}
