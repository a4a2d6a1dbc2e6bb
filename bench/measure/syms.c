// Reads a System.map over and over, as a plain loop in C does.
//
// usage: syms FILE TIMES [table]
//
// Each line is checked to be a row, its address is made of its digits, and these are summed up. With `table` an address is
// put behind those of its name in a hash table of all names. It prints the rows, or the names, of the last time.
#include <stdint.h>
#include <stdio.h>
#include <stdlib.h>
#include <string.h>

struct entry {
    const unsigned char *name;
    size_t length;
    uint64_t first, *rest;
    size_t count, room;
};

struct table {
    struct entry *entries;
    uint32_t *slots; // an entry's index and 1, or 0
    size_t count, room, mask;
};

static void *must(void *memory) {
    if (!memory)
        exit(5);
    return memory;
}

static uint64_t hash_of(const unsigned char *name, size_t length) {
    uint64_t hash = 0xcbf29ce484222325;
    for (size_t i = 0; i < length; i++)
        hash = (hash ^ name[i]) * 0x100000001b3;
    return hash ^ hash >> 32;
}

// A table with room for the names of a map of this length.
static struct table table_for(size_t size) {
    struct table t = {.room = 1024};
    while (t.room < size / 40)
        t.room *= 2;
    t.mask = 2 * t.room - 1;
    t.entries = must(malloc(t.room * sizeof *t.entries));
    t.slots = must(calloc(2 * t.room, sizeof *t.slots));
    return t;
}

static void add(struct table *t, const unsigned char *name, size_t length, uint64_t address) {
    size_t at = hash_of(name, length) & t->mask;
    for (; t->slots[at]; at = (at + 1) & t->mask) {
        struct entry *e = &t->entries[t->slots[at] - 1];
        if (e->length == length && memcmp(e->name, name, length) == 0) {
            if (e->count == e->room) {
                e->room = e->room ? 2 * e->room : 4;
                e->rest = must(realloc(e->rest, e->room * sizeof *e->rest));
            }
            e->rest[e->count++] = address;
            return;
        }
    }
    if (t->count == t->room)
        exit(6); // a map of shorter rows than there are
    t->slots[at] = t->count + 1;
    t->entries[t->count++] = (struct entry){.name = name, .length = length, .first = address};
}

// Whether a line is a row, and its address.
static int is_row(const unsigned char *line, size_t length, uint64_t *address) {
    if (length < 20)
        return 0;
    uint64_t number = 0;
    for (int i = 0; i < 16; i++) {
        unsigned char c = line[i];
        if (c >= '0' && c <= '9')
            number = number << 4 | (c - '0');
        else if (c >= 'a' && c <= 'f')
            number = number << 4 | (c - 'a' + 10);
        else
            return 0;
    }
    unsigned char kind = line[17];
    int is_kind = (kind >= 'A' && kind <= 'Z') || (kind >= 'a' && kind <= 'z') || kind == '?';
    if (line[16] != ' ' || !is_kind || line[18] != ' ')
        return 0;
    for (size_t i = 19; i < length; i++)
        if (line[i] < 0x21 || line[i] > 0x7e)
            return 0;
    *address = number;
    return 1;
}

static long read_map(const unsigned char *bytes, size_t size, int tabled) {
    struct table t = {0};
    if (tabled)
        t = table_for(size);
    volatile uint64_t told;
    uint64_t sum = 0;
    long rows = 0;
    for (const unsigned char *at = bytes, *end = bytes + size; at < end; rows++) {
        const unsigned char *stop = at;
        while (stop < end && *stop != '\n')
            stop++;
        size_t length = stop - at;
        if (stop < end && length && at[length - 1] == '\r')
            length--;
        uint64_t address;
        if (!is_row(at, length, &address))
            exit(2);
        if (tabled)
            add(&t, at + 19, length - 19, address);
        sum += address;
        at = stop < end ? stop + 1 : end;
    }
    told = sum;
    (void)told;
    for (size_t i = 0; i < t.count; i++)
        free(t.entries[i].rest);
    free(t.entries);
    free(t.slots);
    return tabled ? (long)t.count : rows;
}

int main(int argc, char **argv) {
    FILE *file = argc > 2 ? fopen(argv[1], "rb") : NULL;
    if (!file)
        return 1;
    fseek(file, 0, SEEK_END);
    size_t size = ftell(file);
    rewind(file);
    unsigned char *bytes = must(malloc(size + 1));
    if (fread(bytes, 1, size, file) != size)
        return 1;
    long last = 0;
    for (int times = atoi(argv[2]); times > 0; times--)
        last = read_map(bytes, size, argc > 3);
    printf("%ld\n", last);
    return 0;
}
