// Walks the inodes of a Linux dump as a plain program would, for comparison: the same reads and checks as kaudit's plans `inodes`
// and `pages`, over a mapped file, with a table of 4096 translations. With `taken` it also keeps which words each structure took, as
// one bit for each word of the file, and tests that none is taken twice; without it, structures that share words go unnoticed.
//
// usage: floor VMCORE START TABLE inodes|pages plain|taken OFFSETS..
// START is the ring of super blocks, TABLE the physical top table. It prints the elements of the three audits, and the least
// seconds of nine walks, or of as many as the environment's RUNS says.
#include <fcntl.h>
#include <stdint.h>
#include <stdio.h>
#include <stdlib.h>
#include <string.h>
#include <sys/mman.h>
#include <sys/stat.h>
#include <time.h>
#include <unistd.h>

enum { NEXT, PREV, H_NEXT, H_PPREV, S_LIST, S_INODES, I_SB_LIST, I_DENTRY, D_ALIAS, I_PAGES, XA_HEAD, SHIFT, OFFSET, COUNT, VALUES, PARENT, ARRAY, SLOTS, OFFSETS };
enum { PLACES = 4096 };

static const unsigned char *file;
static uint64_t segments[64][3], table, at[OFFSETS];
static unsigned segment_count;
static uint64_t *taken, list[1 << 20], listed;
static struct { uint64_t page; const unsigned char *bytes; } kept[PLACES];

static uint64_t number(const unsigned char *bytes) {
    uint64_t value;
    memcpy(&value, bytes, 8);
    return value;
}

static void broken(const char *what, uint64_t where) {
    fprintf(stderr, "%s at %llx\n", what, (unsigned long long)where);
    exit(1);
}

static const unsigned char *physical(uint64_t pa, uint64_t size) {
    for (unsigned i = 0; i < segment_count; i++)
        if (segments[i][1] <= pa && pa + size <= segments[i][1] + segments[i][2]) return file + segments[i][0] + (pa - segments[i][1]);
    broken("no memory", pa);
    return 0;
}

static const unsigned char *page_of(uint64_t va) {
    uint64_t entry = table;
    for (int shift = 39; shift >= 12; shift -= 9) {
        entry = number(physical((entry & 0xffffffffff000) + ((va >> shift & 511) << 3), 8));
        if (!(entry & 1)) broken("no page", va);
        if (shift > 12 && shift < 39 && (entry & 128)) {
            uint64_t below = ((uint64_t)1 << shift) - 1;
            return physical(((entry & 0xffffffffff000 & ~below) | (va & below)) & ~(uint64_t)4095, 4096);
        }
    }
    return physical(entry & 0xffffffffff000, 4096);
}

static const unsigned char *bytes_at(uint64_t va) {
    uint64_t page = va >> 12, place = page % PLACES;
    if (kept[place].page != page) {
        kept[place].bytes = page_of(va);
        kept[place].page = page;
    }
    return kept[place].bytes + (va & 4095);
}

static uint64_t word(uint64_t va) {
    if (va & 7) broken("not aligned", va);
    return number(bytes_at(va));
}

// The words of a structure, from where the list stood as it began.
static void take(uint64_t va) {
    if (!taken) return;
    uint64_t place = (bytes_at(va) - file) / 8, bit = (uint64_t)1 << place % 64;
    if (taken[place / 64] & bit) broken("taken twice", va);
    taken[place / 64] |= bit;
    if (listed == sizeof list / 8) broken("too many words", va);
    list[listed++] = place;
}

static void give_back(uint64_t from) {
    while (listed > from) {
        uint64_t place = list[--listed];
        taken[place / 64] &= ~((uint64_t)1 << place % 64);
    }
}

static uint64_t names(uint64_t head) {
    uint64_t count = 0, began = listed, from = head, node = word(head);
    take(head);
    while (node) {
        take(node + at[H_NEXT]);
        take(node + at[H_PPREV]);
        if (word(node + at[H_PPREV]) != from) broken("pprev", node);
        from = node + at[H_NEXT];
        node = word(from);
        count++;
    }
    give_back(began);
    return count;
}

static uint64_t entries(uint64_t node, unsigned shift) {
    uint64_t count = 0, values = 0, found = 0;
    take(node + at[SHIFT]);
    take(node + at[PARENT]);
    take(node + at[ARRAY]);
    for (unsigned slot = 0; slot < 64; slot++) {
        uint64_t entry = word(node + at[SLOTS] + 8 * slot);
        take(node + at[SLOTS] + 8 * slot);
        if (!entry) continue;
        count++;
        values += entry & 1;
        if ((entry & 3) == 2 && entry > 4096 && shift) {
            uint64_t child = entry - 2;
            if (word(child + at[PARENT]) != node) broken("parent", child);
            if (word(child + at[ARRAY]) != word(node + at[ARRAY])) broken("array", child);
            if (bytes_at(child)[at[OFFSET]] != slot || bytes_at(child)[at[SHIFT]] != shift - 6) broken("place", child);
            found += entries(child, shift - 6);
        } else if (!(entry & 3)) found++;
    }
    if (bytes_at(node)[at[COUNT]] != count || bytes_at(node)[at[VALUES]] != values) broken("count", node);
    return found;
}

static uint64_t pages(uint64_t array) {
    uint64_t entry = word(array + at[XA_HEAD]), began = listed, found;
    if (!entry) return 0;
    if ((entry & 3) != 2) return !(entry & 3);
    take(array + at[XA_HEAD]);
    if (word(entry - 2 + at[PARENT])) broken("parent", entry - 2);
    if (word(entry - 2 + at[ARRAY]) != array) broken("array", entry - 2);
    found = entries(entry - 2, bytes_at(entry - 2)[at[SHIFT]]);
    give_back(began);
    return found;
}

static uint64_t walk(uint64_t start, int with_pages, uint64_t *inodes, uint64_t *supers) {
    uint64_t found = 0;
    *inodes = *supers = listed = 0;
    for (uint64_t before = start, super = word(start + at[NEXT]); ; before = super, super = word(super + at[NEXT])) {
        if (word(super + at[PREV]) != before) broken("prev", super);
        if (super == start) break;
        ++*supers;
        take(super + at[NEXT]);
        take(super + at[PREV]);
        uint64_t head = super - at[S_LIST] + at[S_INODES];
        for (uint64_t last = head, node = word(head + at[NEXT]); ; last = node, node = word(node + at[NEXT])) {
            if (word(node + at[PREV]) != last) broken("prev", node);
            if (node == head) break;
            ++*inodes;
            take(node + at[NEXT]);
            take(node + at[PREV]);
            uint64_t inode = node - at[I_SB_LIST];
            found += with_pages ? pages(inode + at[I_PAGES]) : names(inode + at[I_DENTRY]);
        }
    }
    return found;
}

int main(int count, char **words) {
    int descriptor = count == 6 + OFFSETS ? open(words[1], O_RDONLY) : -1;
    struct stat told;
    if (descriptor < 0 || fstat(descriptor, &told)) return 2;
    file = mmap(0, told.st_size, PROT_READ, MAP_PRIVATE, descriptor, 0);
    if (file == MAP_FAILED) return 2;
    uint64_t header = number(file + 32);
    for (unsigned i = 0; i < (file[56] | file[57] << 8) && segment_count < 64; i++, header += 56)
        if (file[header] == 1) {
            segments[segment_count][0] = number(file + header + 8);
            segments[segment_count][1] = number(file + header + 24);
            segments[segment_count++][2] = number(file + header + 32);
        }
    uint64_t start = strtoull(words[2], 0, 16), found = 0, inodes, supers;
    table = strtoull(words[3], 0, 16);
    for (int i = 0; i < OFFSETS; i++) at[i] = strtoull(words[6 + i], 0, 10);
    if (!strcmp(words[5], "taken") && !(taken = calloc(told.st_size / 512 + 1, 8))) return 2;
    double least = 1e9;
    int runs = getenv("RUNS") ? atoi(getenv("RUNS")) : 9;
    for (int run = 0; run < runs; run++) {
        struct timespec began, ended;
        memset(kept, 0, sizeof kept);
        give_back(0);
        clock_gettime(CLOCK_MONOTONIC, &began);
        found = walk(start, !strcmp(words[4], "pages"), &inodes, &supers);
        clock_gettime(CLOCK_MONOTONIC, &ended);
        double seconds = ended.tv_sec - began.tv_sec + (ended.tv_nsec - began.tv_nsec) / 1e9;
        if (seconds < least) least = seconds;
    }
    printf("%llu %llu %llu %.6f\n", (unsigned long long)supers, (unsigned long long)inodes, (unsigned long long)found, least);
    return 0;
}
