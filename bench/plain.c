/* The yardsticks of plain.h, in an object file of their own so that no compiler folds them into the loops that time them. */
#include <stdlib.h>
#include "plain.h"
#include "rakmolthi.h"

static const uint32_t masks[33] = {
    0x00000000, 0x80000000, 0xc0000000, 0xe0000000, 0xf0000000, 0xf8000000, 0xfc000000, 0xfe000000, 0xff000000, 0xff800000, 0xffc00000,
    0xffe00000, 0xfff00000, 0xfff80000, 0xfffc0000, 0xfffe0000, 0xffff0000, 0xffff8000, 0xffffc000, 0xffffe000, 0xfffff000, 0xfffff800,
    0xfffffc00, 0xfffffe00, 0xffffff00, 0xffffff80, 0xffffffc0, 0xffffffe0, 0xfffffff0, 0xfffffff8, 0xfffffffc, 0xfffffffe, 0xffffffff};

static int is_direct(uint32_t cell, uint32_t longest) {
    uint32_t hop = cell / 64;
    return hop >= 1 && hop <= 32767 && cell % 64 <= longest;
}

static uint32_t verdict(uint32_t cell, uint32_t longest) {
    if (cell == 0) return 8u << 22;
    return is_direct(cell, longest) ? cell % 64 << 16 | cell / 64 : 4u << 22;
}

uint32_t plain_look_up(const uint8_t *first, size_t first_bytes, const uint8_t *long_table, size_t long_bytes, uint32_t base,
                       uint32_t base_length, uint32_t address) {
    if (first_bytes % 4 || long_bytes % 4) return 1u << 22;
    size_t first_cells = first_bytes / 4, long_cells = long_bytes / 4;
    if (base_length > 24) return 1u << 22;
    uint32_t mask = masks[base_length];
    if ((base & mask) != base) return 1u << 22;
    if (first_cells != (size_t)1 << (24 - base_length)) return 1u << 22;
    if (long_cells % 256 || long_cells > 8388608) return 1u << 22;
    if ((address & mask) != base) return 3u << 22;
    uint32_t cell = ((const uint32_t *)first)[(address - base) / 256];
    if (cell < POINTER) return verdict(cell, 24);
    uint32_t segment = cell - POINTER;
    if (segment >= long_cells / 256) return 4u << 22;
    return verdict(((const uint32_t *)long_table)[(size_t)segment * 256 + address % 256], 32);
}

void plain_look_up_all(const uint32_t *first, const uint32_t *long_table, const uint32_t *addresses, uint32_t *answers, size_t count) {
    for (size_t i = 0; i < count; i++) {
        uint32_t cell = first[addresses[i] >> 8];
        if (cell >= POINTER) cell = long_table[(size_t)(cell - POINTER) * 256 + (addresses[i] & 255)];
        answers[i] = cell % 64 << 16 | cell / 64;
    }
}

void plain_add(const uint32_t *answers, const uint64_t *amounts, uint64_t *octets, size_t count) {
    for (size_t i = 0; i < count; i++) {
        uint32_t code = RK_CODE(answers[i]);
        if (code == RK_OK || code == RK_NO_ROUTE) octets[RK_HOP(answers[i])] += amounts[i];
    }
}

/* qsort hands its comparison nothing but two elements. */
static const uint64_t *all_octets, *all_cents;

static int kind_of(uint32_t hop) { return all_octets[hop] ? 1 : all_cents[hop] ? 0 : 2; }

static int dearer(const void *p, const void *q) {
    uint32_t a = *(const uint32_t *)p, b = *(const uint32_t *)q;
    int k = kind_of(a), l = kind_of(b);
    if (k != l) return k < l ? -1 : 1;
    if (k == 1) {
        double x = (double)all_cents[a] / (double)all_octets[a], y = (double)all_cents[b] / (double)all_octets[b];
        if (x != y) return x > y ? -1 : 1;
    } else if (all_cents[a] != all_cents[b]) {
        return all_cents[a] > all_cents[b] ? -1 : 1;
    }
    return a < b ? -1 : a > b;
}

void plain_sheet(const uint64_t *octets, const uint64_t *cents, uint32_t *hops) {
    all_octets = octets, all_cents = cents;
    for (uint32_t hop = 1; hop <= RK_HOPS; hop++) hops[hop - 1] = hop;
    qsort(hops, RK_HOPS, sizeof *hops, dearer);
}

/* Cents are at most 2^53, so a double holds them as well as a rate. */
struct line {
    double by;
    uint32_t kind, hop;
};

static int dearer_line(const void *p, const void *q) {
    const struct line *a = p, *b = q;
    if (a->kind != b->kind) return a->kind < b->kind ? -1 : 1;
    if (a->by != b->by) return a->by > b->by ? -1 : 1;
    return a->hop < b->hop ? -1 : a->hop > b->hop;
}

void plain_sheet_of_lines(const uint64_t *octets, const uint64_t *cents, uint32_t *hops) {
    static struct line lines[RK_HOPS];
    for (uint32_t hop = 1; hop <= RK_HOPS; hop++) {
        struct line line = {octets[hop] ? (double)cents[hop] / (double)octets[hop] : (double)cents[hop], 0, hop};
        line.kind = octets[hop] ? 1 : cents[hop] ? 0 : 2;
        lines[hop - 1] = line;
    }
    qsort(lines, RK_HOPS, sizeof *lines, dearer_line);
    for (uint32_t i = 0; i < RK_HOPS; i++) hops[i] = lines[i].hop;
}

size_t plain_form(const uint64_t *rules, size_t count, uint32_t base, uint32_t base_length) {
    size_t live = 0;
    for (uint64_t low = 0; live < count; live++) {
        uint64_t word = rules[live];
        uint32_t address = word >> 32, length = word >> 16 & 0xffff, hop = word & 0xffff;
        if (hop < 1 || hop > 32767 || length > 32 || length < base_length) break;
        if ((address & masks[length]) != address || (address & masks[base_length]) != base) break;
        if (word >> 16 < low) break;
        low = (word >> 16) + 1;
    }
    for (size_t i = live; i < count; i++)
        if (rules[i] != 0) return SIZE_MAX;
    return live;
}

int plain_clean(const uint32_t *first, size_t count) {
    for (size_t i = 0; i < count; i++)
        if (first[i] != 0 && !is_direct(first[i], 24)) return 0;
    return 1;
}

static uint32_t painted(uint32_t cell, uint32_t new, uint32_t length) { return cell == 0 || cell % 64 <= length ? new : cell; }

void plain_paint(uint32_t *first, size_t blocks, uint32_t *long_table, uint32_t new, uint32_t length) {
    for (size_t b = 0; b < blocks; b++) {
        if (first[b] < POINTER) {
            first[b] = painted(first[b], new, length);
        } else {
            uint32_t *segment = long_table + (size_t)(first[b] - POINTER) * 256;
            for (int i = 0; i < 256; i++) segment[i] = painted(segment[i], new, length);
        }
    }
}

static uint32_t unpainted(uint32_t cell, uint32_t other, uint32_t length) { return cell != 0 && cell % 64 == length ? other : cell; }

void plain_unpaint(uint32_t *first, size_t blocks, uint32_t *long_table, uint32_t other, uint32_t length) {
    for (size_t b = 0; b < blocks; b++) {
        if (first[b] < POINTER) {
            first[b] = unpainted(first[b], other, length);
        } else {
            uint32_t *segment = long_table + (size_t)(first[b] - POINTER) * 256;
            for (int i = 0; i < 256; i++) segment[i] = unpainted(segment[i], other, length);
        }
    }
}
