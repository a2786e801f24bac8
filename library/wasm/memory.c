/* What a WebAssembly module lacks without a C library: memory, in blocks whose sizes are powers of two, which are kept by their sizes
 * once they are let go, with pages that the module asks its host for as they are needed; copies; and products and quotients of 128 bits. */
#include "stdbool.h"
#include "stdint.h"
#include "stdlib.h"

/* What stands before a block. */
struct head {
    uint64_t power;
    struct head *next; /* of a block that was let go: the one that was before it */
};

_Static_assert(sizeof(struct head) == 16, "blocks begin at multiples of 16");

enum { LEAST = 5, MOST = 40, PAGE = 65536 };

extern unsigned char __heap_base;

static struct head *kept[MOST + 1];
static uintptr_t unused, end;

static uint64_t power_of(size_t size)
{
    uint64_t power = LEAST;
    while (((size_t)1 << power) < size)
        power += 1;
    return power;
}

/* Makes room for so many bytes behind `unused`. */
static int make_room(size_t size)
{
    if (unused == 0) {
        unused = ((uintptr_t)&__heap_base + 15) / 16 * 16;
        end = __builtin_wasm_memory_size(0) * PAGE;
    }
    if (end - unused >= size)
        return 1;
    size_t pages = (size - (end - unused) + PAGE - 1) / PAGE;
    if (__builtin_wasm_memory_grow(0, pages) == (size_t)-1)
        return 0;
    end += pages * PAGE;
    return 1;
}

void *malloc(size_t size)
{
    if (size > ((size_t)1 << MOST) - sizeof(struct head))
        return NULL;
    uint64_t power = power_of(size + sizeof(struct head));
    struct head *head = kept[power];
    if (head != NULL) {
        kept[power] = head->next;
        return head + 1;
    }
    if (!make_room((size_t)1 << power))
        return NULL;
    head = (struct head *)unused;
    unused += (size_t)1 << power;
    head->power = power;
    return head + 1;
}

void free(void *at)
{
    if (at == NULL)
        return;
    struct head *head = (struct head *)at - 1;
    head->next = kept[head->power];
    kept[head->power] = head;
}

void *memcpy(void *restrict to, const void *restrict from, size_t length)
{
    unsigned char *t = to;
    const unsigned char *f = from;
    for (size_t i = 0; i < length; i++)
        t[i] = f[i];
    return to;
}

void *memmove(void *to, const void *from, size_t length)
{
    unsigned char *t = to;
    const unsigned char *f = from;
    if (t < f)
        for (size_t i = 0; i < length; i++)
            t[i] = f[i];
    else
        for (size_t i = length; i > 0; i--)
            t[i - 1] = f[i - 1];
    return to;
}

void *memset(void *at, int value, size_t length)
{
    unsigned char *t = at;
    for (size_t i = 0; i < length; i++)
        t[i] = (unsigned char)value;
    return at;
}

int memcmp(const void *left, const void *right, size_t length)
{
    const unsigned char *l = left, *r = right;
    for (size_t i = 0; i < length; i++)
        if (l[i] != r[i])
            return l[i] < r[i] ? -1 : 1;
    return 0;
}

void *realloc(void *at, size_t size)
{
    if (at == NULL)
        return malloc(size);
    struct head *head = (struct head *)at - 1;
    size_t had = ((size_t)1 << head->power) - sizeof(struct head);
    if (size <= had)
        return at;
    void *moved = malloc(size);
    if (moved == NULL)
        return NULL;
    memcpy(moved, at, had);
    free(at);
    return moved;
}

/* The product of two numbers of 128 bits, which clang asks for by this name. It is that of four halves, without such a product. */
__int128 __multi3(__int128 left, __int128 right);

__int128 __multi3(__int128 left, __int128 right)
{
    const uint64_t half = 0xffffffff;
    uint64_t l = (uint64_t)left, r = (uint64_t)right;
    uint64_t low = (l & half) * (r & half);
    uint64_t middle = (l >> 32) * (r & half) + (low >> 32);
    uint64_t other = (l & half) * (r >> 32) + (middle & half);
    uint64_t high = (l >> 32) * (r >> 32) + (middle >> 32) + (other >> 32);
    high += (uint64_t)(left >> 64) * r + l * (uint64_t)(right >> 64);
    low = (other << 32) | (low & half);
    return (__int128)(((unsigned __int128)high << 64) | low);
}

/* The quotient of two such numbers, bit by bit, of halves, since clang asks for the shifts of whole ones too. By zero nothing
 * divides. */
unsigned __int128 __udivti3(unsigned __int128 left, unsigned __int128 right);

unsigned __int128 __udivti3(unsigned __int128 left, unsigned __int128 right)
{
    uint64_t l[2] = {(uint64_t)left, (uint64_t)(left >> 64)}, r[2] = {(uint64_t)right, (uint64_t)(right >> 64)};
    uint64_t quotient[2] = {0, 0}, rest[2] = {0, 0};
    for (int bit = 127; bit >= 0; bit--) {
        bool carries = rest[1] >> 63;
        rest[1] = (rest[1] << 1) | (rest[0] >> 63);
        rest[0] = (rest[0] << 1) | ((l[bit / 64] >> (bit % 64)) & 1);
        if (carries || rest[1] > r[1] || (rest[1] == r[1] && rest[0] >= r[0])) {
            rest[1] -= r[1] + (rest[0] < r[0]);
            rest[0] -= r[0];
            quotient[bit / 64] |= (uint64_t)1 << (bit % 64);
        }
    }
    return ((unsigned __int128)quotient[1] << 64) | quotient[0];
}
