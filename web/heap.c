/* The heap of the module for wasm64: blocks of powers of two, with a list of free ones for each, above the module's own data. The three
 * functions that the kit's Global calls stand on it. Nothing of it is proved. */
typedef unsigned long u64;
typedef struct { u64 ok; u64 at; } answer;

enum { HEAD = 16, LEAST = 5, CLASSES = 40, PAGE = 65536, GROWTH = 16 };

extern unsigned char __heap_base;
static u64 top, limit;
static void *free_blocks[CLASSES];

/* The power of two of a block that holds so many bytes. */
static int class_of(u64 size)
{
    int power = LEAST;
    while (power < CLASSES && ((u64)1 << power) < size + HEAD)
        power++;
    return power;
}

/* Whether so many bytes more stand in the memory, which grows where they don't. */
static int has_room(u64 size)
{
    u64 pages;
    if (!top) {
        top = ((u64)&__heap_base + HEAD - 1) & ~(u64)(HEAD - 1);
        limit = __builtin_wasm_memory_size(0) * PAGE;
    }
    if (top + size <= limit)
        return 1;
    pages = (top + size - limit + PAGE - 1) / PAGE;
    if (__builtin_wasm_memory_grow(0, pages + GROWTH) != (u64)-1)
        pages += GROWTH;
    else if (__builtin_wasm_memory_grow(0, pages) == (u64)-1)
        return 0;
    limit += pages * PAGE;
    return 1;
}

void *malloc(u64 size)
{
    int power = class_of(size);
    u64 at;
    if (power >= CLASSES)
        return 0;
    if (free_blocks[power]) {
        void *block = free_blocks[power];
        free_blocks[power] = *(void **)block;
        return block;
    }
    if (!has_room((u64)1 << power))
        return 0;
    at = top;
    top += (u64)1 << power;
    *(u64 *)at = (u64)power;
    return (void *)(at + HEAD);
}

void free(void *block)
{
    int power;
    if (!block)
        return;
    power = (int)*(u64 *)((u64)block - HEAD);
    *(void **)block = free_blocks[power];
    free_blocks[power] = block;
}

answer rattle_alloc(u64 size, u64 align)
{
    u64 at = (u64)malloc(size ? size : align);
    return (answer){at != 0, at};
}

void rattle_dealloc(void *block)
{
    free(block);
}

answer rattle_realloc(void *block, u64 old, u64 size, u64 align)
{
    u64 wanted = size ? size : align, other;
    int power = (int)*(u64 *)((u64)block - HEAD);
    if (wanted + HEAD <= (u64)1 << power && wanted * 4 >= (u64)1 << power)
        return (answer){1, (u64)block};
    other = (u64)malloc(wanted);
    if (!other)
        return (answer){0, 0};
    __builtin_memcpy((void *)other, block, old < wanted ? old : wanted);
    free(block);
    return (answer){1, other};
}
