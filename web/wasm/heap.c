// The heap of the module: what the library's `Global` calls (rattle_alloc, rattle_realloc, rattle_dealloc), and rooms for
// the bytes that the page hands over (page_room). Nothing proves this file: it stands where malloc stands elsewhere.
//
// Blocks come in classes, four to each power of two, so a block is at most a quarter larger than what was asked for. Each
// class keeps a list of its free blocks. Where none is free, the memory grows by pages of 64 KiB; where the engine refuses
// that, the call answers that there is no memory, and the checker tells so.
typedef unsigned long long u64;

// As the backend declares the answer of an allocation: whether there was memory, and where.
typedef struct {
    u64 ok;
    void *at;
} Taken;

// What stands before each block. Blocks are aligned to 16 bytes, and so is what follows this.
typedef struct Block {
    u64 class;
    struct Block *next;
} Block;

#define PAGE 65536ULL
#define STEP_PAGES 64ULL           // at least 4 MiB at a time, where that can be had
#define MOST (1ULL << 40)          // no larger block is asked of the engine
#define CLASSES 160                // up to size_of_class(159), above MOST

extern unsigned char __heap_base;

static Block *free_blocks[CLASSES];
static u64 next, end, in_use, most_in_use;

// The sizes of the classes: 16, 20, 24, 28, 32, 40, ..
static u64 size_of_class(u64 class) {
    return (4 + (class & 3)) << (class >> 2) << 2;
}

// The first class with blocks of this size; the size is at most MOST.
static u64 class_of(u64 size) {
    if (size <= 16) return 0;
    u64 class = (63 - (u64)__builtin_clzll(size - 1) - 4) * 4;
    while (size_of_class(class) < size) class++;
    return class;
}

// Grows the memory by so many pages. (An engine with 32-bit memory fails with 2^32 - 1, one with 64-bit memory with -1.)
static _Bool grow(u64 pages) {
    if ((unsigned)__builtin_wasm_memory_grow(0, pages) == ~0u) return 0;
    end += pages * PAGE;
    return 1;
}

static void *take(u64 size) {
    if (size > MOST) return 0;
    u64 class = class_of(size);
    Block *block = free_blocks[class];
    if (block) {
        free_blocks[class] = block->next;
    } else {
        u64 whole = (sizeof(Block) + size_of_class(class) + 15) & ~15ULL;
        if (!next) {
            next = ((u64)&__heap_base + 15) & ~15ULL;
            end = __builtin_wasm_memory_size(0) * PAGE;
        }
        if (end - next < whole) {
            u64 pages = (whole - (end - next) + PAGE - 1) / PAGE;
            if (!(pages < STEP_PAGES && grow(STEP_PAGES)) && !grow(pages)) return 0;
        }
        block = (Block *)next;
        next += whole;
        block->class = class;
    }
    in_use += size_of_class(class);
    if (in_use > most_in_use) most_in_use = in_use;
    return block + 1;
}

static void give_back(void *at) {
    if (!at) return;
    Block *block = (Block *)at - 1;
    in_use -= size_of_class(block->class);
    block->next = free_blocks[block->class];
    free_blocks[block->class] = block;
}

Taken rattle_alloc(u64 size, u64 align) {
    void *at = take(size);
    return (Taken){at != 0, at ? at : (void *)16};
}

Taken rattle_realloc(void *at, u64 kept, u64 size, u64 align) {
    Block *block = (Block *)at - 1;
    if (size <= MOST && class_of(size) == block->class) return (Taken){1, at};
    void *other = take(size);
    if (!other) return (Taken){0, at};
    __builtin_memcpy(other, at, kept);
    give_back(at);
    return (Taken){1, other};
}

void rattle_dealloc(void *at) {
    give_back(at);
}

// A room of so many bytes for the page; 0 where there is no memory. It lasts as long as the instance.
void *page_room(u64 size) {
    return take(size);
}

// How many bytes of blocks are taken, and the most that were at any time.
u64 page_in_use(void) {
    return in_use;
}

u64 page_most_in_use(void) {
    return most_in_use;
}
