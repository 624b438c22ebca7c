/* The heap of the WebAssembly module, in place of the C library's: blocks of the module's own memory. Rattle's standard
   library calls the three functions at the end; the host calls malloc and free for what it passes.

   A block has 16 bytes before it, with its class. A class is a size, and there are four to a doubling. A block that was
   freed lies in the list of its class and is given again; else one is cut from the end of what is used, and the memory
   grows. Blocks are neither split nor joined, and nothing goes back to the host before the instance is given up. */
typedef __SIZE_TYPE__ size_t;

enum { HEAD = 16, SMALLEST = 32, CLASSES = 160, PAGE = 65536 };

/* No block has more bytes. */
static const size_t LARGEST = (size_t)1 << 40;

extern unsigned char __heap_base;

/* The heads of the blocks that were freed, by class. */
static unsigned char *freed[CLASSES];
/* What is used lies before `next`, what the module has before `end`; 0 before the first call. */
static size_t next, end;
/* The memory never grows past so many bytes. */
static size_t most = (size_t)-1;

/* The bytes of a block of this class, with its head: 32, 48, 48, 64, 64, 80, .. */
static size_t size_of(size_t class)
{
    return (((4 + (class & 3)) << (3 + (class >> 2))) + 15) & ~(size_t)15;
}

/* The smallest class of a block with room for so many bytes. */
static size_t class_of(size_t bytes)
{
    size_t whole = bytes + HEAD, class;

    if (whole <= SMALLEST)
        return 0;
    class = (size_t)(63 - __builtin_clzl(whole - 1) - 5) * 4;
    while (size_of(class) < whole)
        class++;
    return class;
}

/* Whether the memory grows by so many pages: as far as it may, and the host has them. */
static bool grows(size_t pages)
{
    size_t bytes = pages * PAGE;

    if (bytes > most || end > most - bytes || __builtin_wasm_memory_grow(0, pages) == (size_t)-1)
        return false;
    end += bytes;
    return true;
}

/* Whether the memory has, or gets, so many bytes behind `next`. A host may copy all of it where it grows, so it grows by
   a quarter, where it can; else a large heap would take time by the square of its size. */
static bool has_room(size_t bytes)
{
    size_t pages, quarter;

    if (next == 0) {
        next = ((size_t)&__heap_base + 15) & ~(size_t)15;
        end = __builtin_wasm_memory_size(0) * PAGE;
    }
    if (bytes <= end - next)
        return true;
    pages = (bytes - (end - next) + PAGE - 1) / PAGE;
    quarter = end / PAGE / 4;
    return (quarter > pages && grows(quarter)) || grows(pages);
}

void *malloc(size_t bytes)
{
    size_t class;
    unsigned char *head;

    if (bytes > LARGEST)
        return nullptr;
    class = class_of(bytes);
    head = freed[class];
    if (head != nullptr) {
        freed[class] = *(unsigned char **)(head + HEAD);
        return head + HEAD;
    }
    if (!has_room(size_of(class)))
        return nullptr;
    head = (unsigned char *)next;
    next += size_of(class);
    *(size_t *)head = class;
    return head + HEAD;
}

void free(void *block)
{
    unsigned char *head = (unsigned char *)block - HEAD;
    size_t class;

    if (block == nullptr)
        return;
    class = *(size_t *)head;
    *(unsigned char **)block = freed[class];
    freed[class] = head;
}

/* A block with room for so many bytes, which has what fits of the old one; that one is gone then. The old one is given
   again where it is large enough, and less than twice as large. */
static void *moved(void *block, size_t bytes)
{
    size_t class = *(size_t *)((unsigned char *)block - HEAD), room = size_of(class) - HEAD;
    void *to;

    if (bytes <= room && class_of(bytes) + 4 >= class)
        return block;
    to = malloc(bytes);
    if (to == nullptr)
        return nullptr;
    __builtin_memcpy(to, block, bytes < room ? bytes : room);
    free(block);
    return to;
}

/* From here on the memory does not grow past so many bytes. */
void limit(size_t bytes)
{
    most = bytes;
}

/* What Rattle's standard library asks of a heap: whether there was memory, and where. Blocks lie at multiples of 16, which
   is as much as it asks for. A block of no bytes has as many as its alignment. */
struct found {
    bool ok;
    void *at;
};

static unsigned char nothing[16] __attribute__((aligned(16)));

static struct found found(void *block)
{
    return (struct found){block != nullptr, block != nullptr ? block : nothing};
}

struct found rattle_alloc(size_t bytes, size_t alignment)
{
    return found(alignment <= 16 ? malloc(bytes != 0 ? bytes : alignment) : nullptr);
}

struct found rattle_realloc(void *block, size_t kept, size_t bytes, size_t alignment)
{
    (void)kept;
    return found(alignment <= 16 ? moved(block, bytes != 0 ? bytes : alignment) : nullptr);
}

void rattle_dealloc(void *block)
{
    free(block);
}
