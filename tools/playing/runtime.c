/* What the program asks of its surroundings, for WebAssembly: memory, files by the page that it runs in, and sums of 128 bits.

   The program's module names the functions of a C library, of Rattle's own C (rattle_alloc and others) and of the compiler (__multi3
   and others). Each is here, in 64 bits. Files, words and the streams are the page's, by the functions imported from "host". */
typedef unsigned char byte;
typedef unsigned int word;
typedef unsigned long size;
typedef long signed_size;

/* Memory: blocks up to 128 KiB are rounded up to a power of two and kept, once freed, in a list for their size; larger ones are whole
   pages of WebAssembly, kept in one list. Before each block stands its size. The program asks for few blocks, most of them once. */
enum { PAGE = 65536, SMALL = 131072, LEAST_ORDER = 5, ORDERS = 18 };

struct block {
    size whole;
    struct block *next;
};

extern byte __heap_base;
static byte *top, *end;
static struct block *freed[ORDERS];
static struct block *freed_large;

void *memset(void *to, int value, size count) { return __builtin_memset(to, value, count); }
void *memcpy(void *to, const void *from, size count) { return __builtin_memcpy(to, from, count); }
void *memmove(void *to, const void *from, size count) { return __builtin_memmove(to, from, count); }

int memcmp(const void *left, const void *right, size count)
{
    const byte *one = left, *other = right;
    for (size at = 0; at < count; at++)
        if (one[at] != other[at])
            return one[at] < other[at] ? -1 : 1;
    return 0;
}

static struct block *fresh(size whole)
{
    if (!top) {
        top = (byte *)(((size)&__heap_base + 15) & ~(size)15);
        end = (byte *)(__builtin_wasm_memory_size(0) * PAGE);
    }
    if ((size)(end - top) < whole) {
        size pages = (whole - (size)(end - top) + PAGE - 1) / PAGE;
        if (__builtin_wasm_memory_grow(0, pages) == (size)-1)
            return 0;
        end += pages * PAGE;
    }
    struct block *made = (struct block *)top;
    made->whole = whole;
    top += whole;
    return made;
}

static struct block *taken_large(size whole)
{
    for (struct block **at = &freed_large; *at; at = &(*at)->next) {
        struct block *found = *at;
        if (found->whole >= whole && found->whole / 2 <= whole) {
            *at = found->next;
            return found;
        }
    }
    return fresh(whole);
}

static int order_of(size whole)
{
    int order = LEAST_ORDER;
    while (((size)1 << order) < whole)
        order++;
    return order;
}

static void *malloc(size count)
{
    struct block *found;
    if (count > (size)1 << 32)
        return 0;
    size whole = count + sizeof(struct block);
    if (whole > SMALL) {
        found = taken_large((whole + PAGE - 1) / PAGE * PAGE);
    } else {
        int order = order_of(whole);
        found = freed[order];
        if (found)
            freed[order] = found->next;
        else
            found = fresh((size)1 << order);
    }
    return found ? found + 1 : 0;
}

static void free(void *place)
{
    struct block *old = (struct block *)place - 1;
    struct block **list = old->whole > SMALL ? &freed_large : &freed[order_of(old->whole)];
    old->next = *list;
    *list = old;
}

/* Rattle's C: an allocation is answered by whether there was memory, and where. */
struct tried {
    size is_made;
    void *place;
};
static byte nothing;

static struct tried tried(void *place)
{
    return (struct tried){place != 0, place ? place : &nothing};
}

struct tried rattle_alloc(size count, size align)
{
    return align <= 16 ? tried(malloc(count)) : tried(0);
}

struct tried rattle_realloc(void *place, size kept, size count, size align)
{
    size room = ((struct block *)place)[-1].whole - sizeof(struct block);
    if (align <= 16 && count <= room)
        return tried(place);
    struct tried made = rattle_alloc(count, align);
    if (made.is_made) {
        memcpy(made.place, place, kept < count ? kept : count);
        free(place);
    }
    return made;
}

void rattle_dealloc(void *place) { free(place); }

/* Files and words. The host answers a count, or a number of an error below 0. */
#define FROM_HOST(name) __attribute__((import_module("host"), import_name(#name)))
FROM_HOST(open) int host_open(const byte *path, size count);
FROM_HOST(close) void host_close(int file);
FROM_HOST(read) signed_size host_read(int file, byte *to, size count);
FROM_HOST(write) signed_size host_write(int file, const byte *from, size count);
FROM_HOST(word) signed_size host_word(size at, byte *to, size count);

static int number_of_error;

int rattle_errno(void) { return number_of_error; }
void rattle_set_errno(int number) { number_of_error = number; }

static signed_size told(signed_size answer)
{
    if (answer >= 0)
        return answer;
    number_of_error = (int)-answer;
    return -1;
}

int open(const byte *path, int flags, ...)
{
    size count = 0;
    (void)flags;
    while (path[count])
        count++;
    return (int)told(host_open(path, count));
}

int close(int file)
{
    host_close(file);
    return 0;
}

signed_size read(int file, byte *to, size count) { return told(host_read(file, to, count)); }
signed_size write(int file, const byte *from, size count) { return told(host_write(file, from, count)); }
signed_size __write(int file, const byte *from, size count) { return write(file, from, count); }
signed_size rattle_arg(size at, byte *to, size count) { return host_word(at, to, count); }

/* The environment is empty. */
signed_size rattle_env(const byte *name, byte *to, size count)
{
    (void)name, (void)to, (void)count;
    return -1;
}

signed_size rattle_env_at(size at, byte *to, size count)
{
    (void)at, (void)to, (void)count;
    return -1;
}

/* No number of an error has a text here; 22 says that. */
int __xpg_strerror_r(int number, byte *to, size count)
{
    (void)number, (void)to, (void)count;
    return 22;
}

/* A proved program asks at its start whether the processor is one of those that it was built for. This one has what it asks for, since
   what would need such a processor was replaced; and no signal comes here. */
static const word every_feature[] = {-1u, -1u, -1u, -1u, -1u, -1u, -1u, -1u, -1u, -1u, -1u, -1u};

const void *__x86_get_cpuid_feature_leaf(int leaf)
{
    (void)leaf;
    return every_feature;
}

signed_size __sysv_signal(int signal, signed_size handler)
{
    (void)signal, (void)handler;
    return 0;
}

/* What the compiler calls for numbers of 128 bits. */
typedef unsigned __int128 wide;

static wide joined(size high, size low) { return ((wide)high << 64) | low; }
static size high_of(wide number) { return (size)(number >> 64); }

wide __ashlti3(wide number, int by)
{
    size low = (size)number, high = high_of(number);
    if (by == 0)
        return number;
    return by < 64 ? joined(high << by | low >> (64 - by), low << by) : joined(low << (by - 64), 0);
}

wide __lshrti3(wide number, int by)
{
    size low = (size)number, high = high_of(number);
    if (by == 0)
        return number;
    return by < 64 ? joined(high >> by, low >> by | high << (64 - by)) : joined(0, high >> (by - 64));
}

static wide product(size left, size right)
{
    size left_low = (word)left, left_high = left >> 32, right_low = (word)right, right_high = right >> 32;
    size low = left_low * right_low, high = left_high * right_high;
    size one = left_low * right_high, other = left_high * right_low;
    size middle = (low >> 32) + (word)one + (word)other;
    return joined(high + (one >> 32) + (other >> 32) + (middle >> 32), middle << 32 | (word)low);
}

wide __multi3(wide left, wide right)
{
    wide low = product((size)left, (size)right);
    return joined(high_of(low) + (size)left * high_of(right) + high_of(left) * (size)right, (size)low);
}

static wide divided(wide number, wide by, wide *rest)
{
    size whole_high = 0, whole_low = 0;
    wide left = 0;
    for (int bit = 127; bit >= 0; bit--) {
        size next = bit >= 64 ? high_of(number) >> (bit - 64) : (size)number >> bit;
        left = joined(high_of(left) << 1 | (size)left >> 63, (size)left << 1 | (next & 1));
        whole_high = whole_high << 1 | whole_low >> 63;
        whole_low <<= 1;
        if (left >= by) {
            left -= by;
            whole_low |= 1;
        }
    }
    *rest = left;
    return joined(whole_high, whole_low);
}

wide __udivti3(wide number, wide by)
{
    wide rest;
    return divided(number, by, &rest);
}

wide __umodti3(wide number, wide by)
{
    wide rest;
    divided(number, by, &rest);
    return rest;
}
