/*
 * What the program begins with, for glibc 2.17 and later: the toolchain's own start asks for 2.34. tools/release.py compiles it
 * by the toolchain, without a header of the system, and links it into the released program behind the toolchain's Scrt1.o.
 *
 * - It starts by the call that each glibc has, which runs no constructors before 2.34.
 * - It defines the two newer functions that the program calls, of glibc 2.28 and 2.33, as glibc does.
 * - It takes the stack that the program needs. Else the stack could not grow once lists had taken all memory that a limit
 *   leaves, and the program would end by a signal, where it can say `no memory`.
 */

typedef unsigned int u32;
typedef unsigned long u64;

/* The numbers of Linux on x86-64, and of POSIX. */
enum { NEWFSTATAT = 262, STATX = 332, NO_SUCH_CALL = 38 };
enum { READ_WRITE = 3, PRIVATE_ANONYMOUS = 0x22, STACK_LIMIT = 3, STANDARD_ERROR = 2 };
enum { BASIC_FIELDS = 0x7ff };
/* The program's status where memory is wanting. */
enum { NO_MEMORY = 3 };
/* What the stack is to have, in bytes: half as much again as the deepest call takes. A limit of the stack that leaves less
   than four times this is let be. */
enum { STACK = 512 * 1024 };

typedef void constructor(int, char **, char **);
typedef int program(int, char **, char **);

extern int *__errno_location(void);
extern long syscall(long, ...);
extern long write(int, const void *, u64);
extern void *mmap(void *, u64, int, int, int, long);
extern int munmap(void *, u64);
extern int getrlimit(int, u64[2]);
extern void _exit(int) __attribute__((noreturn));
extern int start_of_old(program *, int, char **, constructor *, void (*)(void), void (*)(void), void *);
__asm__(".symver start_of_old, __libc_start_main@GLIBC_2.2.5");

extern constructor *__init_array_start[] __attribute__((visibility("hidden")));
extern constructor *__init_array_end[] __attribute__((visibility("hidden")));

/* Lets the stack grow to what the program needs, or ends the program where there is no room. */
static void grow_stack(void)
{
    u64 limits[2];
    if (getrlimit(STACK_LIMIT, limits) != 0 || limits[0] < 4UL * STACK)
        return;
    /* a stack that can't grow is a signal, so a mapping of the size tells first */
    void *room = mmap(0, STACK, READ_WRITE, PRIVATE_ANONYMOUS, -1, 0);
    if (room == (void *)-1) {
        write(STANDARD_ERROR, "no memory\n", 10);
        _exit(NO_MEMORY);
    }
    munmap(room, STACK);
    __asm__ volatile("subq %0, %%rsp\n\torq $0, (%%rsp)\n\taddq %0, %%rsp" : : "i"(STACK) : "memory", "cc");
}

/* Takes the stack, and runs the constructors. */
static void construct(int count, char **words, char **environment)
{
    grow_stack();
    for (constructor **it = __init_array_start; it != __init_array_end; it++)
        (*it)(count, words, environment);
}

/* What Scrt1.o calls. */
__attribute__((visibility("hidden"))) int __libc_start_main(program *main, int count, char **words, constructor *none,
                                                            void (*nothing)(void), void (*at_end)(void), void *stack)
{
    (void)none;
    return start_of_old(main, count, words, construct, nothing, at_end, stack);
}

struct moment {
    long seconds;
    u32 nanoseconds, spare;
};

/* What statx fills (linux/stat.h). */
struct found {
    u32 mask, block_size;
    u64 attributes;
    u32 links, user, group;
    unsigned short mode, spare;
    u64 inode, size, blocks, attributes_mask;
    struct moment accessed, made, changed, modified;
    u32 device_of_major, device_of_minor, device_major, device_minor;
    u64 others[14];
};

/* What newfstatat fills (asm/stat.h). */
struct older {
    u64 device, inode, links;
    u32 mode, user, group, spare;
    u64 device_of, size, block_size, blocks;
    u64 accessed[2], modified[2], changed[2];
    u64 others[3];
};

static u32 major_of(u64 device)
{
    return device >> 8 & 0xfff;
}

static u32 minor_of(u64 device)
{
    return (device & 0xff) | (device >> 12 & 0xfff00);
}

static struct moment moment_of(const u64 parts[2])
{
    return (struct moment){parts[0], parts[1], 0};
}

/* What is known of a file; before Linux 4.11 by the call that was there. */
__attribute__((visibility("hidden"))) int statx(int folder, const char *path, int flags, u32 mask, struct found *found)
{
    struct older old;
    if (syscall(STATX, folder, path, flags, mask, found) == 0)
        return 0;
    if (*__errno_location() != NO_SUCH_CALL || syscall(NEWFSTATAT, folder, path, &old, flags) != 0)
        return -1;
    *found = (struct found){
        .mask = BASIC_FIELDS, .block_size = old.block_size, .links = old.links, .user = old.user, .group = old.group,
        .mode = old.mode, .inode = old.inode, .size = old.size, .blocks = old.blocks, .accessed = moment_of(old.accessed),
        .changed = moment_of(old.changed), .modified = moment_of(old.modified), .device_of_major = major_of(old.device_of),
        .device_of_minor = minor_of(old.device_of), .device_major = major_of(old.device), .device_minor = minor_of(old.device),
    };
    return 0;
}

/* What the processor has, as glibc tells it: four words of the leaf of cpuid, and the same as they can be used. */
struct features {
    u32 had[4], usable[4];
};

/* Of the first leaf of cpuid (0), and of the first extended one (2), in which `main` looks for what is compiled for. All
   that it looks for can be used where it is there. */
__attribute__((visibility("hidden"))) const struct features *__x86_get_cpuid_feature_leaf(u32 leaf)
{
    static struct features known[3];
    u32 *it = known[leaf].had;
    __asm__("cpuid" : "=a"(it[0]), "=b"(it[1]), "=c"(it[2]), "=d"(it[3]) : "a"(leaf == 0 ? 1 : 0x80000001), "c"(0));
    for (int place = 0; place < 4; place++)
        known[leaf].usable[place] = it[place];
    return &known[leaf];
}
