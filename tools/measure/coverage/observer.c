/* Notes which functions of a program are entered, and which way each of its conditional jumps goes. It is loaded before the program
 * (LD_PRELOAD). `program.py` makes the table of the places: the entry of each function and each jump. A trap is put there. At an entry
 * the trap is noted and taken out. At a jump the way that it goes is noted and gone. The trap is taken out when both ways were seen, or
 * when the process met it MOST times, since long runs would take too long. All processes share what is noted, and no trap is put where
 * nothing is left to note. Without a table the program runs as it is.
 *
 * It also counts the allocations of the program, and refuses the one of the number that is asked for. */
#define _GNU_SOURCE
#include <errno.h>
#include <fcntl.h>
#include <link.h>
#include <signal.h>
#include <stdint.h>
#include <stdlib.h>
#include <sys/mman.h>
#include <sys/stat.h>
#include <ucontext.h>
#include <unistd.h>

enum { ENTRY = 16, TRAP = 0xcc, PAGE = 4096, MOST = 1000 };
/* Bits of what was seen at a place. */
enum { ENTERED = 1, NOT_TAKEN = 1, TAKEN = 2, BOTH = 3 };

/* `at` and `target` are addresses in the file, `condition` is that of a jump or ENTRY, and `first` is the byte where the trap is put. */
struct place {
    uint32_t at, target;
    uint8_t length, condition, first, unused;
};

void *__libc_malloc(size_t size);
void *__libc_realloc(void *memory, size_t size);

static const struct place *places;
static size_t count;
static uint8_t *seen, *base;
static uint16_t *met;
static uint64_t *counted, allocations, refused;

static int holds(int condition, greg_t flags)
{
    int carry = flags & 1, parity = flags >> 2 & 1, zero = flags >> 6 & 1, sign = flags >> 7 & 1, overflow = flags >> 11 & 1;
    int by_number[] = {overflow, carry, zero, carry | zero, sign, parity, sign != overflow, zero | (sign != overflow)};
    return by_number[condition >> 1] ^ (condition & 1);
}

static size_t place_at(uint32_t at)
{
    size_t low = 0, high = count;
    while (low < high) {
        size_t middle = (low + high) / 2;
        if (places[middle].at < at)
            low = middle + 1;
        else
            high = middle;
    }
    return low < count && places[low].at == at ? low : count;
}

static void on_trap(int number, siginfo_t *info, void *context)
{
    greg_t *registers = ((ucontext_t *)context)->uc_mcontext.gregs;
    uint8_t *at = (uint8_t *)registers[REG_RIP] - 1;
    size_t found = place_at(at - base);
    (void)number, (void)info;
    if (found == count)
        abort();
    const struct place *place = &places[found];
    if (place->condition == ENTRY) {
        seen[found] = ENTERED;
        *at = place->first;
        registers[REG_RIP] = (greg_t)at;
        return;
    }
    int taken = holds(place->condition, registers[REG_EFL]);
    seen[found] |= taken ? TAKEN : NOT_TAKEN;
    if (seen[found] == BOTH || ++met[found] == MOST)
        *at = place->first;
    registers[REG_RIP] = (greg_t)(taken ? base + place->target : at + place->length);
}

static int is_refused(void)
{
    allocations++;
    if (counted)
        *counted = allocations;
    if (allocations != refused)
        return 0;
    errno = ENOMEM;
    return 1;
}

void *malloc(size_t size)
{
    return is_refused() ? NULL : __libc_malloc(size);
}

void *realloc(void *memory, size_t size)
{
    return is_refused() ? NULL : __libc_realloc(memory, size);
}

/* The first object is the program. */
static int find_code(struct dl_phdr_info *info, size_t size, void *code)
{
    size_t *bounds = code;
    (void)size;
    base = (uint8_t *)info->dlpi_addr;
    for (int i = 0; i < info->dlpi_phnum; i++)
        if (info->dlpi_phdr[i].p_type == PT_LOAD && info->dlpi_phdr[i].p_flags & PF_X) {
            bounds[0] = info->dlpi_phdr[i].p_vaddr / PAGE * PAGE;
            bounds[1] = (info->dlpi_phdr[i].p_vaddr + info->dlpi_phdr[i].p_memsz + PAGE - 1) / PAGE * PAGE;
        }
    return 1;
}

static void *mapped(const char *path, int mode, int protection, size_t *size)
{
    struct stat status;
    void *memory = MAP_FAILED;
    int file = path ? open(path, mode | O_CLOEXEC) : -1;
    if (file < 0)
        return NULL;
    if (!fstat(file, &status)) {
        *size = status.st_size;
        memory = mmap(NULL, *size, protection, MAP_SHARED, file, 0);
    }
    close(file);
    return memory == MAP_FAILED ? NULL : memory;
}

__attribute__((constructor)) static void observe(void)
{
    size_t size = 0, code[2] = {0, 0};
    struct sigaction action = {.sa_sigaction = on_trap, .sa_flags = SA_SIGINFO};
    const char *number = getenv("TILT_REFUSED");
    counted = mapped(getenv("TILT_ALLOCATIONS"), O_RDWR, PROT_READ | PROT_WRITE, &size);
    refused = number ? strtoull(number, NULL, 10) : 0;
    /* Those before are the loader's. */
    allocations = 0;
    places = mapped(getenv("TILT_PLACES"), O_RDONLY, PROT_READ, &size);
    count = size / sizeof *places;
    seen = places ? mapped(getenv("TILT_SEEN"), O_RDWR, PROT_READ | PROT_WRITE, &size) : NULL;
    met = mmap(NULL, count * sizeof *met + 1, PROT_READ | PROT_WRITE, MAP_PRIVATE | MAP_ANONYMOUS, -1, 0);
    if (!seen || met == MAP_FAILED)
        return;
    dl_iterate_phdr(find_code, code);
    if (mprotect(base + code[0], code[1] - code[0], PROT_READ | PROT_WRITE | PROT_EXEC))
        return;
    sigaction(SIGTRAP, &action, NULL);
    for (size_t i = 0; i < count; i++)
        if (seen[i] != (places[i].condition == ENTRY ? ENTERED : BOTH))
            base[places[i].at] = TRAP;
}
