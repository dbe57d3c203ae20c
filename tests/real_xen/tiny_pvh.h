/* The part of tiny.c that a PVH guest has alone: its way from where Xen's builder starts it, in 32 bits and without pages,
   to 64 bits; its hypercalls, and what it does before and behind its save. */

#define BASE 0x100000u

/* Where it begins, as a note of the program file; a map of 4 GiB in which each address is its own; its segments. */
asm(".pushsection .note.Xen, \"\", @note\n"
    ".balign 4\n.long 4, 4, 18\n.asciz \"Xen\"\n.long _start\n"                       /* PHYS32_ENTRY */
    ".popsection\n"
    ".pushsection .data\n.balign 4096\n"
    "tables: .quad tables + 0x1007\n.fill 511, 8, 0\n"
    ".quad tables + 0x2007, tables + 0x3007, tables + 0x4007, tables + 0x5007\n.fill 508, 8, 0\n"
    ".set at, 0x87\n.rept 2048\n.quad at\n.set at, at + 0x200000\n.endr\n"
    "segments: .quad 0, 0xaf9b000000ffff, 0xcf93000000ffff\n"
    "segments_are: .word 23\n.long segments\n"
    ".popsection\n"
    ".globl _start\n.code32\n_start: cld\nlgdt segments_are\nmov %ebx, %edi\n"
    "mov $0x220, %eax\nmov %eax, %cr4\n"                                                /* PAE, OSFXSR */
    "mov $tables, %eax\nmov %eax, %cr3\n"
    "mov $0xc0000080, %ecx\nrdmsr\nor $0x100, %eax\nwrmsr\n"                            /* EFER.LME */
    "mov $0x80000013, %eax\nmov %eax, %cr0\nljmp $8, $in_64\n"                          /* PG, ET, MP, PE */
    ".code64\nin_64: mov $16, %eax\nmov %eax, %ds\nmov %eax, %es\nmov %eax, %ss\nmov $stack_end, %rsp\nxor %ebp, %ebp\n"
    "call run\nsecond_start: call work\n");
void second_start(void);
extern char tables[], _start[], _end[];

struct start_info {
    u32 magic, version, flags, modules;
    u64 module_list, command_line, rsdp, map;
    u32 map_entries, padding;
};
struct map_entry {
    u64 address, size;
    u32 type, padding;
};

/* What a further vCPU begins with (vcpu_hvm_context). */
struct vcpu_context {
    u32 mode, padding;
    u64 rax, rcx, rdx, rbx, rsp, rbp, rsi, rdi, rip, rflags, cr0, cr3, cr4, efer;
};
enum { IN_64_BITS = 1 };

enum { OWN = 0x7ff0, MEMORY = 12, ADD_TO_PHYSMAP = 7, HVM = 34, SET_PARAMETER = 0, GET_PARAMETER = 1 };
enum { CALLBACK = 0, STORE_PFN = 1, STORE_PORT = 2, CONSOLE_PFN = 17, CONSOLE_PORT = 18 };
#define BY_VECTOR (2ull << 56 | 0xf3)      /* no vector comes, since the guest takes no interrupts; but xl asks for it */

static int is_of_amd;                      /* which of two instructions makes a hypercall */

static u64 hypercall(u64 number, u64 one, u64 two, u64 three)
{
    u64 answer;
    if (is_of_amd)
        asm volatile("vmmcall" : "=a"(answer), "+D"(one), "+S"(two), "+d"(three) : "a"(number) : "memory", "cc");
    else
        asm volatile("vmcall" : "=a"(answer), "+D"(one), "+S"(two), "+d"(three) : "a"(number) : "memory", "cc");
    return answer;
}

static u64 parameter(u64 operation, u32 index, u64 value)
{
    struct { u16 domain, padding; u32 index; u64 value; } given = { OWN, 0, index, value };
    CALL(HVM, operation, &given, 0);
    return given.value;
}

/* What a guest knows anew when it begins, and when it was restored. */
static void meet_xen(void)
{
    struct { u16 domain, size; u32 space; u64 index, frame; } own = { OWN, 0, 0, 0, (u64)shared / PAGE };
    CALL(MEMORY, ADD_TO_PHYSMAP, &own, 0);
    parameter(SET_PARAMETER, CALLBACK, BY_VECTOR);
    console = (void *)(parameter(GET_PARAMETER, CONSOLE_PFN, 0) * PAGE);
    store = (void *)(parameter(GET_PARAMETER, STORE_PFN, 0) * PAGE);
    console_port = parameter(GET_PARAMETER, CONSOLE_PORT, 0);
    store_port = parameter(GET_PARAMETER, STORE_PORT, 0);
}

static void clear(u64 from, u64 to)
{
    for (volatile u64 *word = (void *)from; (u64)word < to; word++)
        *word = 0;
}

/* Clears all memory outside this program that is the guest's own, or holds tables of ACPI, so that nothing that Xen's
   builder left there is in the save. The map stands there itself. */
static void clear_memory(const struct start_info *start)
{
    enum { RAM = 1, ACPI = 3, MOST = 16 };
    volatile struct map_entry map[MOST];
    const struct map_entry *given = (void *)start->map;
    u64 first = BASE, behind = ((u64)_end + 7) & ~7ul;
    u32 count = start->map_entries < MOST ? start->map_entries : MOST;
    for (u32 i = 0; i < count; i++) {
        map[i].address = given[i].address;
        map[i].size = given[i].size;
        map[i].type = given[i].type;
    }
    for (u32 i = 0; i < count; i++) {
        u64 at = map[i].address, end = at + map[i].size;
        if (map[i].type != RAM && map[i].type != ACPI)
            continue;
        clear(at, end < first ? end : first);
        clear(at > behind ? at : behind, end);
    }
}

static void begin(void *given)
{
    u32 vendor, leaf = 0;
    asm volatile("cpuid" : "+a"(leaf), "=b"(vendor) : : "ecx", "edx");
    is_of_amd = vendor == 0x68747541 || vendor == 0x6f677948;    /* Auth, Hygo */
    clear_memory(given);
    meet_xen();
}

/* Whether there is a second vCPU, which begins at its work then. */
static int second_begins(void)
{
    static struct vcpu_context context;
    context.mode = IN_64_BITS;
    context.rsp = (u64)second_stack + sizeof second_stack;
    context.rip = (u64)second_start;
    context.cr0 = 0x80000013;
    context.cr3 = (u64)tables;
    context.cr4 = 0x220;
    context.efer = 0x500;
    return !CALL(VCPU, INITIALISE, 1, &context) && !CALL(VCPU, UP, 1, 0);
}

static void suspend(void)
{
    u32 reason = SUSPEND;
    CALL(SCHEDULE, SHUTDOWN, &reason, 0);
    meet_xen();
}
