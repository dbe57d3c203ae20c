/* The part of tiny.c that a PV guest has alone: where Xen's builder puts it, its hypercalls, and what it does before and
   behind its save. */

#define BASE 0xffffffff80000000u

/* Where Xen's builder puts the guest, where it begins, and what it can do, as notes of the program file. */
asm(".pushsection .note.Xen, \"\", @note\n"
    ".macro words type, value\n.balign 4\n.long 4, 8, \\type\n.asciz \"Xen\"\n.quad \\value\n.endm\n"
    ".macro text type, length, value\n.balign 4\n.long 4, \\length, \\type\n.asciz \"Xen\"\n.asciz \"\\value\"\n.balign 4\n.endm\n"
    "words 1, _start\n"                    /* ENTRY */
    "words 3, 0xffffffff80000000\n"        /* VIRT_BASE */
    "words 4, 0xffffffff80000000\n"        /* PADDR_OFFSET */
    "text 5, 8, xen-3.0\n"                 /* XEN_VERSION */
    "text 6, 5, tiny\n"                    /* GUEST_OS */
    "text 8, 8, generic\n"                 /* LOADER */
    "text 9, 4, yes\n"                     /* PAE_MODE */
    "words 14, 1\n"                        /* SUSPEND_CANCEL */
    ".popsection\n"
    ".globl _start\n_start: cld\nlea stack_end(%rip), %rsp\nmov %rsi, %rdi\nxor %ebp, %ebp\ncall run\n"
    "second_start: call work\n");
void second_start(void);

struct start_info {
    char magic[32];
    u64 pages, shared_info;
    u32 flags, padding;
    u64 store_mfn;
    u32 store_port, padding2;
    u64 console_mfn;
    u32 console_port, padding3;
    u64 pt_base, pt_frames, mfn_list;
};

/* What a further vCPU begins with (vcpu_guest_context). */
struct vcpu_context {
    u8 floating_point[512];
    u64 flags, registers[16], rip, cs, rflags, rsp, ss, segments[4];
    u64 traps[512], ldt[2], gdt[17];
    u64 kernel_ss, kernel_sp, control[8], debug[8], callbacks[3], vm_assist, bases[3];
};
enum { IN_KERNEL = 4, KERNEL_CODE = 0xe033, KERNEL_DATA = 0xe02b };

PAGES(frame_list, 1);
PAGES(frame_list_list, 1);

static struct start_info *start;
static volatile u64 *frames;               /* machine frames by frame number */

/* A hypercall as the page of stubs that Xen offers would make it; without that page no code but our own is in the save. */
static u64 hypercall(u64 number, u64 one, u64 two, u64 three)
{
    u64 answer;
    asm volatile("syscall" : "=a"(answer), "+D"(one), "+S"(two), "+d"(three) : "a"(number)
                 : "rcx", "r8", "r9", "r10", "r11", "memory", "cc");
    return answer;
}

static u64 frame_number(u64 machine_frame)
{
    for (u64 i = 0; i < start->pages; i++)
        if (frames[i] == machine_frame)
            return i;
    return 0;
}

static u64 number_of(volatile void *place)
{
    return ((u64)place - BASE) / PAGE;
}

static void *place_of(u64 number)
{
    return (void *)(BASE + number * PAGE);
}

/* What a guest knows anew when it begins, and when it was restored: its pages have other machine frames by then. */
static void meet_xen(void)
{
    CALL(UPDATE_VA_MAPPING, shared, start->shared_info | 7, 2);
    for (u64 i = 0; i * WORDS < start->pages; i++)
        frame_list[i] = frames[number_of(frames) + i];
    frame_list_list[0] = frames[number_of(frame_list)];
    shared->max_pfn = start->pages;
    shared->frame_list_list = frames[number_of(frame_list_list)];
    console = place_of(frame_number(start->console_mfn));
    store = place_of(frame_number(start->store_mfn));
    console_port = start->console_port;
    store_port = start->store_port;
}

static void begin(void *given)
{
    start = given;
    frames = (void *)start->mfn_list;
    meet_xen();
}

/* Whether there is a second vCPU, which begins at its work then. */
static int second_begins(void)
{
    static struct vcpu_context context;
    context.flags = IN_KERNEL;
    context.rip = (u64)second_start;
    context.cs = KERNEL_CODE;
    context.ss = context.kernel_ss = KERNEL_DATA;
    context.rsp = context.kernel_sp = (u64)second_stack + sizeof second_stack;
    context.control[3] = frames[number_of((void *)start->pt_base)] * PAGE;
    return !CALL(VCPU, INITIALISE, 1, &context) && !CALL(VCPU, UP, 1, 0);
}

/* A saved guest names frame numbers where it named machine frames, and maps nothing that isn't its own. */
static void suspend(void)
{
    u32 reason = SUSPEND;
    u64 own = frames[number_of(start)], store_mfn = start->store_mfn, console_mfn = start->console_mfn;
    start->store_mfn = frame_number(store_mfn);
    start->console_mfn = frame_number(console_mfn);
    CALL(UPDATE_VA_MAPPING, shared, 0, 2);
    if (CALL(SCHEDULE, SHUTDOWN, &reason, own)) {    /* not saved after all, or a copy alone: nothing has changed */
        start->store_mfn = store_mfn;
        start->console_mfn = console_mfn;
    }
    meet_xen();
}
