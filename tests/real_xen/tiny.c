/* A whole guest of our own, without any other system in it, so that its save is ours to give: it keeps still pages,
   moving pages and a letter as guest.c does, tells them on Xen's console, and lets itself be saved. A second vCPU, where
   there is one, keeps a number in a floating point register. It takes no interrupts; what it waits for it looks at again
   and again. It is a PV guest (tiny_pv.h), or a PVH guest (tiny_pvh.h) where PVH is defined. What it asks of Xen stands in
   Xen's public headers (xen.h, arch-x86/xen.h, arch-x86/xen-x86_64.h, arch-x86/hvm/start_info.h, hvm/hvm_vcpu.h,
   hvm/params.h, elfnote.h, event_channel.h, memory.h, sched.h, vcpu.h, io/console.h, io/xs_wire.h). */
#include <stdint.h>

typedef uint8_t u8;
typedef uint16_t u16;
typedef uint32_t u32;
typedef uint64_t u64;

enum { PAGE = 4096, WORDS = PAGE / 8, STILL = 16, MOVING = 8 };

struct time_info {
    u32 version, padding;
    u64 stamp, system_time;
    u32 multiplier;
    signed char shift;
    u8 flags, padding2[2];
};

struct vcpu_info {
    u8 pending, mask, padding[6];
    u64 selectors, cr2, padding2;
    struct time_info time;
};

struct shared_info {
    struct vcpu_info vcpus[32];
    u64 pending[64], masked[64];
    u32 wall[4];
    u64 max_pfn, frame_list_list, nmi_reason, p2m_cr3, p2m_vaddr, p2m_generation;
};

struct console_ring {
    char in[1024], out[2048];
    u32 in_read, in_written, out_read, out_written;
};

struct store_ring {
    char requests[1024], answers[1024];
    u32 requests_read, requests_written, answers_read, answers_written;
};

struct store_head {
    u32 kind, number, transaction, length;
};
enum { STORE_READ = 2, STORE_WRITE = 11 };

#define PAGES(name, count) static volatile u64 name[(count) * WORDS] __attribute__((aligned(PAGE)))
char stack[2 * PAGE] __attribute__((aligned(PAGE))), second_stack[PAGE] __attribute__((aligned(PAGE)));
asm(".globl stack_end\n.set stack_end, stack + 8192\n");
PAGES(still, STILL);
PAGES(moving, MOVING);
PAGES(letter, 1);
PAGES(shared_page, 1);                     /* the shared information is mapped in its place */

static volatile struct shared_info *shared = (void *)shared_page;
static volatile struct console_ring *console;
static volatile struct store_ring *store;
static u32 console_port, store_port;
static volatile u64 rounds, work_broken;   /* of the second vCPU */
static volatile int is_to_rest, rests;

#define CALL(number, one, two, three) hypercall(number, (u64)(one), (u64)(two), (u64)(three))
enum { UPDATE_VA_MAPPING = 14, VCPU = 24, SCHEDULE = 29, EVENTS = 32 };
enum { YIELD = 0, SHUTDOWN = 2, POLL = 3, SUSPEND = 2, SEND = 4, INITIALISE = 0, UP = 1 };

#ifdef PVH
#include "tiny_pvh.h"
#else
#include "tiny_pv.h"
#endif

static void send(u32 port)
{
    CALL(EVENTS, SEND, &port, 0);
}

static u64 now(int vcpu)
{
    volatile struct time_info *time = &shared->vcpus[vcpu].time;
    u32 version, low, high;
    u64 answer;
    do {
        version = time->version;
        asm volatile("lfence; rdtsc" : "=a"(low), "=d"(high) : : "memory");
        u64 passed = ((u64)high << 32 | low) - time->stamp;
        passed = time->shift < 0 ? passed >> -time->shift : passed << time->shift;
        answer = time->system_time + (u64)((unsigned __int128)passed * time->multiplier >> 32);
    } while (version & 1 || version != time->version);
    return answer;
}

static void pause_until(u64 time)
{
    struct { u64 ports; u32 count, padding; u64 until; } poll = { 0, 0, 0, time };
    CALL(SCHEDULE, POLL, &poll, 0);
}

static void rest(void)
{
    pause_until(now(0) + 5000000);
}

static void say_char(char letter)
{
    while (console->out_written - console->out_read >= sizeof console->out) {
        send(console_port);
        rest();
    }
    console->out[console->out_written % sizeof console->out] = letter;
    asm volatile("" : : : "memory");
    console->out_written++;
}

static void say(const volatile char *text)
{
    for (; *text; text++)
        say_char(*text);
}

static void say_number(u64 number)
{
    char digits[24], *first = digits + 23;
    *first = 0;
    do
        *--first = '0' + number % 10;
    while (number /= 10);
    say(first);
}

static void put(const void *from, u32 length)
{
    for (u32 i = 0; i < length; i++) {
        while (store->requests_written - store->requests_read >= sizeof store->requests)
            rest();
        store->requests[store->requests_written % sizeof store->requests] = ((const char *)from)[i];
        asm volatile("" : : : "memory");
        store->requests_written++;
    }
}

static char take(void)
{
    while (store->answers_read == store->answers_written)
        rest();
    char byte = store->answers[store->answers_read % sizeof store->answers];
    asm volatile("" : : : "memory");
    store->answers_read++;
    return byte;
}

/* Asks xenstore; whether it answered in the same kind, and the first bytes of its answer. */
static int ask(u32 kind, const char *text, u32 length, char *answer, u32 room)
{
    struct store_head head = { kind, 0, 0, length };
    put(&head, sizeof head);
    put(text, length);
    send(store_port);
    for (u32 i = 0; i < sizeof head; i++)
        ((char *)&head)[i] = take();
    for (u32 i = 0; i < room; i++)
        answer[i] = 0;
    for (u32 i = 0; i < head.length; i++) {
        char byte = take();
        if (i < room - 1)
            answer[i] = byte;
    }
    send(store_port);
    return head.kind == kind;
}

static int is_asked_to_suspend(void)
{
    static const char node[] = "control/shutdown", word[] = "suspend";
    char answer[16];
    if (!ask(STORE_READ, node, sizeof node, answer, sizeof answer))
        return 0;
    for (u32 i = 0; i < sizeof word; i++)
        if (answer[i] != word[i])
            return 0;
    ask(STORE_WRITE, node, sizeof node, answer, sizeof answer);
    return 1;
}

static u64 mixed(u64 number)
{
    number = (number ^ number >> 30) * 0xbf58476d1ce4e5b9u;
    number = (number ^ number >> 27) * 0x94d049bb133111ebu;
    return number ^ number >> 31;
}

static const char *state(u64 broken)
{
    return broken ? "broken" : "whole";
}

/* Lets the vCPU have its floating point state saved by XSAVE, with AVX where there is that. */
static void use_xsave(void)
{
    enum { XSAVE = 26, AVX = 28, OSXSAVE = 1 << 18, MOST = 7, LEAST = 3 };
    u32 leaf = 1, has = 0;
    u64 control;
    asm volatile("cpuid" : "+a"(leaf), "+c"(has) : : "ebx", "edx");
    if (has >> XSAVE & 1) {
        asm volatile("mov %%cr4, %0" : "=r"(control));
        asm volatile("mov %0, %%cr4" : : "r"(control | OSXSAVE));
        asm volatile("xsetbv" : : "a"(has >> AVX & 1 ? MOST : LEAST), "c"(0), "d"(0));
    }
}

/* What the second vCPU does: a number of its own stays in a register while it rests. While the guest is saved it looks at
   nothing that is Xen's. It rests once before that, since a PVH guest lost its registers in the first rest behind XSETBV with
   AVX, under Xen 4.17 and QEMU 7.2. */
__attribute__((noreturn)) void work(void)
{
    u64 number = mixed(2000000);
    use_xsave();
    pause_until(now(1) + 50000000);
    for (;;) {
        asm volatile("movq %0, %%xmm7" : : "r"(number));
        while (is_to_rest) {
            rests = 1;
            CALL(SCHEDULE, YIELD, 0, 0);
        }
        rests = 0;
        pause_until(now(1) + 50000000);
        u64 seen;
        asm volatile("movq %%xmm7, %0" : "=r"(seen));
        work_broken |= seen ^ number;
        number = mixed(number);
        rounds++;
    }
}

static void fill(void)
{
    for (u64 i = 0; i < STILL * WORDS; i++)
        still[i] = mixed(i);
    for (u64 i = 0; i < MOVING * WORDS; i++)
        moving[i] = mixed(i + 1);
    for (u64 i = 0; i < 4; i++)
        letter[i] = mixed(1000000 + i);
    for (u64 i = 0; i < 6; i++)
        ((volatile char *)letter)[64 + i] = "first"[i];
}

/* What broke among the moving pages, which go from this generation to the next. */
static u64 move(u64 generation)
{
    u64 broken = 0;
    for (u64 i = 0; i < MOVING * WORDS; i++) {
        broken |= moving[i] ^ mixed(i + generation);
        moving[i] = mixed(i + generation + 1);
    }
    return broken;
}

static u64 still_broken(void)
{
    u64 broken = 0;
    for (u64 i = 0; i < STILL * WORDS; i++)
        broken |= still[i] ^ mixed(i);
    return broken;
}

/* Rests until nothing that was said is on its way, since Xen empties its rings, and until the second vCPU rests. */
static void be_saved(int has_second)
{
    while (console->out_read != console->out_written)
        rest();
    is_to_rest = 1;
    while (has_second && !rests)
        rest();
    suspend();
    is_to_rest = 0;
}

static void tell(u64 tick, u64 broken, u64 generation, int has_second)
{
    say("tick ");
    say_number(tick);
    say(" still ");
    say(state(still_broken()));
    say(" moving ");
    say(state(broken));
    say(" ");
    say_number(generation);
    if (has_second) {
        say(" work ");
        say(state(work_broken));
    }
    say(" letter ");
    say((volatile char *)letter + 64);
    if (has_second) {
        say(" vcpus ");
        say_number(rounds);
    }
    say("\n");
    send(console_port);
}

__attribute__((noreturn)) void run(void *given)
{
    u64 generation = 1, broken = 0;
    begin(given);
    fill();
    int has_second = second_begins();
    say("tiny guest is up\n");
    for (u64 tick = 1;; tick++) {
        u64 until = now(0) + 1000000000;
        while (now(0) < until) {
            broken |= move(generation++);
            if (is_asked_to_suspend()) {
                be_saved(has_second);
                until = now(0) + 1000000000;
            }
            pause_until(now(0) + 100000000);
        }
        tell(tick, broken, generation, has_second);
    }
}
