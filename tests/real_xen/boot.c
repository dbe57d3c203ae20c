/* The only thing on the disk of the HVM guest: a program in its first sectors, which the firmware starts in real mode. It does what guest.c
   does, in less: still pages, moving pages, a letter; and it tells them on port 0xe9, of which Xen keeps a log. All stands
   below 64 KiB, so that no segment is needed, but for the firmware's count of timer ticks, which is there as well. */
#include <stdint.h>

/* The firmware loads the first sector alone; it loads the three behind it, in which the rest stands. */
asm(".globl _start\n_start: ljmp $0, $set\nset: xor %ax, %ax\nmov %ax, %ds\nmov %ax, %es\nmov %ax, %ss\n"
    "mov $0x7c00, %esp\nsti\nmov $0x0203, %ax\nmov $0x7e00, %bx\nmov $2, %cx\nmov $0, %dh\nint $0x13\njmp run\n"
    ".org 510\n.word 0xaa55\n");

#define STILL ((volatile uint32_t *)0x9000)
#define MOVING ((volatile uint32_t *)0xd000)
#define LETTER ((volatile char *)0x5000)
#define TIMER (*(volatile uint32_t *)0x46c)
enum { STILL_WORDS = 0x4000 / 4, MOVING_WORDS = 0x2000 / 4 };

static __attribute__((noinline)) uint32_t mixed(uint32_t number)
{
    return (number + 0x9e3779b9u) * 0x85ebca6bu;
}

static __attribute__((noinline)) void say(const volatile char *text)
{
    for (; *text; text++)
        asm volatile("outb %0, $0xe9" : : "a"(*text));
}

static __attribute__((noinline)) void number(uint32_t value)
{
    char digits[11], *first = digits + 10;
    *first = 0;
    do
        *--first = '0' + value % 10;
    while (value /= 10);
    say(first);
}

static __attribute__((noinline)) void state(int broken)
{
    say(broken ? "broken" : "whole");
}

__attribute__((noreturn)) void run(void)
{
    uint32_t tick, i, broken = 0;
    for (i = 0; i < STILL_WORDS; i++)
        STILL[i] = mixed(i);
    for (i = 0; i < MOVING_WORDS; i++)
        MOVING[i] = mixed(i);
    for (i = 0; i < 8; i++)
        ((volatile uint32_t *)LETTER)[i] = mixed(1000000 + i);
    for (i = 0; i < 6; i++)
        LETTER[64 + i] = "first"[i];
    for (tick = 1;; tick++) {
        uint32_t began = TIMER, still = 0;
        while (TIMER - began < 18)
            asm volatile("hlt");
        for (i = 0; i < STILL_WORDS; i++)
            still |= STILL[i] ^ mixed(i);
        for (i = 0; i < MOVING_WORDS; i++) {
            broken |= MOVING[i] ^ mixed(i + tick - 1);
            MOVING[i] = mixed(i + tick);
        }
        say("tick ");
        number(tick);
        say(" still ");
        state(still != 0);
        say(" moving ");
        state(broken != 0);
        say(" ");
        number(tick);
        say(" letter ");
        say(LETTER + 64);
        say("\n");
    }
}
