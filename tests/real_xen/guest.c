/* The init of a Linux guest of the test. It keeps four things whose loss or change would be seen, and tells each second
   whether they are as they were:
   still    pages with a known pattern, never written again
   moving   pages with a known pattern of a generation, which goes up all the time, page by page
   work     a sum of floating point numbers, the same each time, on each further vCPU
   letter   a page with a mark and a text: the test writes another text into it while the guest is a file
   A line is 'tick N still whole moving whole 123 work whole letter TEXT vcpus 7 8 9'. */
#define _GNU_SOURCE
#include <fcntl.h>
#include <pthread.h>
#include <sched.h>
#include <stdint.h>
#include <stdio.h>
#include <string.h>
#include <sys/mman.h>
#include <sys/mount.h>
#include <sys/stat.h>
#include <sys/sysinfo.h>
#include <unistd.h>

enum { PAGE = 4096, WORDS = PAGE / 8, STILL = 512, MOVING = 512, MOST_CPUS = 16 };

static uint64_t *still, *moving;
static volatile uint64_t generations;
static volatile int moving_broken, work_broken;
static volatile uint64_t rounds[MOST_CPUS];

static uint64_t mixed(uint64_t number)
{
    number = (number ^ number >> 30) * 0xbf58476d1ce4e5b9u;
    number = (number ^ number >> 27) * 0x94d049bb133111ebu;
    return number ^ number >> 31;
}

static void *pages(size_t count)
{
    return mmap(0, count * PAGE, PROT_READ | PROT_WRITE, MAP_PRIVATE | MAP_ANONYMOUS | MAP_POPULATE, -1, 0);
}

static int still_whole(void)
{
    for (size_t i = 0; i < (size_t)STILL * WORDS; i++)
        if (still[i] != mixed(i))
            return 0;
    return 1;
}

/* Each page of the moving block has the pattern of its own generation, which stands in its first word. */
static void *move(void *nothing)
{
    for (uint64_t generation = 1;; generation++) {
        for (size_t page = 0; page < MOVING; page++) {
            uint64_t *word = moving + page * WORDS;
            for (size_t i = 1; i < WORDS; i++) {
                if (generation > 1 && word[i] != mixed(word[0] + i))
                    moving_broken = 1;
                word[i] = mixed(generation + i);
            }
            if (generation > 1 && word[0] != generation - 1)
                moving_broken = 1;
            word[0] = generation;
        }
        generations = generation;
        usleep(20000);
    }
    return nothing;
}

static double sum(void)
{
    double all = 0.5;
    for (int i = 1; i < 50000; i++)
        all = all * 1.0000001 + 1.0 / i;
    return all;
}

static void *work(void *number)
{
    long cpu = (long)number;
    cpu_set_t set;
    CPU_ZERO(&set);
    CPU_SET(cpu, &set);
    sched_setaffinity(0, sizeof set, &set);
    double first = sum();
    for (;;) {
        if (sum() != first)
            work_broken = 1;
        rounds[cpu]++;
        usleep(50000);
    }
    return 0;
}

static void mounts(void)
{
    mkdir("/proc", 0755);
    mkdir("/dev", 0755);
    mount("proc", "/proc", "proc", 0, 0);
    mount("dev", "/dev", "devtmpfs", 0, 0);
    int console = open("/dev/hvc0", O_RDWR);
    if (console < 0)
        console = open("/dev/console", O_RDWR);
    for (int i = 0; console >= 0 && i < 3; i++)
        dup2(console, i);
}

int main(void)
{
    mounts();
    int cpus = get_nprocs();
    pthread_t thread;
    still = pages(STILL);
    for (size_t i = 0; i < (size_t)STILL * WORDS; i++)
        still[i] = mixed(i);
    moving = pages(MOVING);
    /* The mark is put together here, so that no other page of the guest has it. */
    char *letter = pages(1);
    for (int i = 0; i < 4; i++)
        ((uint64_t *)letter)[i] = mixed(1000000 + i);
    strcpy(letter + 64, "first");
    pthread_create(&thread, 0, move, 0);
    for (long cpu = 1; cpu < cpus && cpu < MOST_CPUS; cpu++)
        pthread_create(&thread, 0, work, (void *)cpu);
    printf("guest is up, vcpus %d\n", cpus);
    for (unsigned long tick = 1;; tick++) {
        sleep(1);
        printf("tick %lu still %s moving %s %llu work %s letter %.32s vcpus", tick, still_whole() ? "whole" : "broken",
               moving_broken ? "broken" : "whole", (unsigned long long)generations, work_broken ? "broken" : "whole",
               letter + 64);
        for (int cpu = 1; cpu < cpus && cpu < MOST_CPUS; cpu++)
            printf(" %llu", (unsigned long long)rounds[cpu]);
        printf("\n");
        fflush(stdout);
    }
}
