/* Which calls of a program are to fail or come short, as the environment tells it, numbers being decimal, and what was counted:
 *
 *   HOSTILE_READ="N ERRNO"      read number N of standard input, from 0 on, fails
 *   HOSTILE_READ_MOST=K         each read of standard input gives at most K bytes
 *   HOSTILE_SHRINK="N K"        before read number N the file that is standard input is cut to K bytes
 *   HOSTILE_OUT="N ERRNO"       write number N on standard output fails; an ERRNO of 0: it takes no byte
 *   HOSTILE_REPORT="N ERRNO"    the same of standard error
 *   HOSTILE_WRITE_MOST=K        each write on the two takes at most K bytes
 *   HOSTILE_ALLOCATION="N M"    the allocations from number N on, M of them, fail; the first one is number 0
 *   HOSTILE_TOLD=PATH           a file of the size of `struct told`, where it counts */
#include <fcntl.h>
#include <stdint.h>
#include <stdio.h>
#include <stdlib.h>
#include <sys/mman.h>
#include <unistd.h>

struct told {
    uint64_t reads, bytes_read, writes[2], allocations;
    uint64_t asked;      /* bytes that were asked for since the first read, and were more than a block had */
    uint64_t most_asked; /* the most of them at once */
    int64_t live, peak;  /* bytes of the blocks that are there, and the most there were since the first read */
};

struct chosen {
    uint64_t number, what;
    int is_set;
};

static struct told unshared, *told = &unshared;
static struct chosen failing_read, shrink, failing_write[2], failing_allocation;
static uint64_t read_most = UINT64_MAX, write_most = UINT64_MAX;

static void choose(const char *name, struct chosen *it) {
    const char *text = getenv(name);
    it->is_set = text && sscanf(text, "%ju %ju", &it->number, &it->what) == 2;
}

static void choose_most(const char *name, uint64_t *most) {
    const char *text = getenv(name);
    if (text)
        *most = strtoull(text, NULL, 10);
}

static void choose_all(void) {
    choose("HOSTILE_READ", &failing_read);
    choose("HOSTILE_SHRINK", &shrink);
    choose("HOSTILE_OUT", &failing_write[0]);
    choose("HOSTILE_REPORT", &failing_write[1]);
    choose("HOSTILE_ALLOCATION", &failing_allocation);
    choose_most("HOSTILE_READ_MOST", &read_most);
    choose_most("HOSTILE_WRITE_MOST", &write_most);
    const char *path = getenv("HOSTILE_TOLD");
    int file = path ? open(path, O_RDWR | O_CLOEXEC) : -1;
    if (file >= 0) {
        void *at = mmap(NULL, sizeof *told, PROT_READ | PROT_WRITE, MAP_SHARED, file, 0);
        if (at != MAP_FAILED)
            told = at;
        close(file);
    }
}

static int is_chosen(const struct chosen *it, uint64_t number) {
    return it->is_set && it->number == number;
}
