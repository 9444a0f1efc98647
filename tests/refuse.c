/* Runs a program once for each of its allocations, and refuses it: first only that allocation, and after
 * the first run that does not reach it, that one and all later ones. A growth or a move counts as an
 * allocation. The program is started with this as LD_PRELOAD. With the file REFUSE_TO it runs in copies
 * of the process, made before `main`; each reads the standard input from where it was. The file gets what
 * each run printed, which is removed from its outputs unless REFUSE_KEEPS_OUT is set, and how it ended.
 *
 * Without REFUSE_TO it runs once. The allocation with the number REFUSE_AT is refused, and with REFUSE_ALL
 * all later ones, too. The file REFUSED is made when this allocation is reached. */
#define _GNU_SOURCE
#include <dlfcn.h>
#include <errno.h>
#include <fcntl.h>
#include <stdlib.h>
#include <sys/mman.h>
#include <sys/wait.h>
#include <unistd.h>

/* What the file has of a run, before its outputs: which allocation was refused, whether the later ones
 * were refused too, how the run ended, as `wait` reports it, and the bytes of its two outputs. */
struct told {
    unsigned at, all, status, out, err;
};

enum { SECONDS = 60, ABOVE_THE_STANDARD_ONES = 10 };

static void *(*plain_malloc)(size_t);
static void *(*plain_realloc)(void *, size_t);
/* which allocation is refused, or none; whether the later ones are; and those that were made */
static unsigned long refused_at, made;
static unsigned refuses_later;
/* whether this run reached it, for the process from which it was copied */
static unsigned reached;
static volatile unsigned *came_to_it = &reached;
/* the file that is made when a single run reaches it, or none */
static const char *mark;

static int refused(void)
{
    made++;
    if (!refused_at || made < refused_at || (made > refused_at && !refuses_later))
        return 0;
    if (mark && !*came_to_it)
        close(open(mark, O_CREAT | O_WRONLY | O_CLOEXEC, 0600));
    *came_to_it = 1;
    errno = ENOMEM;
    return 1;
}

static void find_plain(void)
{
    plain_malloc = (void *(*)(size_t))dlsym(RTLD_NEXT, "malloc");
    plain_realloc = (void *(*)(void *, size_t))dlsym(RTLD_NEXT, "realloc");
}

void *malloc(size_t size)
{
    if (!plain_malloc)
        find_plain();
    return refused() ? NULL : plain_malloc(size);
}

void *realloc(void *old, size_t size)
{
    if (!plain_realloc)
        find_plain();
    return refused() ? NULL : plain_realloc(old, size);
}

/* A descriptor other than the three with which a program starts, even if these are closed. */
static int moved(int it)
{
    int higher = fcntl(it, F_DUPFD_CLOEXEC, ABOVE_THE_STANDARD_ONES);

    if (higher < 0)
        _exit(127);
    close(it);
    return higher;
}

/* A file without a name. */
static int new_file(void)
{
    return moved(memfd_create("told", 0));
}

static void empty(int file)
{
    if (lseek(file, 0, SEEK_SET) < 0 || ftruncate(file, 0))
        _exit(127);
}

/* Writes the bytes of a file to another one. */
static void hand_on(int from, int to)
{
    char buffer[4096];
    ssize_t got;

    lseek(from, 0, SEEK_SET);
    while ((got = read(from, buffer, sizeof buffer)) > 0)
        if (write(to, buffer, got) != got)
            _exit(127);
}

/* The standard outputs of the copies, and the file that gets what they held. */
struct files {
    int out, err, to;
};

static void tell(const struct files *files, int status)
{
    struct told told = {
        refused_at, refuses_later, status, lseek(files->out, 0, SEEK_END), lseek(files->err, 0, SEEK_END)
    };

    if (write(files->to, &told, sizeof told) != sizeof told)
        _exit(127);
    hand_on(files->out, files->to);
    hand_on(files->err, files->to);
}

/* Makes a copy of the process. It is -1 there; where it was made, it is how the copy ended. */
static int ended(const struct files *files)
{
    int keeps_out = getenv("REFUSE_KEEPS_OUT") != NULL, status;
    pid_t copy = fork();

    if (!copy) {
        if ((!keeps_out && dup2(files->out, 1) < 0) || dup2(files->err, 2) < 0)
            _exit(127);
        made = 0;
        alarm(SECONDS);
        return -1;
    }
    if (copy < 0 || waitpid(copy, &status, 0) != copy)
        _exit(127);
    return status;
}

/* Has this process refuse what REFUSE_AT, REFUSE_ALL and REFUSED say. */
static void run_one(void)
{
    const char *number = getenv("REFUSE_AT");

    if (!number)
        return;
    find_plain();
    mark = getenv("REFUSED");
    refuses_later = getenv("REFUSE_ALL") != NULL;
    made = 0;
    refused_at = strtoul(number, NULL, 10);
}

/* Makes the copies, each of which goes on from here as the program, and ends where they all have ended. */
__attribute__((constructor)) static void run_all(void)
{
    const char *name = getenv("REFUSE_TO");
    off_t input = lseek(0, 0, SEEK_CUR);

    if (!name) {
        run_one();
        return;
    }
    find_plain();
    struct files files = {new_file(), new_file(), moved(open(name, O_CREAT | O_TRUNC | O_WRONLY, 0600))};
    came_to_it = mmap(NULL, sizeof *came_to_it, PROT_READ | PROT_WRITE, MAP_SHARED | MAP_ANONYMOUS, -1, 0);
    if (came_to_it == MAP_FAILED)
        _exit(127);
    for (refuses_later = 0; refuses_later < 2; refuses_later++) {
        *came_to_it = 1;
        for (refused_at = 1; *came_to_it; refused_at++) {
            *came_to_it = 0;
            lseek(0, input, SEEK_SET);
            int status = ended(&files);
            if (status == -1)
                return;
            if (*came_to_it)
                tell(&files, status);
            empty(files.out);
            empty(files.err);
        }
    }
    _exit(0);
}
