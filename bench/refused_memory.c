/* An allocator that refuses each request in turn, for refused_memory.py.

   cc -O2 -shared -fPIC -o refused_memory.so bench/refused_memory.c

   Loaded before the C library (LD_PRELOAD) into a program that runs in a folder and has its output in files there. At each REFUSED_STEPth request the process forks: the child gets no memory for this
   request, and goes on to its end in a copy of the folder, REFUSED_COPY, with copies of the files of the folder that are open; then the parent writes the number of the request and the child's status
   to the file descriptor REFUSED_TOLD, waits for a byte at REFUSED_HEARD, and goes on with memory. Without these variables no request is refused. */
#include <dirent.h>
#include <errno.h>
#include <fcntl.h>
#include <limits.h>
#include <stdio.h>
#include <stdlib.h>
#include <string.h>
#include <sys/stat.h>
#include <sys/wait.h>
#include <unistd.h>

void *__libc_malloc(size_t);
void *__libc_calloc(size_t, size_t);
void *__libc_realloc(void *, size_t);
void *__libc_memalign(size_t, size_t);

static long step, seen;
static int told = -1, heard = -1;
static char folder[PATH_MAX], *copy;

__attribute__((constructor)) static void begin(void) {
    const char *each = getenv("REFUSED_STEP"), *to = getenv("REFUSED_TOLD"), *from = getenv("REFUSED_HEARD");
    copy = getenv("REFUSED_COPY");
    if (each && to && from && copy && getcwd(folder, sizeof folder)) {
        told = atoi(to);
        heard = atoi(from);
        step = atol(each);
    }
}

/* What fails here is no answer of the program. */
static void fail(const char *what) {
    perror(what);
    _exit(125);
}

static void copy_file(const char *name) {
    char path[PATH_MAX], piece[65536];
    ssize_t n;
    snprintf(path, sizeof path, "%s/%s", copy, name);
    int from = open(name, O_RDONLY), to = open(path, O_WRONLY | O_CREAT | O_TRUNC, 0644);
    if (from < 0 || to < 0)
        fail(path);
    while ((n = read(from, piece, sizeof piece)) > 0)
        if (write(to, piece, n) != n)
            fail(path);
    close(from);
    close(to);
}

static void copy_folder(void) {
    DIR *all = opendir(".");
    struct dirent *entry;
    struct stat state;
    while (all && (entry = readdir(all)))
        if (stat(entry->d_name, &state) == 0 && S_ISREG(state.st_mode))
            copy_file(entry->d_name);
    if (!all || closedir(all) || chdir(copy))
        fail(copy);
}

/* A file of the folder that is open is from now on its copy, at the same place. */
static void reopen(int file) {
    char link[64], path[PATH_MAX];
    size_t length = strlen(folder);
    snprintf(link, sizeof link, "/proc/self/fd/%d", file);
    ssize_t n = readlink(link, path, sizeof path - 1);
    if (n <= (ssize_t)length || strncmp(path, folder, length) || path[length] != '/')
        return;
    path[n] = 0;
    int other = open(path + length + 1, fcntl(file, F_GETFL) & (O_ACCMODE | O_APPEND));
    if (other < 0 || lseek(other, lseek(file, 0, SEEK_CUR), SEEK_SET) < 0 || dup2(other, file) < 0)
        fail(path);
    close(other);
}

static void go_on_in_copy(void) {
    told = -1;      /* what follows gets its memory */
    alarm(60);      /* one that does not end is a fault */
    copy_folder();
    for (int file = 0; file < 64; file++)
        reopen(file);
}

static void tell(pid_t child) {
    struct { long request, status; } said = {seen, 0};
    int status;
    char byte;
    if (waitpid(child, &status, 0) != child)
        fail("wait");
    said.status = WIFEXITED(status) ? WEXITSTATUS(status) : -WTERMSIG(status);
    if (write(told, &said, sizeof said) != sizeof said || read(heard, &byte, 1) != 1)
        fail("tell");
}

static int is_refused(void) {
    if (told < 0 || ++seen % step)
        return 0;
    int before = errno;
    pid_t child = fork();
    if (child < 0)
        fail("fork");
    if (child == 0) {
        go_on_in_copy();
        errno = ENOMEM;
        return 1;
    }
    tell(child);
    errno = before;
    return 0;
}

void *malloc(size_t size) { return is_refused() ? NULL : __libc_malloc(size); }

void *calloc(size_t count, size_t size) { return is_refused() ? NULL : __libc_calloc(count, size); }

void *realloc(void *block, size_t size) { return is_refused() ? NULL : __libc_realloc(block, size); }

void *memalign(size_t at, size_t size) { return is_refused() ? NULL : __libc_memalign(at, size); }

void *aligned_alloc(size_t at, size_t size) { return memalign(at, size); }

int posix_memalign(void **block, size_t at, size_t size) {
    void *found = memalign(at, size);
    if (!found)
        return ENOMEM;
    *block = found;
    return 0;
}
