/* A library to be preloaded: it refuses one chosen call of the C library, and can make reads and writes short.
 *
 * Calls are counted from the start of `main`, each kind by itself, from 1:
 *   REFUSE_ALLOCATION=N  the Nth malloc, calloc or realloc answers null, with ENOMEM
 *   REFUSE_READ=N        the Nth read fails
 *   REFUSE_WRITE=N       the Nth write fails; likewise REFUSE_SYNC (fsync) and REFUSE_RENAME, and REFUSE_PREAD and
 *                        REFUSE_PWRITE, which are reads and writes at an offset
 *   REFUSE_RECV=N        the Nth recv fails; likewise REFUSE_SEND, REFUSE_ACCEPT, REFUSE_SOCKET, REFUSE_BIND,
 *                        REFUSE_LISTEN and REFUSE_NAME (getsockname)
 *   REFUSE_ERRNO=E       with this errno (EIO where it is left out); 0: the call answers 0 in place of failing
 *   SHORT_READS=K        each read and recv asks for K bytes at most
 *   SHORT_WRITES=K       each write and send hands on K bytes at most
 *   REFUSE_MARK=FILE     this file is made as soon as a call is refused, so that who started the program can
 *                        tell a run in which the Nth call came from one that has fewer
 *   COUNT_FILE=FILE      when the program ends, the number of its allocations is written there
 *
 * The program is one thread, so plain counters serve.
 */
#define _GNU_SOURCE
#include <dlfcn.h>
#include <errno.h>
#include <fcntl.h>
#include <stdio.h>
#include <stdlib.h>
#include <string.h>
#include <sys/socket.h>
#include <sys/syscall.h>
#include <unistd.h>

/* The allocator of glibc under the names that it has beside malloc, calloc and realloc. */
extern void *__libc_malloc(size_t size);
extern void *__libc_calloc(size_t count, size_t size);
extern void *__libc_realloc(void *old, size_t size);

/* How many calls of a kind were made, and which of them is refused (0: none). */
struct calls {
    unsigned long made;
    unsigned long refused;
};

static struct calls allocations, reads, writes, recvs, sends, accepts, sockets, binds, listens, names;
static struct calls preads, pwrites, syncs, renames;
static unsigned long most_read, most_written;
static int refused_with = EIO;
static const char *mark, *count_file;
static int is_counting;

static unsigned long number(const char *name) {
    const char *text = getenv(name);
    return text == NULL ? 0 : strtoul(text, NULL, 10);
}

/* Whether this call is the one to refuse. */
static int is_refused(struct calls *calls) {
    if (!is_counting || ++calls->made != calls->refused)
        return 0;
    if (mark != NULL) {
        int file = syscall(SYS_openat, AT_FDCWD, mark, O_WRONLY | O_CREAT | O_CLOEXEC, 0600);
        if (file >= 0)
            syscall(SYS_close, file);
    }
    return 1;
}

void *malloc(size_t size) {
    if (!is_refused(&allocations))
        return __libc_malloc(size);
    errno = ENOMEM;
    return NULL;
}

void *calloc(size_t count, size_t size) {
    if (!is_refused(&allocations))
        return __libc_calloc(count, size);
    errno = ENOMEM;
    return NULL;
}

void *realloc(void *old, size_t size) {
    if (!is_refused(&allocations))
        return __libc_realloc(old, size);
    errno = ENOMEM;
    return NULL;
}

static ssize_t refusal(void) {
    if (refused_with == 0)
        return 0;
    errno = refused_with;
    return -1;
}

static size_t shortened(size_t count, unsigned long most) {
    return is_counting && most != 0 && count > most ? most : count;
}

ssize_t read(int file, void *bytes, size_t count) {
    if (is_refused(&reads))
        return refusal();
    return syscall(SYS_read, file, bytes, shortened(count, most_read));
}

ssize_t write(int file, const void *bytes, size_t count) {
    if (is_refused(&writes))
        return refusal();
    return syscall(SYS_write, file, bytes, shortened(count, most_written));
}

ssize_t pread(int file, void *bytes, size_t count, off_t offset) {
    if (is_refused(&preads))
        return refusal();
    return syscall(SYS_pread64, file, bytes, count, offset);
}

ssize_t pwrite(int file, const void *bytes, size_t count, off_t offset) {
    if (is_refused(&pwrites))
        return refusal();
    return syscall(SYS_pwrite64, file, bytes, count, offset);
}

int fsync(int file) {
    if (is_refused(&syncs))
        return (int)refusal();
    return (int)syscall(SYS_fsync, file);
}

int rename(const char *from, const char *to) {
    if (is_refused(&renames))
        return (int)refusal();
    return (int)syscall(SYS_renameat2, AT_FDCWD, from, AT_FDCWD, to, 0);
}

ssize_t recv(int socket, void *bytes, size_t count, int flags) {
    if (is_refused(&recvs))
        return refusal();
    return syscall(SYS_recvfrom, socket, bytes, shortened(count, most_read), flags, NULL, NULL);
}

ssize_t send(int socket, const void *bytes, size_t count, int flags) {
    if (is_refused(&sends))
        return refusal();
    return syscall(SYS_sendto, socket, bytes, shortened(count, most_written), flags, NULL, 0);
}

int accept4(int socket, struct sockaddr *address, socklen_t *len, int flags) {
    if (is_refused(&accepts))
        return (int)refusal();
    return (int)syscall(SYS_accept4, socket, address, len, flags);
}

int socket(int domain, int type, int protocol) {
    if (is_refused(&sockets))
        return (int)refusal();
    return (int)syscall(SYS_socket, domain, type, protocol);
}

int bind(int socket, const struct sockaddr *address, socklen_t len) {
    if (is_refused(&binds))
        return (int)refusal();
    return (int)syscall(SYS_bind, socket, address, len);
}

int listen(int socket, int backlog) {
    if (is_refused(&listens))
        return (int)refusal();
    return (int)syscall(SYS_listen, socket, backlog);
}

int getsockname(int socket, struct sockaddr *address, socklen_t *len) {
    if (is_refused(&names))
        return (int)refusal();
    return (int)syscall(SYS_getsockname, socket, address, len);
}

/* Tells how many allocations the program made. */
__attribute__((destructor)) static void tell_count(void) {
    unsigned long made = allocations.made;
    is_counting = 0;
    FILE *file = count_file == NULL ? NULL : fopen(count_file, "w");
    if (file == NULL)
        return;
    fprintf(file, "%lu\n", made);
    fclose(file);
}

typedef int main_type(int, char **, char **);
typedef int start_type(main_type *, int, char **, void (*)(void), void (*)(void), void (*)(void), void *);

static main_type *program;

static int counted_main(int count, char **words, char **environment) {
    is_counting = 1;
    return program(count, words, environment);
}

/* The C library's start of a program, which calls `main`: here, with counting begun. */
int __libc_start_main(main_type *main, int count, char **words, void (*init)(void), void (*fini)(void),
                      void (*linker_fini)(void), void *stack_end) {
    start_type *start = (start_type *)dlsym(RTLD_NEXT, "__libc_start_main");
    program = main;
    allocations.refused = number("REFUSE_ALLOCATION");
    reads.refused = number("REFUSE_READ");
    writes.refused = number("REFUSE_WRITE");
    preads.refused = number("REFUSE_PREAD");
    pwrites.refused = number("REFUSE_PWRITE");
    syncs.refused = number("REFUSE_SYNC");
    renames.refused = number("REFUSE_RENAME");
    recvs.refused = number("REFUSE_RECV");
    sends.refused = number("REFUSE_SEND");
    accepts.refused = number("REFUSE_ACCEPT");
    sockets.refused = number("REFUSE_SOCKET");
    binds.refused = number("REFUSE_BIND");
    listens.refused = number("REFUSE_LISTEN");
    names.refused = number("REFUSE_NAME");
    most_read = number("SHORT_READS");
    most_written = number("SHORT_WRITES");
    if (getenv("REFUSE_ERRNO") != NULL)
        refused_with = (int)number("REFUSE_ERRNO");
    mark = getenv("REFUSE_MARK");
    count_file = getenv("COUNT_FILE");
    return start(counted_main, count, words, init, fini, linker_fini, stack_end);
}
