// Loaded before the program, lets the power fail at its change of the number LOSE to a file below the folder BELOW: the changes that
// weren't synced may be lost, each by itself, as the seed SEED has it, and the program ends with the status 137.
//
// What a file's bytes were when it was last synced is on the disk; of what was written since, any beginning may be. What a name stood
// for when its folder was last synced is on the disk; of what it stood for since, any one may be, whatever the other names have.
#define _GNU_SOURCE
#include <errno.h>
#include <fcntl.h>
#include <stdarg.h>
#include <stdio.h>
#include <stdlib.h>
#include <string.h>
#include <sys/stat.h>
#include <sys/syscall.h>
#include <unistd.h>

enum { NODES = 4096, NAMES = 1024, STATES = 64, FILES = 256, PATH = 512 };

struct bytes {
    char *at;
    size_t size;
};

// A file: its bytes on the disk, and its bytes now.
struct node {
    struct bytes synced, now;
};

// A name: the files that it stood for since its folder was synced, the last one last; -1 is none.
struct name {
    char path[PATH];
    int states[STATES], count;
};

static struct node nodes[NODES];
static struct name names[NAMES];
static int node_count, name_count;
// Of each open file its place in `nodes`, counted from 1, or its path if it is a folder.
static int node_by_file[FILES];
static char folder_by_file[FILES][PATH];

static long number_in(const char *name) {
    const char *number = getenv(name);
    return number ? atol(number) : 0;
}

static int is_below(const char *path) {
    const char *below = getenv("BELOW");
    return below && strncmp(path, below, strlen(below)) == 0 && strlen(path) < PATH;
}

// Whether a path is that of the folder BELOW itself, whose slash it lacks, or below it.
static int is_of_below(const char *path) {
    const char *below = getenv("BELOW");
    size_t size = below ? strlen(below) - 1 : 0;
    return size && (is_below(path) || (strncmp(path, below, size) == 0 && path[size] == 0));
}

static void fail(const char *why) {
    dprintf(2, "lose: %s\n", why);
    syscall(SYS_exit_group, 99);
}

static void set(struct bytes *bytes, const char *at, size_t size) {
    char *copy = malloc(size + 1);
    if (!copy) fail("no memory");
    if (size) memcpy(copy, at, size);
    free(bytes->at);
    *bytes = (struct bytes){copy, size};
}

// A new file with these bytes, which are on the disk.
static int node_of(const char *at, size_t size) {
    if (node_count == NODES) fail("too many files");
    set(&nodes[node_count].synced, at, size);
    set(&nodes[node_count].now, at, size);
    return node_count++;
}

// What a path stands for on the disk, before this program changed it.
static int found(const char *path) {
    int file = syscall(SYS_openat, AT_FDCWD, path, O_RDONLY);
    if (file < 0) return -1;
    struct stat about;
    if (fstat(file, &about) || !S_ISREG(about.st_mode)) fail("a path of no file");
    char *at = malloc(about.st_size + 1);
    if (!at || syscall(SYS_read, file, at, about.st_size) != about.st_size) fail("a file that can't be read");
    syscall(SYS_close, file);
    int node = node_of(at, about.st_size);
    free(at);
    return node;
}

static struct name *name_of(const char *path) {
    for (int i = 0; i < name_count; i++)
        if (strcmp(names[i].path, path) == 0) return &names[i];
    if (name_count == NAMES) fail("too many names");
    struct name *name = &names[name_count++];
    strcpy(name->path, path);
    name->states[0] = found(path);
    name->count = 1;
    return name;
}

static int last_of(struct name *name) {
    return name->states[name->count - 1];
}

static void becomes(struct name *name, int node) {
    if (name->count == STATES) fail("too many changes of a name");
    name->states[name->count++] = node;
}

static unsigned long chance(unsigned long below) {
    static unsigned long state;
    if (!state) state = number_in("SEED") * 0x9E3779B97F4A7C15ul + 1;
    state = state * 6364136223846793005ul + 1442695040888963407ul;
    return (state >> 33) % below;
}

// The bytes of a file after the loss: those on the disk, or any beginning of those since.
static struct bytes left_of(struct node *node) {
    struct bytes left = chance(3) ? node->now : node->synced;
    int is_more = node->now.size >= node->synced.size && memcmp(node->now.at, node->synced.at, node->synced.size) == 0;
    size_t least = is_more ? node->synced.size : 0;
    if (left.at == node->now.at && chance(2)) left.size = least + chance(left.size - least + 1);
    return left;
}

static void lose(void) {
    for (int i = 0; i < name_count; i++) {
        int node = names[i].states[chance(names[i].count)];
        syscall(SYS_unlink, names[i].path);
        if (node < 0) continue;
        struct bytes left = left_of(&nodes[node]);
        int file = syscall(SYS_openat, AT_FDCWD, names[i].path, O_CREAT | O_TRUNC | O_WRONLY, 0644);
        if (file < 0 || syscall(SYS_write, file, left.at, left.size) != (ssize_t)left.size) fail("a file that can't be written");
        syscall(SYS_close, file);
    }
    syscall(SYS_exit_group, 137);
}

// A change was made; the power fails after the one of the number LOSE.
static void changed(void) {
    static long left = -1;
    if (left < 0) left = number_in("LOSE");
    if (left > 0 && --left == 0) lose();
}

static int opened(const char *path, int flags, mode_t mode) {
    int is_writing = is_below(path) && (flags & O_ACCMODE) != O_RDONLY;
    struct name *name = is_writing ? name_of(path) : NULL;
    int file = syscall(SYS_openat, AT_FDCWD, path, flags, mode);
    if (file < 0 || file >= FILES) return file;
    node_by_file[file] = 0;
    folder_by_file[file][0] = 0;
    if (name) {
        int is_new = last_of(name) < 0;
        if (is_new) becomes(name, node_of("", 0));
        node_by_file[file] = last_of(name) + 1;
        if (flags & O_TRUNC) set(&nodes[last_of(name)].now, "", 0);
        if (is_new || flags & O_TRUNC) changed();
    } else if (is_of_below(path)) {
        strcpy(folder_by_file[file], path);
    }
    return file;
}

int open(const char *path, int flags, ...) {
    va_list rest;
    va_start(rest, flags);
    mode_t mode = flags & O_CREAT ? va_arg(rest, mode_t) : 0;
    va_end(rest);
    return opened(path, flags, mode);
}

int openat(int folder, const char *path, int flags, ...) {
    va_list rest;
    va_start(rest, flags);
    mode_t mode = flags & O_CREAT ? va_arg(rest, mode_t) : 0;
    va_end(rest);
    return folder == AT_FDCWD ? opened(path, flags, mode) : syscall(SYS_openat, folder, path, flags, mode);
}

static struct node *node_at(int file) {
    return file >= 0 && file < FILES && node_by_file[file] ? &nodes[node_by_file[file] - 1] : NULL;
}

ssize_t write(int file, const void *bytes, size_t size) {
    ssize_t done = syscall(SYS_write, file, bytes, size);
    struct node *node = node_at(file);
    if (done <= 0 || !node) return done;
    size_t end = lseek(file, 0, SEEK_CUR), start = end - done;
    size_t most = end > node->now.size ? end : node->now.size;
    char *at = calloc(most + 1, 1);
    if (!at) fail("no memory");
    memcpy(at, node->now.at, node->now.size);
    memcpy(at + start, bytes, done);
    set(&node->now, at, most);
    free(at);
    changed();
    return done;
}

int ftruncate(int file, off_t size) {
    int done = syscall(SYS_ftruncate, file, size);
    struct node *node = node_at(file);
    if (done == 0 && node && (size_t)size < node->now.size) {
        node->now.size = size;
        changed();
    }
    return done;
}

// All that a file has is on the disk; or, if it is a folder, all that its names stand for.
static int synced(int file, int done) {
    struct node *node = node_at(file);
    if (done == 0 && node) set(&node->synced, node->now.at, node->now.size);
    size_t size = file >= 0 && file < FILES ? strlen(folder_by_file[file]) : 0;
    for (int i = 0; done == 0 && size && i < name_count; i++) {
        const char *path = names[i].path;
        if (strncmp(path, folder_by_file[file], size) || path[size] != '/' || strchr(path + size + 1, '/')) continue;
        names[i].states[0] = last_of(&names[i]);
        names[i].count = 1;
    }
    return done;
}

int fsync(int file) {
    return synced(file, syscall(SYS_fsync, file));
}

int fdatasync(int file) {
    return synced(file, syscall(SYS_fdatasync, file));
}

int close(int file) {
    if (file >= 0 && file < FILES) {
        node_by_file[file] = 0;
        folder_by_file[file][0] = 0;
    }
    return syscall(SYS_close, file);
}

int rename(const char *from, const char *to) {
    if (!is_below(from) || !is_below(to)) return syscall(SYS_rename, from, to);
    struct name *old = name_of(from), *new = name_of(to);
    int done = syscall(SYS_rename, from, to);
    if (done == 0) {
        becomes(new, last_of(old));
        becomes(old, -1);
        changed();
    }
    return done;
}

int unlink(const char *path) {
    struct name *name = is_below(path) ? name_of(path) : NULL;
    int done = syscall(SYS_unlink, path);
    if (done == 0 && name) {
        becomes(name, -1);
        changed();
    }
    return done;
}
