/* Refuses memory to one program, z80dev: built as a shared object and named by LD_PRELOAD, it does nothing to any other.
 *
 * Before main begins, the program is run again and again as a child of itself: once with ample memory, then with its Nth call for
 * memory refused, for N from 1 until a run meets no refusal; and likewise with the Nth call and all after it refused, for
 * every fourth N alone where there are more than 200 calls. Each run begins in the folder as it was found, and its end is judged:
 *
 *   - status, standard output, standard error and files of ample memory; or
 *   - status 1, `error: NoMemory` and nothing on standard output, and of the files each either as before or the whole new one.
 *     Where refusals go on, a front of that line is enough.
 *
 * A program that prints what calls answered, REFUSE_CALLS, goes on where a call was refused. Its lines are those of ample memory, but
 * that an answer, from ` => ` or ` | ` to the next ` | ` or the end of the line, may break off with `NoMemory`, or a run with
 * `Stopped(ConsoleFault)`; or it ends with status 1 and a front of such lines. Where the Nth call alone is refused, one answer may.
 *
 * From the environment: REFUSE_PROGRAM, with what the program's name begins, if it is not z80dev; REFUSE_INPUT, the file that is standard input; REFUSE_STATUS, the status of ample memory; REFUSE_PRINTS, whether
 * a front of the output of ample memory may stand before `error: NoMemory`; the files have to be the new ones where all of it stands there;
 * REFUSE_ALSO, ends that are taken as that line is, each a line of a status, a blank, and what is said.
 * Prints `ok` and how many runs there were of each kind, or the first runs that ended otherwise, and then `FAILED`. */
#define _GNU_SOURCE
#include <dirent.h>
#include <errno.h>
#include <fcntl.h>
#include <stddef.h>
#include <stdio.h>
#include <stdlib.h>
#include <string.h>
#include <sys/mman.h>
#include <sys/stat.h>
#include <sys/wait.h>
#include <unistd.h>

#define EXPORT __attribute__((visibility("default")))

extern void *__libc_malloc(size_t);
extern void *__libc_calloc(size_t, size_t);
extern void *__libc_realloc(void *, size_t);
extern void *__libc_memalign(size_t, size_t);

/* -- calls for memory */

/* What a run tells the one who began it. */
struct counts {
    long calls;
    long refused;
};

static struct counts *counts;
static int counting;
static long first_refused; /* 0: none is */
static int goes_on;

static int is_refused(void)
{
    if (!counting)
        return 0;
    counts->calls++;
    if (first_refused == 0 || counts->calls < first_refused)
        return 0;
    if (counts->calls > first_refused && !goes_on)
        return 0;
    counts->refused++;
    errno = ENOMEM;
    return 1;
}

EXPORT void *malloc(size_t size)
{
    return is_refused() ? NULL : __libc_malloc(size);
}

EXPORT void *calloc(size_t count, size_t size)
{
    return is_refused() ? NULL : __libc_calloc(count, size);
}

EXPORT void *realloc(void *old, size_t size)
{
    return is_refused() ? NULL : __libc_realloc(old, size);
}

EXPORT void *memalign(size_t alignment, size_t size)
{
    return is_refused() ? NULL : __libc_memalign(alignment, size);
}

EXPORT void *aligned_alloc(size_t alignment, size_t size)
{
    return memalign(alignment, size);
}

EXPORT int posix_memalign(void **result, size_t alignment, size_t size)
{
    if (is_refused())
        return ENOMEM;
    *result = __libc_memalign(alignment, size);
    return *result == NULL ? ENOMEM : 0;
}

/* -- files */

#define MOST_FILES 64
#define MOST_FAULTS 8

struct text {
    char *bytes;
    size_t len;
};

struct file {
    char name[256];
    struct text text;
    struct stat stat; /* as it stood when it was last read or written */
};

struct folder {
    struct file files[MOST_FILES];
    int count;
};

static void die(const char *what)
{
    printf("FAILED: %s: %s\n", what, strerror(errno));
    fflush(stdout);
    _exit(1);
}

static struct text read_all(int fd)
{
    struct text text = {NULL, 0};
    struct stat stat;
    if (fstat(fd, &stat) != 0)
        die("fstat");
    text.bytes = __libc_malloc(stat.st_size + 1);
    while (text.len < (size_t)stat.st_size) {
        ssize_t got = pread(fd, text.bytes + text.len, stat.st_size - text.len, text.len);
        if (got <= 0)
            die("pread");
        text.len += got;
    }
    return text;
}

static int is_same(struct text a, struct text b)
{
    return a.len == b.len && memcmp(a.bytes, b.bytes, a.len) == 0;
}

static struct file *find(struct folder *folder, const char *name)
{
    for (int i = 0; i < folder->count; i++)
        if (strcmp(folder->files[i].name, name) == 0)
            return &folder->files[i];
    return NULL;
}

static int is_untouched(const struct file *file, const struct stat *now)
{
    return file->stat.st_ino == now->st_ino && file->stat.st_size == now->st_size &&
           file->stat.st_mtim.tv_sec == now->st_mtim.tv_sec && file->stat.st_mtim.tv_nsec == now->st_mtim.tv_nsec;
}

static struct text read_file(const char *name)
{
    int fd = open(name, O_RDONLY);
    if (fd < 0)
        die(name);
    struct text text = read_all(fd);
    close(fd);
    return text;
}

static struct folder *read_folder(void)
{
    struct folder *folder = __libc_calloc(1, sizeof *folder);
    DIR *dir = opendir(".");
    struct dirent *entry;
    if (dir == NULL)
        die("opendir");
    while ((entry = readdir(dir)) != NULL) {
        struct stat stat;
        if (lstat(entry->d_name, &stat) != 0 || !S_ISREG(stat.st_mode))
            continue;
        if (folder->count == MOST_FILES)
            die("too many files");
        struct file *file = &folder->files[folder->count++];
        snprintf(file->name, sizeof file->name, "%s", entry->d_name);
        file->text = read_file(file->name);
        file->stat = stat;
    }
    closedir(dir);
    return folder;
}

/* The folder as it was found. */
static void restore(struct folder *before)
{
    char names[MOST_FILES][256];
    int count = 0;
    DIR *dir = opendir(".");
    struct dirent *entry;
    while ((entry = readdir(dir)) != NULL)
        if (entry->d_type == DT_REG && find(before, entry->d_name) == NULL && count < MOST_FILES)
            snprintf(names[count++], 256, "%s", entry->d_name);
    closedir(dir);
    while (count > 0)
        unlink(names[--count]);
    for (int i = 0; i < before->count; i++) {
        struct file *file = &before->files[i];
        struct stat now;
        if (stat(file->name, &now) == 0 && is_untouched(file, &now))
            continue;
        unlink(file->name);
        int fd = open(file->name, O_WRONLY | O_CREAT | O_EXCL, 0644);
        if (fd < 0 || write(fd, file->text.bytes, file->text.len) != (ssize_t)file->text.len)
            die(file->name);
        close(fd);
        stat(file->name, &file->stat);
    }
}

/* -- runs */

struct end {
    int status;
    struct text out;
    struct text err;
};

static int input, output, errors;
static struct folder *before, *after;
static struct end ample;
static int prints, calls, faults;
static long runs, sames;
static int is_touched = 1; /* whether the folder may not be as it was found */

static void empty(int fd)
{
    if (ftruncate(fd, 0) != 0 || lseek(fd, 0, SEEK_SET) != 0)
        die("ftruncate");
}

/* Begins a run; answers only in the child, which goes on into main. */
static int run(long nth, int all_after, struct end *end)
{
    int status;
    empty(output);
    empty(errors);
    lseek(input, 0, SEEK_SET);
    counts->calls = counts->refused = 0;
    fflush(stdout);
    pid_t child = fork();
    if (child < 0)
        die("fork");
    if (child == 0) {
        dup2(input, 0);
        dup2(output, 1);
        dup2(errors, 2);
        first_refused = nth;
        goes_on = all_after;
        alarm(30);
        counting = 1;
        return 1;
    }
    if (waitpid(child, &status, 0) != child)
        die("waitpid");
    end->status = WIFEXITED(status) ? WEXITSTATUS(status) : 128 + WTERMSIG(status);
    end->out = read_all(output);
    end->err = read_all(errors);
    return 0;
}

static int begins(struct text front, const char *line, size_t len)
{
    return front.len <= len && memcmp(front.bytes, line, front.len) == 0;
}

static int is_line(struct text text, const char *line, size_t len, int all_after)
{
    return begins(text, line, len) && (all_after || text.len == len);
}

/* Whether an end is one of some, each a line of a status, a blank, and what is said. */
static int is_one_of(struct end end, const char *ends, int all_after)
{
    while (*ends != 0) {
        size_t len = strcspn(ends, "\n");
        const char *text = strchr(ends, ' ') + 1;
        char line[512];
        int line_len = snprintf(line, sizeof line, "%.*s\n", (int)(ends + len - text), text);
        if (end.status == atoi(ends) && is_line(end.err, line, line_len, all_after))
            return 1;
        ends += len;
        ends += *ends == '\n';
    }
    return 0;
}

/* How long the word is that says at a place that a call was refused, or 0. */
static size_t refusal_at(struct text text, size_t at)
{
    static const char *const words[] = {"NoMemory", "Stopped(ConsoleFault)"};
    for (size_t i = 0; i < sizeof words / sizeof *words; i++) {
        size_t len = strlen(words[i]);
        if (at + len <= text.len && memcmp(text.bytes + at, words[i], len) == 0)
            return len;
    }
    return 0;
}

/* Where the answer ends that stands at a place. */
static size_t answer_end(struct text text, size_t at)
{
    while (at < text.len && text.bytes[at] != '\n' && !(at + 2 < text.len && memcmp(text.bytes + at, " | ", 3) == 0))
        at++;
    return at;
}

/* How many answers of these say that memory was refused, where the others are those of ample memory; -1 where one is another. */
static int count_refused(struct text out, int is_cut)
{
    size_t at = 0, want = 0;
    int refused = 0;
    while (at < out.len) {
        if (refusal_at(out, at) > 0 && refusal_at(ample.out, want) == 0) {
            refused++;
            at = answer_end(out, at);
            want = answer_end(ample.out, want);
        } else if (want < ample.out.len && out.bytes[at] == ample.out.bytes[want]) {
            at++;
            want++;
        } else {
            return -1;
        }
    }
    return is_cut || want == ample.out.len ? refused : -1;
}

/* Whether calls that a program made and printed ended as they should. */
static int are_answers(struct end end, int all_after)
{
    int refused = count_refused(end.out, end.status == 1);
    if (end.status == 1)
        return refused >= 0 && (all_after || refused == 0);
    return end.status == 0 && end.err.len == 0 && refused >= 0 && (all_after || refused <= 1);
}

static const char *text(const char *name)
{
    const char *text = getenv(name);
    return text == NULL ? "" : text;
}

/* Why a file is not as it should be, or NULL. */
static const char *judge_file(const char *name, int want_all)
{
    static char why[600];
    struct file *old = find(before, name), *new = find(after, name);
    struct stat now;
    if (lstat(name, &now) != 0) {
        snprintf(why, sizeof why, "the file %s is not there", name);
        return old != NULL || want_all ? why : NULL;
    }
    int is_old = old != NULL && is_untouched(old, &now);
    is_touched |= !is_old;
    if (is_old && (!want_all || (new != NULL && is_same(old->text, new->text))))
        return NULL;
    struct text text = read_file(name);
    int is_good = (new != NULL && is_same(text, new->text)) || (!want_all && old != NULL && is_same(text, old->text));
    free(text.bytes);
    snprintf(why, sizeof why, "the file %s of %zu bytes is neither old nor new", name, text.len);
    return is_good ? NULL : why;
}

/* Why files are not as they should be, or NULL. */
static const char *judge_files(int want_all)
{
    const char *why = NULL;
    struct dirent *entry;
    DIR *dir = opendir(".");
    int there = 0;
    while ((entry = readdir(dir)) != NULL && why == NULL)
        if (entry->d_type == DT_REG || entry->d_type == DT_UNKNOWN) {
            there += find(after, entry->d_name) != NULL;
            why = judge_file(entry->d_name, want_all);
        }
    closedir(dir);
    for (int i = 0; i < after->count && there < after->count && why == NULL; i++)
        why = judge_file(after->files[i].name, want_all);
    is_touched |= why != NULL;
    return why;
}

/* Counts a run, and prints why it did not end as it should. */
static void judge(struct end end, long nth, int all_after)
{
    const char *why = NULL;
    int same = end.status == ample.status && is_same(end.out, ample.out) && is_same(end.err, ample.err);
    int has_run = prints && ample.out.len > 0 && is_same(end.out, ample.out);
    const char *files = judge_files(same || has_run);
    runs++;
    sames += same;
    if (!same && calls)
        why = are_answers(end, all_after) ? NULL : "other answers";
    else if (!same && !is_one_of(end, "1 error: NoMemory", all_after) && !is_one_of(end, text("REFUSE_ALSO"), all_after))
        why = "another end";
    else if (!same && (prints ? !begins(end.out, ample.out.bytes, ample.out.len) : end.out.len != 0))
        why = "standard output";
    else
        why = files;
    if (why != NULL && faults++ < MOST_FAULTS)
        printf("call %ld%s: %s: status %d, %zu bytes, %.*s%s", nth, all_after ? " and all after" : "", why, end.status, end.out.len,
               (int)(end.err.len < 200 ? end.err.len : 200), end.err.bytes,
               end.err.len > 0 && end.err.bytes[end.err.len - 1] == '\n' ? "" : "\n");
}

static int is_program(void)
{
    char path[4096];
    ssize_t len = readlink("/proc/self/exe", path, sizeof path - 1);
    if (len < 0)
        return 0;
    path[len] = 0;
    const char *name = *text("REFUSE_PROGRAM") == 0 ? "z80dev" : text("REFUSE_PROGRAM");
    return strncmp(strrchr(path, '/') + 1, name, strlen(name)) == 0;
}

static long number(const char *name, long otherwise)
{
    return *text(name) == 0 ? otherwise : atol(text(name));
}

__attribute__((constructor)) static void refuse(void)
{
    const char *path = text("REFUSE_INPUT");
    if (*path == 0 || !is_program())
        return;
    input = open(path, O_RDONLY);
    output = memfd_create("output", 0);
    errors = memfd_create("errors", 0);
    counts = mmap(NULL, sizeof *counts, PROT_READ | PROT_WRITE, MAP_SHARED | MAP_ANONYMOUS, -1, 0);
    if (input < 0 || output < 0 || errors < 0 || counts == MAP_FAILED)
        die(path);
    prints = number("REFUSE_PRINTS", 0);
    calls = number("REFUSE_CALLS", 0);
    before = read_folder();
    if (run(0, 0, &ample))
        return;
    after = read_folder();
    long most = counts->calls;
    if (ample.status != number("REFUSE_STATUS", 0)) {
        printf("with ample memory: status %d, %.*s", ample.status, (int)ample.err.len, ample.err.bytes);
        faults++;
    }
    for (long nth = 1;; nth++) {
        int met = 0;
        for (int all_after = 0; all_after < 2; all_after++) {
            if (all_after && most > 200 && nth % 4 != 0)
                continue;
            struct end end;
            if (is_touched)
                restore(before);
            is_touched = 0;
            if (run(nth, all_after, &end))
                return;
            met |= counts->refused > 0;
            judge(end, nth, all_after);
            free(end.out.bytes);
            free(end.err.bytes);
        }
        if (!met)
            break;
    }
    restore(before);
    if (most == 0) {
        printf("no call for memory was seen\n");
        faults++;
    }
    printf("%s: %ld calls, %ld runs, %ld as with ample memory\n", faults == 0 ? "ok" : "FAILED", most, runs, sames);
    fflush(stdout);
    _exit(faults == 0 ? 0 : 1);
}
