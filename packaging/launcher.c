/* Starts rgwd or rgca so that it hears of signals: the same process goes on as the program, without a further word.
 *
 * Installed as PREFIX/sbin/rgwd or PREFIX/bin/rgca, it starts the proved program of its own name in PREFIX/libexec/rgw, wherever PREFIX is.
 * Under its name `launcher` it starts the program that its first word names:   launcher PATH/rgwd CONFIG
 *
 * A proved program can't ask the system for signals. But blocked signals, ignored ones and open descriptors outlive exec. So this
 *   - blocks SIGTERM and SIGINT, and SIGHUP where standard error is a terminal, and opens a signalfd(2) for them at descriptor 3, where the
 *     program looks for it. Each of them is `stop` there. One that was ignored before, as SIGHUP by nohup, stays ignored;
 *   - ignores SIGHUP where standard error is no terminal, and the signals that would end a program that is to serve on: a write past
 *     `ulimit -f` is then an error of that write.
 * Before words that start nothing that serves (rgwd --tell and --replay) signals stay as they are.
 *
 * This is C, and isn't proved. It has its own declarations, for x86-64 and glibc: the kit's clang, which compiles it, has no headers. */
typedef struct {
    unsigned long bits[16];
} sigset_t;
struct sigaction {
    void (*handler)(int);
    sigset_t mask;
    int flags;
    void (*restorer)(void);
};
int sigaction(int, const struct sigaction *, struct sigaction *);
int sigprocmask(int, const sigset_t *, sigset_t *);
int signalfd(int, const sigset_t *, int);
int dup2(int, int);
int close(int);
int isatty(int);
int execv(const char *, char *const *);
int strcmp(const char *, const char *);
long readlink(const char *, char *, unsigned long);
long write(int, const void *, unsigned long);
unsigned long getauxval(unsigned long);
void perror(const char *);

enum { HUP = 1, INT = 2, USR1 = 10, USR2 = 12, PIPE = 13, ALRM = 14, TERM = 15, CHLD = 17, XFSZ = 25 };
enum { BLOCK = 0, NONBLOCK = 04000, EXECFN = 31, STANDARD_ERROR = 2, AT = 3, ROOM = 4096 };
#define IGNORED ((void (*)(int))1)
#define FOLDER "../libexec/rgw/"
#define USAGE "usage: launcher PROGRAM [WORDS]\n"

/* What stands behind the last stroke of a path. */
static char *base(char *path) {
    char *found = path;
    for (; *path; path++)
        if (*path == '/')
            found = path + 1;
    return found;
}

/* Where this program is; an empty text where nobody says so. */
static char *own_path(void) {
    static char path[ROOM + 1];
    /* (without /proc it is the path that it was started by, which may be a link) */
    const char *given = (const char *)getauxval(EXECFN);
    if (readlink("/proc/self/exe", path, ROOM) < 0 && given)
        for (unsigned i = 0; i < ROOM && given[i]; i++)
            path[i] = given[i];
    return path;
}

/* The program of this name in FOLDER, seen from the folder of a path, whose last part the name is. */
static char *installed(const char *path, const char *name) {
    static char found[2 * ROOM + sizeof FOLDER];
    char *end = found;
    for (const char *from = path; from < name; from++)
        *end++ = *from;
    for (const char *from = FOLDER; *from; from++)
        *end++ = *from;
    while ((*end++ = *name++)) {
    }
    return found;
}

/* Whether a program serves that is started with this first word. */
static int serves(const char *word) {
    return !word || (strcmp(word, "--tell") && strcmp(word, "--replay"));
}

static void set_signals(void) {
    /* (of an orphan of a container, whose first process the program may be, nothing is left where SIGCHLD is ignored) */
    static const int ignored[] = {PIPE, XFSZ, USR1, USR2, ALRM, CHLD}, taken[] = {TERM, INT, HUP};
    static const struct sigaction ignore = {.handler = IGNORED};
    static sigset_t set;
    for (unsigned i = 0; i < sizeof ignored / sizeof *ignored; i++)
        sigaction(ignored[i], &ignore, 0);
    if (!isatty(STANDARD_ERROR))
        sigaction(HUP, &ignore, 0);
    for (unsigned i = 0; i < sizeof taken / sizeof *taken; i++) {
        static struct sigaction was;
        if (sigaction(taken[i], 0, &was) == 0 && was.handler != IGNORED)
            set.bits[0] |= 1ul << (taken[i] - 1);
    }
    /* (it may be the number of a standard stream, where that is closed) */
    int fd = signalfd(-1, &set, NONBLOCK);
    if (fd == -1 || (fd != AT && (dup2(fd, AT) != AT || close(fd) != 0)))
        return;
    /* Without /proc the program doesn't find it, and then signals end it at once. */
    char kind[32];
    if (readlink("/proc/self/fd/3", kind, sizeof kind) > 0)
        sigprocmask(BLOCK, &set, 0);
}

int main(int count, char **words) {
    char *path = own_path();
    char *name = base(path);
    if (!strcmp(name, "launcher")) {
        if (count < 2)
            return write(STANDARD_ERROR, USAGE, sizeof USAGE - 1), 2;
        words++;
        path = words[0];
    } else
        path = installed(path, name);
    if (serves(words[0] ? words[1] : 0))
        set_signals();
    execv(path, words);
    perror(path);
    return 127;
}
