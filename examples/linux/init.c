/* The only process: a shell for Linux without MMU, in user mode. It is freestanding C, without a C
 * library, and becomes a flat binary (bFLT). Its commands are its own: no other program is run. */

enum {
    SYS_MOUNT = 40,
    SYS_IOCTL = 29,
    SYS_OPENAT = 56,
    SYS_CLOSE = 57,
    SYS_GETDENTS64 = 61,
    SYS_READ = 63,
    SYS_WRITE = 64,
    SYS_REBOOT = 142,
};

enum { AT_FDCWD = -100, ENOENT = 2, TCSBRK = 0x5409 };

static long call(long number, long first, long second, long third, long fourth, long fifth)
{
    register long a0 asm("a0") = first, a1 asm("a1") = second, a2 asm("a2") = third;
    register long a3 asm("a3") = fourth, a4 asm("a4") = fifth, a7 asm("a7") = number;
    asm volatile("ecall" : "+r"(a0) : "r"(a1), "r"(a2), "r"(a3), "r"(a4), "r"(a7) : "memory");
    return a0;
}

static unsigned length(const char *text)
{
    unsigned count = 0;
    while (text[count])
        count++;
    return count;
}

static void put_bytes(const char *bytes, long count)
{
    while (count > 0) {
        long written = call(SYS_WRITE, 1, (long)bytes, count, 0, 0);
        if (written <= 0)
            return;
        bytes += written;
        count -= written;
    }
}

static void put(const char *text) { put_bytes(text, length(text)); }

static int is_same(const char *left, const char *right)
{
    while (*left && *left == *right) {
        left++;
        right++;
    }
    return *left == *right;
}

static void complain(const char *path, long error)
{
    put(path);
    put(error == -ENOENT ? ": no such file or directory\n" : ": cannot be read\n");
}

/* Writes a file to standard output. */
static void cat(const char *path)
{
    static char block[256];
    long file = call(SYS_OPENAT, AT_FDCWD, (long)path, 0, 0, 0);
    long count = file;
    if (file >= 0) {
        while ((count = call(SYS_READ, file, (long)block, sizeof block, 0, 0)) > 0)
            put_bytes(block, count);
        call(SYS_CLOSE, file, 0, 0, 0, 0);
    }
    if (count < 0)
        complain(path, count);
}

struct entry {
    unsigned long long inode, offset;
    unsigned short size;
    unsigned char kind;
    char name[];
};

typedef void visitor(const char *name);

/* Visits the names of a folder, in its own order. */
static void visit(const char *path, visitor *each)
{
    static _Alignas(8) char block[1024];
    long folder = call(SYS_OPENAT, AT_FDCWD, (long)path, 0200000, 0, 0);
    long count = folder;
    if (folder >= 0) {
        while ((count = call(SYS_GETDENTS64, folder, (long)block, sizeof block, 0, 0)) > 0)
            for (long at = 0; at < count; at += ((struct entry *)(block + at))->size)
                each(((struct entry *)(block + at))->name);
        call(SYS_CLOSE, folder, 0, 0, 0, 0);
    }
    if (count < 0)
        complain(path, count);
}

static void list(const char *name)
{
    if (name[0] == '.')
        return;
    put(name);
    put("\n");
}

/* Writes the line of a process: its number and its name, as /proc/N/stat begins. */
static void tell_process(const char *name)
{
    static char path[32], line[64];
    if (name[0] < '1' || name[0] > '9' || length(name) > 10)
        return;
    char *end = path;
    for (const char *from = "/proc/"; *from; from++)
        *end++ = *from;
    for (const char *from = name; *from; from++)
        *end++ = *from;
    for (const char *from = "/stat"; *from; from++)
        *end++ = *from;
    *end = 0;
    long file = call(SYS_OPENAT, AT_FDCWD, (long)path, 0, 0, 0);
    if (file < 0)
        return;
    long count = call(SYS_READ, file, (long)line, sizeof line, 0, 0);
    call(SYS_CLOSE, file, 0, 0, 0, 0);
    long shown = 0;
    while (shown < count && line[shown] != ')')
        shown++;
    put_bytes(line, shown + (shown < count));
    put("\n");
}

/* Ends the machine, once all is transmitted. */
static void power_off(void)
{
    call(SYS_IOCTL, 1, TCSBRK, 1, 0, 0);
    call(SYS_REBOOT, 0xfee1dead, 672274793, 0x4321fedc, 0, 0);
}

static void obey(const char *command, const char *operand)
{
    if (is_same(command, "echo")) {
        put(operand);
        put("\n");
    } else if (is_same(command, "cat")) {
        cat(operand);
    } else if (is_same(command, "ls")) {
        visit(*operand ? operand : "/", list);
    } else if (is_same(command, "ps")) {
        visit("/proc", tell_process);
    } else if (is_same(command, "uptime")) {
        cat("/proc/uptime");
    } else if (is_same(command, "poweroff")) {
        power_off();
    } else if (*command) {
        put(command);
        put(": no such command: echo, cat, ls, ps, uptime, poweroff\n");
    }
}

/* Reads a line, without its newline. At the end of the input there is none. */
static int read_line(char *line, long size)
{
    long count = call(SYS_READ, 0, (long)line, size - 1, 0, 0);
    if (count <= 0)
        return 0;
    line[line[count - 1] == '\n' ? count - 1 : count] = 0;
    return 1;
}

__attribute__((used)) void shell(void)
{
    static char line[128];
    call(SYS_MOUNT, (long)"proc", (long)"/proc", (long)"proc", 0, 0);
    put("A shell in user mode. Its commands: echo, cat, ls, ps, uptime, poweroff.\n");
    for (;;) {
        put("# ");
        if (!read_line(line, sizeof line))
            power_off();
        char *operand = line;
        while (*operand && *operand != ' ')
            operand++;
        while (*operand == ' ')
            *operand++ = 0;
        obey(line, operand);
    }
}

asm(".globl _start\n_start: call shell\n");
