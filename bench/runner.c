/* Runs an image of machine words under QEMU's user mode: the words as hexadecimal digits in the file argv[1], the words of
 * the stack argv[2], the cells argv[3], and then the words of main's arguments, as signed decimals. An environment call is
 * a breakpoint here, whose handler does what the call does. The exit status is 100 where the program ended and the fault's
 * number where it stopped with a fault. The cells of a freed block aren't used again, as if there were room for all. */
#define _GNU_SOURCE
#include <signal.h>
#include <stdio.h>
#include <stdlib.h>
#include <string.h>
#include <sys/mman.h>
#include <ucontext.h>

enum { MOST_BLOCKS = 262144, CODE_BYTES = 4 * 250000, ROOM = 1 << 26 };

static unsigned char *code;
static long *const stack = (long *)0x10000000;
static unsigned long *const table = (unsigned long *)0x20000000;
static unsigned long cells, given, live, blocks;
static int started;

static void stop(int status)
{
    fflush(stdout);
    _Exit(status);
}

static void put_char(unsigned long c)
{
    if (c < 0x80) {
        putchar(c);
    } else if (c < 0x800) {
        putchar(0xC0 | c >> 6);
        putchar(0x80 | (c & 63));
    } else if (c < 0x10000) {
        putchar(0xE0 | c >> 12);
        putchar(0x80 | (c >> 6 & 63));
        putchar(0x80 | (c & 63));
    } else {
        putchar(0xF0 | c >> 18);
        putchar(0x80 | (c >> 12 & 63));
        putchar(0x80 | (c >> 6 & 63));
        putchar(0x80 | (c & 63));
    }
}

static unsigned long allocate(long count)
{
    if (count < 1) stop(3);
    if (blocks >= MOST_BLOCKS) stop(11);
    if ((unsigned long)count > cells || live + count > cells) stop(9);
    if (given + count > ROOM) stop(104);
    blocks++;
    table[2 * blocks] = 0x40000000 + 16 * given;
    table[2 * blocks + 1] = count;
    given += count;
    live += count;
    return blocks << 32;
}

static void release(unsigned long pointer)
{
    unsigned long block = pointer >> 32;
    if ((pointer & 0xFFFFFFFF) || block > MOST_BLOCKS || !table[2 * block + 1]) stop(4);
    live -= table[2 * block + 1];
    table[2 * block + 1] = 0;
}

static void end(unsigned long number)
{
    if (number) stop(number);
    for (unsigned long b = 1; b <= blocks; b++)
        if (table[2 * b + 1]) stop(7);
    stop(100);
}

void trap(int sig, siginfo_t *info, void *at)
{
    ucontext_t *c = at;
    unsigned long *r = c->uc_mcontext.__gregs;
    (void)sig;
    (void)info;
    if (!started) {
        started = 1;
        for (int k = 1; k < 32; k++) r[k] = 0;
        r[2] = (unsigned long)stack;
        r[0] = (unsigned long)code;
        return;
    }
    switch (r[17]) {
    case 1: printf("%ld", (long)r[10]); break;
    case 2: printf(r[10] ? "true" : "false"); break;
    case 3: put_char(r[10]); break;
    case 4: putchar(' '); break;
    case 5: putchar('\n'); break;
    case 6: r[10] = allocate(r[10]); break;
    case 7: release(r[10]); break;
    case 8: end(r[10]); break;
    default: stop(101);
    }
    r[0] += 4;
}

/* The image has values of its own in registers 3 and 4, in which the C library has the address of its data and of its thread:
 * a trap begins with theirs. Those of the image come back with the other registers when the trap has ended. */
unsigned long thread;

void enter(int sig, siginfo_t *info, void *at);

__asm__(".text\n"
        ".globl enter\n"
        "enter:\n"
        ".option push\n"
        ".option norelax\n"
        "lla gp, __global_pointer$\n"
        "lla tp, thread\n"
        "ld tp, 0(tp)\n"
        ".option pop\n"
        "tail trap\n");

static void *region(unsigned long at, unsigned long size)
{
    return mmap((void *)at, size, PROT_READ | PROT_WRITE, MAP_PRIVATE | MAP_ANONYMOUS | MAP_NORESERVE | (at ? MAP_FIXED : 0), -1, 0);
}

int main(int argc, char **argv)
{
    static unsigned char own_stack[65536];
    stack_t own = { .ss_sp = own_stack, .ss_size = sizeof own_stack };
    struct sigaction act = { .sa_sigaction = enter, .sa_flags = SA_SIGINFO | SA_ONSTACK };
    FILE *file = fopen(argv[1], "r");
    unsigned word, count = 0;
    if (!file) return 102;
    code = region(0, CODE_BYTES);
    region((unsigned long)stack, 8 * strtoul(argv[2], 0, 10) + 4096);
    region((unsigned long)table, 16 * (MOST_BLOCKS + 1));
    cells = strtoul(argv[3], 0, 10);
    region(0x40000000, 16ul * ROOM);
    while (fscanf(file, "%x", &word) == 1) {
        if (word == 0x73) word = 0x00100073;
        memcpy(code + 4 * count++, &word, 4);
    }
    mprotect(code, CODE_BYTES, PROT_READ | PROT_EXEC);
    __builtin___clear_cache((char *)code, (char *)code + CODE_BYTES);
    for (int k = 4; k < argc; k++) stack[2 + k - 4] = strtol(argv[k], 0, 10);
    __asm__ volatile("mv %0, tp" : "=r"(thread));
    sigaltstack(&own, 0);
    sigaction(SIGTRAP, &act, 0);
    __asm__ volatile("ebreak");
    return 103;
}
