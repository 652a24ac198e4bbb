/* Start-up for the emulated boards: the vectors, RAM made ready, and text out by semihosting (the emulator prints it).
   A real board has its own of all this. */
#include <stddef.h>
#include <stdint.h>

extern uint32_t __data_load[], __data_start[], __data_end[], __bss_start[], __bss_end[], __stack_top[];
extern char end[];
int main(void);

enum { SYS_WRITE0 = 0x04, SYS_EXIT_EXTENDED = 0x20, APPLICATION_EXIT = 0x20026 };

static void ask_emulator(int what, const void *with)
{
    register int r0 __asm__("r0") = what;
    register const void *r1 __asm__("r1") = with;
    __asm__ volatile("bkpt 0xab" : "+r"(r0) : "r"(r1) : "memory");
}

void _exit(int status)
{
    uint32_t block[2] = {APPLICATION_EXIT, (uint32_t)status};
    for (;;) ask_emulator(SYS_EXIT_EXTENDED, block);
}

static void fault(void)
{
    ask_emulator(SYS_WRITE0, "FAULT\n");
    _exit(3);
}

void reset(void)
{
    uint32_t *to = __data_start;
    for (const uint32_t *from = __data_load; to < __data_end;) *to++ = *from++;
    for (to = __bss_start; to < __bss_end;) *to++ = 0;
    _exit(main());
}

__attribute__((section(".vectors"), used)) static void (*const vectors[16])(void) = {
    (void (*)(void))__stack_top, reset, fault, fault, fault, fault, fault, 0, 0, 0, 0, fault, fault, 0, fault, fault};

/* What printf of newlib asks for. */
int _write(int file, const char *text, int length)
{
    (void)file;
    for (int i = 0; i < length; i++) {
        const char one[2] = {text[i], 0};
        ask_emulator(SYS_WRITE0, one);
    }
    return length;
}

void *_sbrk(ptrdiff_t more)
{
    static char *top = end;
    char *had = top;
    top += more;
    return had;
}

int _kill(int process, int signal) { return (void)process, (void)signal, -1; }
int _getpid(void) { return 1; }
int _close(int file) { return (void)file, -1; }
int _fstat(int file, void *status) { return (void)file, (void)status, -1; }
int _isatty(int file) { return (void)file, 1; } /* so that each line is written when it ends */
int _lseek(int file, int offset, int from) { return (void)file, (void)offset, (void)from, 0; }
int _read(int file, char *text, int length) { return (void)file, (void)text, (void)length, 0; }
