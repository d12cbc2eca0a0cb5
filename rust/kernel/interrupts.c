/* An interrupt after each instruction of an exported call, as far as a program can make one. The trap flag makes the
   processor stop after each instruction, and the handler then does what a kernel's interrupt does to the stack that it
   finds: it overwrites what lies below the stack pointer. It also holds the floating-point registers to what they were
   at the call, since in a kernel they are a user's. The script `interrupts` links this before each exported call. */
#include <signal.h>
#include <stdint.h>
#include <stdio.h>
#include <stdlib.h>
#include <string.h>
#include <ucontext.h>
#include <unistd.h>

#ifndef OVERWRITES
#define OVERWRITES 1
#endif
#ifndef HOLDS_REGISTERS
#define HOLDS_REGISTERS 1
#endif

enum { TRAP_FLAG = 0x100, RED_ZONE = 128 };

/* The call that is being made: where it returns to, the stack pointer after that, the registers before it. The tests
   make one call at a time. */
static struct {
    uint64_t back;
    uint64_t stack;
    struct _libc_fpstate registers;
} call;

static uint64_t calls, interrupts;

static void begin(const greg_t *registers, const struct _libc_fpstate *floating) {
    uint64_t stack = (uint64_t)registers[REG_RSP];
    call.back = *(const uint64_t *)stack;
    call.stack = stack + sizeof call.back;
    call.registers = *floating;
    calls++;
}

static int is_over(const greg_t *registers) {
    return (uint64_t)registers[REG_RIP] == call.back && (uint64_t)registers[REG_RSP] == call.stack;
}

static void hold(const struct _libc_fpstate *now) {
    const struct _libc_fpstate *then = &call.registers;
    if (memcmp(now->_st, then->_st, sizeof now->_st) || memcmp(now->_xmm, then->_xmm, sizeof now->_xmm)) {
        static const char told[] = "interrupts: an exported call changed a floating-point register\n";
        if (write(STDERR_FILENO, told, sizeof told - 1) < 0) abort();
        _exit(3);
    }
}

static void interrupt(int signal, siginfo_t *info, void *context) {
    (void)signal, (void)info;
    mcontext_t *machine = &((ucontext_t *)context)->uc_mcontext;
    if (!call.back) begin(machine->gregs, machine->fpregs);
    if (HOLDS_REGISTERS) hold(machine->fpregs);
    if (is_over(machine->gregs)) {
        machine->gregs[REG_EFL] &= ~(greg_t)TRAP_FLAG;
        call.back = 0;
        return;
    }
    interrupts++;
    if (OVERWRITES) memset((char *)machine->gregs[REG_RSP] - RED_ZONE, 0xa5, RED_ZONE);
}

__attribute__((constructor)) static void install(void) {
    struct sigaction action = {.sa_sigaction = interrupt, .sa_flags = SA_SIGINFO | SA_ONSTACK};
    if (sigaction(SIGTRAP, &action, NULL)) abort();
}

/* A program in which no interrupt came has tested nothing. */
__attribute__((destructor)) static void tell(void) {
    fprintf(stderr, "interrupts: %llu, in %llu calls\n", (unsigned long long)interrupts, (unsigned long long)calls);
    if (!interrupts) _exit(4);
}
