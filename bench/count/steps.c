/* steps PROGRAM: runs PROGRAM, told that it is stepped, and prints how many instructions it makes between each SIGUSR1 and the SIGUSR2 after
 * it, by the processor's own single step. What the program prints goes to standard error. For x86-64 under Linux. */
#include <signal.h>
#include <stdio.h>
#include <sys/ptrace.h>
#include <sys/wait.h>
#include <unistd.h>

int main(int argc, char **argv)
{
    long steps = 0;
    int status, counting = 0;
    pid_t child;

    if (argc != 2)
        return 2;
    child = fork();
    if (child == 0) {
        dup2(2, 1);
        ptrace(PTRACE_TRACEME, 0, NULL, NULL);
        execl(argv[1], argv[1], "told", (char *)NULL);
        return 2;
    }
    while (waitpid(child, &status, 0) == child && WIFSTOPPED(status)) {
        const int why = WSTOPSIG(status);

        if (why == SIGUSR1) {
            counting = 1;
            steps = 0;
        } else if (why == SIGUSR2) {
            counting = 0;
            printf("%ld\n", steps);
        } else if (why != SIGTRAP) {
            return 1;
        } else if (counting) {
            steps++;
        }
        ptrace(counting ? PTRACE_SINGLESTEP : PTRACE_CONT, child, NULL, NULL);
    }
    return WIFEXITED(status) ? WEXITSTATUS(status) : 1;
}
