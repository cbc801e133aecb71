/* report: the program `report`, linked by C. */
#include <signal.h>
#include <stdint.h>

/* What the program does, proved: crates/program, which crates/program_c offers to C. The three streams that it takes there are of no bytes,
   so that nothing is passed for them. 0 where the report is written, 1 where a read failed, 2 where a write failed. */
uint8_t wharfthrum_program(void);

int main(void)
{
    /* By default the system ends a program that writes to a pipe which nobody reads. Ignored, that is a write that fails, and is told. */
    signal(SIGPIPE, SIG_IGN);
    return wharfthrum_program();
}
