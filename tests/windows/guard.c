/* gearcard_why on a stack as Windows keeps one: a page is there once it was touched while the page above it was the last one; any other touch is the end. It has
   the one frame that is over a page. With loader.c, by which the DLL's own functions are called.
   usage: guard JOB     works the job, and asks why at each second, each time on a fresh stack
   Exit status: 0 where each byte is the card's, 1 where one is not, 7 where a page was passed over. */
#include "gearcard.h"

#include <signal.h>
#include <stdio.h>
#include <sys/mman.h>
#include <ucontext.h>
#include <unistd.h>

enum { PAGE = 4096, RESERVED = 256 * PAGE };

static char *low, *committed;

static void touched(int number, siginfo_t *what, void *context) {
  char *at = what->si_addr;
  (void)number;
  (void)context;
  if (at >= committed - PAGE && at < committed && at >= low + PAGE) {
    committed -= PAGE;
    mprotect(committed, PAGE, PROT_READ | PROT_WRITE);
    return;
  }
  static const char said[] = "guard: a page was passed over\n";
  if (write(2, said, sizeof said - 1) < 0) _exit(8);
  _exit(7);
}

static struct gearcard_job job;
static uint16_t speeds[GEARCARD_LONGEST];
static uint8_t holds[GEARCARD_LONGEST], card[GEARCARD_LONGEST], bytes[1 << 20];
static struct gearcard_why told;
static size_t second;
static ucontext_t here, there;

static void ask(void) { told = gearcard_why(job.vehicle, speeds, job.count, holds, job.count, second); }

int main(int argc, char **argv) {
  static char other[65536];
  FILE *file = argc == 2 ? fopen(argv[1], "rb") : NULL;
  if (file == NULL) return 2;
  job = gearcard_read(bytes, fread(bytes, 1, sizeof bytes, file), speeds, GEARCARD_LONGEST, holds, GEARCARD_LONGEST);
  if (job.verdict.number != 0 || gearcard_work(job.vehicle, speeds, job.count, holds, job.count, card, job.count).number != 0) return 2;
  sigaltstack(&(stack_t){.ss_sp = other, .ss_size = sizeof other}, NULL);
  sigaction(SIGSEGV, &(struct sigaction){.sa_sigaction = touched, .sa_flags = SA_SIGINFO | SA_ONSTACK}, NULL);
  low = mmap(NULL, RESERVED, PROT_NONE, MAP_PRIVATE | MAP_ANONYMOUS, -1, 0);
  long wrong = 0, deepest = 0;
  for (second = 0; second < job.count; second++) {
    mprotect(low, RESERVED, PROT_NONE);
    committed = low + RESERVED - PAGE;
    mprotect(committed, PAGE, PROT_READ | PROT_WRITE);
    getcontext(&there);
    there.uc_stack.ss_sp = low, there.uc_stack.ss_size = RESERVED, there.uc_link = &here;
    makecontext(&there, ask, 0);
    swapcontext(&here, &there);
    long pages = (low + RESERVED - committed) / PAGE;
    if (pages > deepest) deepest = pages;
    if (told.verdict.number != 0 || (told.reasons.kind != 0 && told.reasons.byte != card[second])) wrong++;
  }
  printf("why at %zu seconds, %ld wrong, at most %ld pages\n", job.count, wrong, deepest);
  return wrong != 0;
}
