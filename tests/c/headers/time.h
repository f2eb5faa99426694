/* What tools/bench uses of <time.h>, as glibc has it on x86-64. */
#ifndef TIME_H
#define TIME_H
#define CLOCK_PROCESS_CPUTIME_ID 2
struct timespec {
    long tv_sec, tv_nsec;
};
int clock_gettime(int clock, struct timespec *to);
#endif
