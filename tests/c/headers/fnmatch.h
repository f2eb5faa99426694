/* What tools/bench uses of <fnmatch.h>, as glibc has it on x86-64. */
#ifndef FNMATCH_H
#define FNMATCH_H
#define FNM_PATHNAME 1
#define FNM_PERIOD 4
int fnmatch(const char *pattern, const char *text, int flags);
#endif
