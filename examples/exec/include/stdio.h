// picolibc's, with what it lacks of standard C and POSIX.
#pragma GCC system_header
#include_next <stdio.h>
#ifndef FILENAME_MAX
#define FILENAME_MAX 4096
#define FOPEN_MAX 16
#ifdef __cplusplus
extern "C" {
#endif
FILE *popen(const char *command, const char *mode);
int pclose(FILE *stream);
// There is one thread, so a stream is never locked.
#define flockfile(stream) ((void)(stream))
#define funlockfile(stream) ((void)(stream))
#define getc_unlocked(stream) getc(stream)
#define getchar_unlocked() getchar()
#define putc_unlocked(c, stream) putc(c, stream)
#define putchar_unlocked(c) putchar(c)
#ifdef __cplusplus
}
#endif
#endif
