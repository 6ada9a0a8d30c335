// picolibc's, which declares no function.
#pragma GCC system_header
#include <sys/types.h>
#include_next <utime.h>
#ifdef __cplusplus
extern "C"
#endif
int utime(const char *path, const struct utimbuf *times);
