// picolibc's, which declares lstat for some systems alone.
#pragma GCC system_header
#include_next <sys/stat.h>
#ifdef __cplusplus
extern "C"
#endif
int lstat(const char *__restrict path, struct stat *__restrict status);
