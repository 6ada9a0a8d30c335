// picolibc's, with the name of the program.
#pragma GCC system_header
#include_next <stdlib.h>
#ifdef __cplusplus
extern "C"
#endif
const char *getprogname(void);
