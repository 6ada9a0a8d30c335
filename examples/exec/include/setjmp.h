// picolibc's, where setjmp keeps no signals.
#pragma GCC system_header
#include_next <setjmp.h>
#ifndef _setjmp
#define _setjmp setjmp
#define _longjmp longjmp
#endif
