// What programs for glibc include by this name.
#include <sys/features.h>
