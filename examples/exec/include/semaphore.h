// Semaphores of the one thread that there is: where another would have to post, a wait fails with EDEADLK.
#ifndef _SEMAPHORE_H
#define _SEMAPHORE_H
#include <time.h>
typedef struct {
    unsigned value;
} sem_t;
#define SEM_VALUE_MAX 0x7fffffff
#ifdef __cplusplus
extern "C" {
#endif
int sem_init(sem_t *of, int shared, unsigned value);
int sem_destroy(sem_t *of);
int sem_post(sem_t *of);
int sem_wait(sem_t *of);
int sem_trywait(sem_t *of);
int sem_timedwait(sem_t *__restrict of, const struct timespec *__restrict until);
int sem_getvalue(sem_t *__restrict of, int *__restrict value);
#ifdef __cplusplus
}
#endif
#endif
