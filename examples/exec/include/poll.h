#ifndef _POLL_H
#define _POLL_H
#define POLLIN 1
#define POLLPRI 2
#define POLLOUT 4
#define POLLERR 8
#define POLLHUP 16
#define POLLNVAL 32
typedef unsigned nfds_t;
struct pollfd {
    int fd;
    short events;
    short revents;
};
#ifdef __cplusplus
extern "C"
#endif
int poll(struct pollfd *of, nfds_t count, int wait);
#endif
