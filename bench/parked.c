/* A lock in the order of tickets whose waiters all sleep on the served number, and are all woken at each leave, to be timed beside the
   program's gate. Usage: parked THREADS SECTIONS, each thread makes so many empty sections */
#define _GNU_SOURCE
#include <limits.h>
#include <linux/futex.h>
#include <pthread.h>
#include <stdatomic.h>
#include <stdlib.h>
#include <sys/syscall.h>
#include <unistd.h>

static atomic_uint next_ticket, served;
static long sections;

static void *work(void *unused) {
  for (long n = 0; n < sections; n++) {
    unsigned ticket = atomic_fetch_add(&next_ticket, 1), seen;
    while ((seen = atomic_load(&served)) != ticket) syscall(SYS_futex, &served, FUTEX_WAIT_PRIVATE, seen, NULL, NULL, 0);
    atomic_store(&served, ticket + 1);
    syscall(SYS_futex, &served, FUTEX_WAKE_PRIVATE, INT_MAX, NULL, NULL, 0);
  }
  return unused;
}

int main(int count, char **words) {
  if (count != 3) return 1;
  long threads = atol(words[1]);
  pthread_t *made = calloc(threads, sizeof *made);
  sections = atol(words[2]);
  for (long n = 0; n < threads; n++)
    if (made == NULL || pthread_create(&made[n], NULL, work, NULL) != 0) return 2;
  for (long n = 0; n < threads; n++) pthread_join(made[n], NULL);
  return atomic_load(&served) == threads * sections ? 0 : 3;
}
