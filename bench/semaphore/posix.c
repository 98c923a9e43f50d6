/* The same work with POSIX semaphores: sem_wait and sem_post of one thread, and one unit that four
   threads pass round. */
#include <pthread.h>
#include <semaphore.h>
#include <stdio.h>
#include <time.h>

enum { PAIRS = 2000000, ROUNDS = 100000, THREADS = 4 };

static sem_t ring[THREADS];

static long long nanos(void) {
    struct timespec now;
    clock_gettime(CLOCK_MONOTONIC, &now);
    return now.tv_sec * 1000000000LL + now.tv_nsec;
}

static void *pass(void *given) {
    int place = *(int *)given;
    for (int round = 0; round < ROUNDS; round++) {
        while (sem_wait(&ring[place]) != 0) {
        }
        sem_post(&ring[(place + 1) % THREADS]);
    }
    return NULL;
}

int main(void) {
    sem_t one;
    sem_init(&one, 0, 1);
    long long begun = nanos();
    for (int pair = 0; pair < PAIRS; pair++) {
        while (sem_wait(&one) != 0) {
        }
        sem_post(&one);
    }
    printf("posix_pairs %d %lld\n", PAIRS, nanos() - begun);

    pthread_t threads[THREADS];
    int places[THREADS];
    for (int place = 0; place < THREADS; place++)
        sem_init(&ring[place], 0, place == 0);
    begun = nanos();
    for (int place = 0; place < THREADS; place++) {
        places[place] = place;
        if (pthread_create(&threads[place], NULL, pass, &places[place]) != 0)
            return 1;
    }
    for (int place = 0; place < THREADS; place++)
        pthread_join(threads[place], NULL);
    printf("posix_rounds %d %lld\n", ROUNDS, nanos() - begun);
    return 0;
}
