/* The same bytes through a pipe of the system, with a buffer of 65,536 bytes at the reader. A pipe holds 65,536 bytes, or
   CAPACITY where that is given; any process may ask for 1,048,576.
   usage: plain WRITERS WRITES SIZE [CAPACITY] */
#define _GNU_SOURCE
#include <fcntl.h>
#include <pthread.h>
#include <stdio.h>
#include <stdlib.h>
#include <string.h>
#include <unistd.h>

static int ends[2];
static long writes, size;

static void *send_all(void *unused)
{
    char *bytes = malloc(size);
    (void)unused;
    memset(bytes, 7, size);
    for (long number = 0; number < writes; number++) {
        long done = 0;
        while (done < size) {
            ssize_t count = write(ends[1], bytes + done, size - done);
            if (count < 0)
                exit(1);
            done += count;
        }
    }
    free(bytes);
    return NULL;
}

static void *receive(void *unused)
{
    static char buffer[65536];
    unsigned long came = 0;
    ssize_t count;
    (void)unused;
    while ((count = read(ends[0], buffer, sizeof buffer)) > 0)
        came += count;
    printf("%lu\n", came);
    return NULL;
}

int main(int words, char **word)
{
    pthread_t reader, threads[64];
    long writers = words > 1 ? atol(word[1]) : 1;
    writes = words > 2 ? atol(word[2]) : 1;
    size = words > 3 ? atol(word[3]) : 1;
    if (writers > 64 || pipe(ends) != 0)
        return 1;
    if (words > 4 && fcntl(ends[1], F_SETPIPE_SZ, atoi(word[4])) < 0)
        return 1;
    pthread_create(&reader, NULL, receive, NULL);
    for (long number = 0; number < writers; number++)
        pthread_create(&threads[number], NULL, send_all, NULL);
    for (long number = 0; number < writers; number++)
        pthread_join(threads[number], NULL);
    close(ends[1]);
    pthread_join(reader, NULL);
    return 0;
}
