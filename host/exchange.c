/* This side of the exchange with a worker: starting it, handing batches over. */
#define _POSIX_C_SOURCE 200809L

#include "exchange.h"

#include <signal.h>
#include <stdlib.h>
#include <sys/mman.h>
#include <sys/wait.h>
#include <unistd.h>

static pid_t worker;
static int ready[2];  /* the pipe to it */
static int judged[2]; /* the pipe from it */

/* A file in memory with no name, as large as all batches. */
static int open_file(void)
{
    char name[] = "/dev/shm/hawsehole-XXXXXX";
    int file = mkstemp(name);
    if (file >= 0 && (unlink(name) != 0 || ftruncate(file, BATCHES * sizeof(struct batch)) != 0))
        return -1;
    return file;
}

/* In the new process. The file was opened before the pipes, so neither of them
 * stands where the worker looks for the file. */
static void become_worker(char *const command[], int file)
{
    dup2(file, WORKER_FILE);
    dup2(ready[0], STDIN_FILENO);
    dup2(judged[1], STDOUT_FILENO);
    close(ready[1]); /* or the worker would never see its input end */
    close(judged[0]);
    execvp(command[0], command);
    perror(command[0]);
    _exit(2);
}

struct batch *start_worker(char *const command[])
{
    int file = open_file();
    void *batches = file < 0 ? MAP_FAILED
                             : mmap(NULL, BATCHES * sizeof(struct batch), PROT_READ | PROT_WRITE,
                                    MAP_SHARED, file, 0);
    if (batches == MAP_FAILED || pipe(ready) != 0 || pipe(judged) != 0) {
        perror("worker");
        return NULL;
    }
    signal(SIGPIPE, SIG_IGN);
    worker = fork();
    if (worker == 0)
        become_worker(command, file);
    if (worker < 0) {
        perror("worker");
        return NULL;
    }
    close(ready[0]);
    close(judged[1]);
    return batches;
}

bool give_batch(size_t number)
{
    uint8_t byte = (uint8_t)number;
    return write(ready[1], &byte, 1) == 1;
}

bool take_batch(size_t number)
{
    uint8_t byte;
    return read(judged[0], &byte, 1) == 1 && byte == number;
}

bool end_worker(void)
{
    int status;
    close(ready[1]);
    return waitpid(worker, &status, 0) == worker && WIFEXITED(status) && WEXITSTATUS(status) == 0;
}
