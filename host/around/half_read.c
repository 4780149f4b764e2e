/* half_read COMMAND WORD..: runs a command whose standard input is a pipe that holds what stands on standard input here, has no end yet, and
   fails a read that would wait for more. Ends with the command's status, or 125 if it could not be run so. */
#define _GNU_SOURCE
#include <fcntl.h>
#include <stdio.h>
#include <sys/wait.h>
#include <unistd.h>

int main(int count, char **words) {
    char text[4096];
    int ends[2];
    ssize_t length = read(STDIN_FILENO, text, sizeof text);
    if (count < 2 || length < 0 || pipe2(ends, O_NONBLOCK) != 0 || write(ends[1], text, (size_t)length) != length) {
        perror("half_read");
        return 125;
    }
    pid_t child = fork();
    if (child == 0) {
        dup2(ends[0], STDIN_FILENO);
        close(ends[0]);
        close(ends[1]);
        execvp(words[1], words + 1);
        perror(words[1]);
        _exit(125);
    }
    int ended;
    if (child < 0 || waitpid(child, &ended, 0) != child || !WIFEXITED(ended)) return 125;
    return WEXITSTATUS(ended);
}
