/* Runs a command whose standard input is a pseudo-terminal: `typed COMMAND ..` one at which all of our own standard input is
 * typed, and Ctrl-D at its end; `broken COMMAND ..` a line that carries it as it is, and then has an error, EIO. */
#define _XOPEN_SOURCE 600
#include <fcntl.h>
#include <stdio.h>
#include <stdlib.h>
#include <string.h>
#include <termios.h>
#include <unistd.h>

#define CTRL_D "\004"

static void must(int done, const char *what)
{
    if (!done) {
        perror(what);
        exit(125);
    }
}

int main(int argc, char **argv)
{
    char text[2048];
    struct termios settings;
    must(argc > 2, "typed|broken COMMAND ..");
    int typed = strcmp(argv[1], "typed") == 0;
    ssize_t size = read(0, text, sizeof text);
    must(size >= 0, "read");

    int master = posix_openpt(O_RDWR | O_NOCTTY);
    must(master >= 0 && grantpt(master) == 0 && unlockpt(master) == 0, "posix_openpt");
    int slave = open(ptsname(master), O_RDWR | O_NOCTTY);
    must(slave >= 0 && tcgetattr(slave, &settings) == 0, "open");
    if (typed) {
        must(write(master, text, size) == size && write(master, CTRL_D, 1) == 1, "write");
        /* the other end stays open, or this one would be hung up */
        must(dup2(slave, 0) == 0, "dup2");
    } else {
        /* bytes as they are, with nothing put before line ends */
        settings.c_oflag &= ~OPOST;
        must(tcsetattr(slave, TCSANOW, &settings) == 0, "tcsetattr");
        must(write(slave, text, size) == size, "write");
        must(dup2(master, 0) == 0 && close(master) == 0, "dup2");
    }
    must(close(slave) == 0, "close");
    execvp(argv[2], argv + 2);
    must(0, argv[2]);
}
