/* nonblock in|out COMMAND..: runs the command with a pipe as its standard input or output that does not block: it is empty as input, full as
   output, and stays so. */
#include <fcntl.h>
#include <string.h>
#include <unistd.h>

int main(int argc, char **argv) {
  static const char bytes[4096];
  int ends[2], out = argc > 2 && strcmp(argv[1], "out") == 0;
  if (argc < 3 || pipe(ends) != 0 || fcntl(ends[out], F_SETFL, O_NONBLOCK) != 0) return 125;
  while (out && write(ends[1], bytes, sizeof bytes) > 0) {
  }
  if (dup2(ends[out], out) < 0 || fcntl(ends[!out], F_DUPFD, 20) < 0) return 125; /* the other end stays open under a number that no script takes */
  execvp(argv[2], argv + 2);
  return 125;
}
