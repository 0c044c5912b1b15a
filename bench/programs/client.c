/* usage: client PORT CONNECTIONS: 1,000 requests on each connection, one after another */
#include <arpa/inet.h>
#include <netinet/tcp.h>
#include <stdio.h>
#include <stdlib.h>
#include <string.h>
#include <sys/socket.h>
#include <time.h>
#include <unistd.h>

static const char request[] = "GET /body HTTP/1.1\r\nHost: localhost\r\n\r\n";

/* reads one reply with a body of 2,048 bytes */
static int reply(int fd) {
  char text[8192];
  size_t have = 0;
  for (;;) {
    ssize_t got = read(fd, text + have, sizeof text - 1 - have);
    if (got <= 0) return 0;
    have += got;
    text[have] = 0;
    char *body = strstr(text, "\r\n\r\n");
    if (body && have >= (size_t)(body + 4 - text) + 2048)
      return strncmp(text, "HTTP/1.1 200", 12) == 0 && have == (size_t)(body + 4 - text) + 2048;
  }
}

int main(int count, char **words) {
  int port = atoi(words[1]), connections = atoi(words[2]);
  struct sockaddr_in to = {.sin_family = AF_INET, .sin_port = htons(port), .sin_addr.s_addr = htonl(INADDR_LOOPBACK)};
  struct timespec begin, end;
  clock_gettime(CLOCK_MONOTONIC, &begin);
  for (int c = 0; c < connections; c++) {
    int fd = socket(AF_INET, SOCK_STREAM, 0), one = 1;
    setsockopt(fd, IPPROTO_TCP, TCP_NODELAY, &one, sizeof one);
    if (connect(fd, (struct sockaddr *)&to, sizeof to)) return perror("connect"), 1;
    for (int r = 0; r < 1000; r++)
      if (write(fd, request, sizeof request - 1) != sizeof request - 1 || !reply(fd)) {
        fprintf(stderr, "no reply to request %d of connection %d\n", r, c);
        return 1;
      }
    close(fd);
  }
  clock_gettime(CLOCK_MONOTONIC, &end);
  double seconds = (end.tv_sec - begin.tv_sec) + (end.tv_nsec - begin.tv_nsec) / 1e9;
  printf("%.0f requests a second\n", connections * 1000 / seconds);
  return 0;
}
