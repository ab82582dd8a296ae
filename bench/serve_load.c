/*
 * A load for a 9P2000 server on a Unix socket: so many connections, each with a fid open on /factotum/ctl, and so many
 * requests of each under way at once, for so many seconds. Prints the round trips a second.
 *
 *	serve_load SOCKET CONNECTIONS DEPTH SECONDS stat|read
 */
#include <errno.h>
#include <poll.h>
#include <stdint.h>
#include <stdio.h>
#include <stdlib.h>
#include <string.h>
#include <sys/socket.h>
#include <sys/un.h>
#include <time.h>
#include <unistd.h>

enum {
	MSIZE = 8216,
	HEAD = 7,
	MOST = 256
};

struct line {
	int to;
	size_t size;
	unsigned char held[2 * 65536];
};

static void
die(const char *why)
{
	fprintf(stderr, "serve_load: %s: %s\n", why, strerror(errno));
	exit(1);
}

static uint32_t
get4(const unsigned char *at)
{
	return at[0] | at[1] << 8 | at[2] << 16 | (uint32_t)at[3] << 24;
}

static size_t
frame(unsigned char *at, unsigned type, unsigned tag, const void *body, size_t size)
{
	uint32_t whole = (uint32_t)(HEAD + size);
	for (int i = 0; i < 4; i++)
		at[i] = whole >> 8 * i & 0xff;
	at[4] = (unsigned char)type;
	at[5] = tag & 0xff;
	at[6] = tag >> 8 & 0xff;
	memcpy(at + HEAD, body, size);
	return whole;
}

static void
send_all(int to, const unsigned char *from, size_t size)
{
	while (size > 0) {
		ssize_t n = write(to, from, size);
		if (n <= 0)
			die("write");
		from += n;
		size -= (size_t)n;
	}
}

/* takes the whole replies that are there; their number */
static unsigned
take(struct line *line, unsigned wanted)
{
	unsigned count = 0;
	size_t at = 0;
	ssize_t n = read(line->to, line->held + line->size, sizeof line->held - line->size);
	if (n <= 0)
		die("the server hung up");
	line->size += (size_t)n;
	while (line->size - at >= HEAD && line->size - at >= get4(line->held + at)) {
		if (line->held[at + 4] != wanted) {
			fprintf(stderr, "serve_load: a reply of type %u\n", line->held[at + 4]);
			exit(1);
		}
		at += get4(line->held + at);
		count++;
	}
	memmove(line->held, line->held + at, line->size - at);
	line->size -= at;
	return count;
}

static void
ask(struct line *line, unsigned type, unsigned tag, const void *body, size_t size)
{
	unsigned char request[256];
	send_all(line->to, request, frame(request, type, tag, body, size));
	while (take(line, type + 1) == 0)
		;
}

static void
begin(struct line *line, const char *path)
{
	struct sockaddr_un name = { .sun_family = AF_UNIX };
	strcpy(name.sun_path, path);
	line->size = 0;
	line->to = socket(AF_UNIX, SOCK_STREAM, 0);
	if (line->to < 0 || connect(line->to, (struct sockaddr *)&name, sizeof name))
		die("connect");
	ask(line, 100, 0xffff, "\x18\x20\0\0\x06\0" "9P2000", 12);
	ask(line, 104, 1, "\0\0\0\0\xff\xff\xff\xff\x03\0ann\0\0", 15);
	ask(line, 110, 1, "\0\0\0\0\x01\0\0\0\x02\0\x08\0factotum\x03\0ctl", 25);
	ask(line, 112, 1, "\x01\0\0\0\0", 5);
}

static double
now(void)
{
	struct timespec t;
	clock_gettime(CLOCK_MONOTONIC, &t);
	return (double)t.tv_sec + (double)t.tv_nsec / 1e9;
}

int
main(int argc, char **argv)
{
	static struct line lines[MOST];
	struct pollfd waits[MOST];
	unsigned char requests[64 * 32];
	size_t one = 0;
	unsigned type;
	int count, depth;
	double seconds, began, until;
	unsigned long long done = 0;
	if (argc != 6)
		return 1;
	count = atoi(argv[2]);
	depth = atoi(argv[3]);
	seconds = atof(argv[4]);
	type = strcmp(argv[5], "stat") ? 116 : 124;
	if (count < 1 || count > MOST || depth < 1 || depth > 32)
		return 1;
	for (int i = 0; i < depth; i++)
		one = frame(requests + (size_t)i * one, type, (unsigned)i + 2, "\x01\0\0\0\0\0\0\0\0\0\0\0\x00\x20\0\0", type == 124 ? 4 : 16);
	for (int i = 0; i < count; i++) {
		begin(&lines[i], argv[1]);
		waits[i].fd = lines[i].to;
		waits[i].events = POLLIN;
	}
	began = now();
	until = began + seconds;
	for (int i = 0; i < count; i++)
		send_all(lines[i].to, requests, one * (size_t)depth);
	while (now() < until) {
		if (poll(waits, (nfds_t)count, 1000) < 0)
			die("poll");
		for (int i = 0; i < count; i++)
			if (waits[i].revents) {
				unsigned came = take(&lines[i], type + 1);
				done += came;
				send_all(lines[i].to, requests, one * came);
			}
	}
	printf("%.0f\n", (double)done / (now() - began));
	return 0;
}
