/*
 * Logins by p9sk1 through the rpc files of two agents at Unix sockets: so many at once, each on connections of its own, for
 * so many seconds. Both sides' authinfo has to be the same. Prints the logins a second.
 *
 *	login_load CLIENT-SOCKET SERVER-SOCKET AT-ONCE SECONDS
 */
#include <errno.h>
#include <pthread.h>
#include <stdint.h>
#include <stdio.h>
#include <stdlib.h>
#include <string.h>
#include <sys/socket.h>
#include <sys/un.h>
#include <time.h>
#include <unistd.h>

enum {
	MSIZE = 8216,
	HEAD = 7,
	MOST = 64
};

enum type {
	VERSION = 100,
	ATTACH = 104,
	WALK = 110,
	OPEN = 112,
	READ = 116,
	WRITE = 118,
	CLUNK = 120
};

struct line {
	int to;
	unsigned char reply[MSIZE];
	uint32_t size;
};

struct answer {
	unsigned char text[MSIZE];
	uint32_t size;
};

static const char *paths[2];
static double until;

static void
die(const char *why)
{
	fprintf(stderr, "login_load: %s: %s\n", why, strerror(errno));
	exit(1);
}

static void
put4(unsigned char *at, uint32_t number)
{
	for (int i = 0; i < 4; i++)
		at[i] = number >> 8 * i & 0xff;
}

static uint32_t
get4(const unsigned char *at)
{
	return at[0] | at[1] << 8 | at[2] << 16 | (uint32_t)at[3] << 24;
}

static void
take(struct line *line, uint32_t size)
{
	while (line->size < size) {
		ssize_t n = read(line->to, line->reply + line->size, size - line->size);
		if (n <= 0)
			die("the agent hung up");
		line->size += (uint32_t)n;
	}
}

/* one request and its reply */
static void
ask(struct line *line, enum type type, const void *body, uint32_t size)
{
	unsigned char request[MSIZE];
	put4(request, HEAD + size);
	request[4] = (unsigned char)type;
	memset(request + 5, type == VERSION ? 0xff : 1, 2);
	memcpy(request + HEAD, body, size);
	for (uint32_t at = 0; at < HEAD + size;) {
		ssize_t n = write(line->to, request + at, HEAD + size - at);
		if (n <= 0)
			die("write");
		at += (uint32_t)n;
	}
	line->size = 0;
	take(line, HEAD);
	take(line, get4(line->reply));
	if (line->reply[4] != type + 1) {
		fprintf(stderr, "login_load: refused: %.*s\n", (int)(line->size - 9), line->reply + 9);
		exit(1);
	}
}

static void
begin(struct line *line, const char *path)
{
	struct sockaddr_un name = { .sun_family = AF_UNIX };
	strcpy(name.sun_path, path);
	line->to = socket(AF_UNIX, SOCK_STREAM, 0);
	if (line->to < 0 || connect(line->to, (struct sockaddr *)&name, sizeof name))
		die("connect");
	ask(line, VERSION, "\x18\x20\0\0\x06\0" "9P2000", 12);
	ask(line, ATTACH, "\0\0\0\0\xff\xff\xff\xff\x03\0ann\0\0", 15);
}

/* a request to rpc, and its answer, which is `ok` and what is got */
static void
rpc(struct line *line, struct answer *answer, const char *verb, const void *content, uint32_t size)
{
	unsigned char body[MSIZE] = {1};
	uint32_t length = (uint32_t)strlen(verb);
	put4(body + 12, length + size);
	memcpy(body + 16, verb, length);
	memcpy(body + 16 + length, content, size);
	ask(line, WRITE, body, 16 + length + size);
	put4(body + 12, 8192);
	ask(line, READ, body, 16);
	answer->size = get4(line->reply + HEAD);
	memcpy(answer->text, line->reply + HEAD + 4, answer->size);
	if (answer->size < 2 || memcmp(answer->text, "ok", 2)) {
		fprintf(stderr, "login_load: %s: %.*s\n", verb, (int)answer->size, answer->text);
		exit(1);
	}
}

/* what one side gives goes to the other */
static void
pass(struct line *from, struct line *to)
{
	struct answer given, taken;
	rpc(from, &given, "read", "", 0);
	rpc(to, &taken, "write ", given.text + 3, given.size - 3);
}

static void
login(struct line *client, struct line *server)
{
	static const char walk[] = "\0\0\0\0\x01\0\0\0\x02\0\x08\0factotum\x03\0rpc";
	struct line *sides[] = {client, server};
	struct answer told[2];
	for (int i = 0; i < 2; i++) {
		ask(sides[i], WALK, walk, sizeof walk - 1);
		ask(sides[i], OPEN, "\x01\0\0\0\x02", 5);
		rpc(sides[i], &told[i], i == 0 ? "start proto=p9sk1 role=client" : "start proto=p9sk1 role=server", "", 0);
	}
	pass(client, server);
	pass(server, client);
	pass(client, server);
	pass(server, client);
	for (int i = 0; i < 2; i++) {
		rpc(sides[i], &told[i], "authinfo", "", 0);
		ask(sides[i], CLUNK, "\x01\0\0\0", 4);
	}
	if (told[0].size != told[1].size || memcmp(told[0].text, told[1].text, told[0].size)) {
		fprintf(stderr, "login_load: the sides tell different things\n");
		exit(1);
	}
}

static double
now(void)
{
	struct timespec t;
	clock_gettime(CLOCK_MONOTONIC, &t);
	return (double)t.tv_sec + (double)t.tv_nsec / 1e9;
}

static void *
log_in(void *count)
{
	struct line *lines = malloc(2 * sizeof *lines);
	if (lines == NULL)
		die("malloc");
	for (int i = 0; i < 2; i++)
		begin(&lines[i], paths[i]);
	for (; now() < until; ++*(unsigned long *)count)
		login(&lines[0], &lines[1]);
	return NULL;
}

int
main(int argc, char **argv)
{
	pthread_t threads[MOST];
	static unsigned long counts[MOST];
	unsigned long done = 0;
	int many = argc == 5 ? atoi(argv[3]) : 0;
	double began = now();
	if (many < 1 || many > MOST)
		return 1;
	paths[0] = argv[1];
	paths[1] = argv[2];
	until = began + atof(argv[4]);
	for (int i = 0; i < many; i++)
		if (pthread_create(&threads[i], NULL, log_in, &counts[i]))
			die("pthread_create");
	for (int i = 0; i < many; i++) {
		pthread_join(threads[i], NULL);
		done += counts[i];
	}
	printf("%.0f\n", (double)done / (now() - began));
	return 0;
}
