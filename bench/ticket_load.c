/*
 * Ticket requests at authentication servers on loopback ports, each on a connection of its own: so many at once, for so many
 * seconds. Each answer has to be a grant of 145 bytes. Prints the grants a second.
 *
 *	ticket_load AT-ONCE SECONDS PORT..
 */
#include <arpa/inet.h>
#include <errno.h>
#include <netinet/in.h>
#include <pthread.h>
#include <stdint.h>
#include <stdio.h>
#include <stdlib.h>
#include <string.h>
#include <sys/socket.h>
#include <time.h>
#include <unistd.h>

enum {
	REQUEST = 141,
	ANSWER = 145,
	GRANTED = 4,
	MOST = 256
};

struct load {
	uint16_t port;
	unsigned long done;
};

static double until;
static unsigned char request[REQUEST];

static void
die(const char *why)
{
	fprintf(stderr, "ticket_load: %s: %s\n", why, strerror(errno));
	exit(1);
}

static double
now(void)
{
	struct timespec t;
	clock_gettime(CLOCK_MONOTONIC, &t);
	return (double)t.tv_sec + (double)t.tv_nsec / 1e9;
}

static void
ask(uint16_t port)
{
	struct sockaddr_in at = { .sin_family = AF_INET, .sin_port = htons(port), .sin_addr.s_addr = htonl(INADDR_LOOPBACK) };
	struct linger at_once = { .l_onoff = 1, .l_linger = 0 };
	unsigned char answer[ANSWER];
	size_t got = 0;
	ssize_t n;
	int line = socket(AF_INET, SOCK_STREAM, 0);
	if (line < 0 || connect(line, (struct sockaddr *)&at, sizeof at))
		die("connect");
	if (write(line, request, REQUEST) != REQUEST)
		die("write");
	for (; got < ANSWER && (n = read(line, answer + got, ANSWER - got)) > 0; got += (size_t)n)
		;
	if (got < ANSWER || answer[0] != GRANTED)
		die("no grant");
	/* no port of ours is to wait for its end */
	setsockopt(line, SOL_SOCKET, SO_LINGER, &at_once, sizeof at_once);
	close(line);
}

static void *
load(void *it)
{
	struct load *load = it;
	for (; now() < until; load->done++)
		ask(load->port);
	return NULL;
}

int
main(int argc, char **argv)
{
	pthread_t threads[MOST];
	static struct load loads[MOST];
	unsigned long done = 0;
	int many = argc > 3 ? atoi(argv[1]) : 0;
	double began = now();
	if (many < 1 || many > MOST)
		return 1;
	/* the kind, and then the server, its domain, a challenge, the host and the user */
	request[0] = 1;
	strcpy((char *)request + 1, "srv");
	strcpy((char *)request + 29, "example.org");
	memcpy(request + 77, "12345678", 8);
	strcpy((char *)request + 85, "ann");
	strcpy((char *)request + 113, "ann");
	until = began + atof(argv[2]);
	for (int i = 0; i < many; i++) {
		loads[i].port = (uint16_t)atoi(argv[3 + i % (argc - 3)]);
		if (pthread_create(&threads[i], NULL, load, &loads[i]))
			die("pthread_create");
	}
	for (int i = 0; i < many; i++) {
		pthread_join(threads[i], NULL);
		done += loads[i].done;
	}
	printf("%.0f\n", (double)done / (now() - began));
	return 0;
}
