/*
 * The peer of `factotum serve`: a plain 9P2000 server on a Unix socket with a thread a connection. It parses each frame,
 * answers Tversion, Tattach, Twalk, Topen, Tstat, Tread and Tclunk of one fixed file, and writes each reply at once.
 *
 *	serve_peer SOCKET FILE
 */
#include <pthread.h>
#include <signal.h>
#include <stdint.h>
#include <stdio.h>
#include <stdlib.h>
#include <string.h>
#include <sys/socket.h>
#include <sys/un.h>
#include <unistd.h>

enum {
	MSIZE = 8216,
	HEAD = 7
};

static unsigned char content[MSIZE];
static size_t content_size;

static uint32_t
get4(const unsigned char *at)
{
	return at[0] | at[1] << 8 | at[2] << 16 | (uint32_t)at[3] << 24;
}

static unsigned char *
put2(unsigned char *at, unsigned value)
{
	*at++ = value & 0xff;
	*at++ = value >> 8 & 0xff;
	return at;
}

static unsigned char *
put4(unsigned char *at, uint32_t value)
{
	at = put2(at, value & 0xffff);
	return put2(at, value >> 16);
}

static unsigned char *
put8(unsigned char *at, uint64_t value)
{
	at = put4(at, (uint32_t)value);
	return put4(at, (uint32_t)(value >> 32));
}

static unsigned char *
put_text(unsigned char *at, const char *text)
{
	size_t size = strlen(text);
	at = put2(at, (unsigned)size);
	memcpy(at, text, size);
	return at + size;
}

static unsigned char *
put_qid(unsigned char *at, unsigned kind, uint64_t path)
{
	*at++ = (unsigned char)kind;
	at = put4(at, 0);
	return put8(at, path);
}

/* the record of the file, as factotum's ctl has it */
static unsigned char *
put_stat(unsigned char *at)
{
	unsigned char *begin = at, *end;
	at += 4;
	end = put4(put2(at, 0), 0);
	end = put_qid(end, 0, 3);
	end = put4(put4(put4(end, 0x180), 0), 0);
	end = put8(end, 0);
	end = put_text(put_text(put_text(put_text(end, "ctl"), "factotum"), "factotum"), "factotum");
	put2(begin, (unsigned)(end - begin - 2));
	put2(begin + 2, (unsigned)(end - begin - 4));
	return end;
}

static unsigned char *
put_read(unsigned char *at, const unsigned char *body)
{
	uint64_t offset = get4(body + 4) | (uint64_t)get4(body + 8) << 32;
	uint32_t count = get4(body + 12);
	size_t left = offset < content_size ? content_size - (size_t)offset : 0;
	if (count > MSIZE - 24)
		count = MSIZE - 24;
	if (left > count)
		left = count;
	at = put4(at, (uint32_t)left);
	memcpy(at, content + (offset < content_size ? offset : 0), left);
	return at + left;
}

/* the reply to a frame; its size */
static size_t
answer(const unsigned char *frame, unsigned char *reply)
{
	unsigned char *at = reply + HEAD;
	const unsigned char *body = frame + HEAD;
	unsigned type = frame[4], count;
	switch (type) {
	case 100:
		at = put_text(put4(at, MSIZE), "9P2000");
		break;
	case 104:
		at = put_qid(at, 0x80, 0);
		break;
	case 110:
		count = body[8] | body[9] << 8;
		at = put2(at, count);
		for (unsigned i = 0; i < count; i++)
			at = put_qid(at, i + 1 < count ? 0x80 : 0, i + 1 < count ? 1 : 3);
		break;
	case 112:
		at = put4(put_qid(at, 0, 3), 0);
		break;
	case 116:
		at = put_read(at, body);
		break;
	case 120:
		break;
	case 124:
		at = put_stat(at);
		break;
	default:
		type = 106;
		at = put_text(at, "permission denied");
	}
	put4(reply, (uint32_t)(at - reply));
	reply[4] = (unsigned char)(type + 1);
	reply[5] = frame[5];
	reply[6] = frame[6];
	return (size_t)(at - reply);
}

static int
write_all(int to, const unsigned char *from, size_t size)
{
	while (size > 0) {
		ssize_t n = write(to, from, size);
		if (n <= 0)
			return -1;
		from += n;
		size -= (size_t)n;
	}
	return 0;
}

static void *
serve(void *given)
{
	int line = (int)(intptr_t)given;
	unsigned char held[65536], reply[MSIZE];
	size_t size = 0;
	for (;;) {
		size_t at = 0;
		ssize_t n = read(line, held + size, sizeof held - size);
		if (n <= 0)
			break;
		size += (size_t)n;
		while (size - at >= HEAD && get4(held + at) >= HEAD && get4(held + at) <= MSIZE && size - at >= get4(held + at)) {
			if (write_all(line, reply, answer(held + at, reply)))
				goto gone;
			at += get4(held + at);
		}
		memmove(held, held + at, size - at);
		size -= at;
		if (size >= 4 && (get4(held) < HEAD || get4(held) > MSIZE))
			break;
	}
gone:
	close(line);
	return NULL;
}

int
main(int argc, char **argv)
{
	struct sockaddr_un name = { .sun_family = AF_UNIX };
	pthread_attr_t detached;
	FILE *file;
	int on;
	if (argc != 3 || strlen(argv[1]) >= sizeof name.sun_path || !(file = fopen(argv[2], "rb"))) {
		fputs("usage: serve_peer SOCKET FILE\n", stderr);
		return 1;
	}
	content_size = fread(content, 1, sizeof content, file);
	fclose(file);
	strcpy(name.sun_path, argv[1]);
	on = socket(AF_UNIX, SOCK_STREAM, 0);
	if (on < 0 || bind(on, (struct sockaddr *)&name, sizeof name) || listen(on, 128)) {
		perror("serve_peer");
		return 1;
	}
	signal(SIGPIPE, SIG_IGN);
	pthread_attr_init(&detached);
	pthread_attr_setdetachstate(&detached, PTHREAD_CREATE_DETACHED);
	for (;;) {
		pthread_t thread;
		int line = accept(on, NULL, NULL);
		if (line < 0 || pthread_create(&thread, &detached, serve, (void *)(intptr_t)line))
			return 1;
	}
}
