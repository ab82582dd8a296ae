/*
 * The peer of bench/authsrv. `authsrv_peer stream N` writes N ticket requests of authsrv(6), in which the host h asks for a
 * ticket to the server bootes for the user eve, each with a challenge of its own. `authsrv_peer answer` reads such a stream
 * and answers each request by two tickets under the keys of its two names, with a session key that it draws;
 * `authsrv_peer answer_at_once` writes each answer before it reads more. `authsrv_peer check N` reads the answers to a
 * stream of N requests, opens their tickets, and fails where one isn't what was asked for.
 */
#include "seal_openssl.h"
#include <stdio.h>
#include <stdlib.h>

enum {
	TREQ = 1,
	OK = 4,
	TICKET_TS = 64,
	TICKET_TC = 65,
	NAME_LEN = 28,
	DOM_LEN = 48,
	CHAL_LEN = 8,
	AUTHID = 1,
	CHAL = AUTHID + NAME_LEN + DOM_LEN,
	HOSTID = CHAL + CHAL_LEN,
	UID = HOSTID + NAME_LEN,
	REQUEST_LEN = UID + NAME_LEN,
	TICKET_LEN = 1 + CHAL_LEN + 2 * NAME_LEN + KEY_LEN,
	ANSWER_LEN = 1 + 2 * TICKET_LEN,
	WORD_LEN = 8,
	WORDS = 3,
};

/* The users' keys, those of bench/authsrv's table. */
static const struct user {
	const char *name;
	unsigned char key[KEY_LEN];
} users[] = {
	{"bootes", {0xf0, 0xf0, 0x7c, 0x7e, 0x7f, 0xcb, 0xc9}},
	{"h", {0x01, 0x23, 0x45, 0x67, 0x89, 0xab, 0xcd}},
};

static void make_request(uint64_t number, unsigned char request[REQUEST_LEN])
{
	memset(request, 0, REQUEST_LEN);
	request[0] = TREQ;
	strcpy((char *)request + AUTHID, "bootes");
	strcpy((char *)request + AUTHID + NAME_LEN, "x");
	for (int i = 0; i < CHAL_LEN; i++)
		request[CHAL + i] = (unsigned char)(number >> (8 * i));
	strcpy((char *)request + HOSTID, "h");
	strcpy((char *)request + UID, "eve");
}

static int stream(long count)
{
	unsigned char request[REQUEST_LEN];

	for (long i = 0; i < count; i++) {
		make_request((uint64_t)i, request);
		fwrite(request, 1, REQUEST_LEN, stdout);
	}
	return fflush(stdout) != 0;
}

/* A user's key, or the one that a word stands for. */
static const unsigned char *key_or(const unsigned char *name, const unsigned char *word)
{
	for (size_t i = 0; i < sizeof users / sizeof users[0]; i++)
		if (strncmp(users[i].name, (const char *)name, NAME_LEN) == 0)
			return users[i].key;
	return word;
}

static void make_ticket(int kind, const unsigned char *request, const unsigned char *session,
	const unsigned char *key, unsigned char *out)
{
	out[0] = (unsigned char)kind;
	memcpy(out + 1, request + CHAL, CHAL_LEN + 2 * NAME_LEN);
	memcpy(out + 1 + CHAL_LEN + 2 * NAME_LEN, session, KEY_LEN);
	seal(key, out, TICKET_LEN);
}

static int answer(int at_once)
{
	unsigned char request[REQUEST_LEN], reply[ANSWER_LEN], words[WORDS * WORD_LEN];
	FILE *random = fopen("/dev/urandom", "rb");

	if (random == NULL)
		return 4;
	if (at_once) {
		setvbuf(stdin, NULL, _IONBF, 0);
		setvbuf(random, NULL, _IONBF, 0);
	}
	while (fread(request, 1, REQUEST_LEN, stdin) == REQUEST_LEN) {
		if (request[0] != TREQ || fread(words, 1, sizeof words, random) != sizeof words)
			return 9;
		reply[0] = OK;
		make_ticket(TICKET_TC, request, words, key_or(request + HOSTID, words + 2 * WORD_LEN), reply + 1);
		make_ticket(TICKET_TS, request, words, key_or(request + AUTHID, words + WORD_LEN), reply + 1 + TICKET_LEN);
		fwrite(reply, 1, ANSWER_LEN, stdout);
		if (at_once)
			fflush(stdout);
	}
	fclose(random);
	return fflush(stdout) != 0;
}

/* Whether a ticket opens under a user's key to this kind and what the request asked for. */
static int opens(int kind, const unsigned char *request, const unsigned char *key, unsigned char *ticket)
{
	open_seal(key, ticket, TICKET_LEN);
	return ticket[0] == kind && memcmp(ticket + 1, request + CHAL, CHAL_LEN + 2 * NAME_LEN) == 0;
}

static int check(long count)
{
	unsigned char request[REQUEST_LEN], reply[ANSWER_LEN];

	for (long i = 0; i < count; i++) {
		unsigned char *client = reply + 1, *server = reply + 1 + TICKET_LEN;

		make_request((uint64_t)i, request);
		if (fread(reply, 1, ANSWER_LEN, stdin) != ANSWER_LEN || reply[0] != OK)
			return 1;
		if (!opens(TICKET_TC, request, users[1].key, client) || !opens(TICKET_TS, request, users[0].key, server))
			return 1;
		if (memcmp(client + TICKET_LEN - KEY_LEN, server + TICKET_LEN - KEY_LEN, KEY_LEN) != 0)
			return 1;
	}
	return getchar() != EOF;
}

int main(int argc, char **argv)
{
	if (argc == 3 && strcmp(argv[1], "stream") == 0)
		return stream(atol(argv[2]));
	if (argc == 3 && strcmp(argv[1], "check") == 0)
		return check(atol(argv[2]));
	if (argc == 2 && strcmp(argv[1], "answer") == 0)
		return answer(0);
	if (argc == 2 && strcmp(argv[1], "answer_at_once") == 0)
		return answer(1);
	fputs("usage: authsrv_peer stream N | answer | answer_at_once | check N\n", stderr);
	return 2;
}
