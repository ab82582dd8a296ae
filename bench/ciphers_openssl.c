/*
 * The peer of the program bench_work: the same rounds over the same inputs, by OpenSSL's DES and
 * HMAC. It prints the final bytes as bench_work does, so that the two can be compared.
 */
#include "seal_openssl.h"
#include <errno.h>
#include <inttypes.h>
#include <openssl/evp.h>
#include <openssl/hmac.h>
#include <stdint.h>
#include <stdio.h>
#include <stdlib.h>
#include <string.h>

enum {
	DIGEST_LEN = 16,
	ANSWER_LEN = 32,
	TEXT_LEN = 1024,
	PASSWORD_LEN = 27,
	TICKET_LEN = 72,
};

/* The inputs of bench_work. */
static const DES_cblock des_key = {0x13, 0x34, 0x57, 0x79, 0x9b, 0xbc, 0xdf, 0xf1};
static const DES_cblock first_block = {0x01, 0x23, 0x45, 0x67, 0x89, 0xab, 0xcd, 0xef};
static const unsigned char seal_key[KEY_LEN] = {0x12, 0x69, 0x5b, 0xc9, 0xb7, 0xb7, 0xf8};
static const unsigned char other_key[KEY_LEN] = {0x0e, 0x32, 0x92, 0x32, 0xea, 0x6d, 0x0d};
static const char first_password[] = "correct horse battery stapl";
static const char first_challenge[] = "<0123456789abcdef@dbc.mtview.ca>";
static const char secret[] = "tanstaaftanstaaf";

static void fail(const char *what)
{
	fprintf(stderr, "ciphers_openssl: %s\n", what);
	exit(1);
}

static void print_hex(const unsigned char *bytes, size_t len)
{
	for (size_t i = 0; i < len; i++)
		printf("%02x", bytes[i]);
	putchar('\n');
}

/* DES of the last block, one block a round. */
static void run_encrypt(uint64_t rounds)
{
	DES_cblock key, block;
	DES_key_schedule schedule;

	memcpy(key, des_key, BLOCK_LEN);
	memcpy(block, first_block, BLOCK_LEN);
	DES_set_key_unchecked(&key, &schedule);
	for (uint64_t i = 0; i < rounds; i++)
		DES_ecb_encrypt(&block, &block, &schedule, DES_ENCRYPT);
	print_hex(block, BLOCK_LEN);
}

/* The seal of the last text, key schedule included, one text a round. */
static void run_seal(uint64_t rounds)
{
	unsigned char text[TEXT_LEN] = {0};

	for (uint64_t i = 0; i < rounds; i++)
		seal(seal_key, text, TEXT_LEN);
	print_hex(text, TEXT_LEN);
}

/*
 * The CRAM-MD5 answer to the last answer, one a round. The context is made once, since to make one
 * costs OpenSSL more than a short HMAC; the key is set anew in each round, as each answer takes it.
 */
static void run_cram(uint64_t rounds)
{
	static const char digits[] = "0123456789abcdef";
	unsigned char answer[ANSWER_LEN], digest[DIGEST_LEN];
	unsigned int digest_len = 0;
	HMAC_CTX *context = HMAC_CTX_new();

	if (context == NULL)
		fail("no memory for an HMAC");
	memcpy(answer, first_challenge, ANSWER_LEN);
	for (uint64_t i = 0; i < rounds; i++) {
		if (!HMAC_Init_ex(context, secret, (int)strlen(secret), EVP_md5(), NULL)
		    || !HMAC_Update(context, answer, ANSWER_LEN)
		    || !HMAC_Final(context, digest, &digest_len) || digest_len != DIGEST_LEN)
			fail("the HMAC failed");
		for (int j = 0; j < DIGEST_LEN; j++) {
			answer[2 * j] = (unsigned char)digits[digest[j] >> 4];
			answer[2 * j + 1] = (unsigned char)digits[digest[j] & 15];
		}
	}
	HMAC_CTX_free(context);
	print_hex(answer, ANSWER_LEN);
}

/* DES of the last block under itself, key schedule included, one block a round. */
static void run_keyed(uint64_t rounds)
{
	DES_cblock block;
	DES_key_schedule schedule;

	memcpy(block, first_block, BLOCK_LEN);
	for (uint64_t i = 0; i < rounds; i++) {
		DES_set_key_unchecked(&block, &schedule);
		DES_ecb_encrypt(&block, &block, &schedule, DES_ENCRYPT);
	}
	print_hex(block, BLOCK_LEN);
}

/* The key that eight bytes make. */
static void window_key(const unsigned char *window, unsigned char key[KEY_LEN])
{
	for (int i = 0; i < KEY_LEN; i++)
		key[i] = (unsigned char)((window[i] >> i) + (window[i + 1] << (7 - i)));
}

/* The key of a password of 27 bytes, as passtokey of authsrv(2) makes it. */
static void password_key(const unsigned char *password, unsigned char key[KEY_LEN])
{
	static const int starts[] = {8, 16, PASSWORD_LEN - BLOCK_LEN};
	unsigned char buffer[PASSWORD_LEN + 1] = {0};

	memcpy(buffer, password, PASSWORD_LEN);
	window_key(buffer, key);
	for (size_t i = 0; i < sizeof starts / sizeof starts[0]; i++) {
		seal(key, buffer + starts[i], BLOCK_LEN);
		window_key(buffer + starts[i], key);
	}
}

/* The key of the last password, which takes the place of its first bytes, one a round. */
static void run_password(uint64_t rounds)
{
	unsigned char password[PASSWORD_LEN], key[KEY_LEN];

	memcpy(password, first_password, PASSWORD_LEN);
	for (uint64_t i = 0; i < rounds; i++) {
		password_key(password, key);
		memcpy(password, key, KEY_LEN);
	}
	print_hex(password, PASSWORD_LEN);
}

/* The seals of a pair of tickets under two keys, key schedules included, one pair a round. */
static void run_tickets(uint64_t rounds)
{
	unsigned char ticket[TICKET_LEN] = {0};

	for (uint64_t i = 0; i < rounds; i++) {
		seal(seal_key, ticket, TICKET_LEN);
		seal(other_key, ticket, TICKET_LEN);
	}
	print_hex(ticket, TICKET_LEN);
}

static uint64_t parse_rounds(const char *text)
{
	char *end;
	uint64_t rounds;

	errno = 0;
	rounds = strtoumax(text, &end, 10);
	if (text[0] < '0' || text[0] > '9' || *end != '\0' || errno != 0)
		fail("the number of rounds is no number");
	return rounds;
}

int main(int argc, char **argv)
{
	static const struct {
		const char *name;
		void (*run)(uint64_t rounds);
	} works[] = {
		{"encrypt", run_encrypt},
		{"seal", run_seal},
		{"cram", run_cram},
		{"keyed", run_keyed},
		{"password", run_password},
		{"tickets", run_tickets},
	};

	if (argc == 3) {
		for (size_t i = 0; i < sizeof works / sizeof works[0]; i++) {
			if (strcmp(argv[1], works[i].name) == 0) {
				works[i].run(parse_rounds(argv[2]));
				return 0;
			}
		}
	}
	fail("usage: ciphers_openssl encrypt|seal|cram|keyed|password|tickets ROUNDS");
}
