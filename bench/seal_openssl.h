/* The seal of authsrv(6)'s records by OpenSSL's DES, for the peers of the benches. */
#ifndef SEAL_OPENSSL_H
#define SEAL_OPENSSL_H
#define OPENSSL_SUPPRESS_DEPRECATED
#include <openssl/des.h>
#include <stdint.h>
#include <string.h>

enum {
	BLOCK_LEN = 8,
	BLOCK_STEP = 7,
	KEY_LEN = 7,
};

/* Eight groups of seven bits from the high end, each followed by a bit that DES does not read. */
static inline void expand_key(const unsigned char key[KEY_LEN], DES_cblock *out)
{
	uint64_t bits = 0;

	for (int i = 0; i < KEY_LEN; i++)
		bits = bits << 8 | key[i];
	for (int i = 0; i < BLOCK_LEN; i++)
		(*out)[i] = (unsigned char)((bits >> (49 - 7 * i) & 0x7f) << 1);
	DES_set_odd_parity(out);
}

static inline void encrypt_at(unsigned char *text, DES_key_schedule *schedule)
{
	DES_cblock block;

	memcpy(block, text, BLOCK_LEN);
	DES_ecb_encrypt(&block, &block, schedule, DES_ENCRYPT);
	memcpy(text, block, BLOCK_LEN);
}

/* The blocks at 0, 7, 14 and so on, and then the block that ends the text, if bytes are left. */
static inline void seal(const unsigned char key[KEY_LEN], unsigned char *text, size_t len)
{
	DES_cblock expanded;
	DES_key_schedule schedule;

	expand_key(key, &expanded);
	DES_set_key_unchecked(&expanded, &schedule);
	for (size_t i = 0; i < (len - 1) / BLOCK_STEP; i++)
		encrypt_at(text + BLOCK_STEP * i, &schedule);
	if ((len - 1) % BLOCK_STEP != 0)
		encrypt_at(text + len - BLOCK_LEN, &schedule);
}

static inline void decrypt_at(unsigned char *text, DES_key_schedule *schedule)
{
	DES_cblock block;

	memcpy(block, text, BLOCK_LEN);
	DES_ecb_encrypt(&block, &block, schedule, DES_DECRYPT);
	memcpy(text, block, BLOCK_LEN);
}

/* The same blocks from the last one back. */
static inline void open_seal(const unsigned char key[KEY_LEN], unsigned char *text, size_t len)
{
	DES_cblock expanded;
	DES_key_schedule schedule;

	expand_key(key, &expanded);
	DES_set_key_unchecked(&expanded, &schedule);
	if ((len - 1) % BLOCK_STEP != 0)
		decrypt_at(text + len - BLOCK_LEN, &schedule);
	for (size_t i = (len - 1) / BLOCK_STEP; i > 0; i--)
		decrypt_at(text + BLOCK_STEP * (i - 1), &schedule);
}
#endif
