/*
 * The peer of the program bench_work: the same rounds over the same frames, by a plain C reader and writer of 9P. A
 * message owns copies of its strings and its content, as ours does, and every field is checked: the type, the sizes, the
 * strings for UTF-8 without NUL, and that nothing is left over. It prints the same sums, so that the two can be compared.
 */
#include <errno.h>
#include <inttypes.h>
#include <stdbool.h>
#include <stdint.h>
#include <stdio.h>
#include <stdlib.h>
#include <string.h>

enum { MOST_NAMES = 16 };

struct qid {
	uint8_t kind;
	uint32_t vers;
	uint64_t path;
};

struct text {
	uint8_t *bytes;
	uint32_t len;
};

struct message {
	uint8_t kind;
	uint16_t tag;
	uint32_t fid, newfid, count;
	uint64_t offset;
	uint16_t many;
	struct text names[MOST_NAMES];
	struct qid qids[MOST_NAMES];
	struct text content;
};

static const uint8_t walk[] = {0x20, 0x00, 0x00, 0x00, 0x6e, 0x02, 0x00, 0x00, 0x00, 0x00, 0x00, 0x01, 0x00, 0x00, 0x00, 0x02, 0x00, 0x08, 0x00, 0x66, 0x61, 0x63, 0x74, 0x6f, 0x74, 0x75, 0x6d, 0x03, 0x00, 0x63, 0x74, 0x6c};
static const uint8_t read_[] = {0x17, 0x00, 0x00, 0x00, 0x74, 0x05, 0x00, 0x01, 0x00, 0x00, 0x00, 0x00, 0x00, 0x00, 0x00, 0x00, 0x00, 0x00, 0x00, 0x00, 0x20, 0x00, 0x00};
static const uint8_t write_[] = {0x38, 0x00, 0x00, 0x00, 0x76, 0x04, 0x00, 0x01, 0x00, 0x00, 0x00, 0x00, 0x00, 0x00, 0x00, 0x00, 0x00, 0x00, 0x00, 0x21, 0x00, 0x00, 0x00, 0x6b, 0x65, 0x79, 0x20, 0x70, 0x72, 0x6f, 0x74, 0x6f, 0x3d, 0x61, 0x70, 0x6f, 0x70, 0x20, 0x75, 0x73, 0x65, 0x72, 0x3d, 0x61, 0x20, 0x21, 0x70, 0x61, 0x73, 0x73, 0x77, 0x6f, 0x72, 0x64, 0x3d, 0x62};
static const uint8_t walked[] = {0x23, 0x00, 0x00, 0x00, 0x6f, 0x02, 0x00, 0x02, 0x00, 0x80, 0x00, 0x00, 0x00, 0x00, 0x01, 0x00, 0x00, 0x00, 0x00, 0x00, 0x00, 0x00, 0x00, 0x00, 0x00, 0x00, 0x00, 0x03, 0x00, 0x00, 0x00, 0x00, 0x00, 0x00, 0x00};
static const uint8_t content[] = {0x2c, 0x00, 0x00, 0x00, 0x75, 0x05, 0x00, 0x21, 0x00, 0x00, 0x00, 0x6b, 0x65, 0x79, 0x20, 0x70, 0x72, 0x6f, 0x74, 0x6f, 0x3d, 0x61, 0x70, 0x6f, 0x70, 0x20, 0x75, 0x73, 0x65, 0x72, 0x3d, 0x61, 0x20, 0x21, 0x70, 0x61, 0x73, 0x73, 0x77, 0x6f, 0x72, 0x64, 0x3f, 0x0a};
static const uint8_t written[] = {0x0b, 0x00, 0x00, 0x00, 0x77, 0x04, 0x00, 0x21, 0x00, 0x00, 0x00};

static const struct {
	const uint8_t *bytes;
	size_t len;
} frames[] = {
	{walk, sizeof walk}, {read_, sizeof read_}, {write_, sizeof write_},
	{walked, sizeof walked}, {content, sizeof content}, {written, sizeof written},
};

static void fail(const char *what)
{
	fprintf(stderr, "codec_peer: %s\n", what);
	exit(1);
}

/* ---- reading */

struct reader {
	const uint8_t *at, *end;
	bool bad;
};

static uint64_t number(struct reader *r, int bytes)
{
	uint64_t value = 0;

	if (r->end - r->at < bytes) {
		r->bad = true;
		return 0;
	}
	for (int i = bytes - 1; i >= 0; i--)
		value = value << 8 | r->at[i];
	r->at += bytes;
	return value;
}

static bool is_text(const uint8_t *s, size_t len)
{
	for (size_t i = 0; i < len;) {
		uint8_t b = s[i];
		size_t more = b < 0x80 ? 0 : b >= 0xc2 && b <= 0xdf ? 1 : b >= 0xe0 && b <= 0xef ? 2 : b >= 0xf0 && b <= 0xf4 ? 3 : 9;

		if (b == 0 || more == 9 || len - i <= more)
			return false;
		if (more > 0 && ((b == 0xe0 && s[i + 1] < 0xa0) || (b == 0xed && s[i + 1] > 0x9f) || (b == 0xf0 && s[i + 1] < 0x90) || (b == 0xf4 && s[i + 1] > 0x8f)))
			return false;
		for (size_t k = 1; k <= more; k++)
			if ((s[i + k] & 0xc0) != 0x80)
				return false;
		i += more + 1;
	}
	return true;
}

/* a length of so many bytes and that many bytes, copied */
static void block(struct reader *r, int bytes, bool text, struct text *out)
{
	uint64_t len = number(r, bytes);

	out->bytes = NULL;
	out->len = 0;
	if (r->bad || (uint64_t)(r->end - r->at) < len || (text && !is_text(r->at, len))) {
		r->bad = true;
		return;
	}
	out->bytes = malloc(len ? len : 1);
	if (out->bytes == NULL)
		fail("no memory");
	memcpy(out->bytes, r->at, len);
	out->len = (uint32_t)len;
	r->at += len;
}

static bool decode(const uint8_t *frame, size_t len, struct message *m)
{
	struct reader r = {frame, frame + len, false};

	if (number(&r, 4) != len || len < 7)
		return false;
	m->kind = (uint8_t)number(&r, 1);
	m->tag = (uint16_t)number(&r, 2);
	m->many = 0;
	m->content.bytes = NULL;
	switch (m->kind) {
	case 110:
		m->fid = (uint32_t)number(&r, 4);
		m->newfid = (uint32_t)number(&r, 4);
		m->many = (uint16_t)number(&r, 2);
		if (m->many > MOST_NAMES)
			return false;
		for (int i = 0; i < m->many; i++)
			block(&r, 2, true, &m->names[i]);
		break;
	case 111:
		m->many = (uint16_t)number(&r, 2);
		if (m->many > MOST_NAMES)
			return false;
		for (int i = 0; i < m->many; i++) {
			m->qids[i].kind = (uint8_t)number(&r, 1);
			m->qids[i].vers = (uint32_t)number(&r, 4);
			m->qids[i].path = number(&r, 8);
		}
		break;
	case 116:
		m->fid = (uint32_t)number(&r, 4);
		m->offset = number(&r, 8);
		m->count = (uint32_t)number(&r, 4);
		break;
	case 117:
		block(&r, 4, false, &m->content);
		break;
	case 118:
		m->fid = (uint32_t)number(&r, 4);
		m->offset = number(&r, 8);
		block(&r, 4, false, &m->content);
		break;
	case 119:
		m->count = (uint32_t)number(&r, 4);
		break;
	default:
		return false;
	}
	return !r.bad && r.at == r.end;
}

static void drop(struct message *m)
{
	if (m->kind == 110)
		for (int i = 0; i < m->many; i++)
			free(m->names[i].bytes);
	free(m->content.bytes);
}

static uint64_t mark(const struct message *m)
{
	uint64_t body = 0;

	switch (m->kind) {
	case 110: body = m->fid ^ m->newfid ^ m->many; break;
	case 116: body = m->fid ^ m->offset ^ m->count; break;
	case 118: body = m->fid ^ m->offset ^ m->content.len; break;
	case 111: body = m->many; break;
	case 117: body = m->content.len; break;
	case 119: body = m->count; break;
	}
	return body ^ m->tag;
}

static uint64_t decode_rounds(uint64_t rounds)
{
	uint64_t sum = 0;
	struct message m;

	for (uint64_t i = 0; i < rounds; i++)
		for (size_t k = 0; k < sizeof frames / sizeof frames[0]; k++) {
			if (!decode(frames[k].bytes, frames[k].len, &m))
				fail("a frame was refused");
			sum = sum * 3 + mark(&m);
			drop(&m);
		}
	return sum;
}

/* ---- writing */

struct output {
	uint8_t *bytes;
	size_t len, room;
};

static uint8_t *grow(struct output *out, size_t more)
{
	if (out->room - out->len < more) {
		size_t room = 2 * (out->len + more);
		uint8_t *bytes = realloc(out->bytes, room);

		if (bytes == NULL)
			fail("no memory");
		out->bytes = bytes;
		out->room = room;
	}
	out->len += more;
	return out->bytes + out->len - more;
}

static void put(struct output *out, uint64_t value, int bytes)
{
	uint8_t *at = grow(out, (size_t)bytes);

	for (int i = 0; i < bytes; i++)
		at[i] = (uint8_t)(value >> 8 * i);
}

static void put_block(struct output *out, int bytes, const struct text *block)
{
	put(out, block->len, bytes);
	memcpy(grow(out, block->len), block->bytes, block->len);
}

static void put_qid(struct output *out, const struct qid *qid)
{
	put(out, qid->kind, 1);
	put(out, qid->vers, 4);
	put(out, qid->path, 8);
}

static void encode(const struct message *m, struct output *out)
{
	size_t before = out->len;

	put(out, 0, 4);
	put(out, m->kind, 1);
	put(out, m->tag, 2);
	switch (m->kind) {
	case 110:
		put(out, m->fid, 4);
		put(out, m->newfid, 4);
		put(out, m->many, 2);
		for (int i = 0; i < m->many; i++)
			put_block(out, 2, &m->names[i]);
		break;
	case 111:
		put(out, m->many, 2);
		for (int i = 0; i < m->many; i++)
			put_qid(out, &m->qids[i]);
		break;
	case 116:
		put(out, m->fid, 4);
		put(out, m->offset, 8);
		put(out, m->count, 4);
		break;
	case 117:
		put_block(out, 4, &m->content);
		break;
	case 118:
		put(out, m->fid, 4);
		put(out, m->offset, 8);
		put_block(out, 4, &m->content);
		break;
	case 119:
		put(out, m->count, 4);
		break;
	}
	for (int i = 0; i < 4; i++)
		out->bytes[before + i] = (uint8_t)((out->len - before) >> 8 * i);
}

static uint64_t encode_rounds(uint64_t rounds)
{
	uint64_t sum = 0;
	struct message m[6];
	struct output out = {NULL, 0, 0};

	for (int k = 0; k < 6; k++)
		if (!decode(frames[k].bytes, frames[k].len, &m[k]))
			fail("a frame was refused");
	for (int k = 0; k < 3; k++)
		for (uint64_t i = 0; i < rounds; i++) {
			out.len = 0;
			encode(&m[k], &out);
			encode(&m[k + 3], &out);
			sum = sum * 3 + (out.len ^ out.bytes[out.len - 1]);
		}
	for (int k = 0; k < 6; k++)
		drop(&m[k]);
	free(out.bytes);
	return sum;
}

int main(int argc, char **argv)
{
	char *end;
	uint64_t rounds;

	if (argc != 3)
		fail("usage: codec_peer decode|encode ROUNDS");
	errno = 0;
	rounds = strtoumax(argv[2], &end, 10);
	if (argv[2][0] < '0' || argv[2][0] > '9' || *end != '\0' || errno != 0)
		fail("the number of rounds is no number");
	if (strcmp(argv[1], "decode") == 0)
		printf("%" PRIu64 "\n", decode_rounds(rounds));
	else if (strcmp(argv[1], "encode") == 0)
		printf("%" PRIu64 "\n", encode_rounds(rounds));
	else
		fail("the work is one of decode and encode");
	return 0;
}
