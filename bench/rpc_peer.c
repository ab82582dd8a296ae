/*
 * The peer of bench/rpc. `rpc_peer answer` reads a 9P connection frame by frame and gives the replies that the agent gives,
 * as far as bench/rpc asks: version, attach, walks, opens, keys written to ctl, and on rpc the requests start, attr, read
 * and write of a client or a server of p9sk1 before its first message. `rpc_peer answer_at_once` writes each reply before
 * it looks for the next frame. Whatever else is asked ends it with status 5.
 */
#include <stdint.h>
#include <stdio.h>
#include <stdlib.h>
#include <string.h>

enum {
	MSIZE = 8216,
	HEADER = 7,
	READ_HEADER = 24,
	LONGEST_REQUEST = 4096,
	FIDS = 256,
	ATTRIBUTES = 32,
	KEYS = 16,
	NAMES = 16,
	NOT_ASKED = 5,
};

static const uint32_t nofid = 0xffffffff;

/* The types of the requests; that of a reply is one more. */
enum { TVERSION = 100, TATTACH = 104, RERROR = 107, TWALK = 110, TOPEN = 112, TREAD = 116, TWRITE = 118 };

static void give_up(void)
{
	fputs("rpc_peer: that isn't asked of it\n", stderr);
	exit(NOT_ASKED);
}

/* Bytes that belong to another. */
struct text {
	const char *bytes;
	size_t length;
};

static int is(struct text text, const char *word)
{
	return text.length == strlen(word) && memcmp(text.bytes, word, text.length) == 0;
}

/* ---- the fields of a request, from `at` to `end` */
struct reader {
	const unsigned char *at, *end;
};

static struct text take_bytes(struct reader *reader, size_t length)
{
	struct text text = {(const char *)reader->at, length};

	if ((size_t)(reader->end - reader->at) < length)
		give_up();
	reader->at += length;
	return text;
}

static uint64_t take_number(struct reader *reader, int size)
{
	struct text field = take_bytes(reader, (size_t)size);
	uint64_t number = 0;

	for (int i = 0; i < size; i++)
		number |= (uint64_t)(unsigned char)field.bytes[i] << (8 * i);
	return number;
}

static uint32_t take_fid(struct reader *reader)
{
	return (uint32_t)take_number(reader, 4);
}

static struct text take_text(struct reader *reader)
{
	return take_bytes(reader, (size_t)take_number(reader, 2));
}

static void take_end(const struct reader *reader)
{
	if (reader->at != reader->end)
		give_up();
}

/* ---- the fields of a reply, behind its size, its type and its tag */
static unsigned char reply[MSIZE];
static size_t reply_length;

static void put_bytes(const void *bytes, size_t length)
{
	if (length > sizeof reply - reply_length)
		give_up();
	memcpy(reply + reply_length, bytes, length);
	reply_length += length;
}

static void put_number(uint64_t number, int size)
{
	unsigned char field[8];

	for (int i = 0; i < size; i++)
		field[i] = (unsigned char)(number >> (8 * i));
	put_bytes(field, (size_t)size);
}

static int put_error(const char *why)
{
	put_number(strlen(why), 2);
	put_bytes(why, strlen(why));
	return RERROR;
}

/* ---- the files */
enum file { ROOT, DIRECTORY, RPC, CTL, FILES };

static const struct {
	const char *name;
	enum file inside;
	int kind;
} files[FILES] = {{"/", FILES, 0x80}, {"factotum", ROOT, 0x80}, {"rpc", DIRECTORY, 0}, {"ctl", DIRECTORY, 0}};

static void put_qid(enum file file)
{
	put_number((uint64_t)files[file].kind, 1);
	put_number(0, 4);
	put_number((uint64_t)file, 8);
}

static enum file walk_to(enum file from, struct text name)
{
	for (int file = 0; file < FILES; file++)
		if (files[file].inside == from && is(name, files[file].name))
			return (enum file)file;
	give_up();
	return ROOT;
}

/* ---- attributes: name or name=value, with one space between two of them, and no quotes */
struct attribute {
	char name[32], value[64];
	int is_asked; /* shown as name? */
};

struct tuple {
	struct attribute attributes[ATTRIBUTES];
	int count;
};

static void copy_word(char *to, size_t room, struct text word)
{
	if (word.length >= room)
		give_up();
	if (memchr(word.bytes, '\'', word.length) != NULL || memchr(word.bytes, '?', word.length) != NULL)
		give_up();
	memcpy(to, word.bytes, word.length);
	to[word.length] = 0;
}

static struct text cut(struct text *from, char at)
{
	const char *end = from->length == 0 ? NULL : memchr(from->bytes, at, from->length);
	struct text front = *from;

	if (end == NULL) {
		from->bytes += from->length;
		from->length = 0;
		return front;
	}
	front.length = (size_t)(end - from->bytes);
	from->bytes += front.length + 1;
	from->length -= front.length + 1;
	return front;
}

static void read_tuple(struct text words, struct tuple *tuple)
{
	tuple->count = 0;
	while (words.length > 0) {
		struct text word = cut(&words, ' ');
		struct text name = cut(&word, '=');
		struct attribute *attribute = &tuple->attributes[tuple->count];

		if (tuple->count++ == ATTRIBUTES || name.length == 0)
			give_up();
		copy_word(attribute->name, sizeof attribute->name, name);
		copy_word(attribute->value, sizeof attribute->value, word);
		attribute->is_asked = 0;
	}
}

static const struct attribute *find(const struct tuple *tuple, const char *name)
{
	for (int i = 0; i < tuple->count; i++)
		if (strcmp(tuple->attributes[i].name, name) == 0)
			return &tuple->attributes[i];
	return NULL;
}

static int has(const struct tuple *tuple, const char *name, const char *value)
{
	const struct attribute *attribute = find(tuple, name);

	return attribute != NULL && strcmp(attribute->value, value) == 0;
}

/* A key's attributes behind a start's, without its secrets. */
static void add_shown(struct tuple *tuple, const struct tuple *key)
{
	for (int i = 0; i < key->count; i++) {
		const struct attribute *attribute = &key->attributes[i];

		if (find(tuple, attribute->name) != NULL)
			continue;
		if (tuple->count == ATTRIBUTES)
			give_up();
		tuple->attributes[tuple->count] = *attribute;
		tuple->attributes[tuple->count++].is_asked = attribute->name[0] == '!';
	}
}

static struct tuple keys[KEYS];
static int key_count;

/* ---- conversations */
enum turn { NOT_STARTED, AWAITS_READ, AWAITS_WRITE };

struct talk {
	enum turn turn;
	struct tuple tuple;
	int is_pending; /* an answer is there */
	size_t length;
	char answer[MSIZE];
};

static void add(struct talk *talk, const char *text)
{
	size_t length = strlen(text);

	if (length > sizeof talk->answer - talk->length)
		give_up();
	memcpy(talk->answer + talk->length, text, length);
	talk->length += length;
}

static void answer_attr(struct talk *talk)
{
	add(talk, "ok");
	for (int i = 0; i < talk->tuple.count; i++) {
		const struct attribute *attribute = &talk->tuple.attributes[i];

		add(talk, " ");
		add(talk, attribute->name);
		add(talk, attribute->is_asked ? "?" : "=");
		if (!attribute->is_asked)
			add(talk, attribute->value);
	}
}

static int is_for_server(const struct tuple *key)
{
	return has(key, "proto", "p9sk1") && find(key, "dom") != NULL && find(key, "user") != NULL;
}

static void answer_start(struct talk *talk, struct text words)
{
	read_tuple(words, &talk->tuple);
	if (!has(&talk->tuple, "proto", "p9sk1"))
		give_up();
	if (has(&talk->tuple, "role", "client")) {
		talk->turn = AWAITS_READ;
	} else {
		int key = 0;

		while (key < key_count && !is_for_server(&keys[key]))
			key++;
		if (!has(&talk->tuple, "role", "server") || key == key_count)
			give_up();
		add_shown(&talk->tuple, &keys[key]);
		talk->turn = AWAITS_WRITE;
	}
	add(talk, "ok");
}

/* Makes the answer to a request of rpc, and says whether it is one. */
static int answer_request(struct talk *talk, struct text request)
{
	struct text verb = cut(&request, ' ');

	talk->length = 0;
	if (is(verb, "start")) {
		if (talk->turn != NOT_STARTED)
			add(talk, "phase already started");
		else
			answer_start(talk, request);
	} else if (!is(verb, "attr") && !is(verb, "read") && !is(verb, "write")) {
		return 0;
	} else if (talk->turn == NOT_STARTED) {
		add(talk, "protocol not started");
	} else if (is(verb, "attr")) {
		answer_attr(talk);
	} else if (is(verb, "write") && talk->turn == AWAITS_READ) {
		add(talk, "phase awaits read");
	} else if (is(verb, "read") && talk->turn == AWAITS_WRITE) {
		add(talk, "phase awaits write");
	} else {
		give_up();
	}
	talk->is_pending = 1;
	return 1;
}

/* ---- fids */
struct fid {
	uint32_t number;
	enum file file;
	int is_open, mode;
	struct talk *talk;
};

static struct fid fids[FIDS];
static int fid_count;
static uint32_t msize;

static struct fid *find_fid(uint32_t number)
{
	for (int i = 0; i < fid_count; i++)
		if (fids[i].number == number)
			return &fids[i];
	return NULL;
}

static struct fid *held(uint32_t number)
{
	struct fid *fid = find_fid(number);

	if (fid == NULL)
		give_up();
	return fid;
}

static void hold(uint32_t number, enum file file)
{
	if (find_fid(number) != NULL || fid_count == FIDS)
		give_up();
	fids[fid_count].number = number;
	fids[fid_count].file = file;
	fid_count++;
}

/* ---- requests: each puts the fields of its reply, and gives the reply's type */
static int take_version(struct reader *reader)
{
	uint32_t size = (uint32_t)take_number(reader, 4);
	struct text version = take_text(reader);

	take_end(reader);
	if (msize != 0 || size < 256 || !is(version, "9P2000"))
		give_up();
	msize = size < MSIZE ? size : MSIZE;
	put_number(msize, 4);
	put_number(version.length, 2);
	put_bytes(version.bytes, version.length);
	return TVERSION + 1;
}

static int take_attach(struct reader *reader)
{
	uint32_t number = take_fid(reader), afid = take_fid(reader);

	take_text(reader);
	take_text(reader);
	take_end(reader);
	if (afid != nofid)
		give_up();
	hold(number, ROOT);
	put_qid(ROOT);
	return TATTACH + 1;
}

static int take_walk(struct reader *reader)
{
	uint32_t number = take_fid(reader), new_number = take_fid(reader);
	size_t count = (size_t)take_number(reader, 2);
	struct fid *fid = held(number);
	enum file file = fid->file;

	if (count > NAMES || fid->is_open)
		give_up();
	put_number(count, 2);
	for (size_t i = 0; i < count; i++) {
		file = walk_to(file, take_text(reader));
		put_qid(file);
	}
	take_end(reader);
	hold(new_number, file);
	return TWALK + 1;
}

static int take_open(struct reader *reader)
{
	struct fid *fid = held(take_fid(reader));
	int mode = (int)take_number(reader, 1);

	take_end(reader);
	if (fid->is_open || mode > 2 || (fid->file != RPC && fid->file != CTL))
		give_up();
	if (fid->file == RPC && (fid->talk = calloc(1, sizeof *fid->talk)) == NULL)
		give_up();
	fid->is_open = 1;
	fid->mode = mode;
	put_qid(fid->file);
	put_number(0, 4);
	return TOPEN + 1;
}

static int take_read(struct reader *reader)
{
	struct fid *fid = held(take_fid(reader));
	uint32_t count;

	take_number(reader, 8);
	count = (uint32_t)take_number(reader, 4);
	take_end(reader);
	if (fid->talk == NULL)
		give_up();
	if (fid->mode == 1)
		return put_error("not open for reading");
	if (!fid->talk->is_pending)
		return put_error("no rpc pending");
	if (count > msize - READ_HEADER)
		count = msize - READ_HEADER;
	if (fid->talk->length > count)
		return put_error("read too small");
	fid->talk->is_pending = 0;
	put_number(fid->talk->length, 4);
	put_bytes(fid->talk->answer, fid->talk->length);
	return TREAD + 1;
}

static void write_ctl(struct text line)
{
	if (!is(cut(&line, ' '), "key") || key_count == KEYS || memchr(line.bytes, '\n', line.length) != NULL)
		give_up();
	read_tuple(line, &keys[key_count++]);
}

static int take_write(struct reader *reader)
{
	struct fid *fid = held(take_fid(reader));
	struct text content;

	take_number(reader, 8);
	content = take_bytes(reader, (size_t)take_number(reader, 4));
	take_end(reader);
	if (!fid->is_open)
		give_up();
	if (fid->mode == 0)
		return put_error("not open for writing");
	if (fid->file == CTL) {
		write_ctl(content);
	} else {
		if (fid->talk->is_pending)
			return put_error("rpc busy");
		if (content.length > LONGEST_REQUEST)
			return put_error("rpc too long");
		if (!answer_request(fid->talk, content))
			return put_error("unknown rpc verb");
	}
	put_number(content.length, 4);
	return TWRITE + 1;
}

static int take_request(int type, struct reader *reader)
{
	if (msize == 0 && type != TVERSION)
		give_up();
	switch (type) {
	case TVERSION: return take_version(reader);
	case TATTACH: return take_attach(reader);
	case TWALK: return take_walk(reader);
	case TOPEN: return take_open(reader);
	case TREAD: return take_read(reader);
	case TWRITE: return take_write(reader);
	}
	give_up();
	return RERROR;
}

static void answer_frame(const unsigned char *frame, size_t size)
{
	struct reader reader = {frame + 4, frame + size};
	int type = (int)take_number(&reader, 1), reply_type;
	uint64_t tag = take_number(&reader, 2);
	size_t length;

	reply_length = HEADER;
	reply_type = take_request(type, &reader);
	length = reply_length;
	reply_length = 0;
	put_number(length, 4);
	put_number((uint64_t)reply_type, 1);
	put_number(tag, 2);
	fwrite(reply, 1, length, stdout);
}

static int answer(int at_once)
{
	unsigned char frame[MSIZE];

	while (fread(frame, 1, 4, stdin) == 4) {
		struct reader reader = {frame, frame + 4};
		size_t size = (size_t)take_number(&reader, 4);

		if (size < HEADER || size > sizeof frame || fread(frame + 4, 1, size - 4, stdin) != size - 4)
			give_up();
		answer_frame(frame, size);
		if (at_once)
			fflush(stdout);
	}
	return fflush(stdout) != 0;
}

int main(int argc, char **argv)
{
	if (argc == 2 && strcmp(argv[1], "answer") == 0)
		return answer(0);
	if (argc == 2 && strcmp(argv[1], "answer_at_once") == 0)
		return answer(1);
	fputs("usage: rpc_peer answer | rpc_peer answer_at_once\n", stderr);
	return 2;
}
