/* The peer of bench/pipe. `pipe_peer stream N` writes a 9P connection of N frames: a conversation that opens ctl and adds
 * a key, and then reads of ctl and clunks of a fid that isn't held in turn. `pipe_peer answer` reads such a stream frame by
 * frame, looks at each size and type, and writes a fixed reply of the length that the agent's has; `pipe_peer
 * answer_at_once` writes each reply before it looks for the next frame. It keeps nothing. */
#include <stdio.h>
#include <stdlib.h>
#include <string.h>

static const unsigned char opening[] = {
	0x13, 0, 0, 0, 0x64, 0xff, 0xff, 0x18, 0x20, 0, 0, 6, 0, '9', 'P', '2', '0', '0', '0',
	0x16, 0, 0, 0, 0x68, 1, 0, 0, 0, 0, 0, 0xff, 0xff, 0xff, 0xff, 3, 0, 'a', 'n', 'n', 0, 0,
	0x20, 0, 0, 0, 0x6e, 2, 0, 0, 0, 0, 0, 1, 0, 0, 0, 2, 0, 8, 0, 'f', 'a', 'c', 't', 'o', 't', 'u', 'm', 3, 0, 'c', 't', 'l',
	0x0c, 0, 0, 0, 0x70, 3, 0, 1, 0, 0, 0, 2,
	0x38, 0, 0, 0, 0x76, 4, 0, 1, 0, 0, 0, 0, 0, 0, 0, 0, 0, 0, 0, 0x21, 0, 0, 0,
	'k', 'e', 'y', ' ', 'p', 'r', 'o', 't', 'o', '=', 'a', 'p', 'o', 'p', ' ', 'u', 's', 'e', 'r', '=', 'a', ' ',
	'!', 'p', 'a', 's', 's', 'w', 'o', 'r', 'd', '=', 'b'
};
enum { opening_frames = 5 };

/* a read of ctl from 0, and a clunk of a fid that isn't held */
static const unsigned char read_ctl[] = {
	0x17, 0, 0, 0, 0x74, 5, 0, 1, 0, 0, 0, 0, 0, 0, 0, 0, 0, 0, 0, 0x64, 0, 0, 0
};
static const unsigned char unknown_fid[] = { 0x0b, 0, 0, 0, 0x78, 6, 0, 9, 0, 0, 0 };

static int stream(long frames)
{
	fwrite(opening, 1, sizeof opening, stdout);
	for (long i = opening_frames; i < frames; i++) {
		if (i % 2)
			fwrite(read_ctl, 1, sizeof read_ctl, stdout);
		else
			fwrite(unknown_fid, 1, sizeof unknown_fid, stdout);
	}
	return fflush(stdout) != 0;
}

static size_t reply_length(int type)
{
	switch (type) {
	case 100: return 19;
	case 104: return 20;
	case 110: return 35;
	case 112: return 24;
	case 116: return 44;
	case 118: return 11;
	default: return 20;
	}
}

static int answer(int at_once)
{
	unsigned char frame[8216], reply[64];
	memset(reply, 0, sizeof reply);
	while (fread(frame, 1, 4, stdin) == 4) {
		size_t size = frame[0] | frame[1] << 8 | frame[2] << 16 | (size_t)frame[3] << 24;
		if (size < 7 || size > sizeof frame || fread(frame + 4, 1, size - 4, stdin) != size - 4)
			return 5;
		fwrite(reply, 1, reply_length(frame[4]), stdout);
		if (at_once)
			fflush(stdout);
	}
	return fflush(stdout) != 0;
}

int main(int argc, char **argv)
{
	if (argc == 3 && strcmp(argv[1], "stream") == 0)
		return stream(atol(argv[2]));
	if (argc == 2 && strcmp(argv[1], "answer") == 0)
		return answer(0);
	if (argc == 2 && strcmp(argv[1], "answer_at_once") == 0)
		return answer(1);
	fputs("usage: pipe_peer stream N | pipe_peer answer | pipe_peer answer_at_once\n", stderr);
	return 2;
}
