/* decide FILE [OTHER..]: decides the first file, over all files that are named, and prints what came of it.
 *
 * The files are read here, and handed to the library in memory; the files that the source exports come back in
 * memory too, and are only told. Build it with make.
 */
#include <monastr.h>
#include <stdio.h>
#include <stdlib.h>
#include <string.h>

/* Bytes that grow. */
struct bytes {
    uint8_t *at;
    size_t size;
};

static void *grown(void *at, size_t size)
{
    void *more = realloc(at, size + 1);
    if (!more) {
        fputs("decide: out of memory\n", stderr);
        exit(6);
    }
    return more;
}

static void append(struct bytes *bytes, const void *more, size_t size)
{
    bytes->at = grown(bytes->at, bytes->size + size);
    memcpy(bytes->at + bytes->size, more, size);
    bytes->size += size;
}

/* Appends the content of a file, and tells how many bytes it has. */
static uint64_t append_file(struct bytes *bytes, const char *name)
{
    uint8_t piece[4096];
    uint64_t size = 0;
    size_t count;
    FILE *file = fopen(name, "rb");
    if (!file) {
        perror(name);
        exit(4);
    }
    while ((count = fread(piece, 1, sizeof piece, file)) > 0) {
        append(bytes, piece, count);
        size += count;
    }
    fclose(file);
    return size;
}

int main(int argc, char **argv)
{
    struct bytes words = {grown(NULL, 0), 0}, files = {grown(NULL, 0), 0};
    uint64_t word_lengths[2];
    struct monastr_file *lengths = grown(NULL, (size_t)argc * sizeof *lengths);
    struct monastr_file *written = grown(NULL, 0);
    uint8_t *room = grown(NULL, 0);
    size_t room_size = 0, written_count = 0;
    struct monastr_request request;
    struct monastr_answer answer;
    uint32_t status;

    if (argc < 2) {
        fputs("usage: decide FILE [OTHER..]\n", stderr);
        return 1;
    }
    append(&words, "decide", 6);
    append(&words, argv[1], strlen(argv[1]));
    word_lengths[0] = 6;
    word_lengths[1] = strlen(argv[1]);
    for (int i = 1; i < argc; i++) {
        append(&files, argv[i], strlen(argv[i]));
        lengths[i - 1].name = strlen(argv[i]);
        lengths[i - 1].content = append_file(&files, argv[i]);
    }

    request.words = words.at;
    request.words_size = words.size;
    request.word_lengths = word_lengths;
    request.word_count = 2;
    request.files = files.at;
    request.files_size = files.size;
    request.file_lengths = lengths;
    request.file_count = (size_t)argc - 1;

    /* Asked without room, it says how much it needs. */
    while ((status = monastr_run(&request, room, room_size, written, written_count, &answer)) == MONASTR_TOO_LONG) {
        room_size = answer.bytes;
        written_count = answer.files;
        room = grown(room, room_size);
        written = grown(written, written_count * sizeof *written);
    }
    if (status > MONASTR_LIMIT) {
        fprintf(stderr, "decide: no outcome, status %u\n", (unsigned)status);
        return (int)status;
    }

    fwrite(room, 1, answer.text, stdout);
    const uint8_t *name = room + answer.text;
    for (uint64_t i = 0; i < answer.files; i++) {
        printf("file %.*s, %llu bytes\n", (int)written[i].name, (const char *)name, (unsigned long long)written[i].content);
        name += written[i].name + written[i].content;
    }
    free(words.at);
    free(files.at);
    free(lengths);
    free(written);
    free(room);
    return (int)status;
}
