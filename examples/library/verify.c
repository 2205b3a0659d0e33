/* Verifies the delivery of examples/public by the library: `verify FOLDER`, the folder of that
 * example, from which it reads the files as they are. Writes the report, and ends with the status. */
#include <itv.h>
#include <stdio.h>
#include <stdlib.h>
#include <string.h>

/* The files of the example, and the digest list that is made of hello.tar. */
static const char *const PATHS[] = {
    "policy.json", "layout.envelope.json", "provenance.jsonl", "links/build.alice.link",
    "links/pack.carol.link", "links/pack.carol/tar.dave.link", "hello.tar"};
enum { COUNT = sizeof PATHS / sizeof *PATHS, MOST = 1 << 20 };

static const char DIGEST[] = "digest\0hello.tar";
static const char VERIFY[] =
    "verify\0--policy\0policy.json\0--layout\0layout.envelope.json\0--links\0links\0"
    "--provenance\0provenance.jsonl\0--sums\0sums\0--at\0"
    "2026-01-01T00:00:00Z\0--public-keys";

/* The files, as itv_run takes them. */
static struct {
    char paths[1024];
    size_t paths_length;
    size_t sizes[COUNT + 1];
    size_t count;
    uint8_t contents[MOST];
    size_t length;
} files;

/* What a run gives. */
static uint8_t output[65536], notes[65536];
static struct itv_lengths lengths;

/* Adds a file, whose bytes already follow those of the others. */
static void add(const char *path, size_t size)
{
    size_t length = strlen(path) + 1;
    memcpy(files.paths + files.paths_length, path, length);
    files.paths_length += length;
    files.sizes[files.count++] = size;
    files.length += size;
}

/* Adds a file of a folder. */
static void read_file(const char *folder, const char *path)
{
    char whole[4096];
    FILE *file;
    snprintf(whole, sizeof whole, "%s/%s", folder, path);
    file = fopen(whole, "rb");
    if (!file) {
        perror(whole);
        exit(2);
    }
    add(path, fread(files.contents + files.length, 1, MOST - files.length, file));
    fclose(file);
}

/* Runs a command over the files. */
static uint8_t run(const char *words, size_t length)
{
    return itv_run(words, length, files.paths, files.paths_length, files.sizes, files.count,
                   files.contents, files.length, output, sizeof output, notes, sizeof notes,
                   &lengths);
}

int main(int count, char **words)
{
    uint8_t status;
    size_t each;
    if (count != 2) {
        fprintf(stderr, "usage: verify FOLDER\n");
        return 2;
    }
    for (each = 0; each < COUNT; each++)
        read_file(words[1], PATHS[each]);
    status = run(DIGEST, sizeof DIGEST);
    if (status == ITV_GOOD) {
        memcpy(files.contents + files.length, output, lengths.output);
        add("sums", lengths.output);
        status = run(VERIFY, sizeof VERIFY);
    }
    fwrite(output, 1, lengths.output, stdout);
    fwrite(notes, 1, lengths.notes, stderr);
    return status;
}
