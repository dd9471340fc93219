/* example FILE: offers the records of a file to a picker of size 2, with coverage (weight i + 1 for
 * class i) and a partition matroid (every cap 1), and prints the digest. The file may be of any
 * length: it is offered in texts of whole records. A text's fault is told on standard error. */
#include "fogetsu.h"

#include <stdio.h>
#include <stdlib.h>

enum { LINES_OF_A_RECORD = 7 };

/* Bytes that grow as they are written. */
struct bytes {
    uint8_t *at;
    size_t length, room;
};

static void *need(void *memory)
{
    if (memory == NULL) {
        fprintf(stderr, "example: no memory\n");
        exit(2);
    }
    return memory;
}

static void put(struct bytes *out, const uint8_t *from, size_t length)
{
    if (out->room - out->length < length) {
        out->room = 2 * (out->length + length);
        out->at = need(realloc(out->at, out->room));
    }
    for (size_t i = 0; i < length; i++)
        out->at[out->length++] = from[i];
}

static void put_call(struct bytes *out, uint8_t kind, uint32_t number)
{
    uint8_t call[5] = { kind, number, number >> 8, number >> 16, number >> 24 };
    put(out, call, sizeof call);
}

static uint32_t number_at(const uint8_t *bytes)
{
    return bytes[0] | bytes[1] << 8 | bytes[2] << 16 | (uint32_t)bytes[3] << 24;
}

static struct bytes read_all(const char *name)
{
    struct bytes text = { NULL, 0, 0 };
    uint8_t part[4096];
    size_t got;
    FILE *file = fopen(name, "rb");
    if (file == NULL) {
        perror(name);
        exit(2);
    }
    while ((got = fread(part, 1, sizeof part, file)) > 0)
        put(&text, part, got);
    fclose(file);
    return text;
}

/* Where the next text ends: behind the last whole record that it has room for, or where there is
 * none behind the next record, or at the file's end. */
static size_t text_end(const struct bytes *file, size_t start)
{
    size_t end = start;
    int lines = 0;
    for (size_t i = start; i < file->length; i++) {
        if (file->at[i] != '\n' || ++lines % LINES_OF_A_RECORD != 0)
            continue;
        if (i + 1 - start > FOGETSU_LONGEST_TEXT)
            return end > start ? end : i + 1;
        end = i + 1;
    }
    return file->length - start <= FOGETSU_LONGEST_TEXT || end == start ? file->length : end;
}

/* A text call for each part of the file. Answers how many they are. */
static size_t put_texts(struct bytes *calls, const struct bytes *file)
{
    size_t texts = 0;
    for (size_t start = 0; start < file->length; texts++) {
        size_t end = text_end(file, start);
        put_call(calls, FOGETSU_TEXT, end - start);
        put(calls, file->at + start, end - start);
        start = end;
    }
    return texts;
}

static int tell_faults(const uint8_t *answers, size_t texts)
{
    int faults = 0;
    for (size_t i = 0; i < texts; i++, answers += FOGETSU_TEXT_ANSWER) {
        if (answers[0] == 0)
            continue;
        fprintf(stderr, "text %zu: refusal %u, record %u, line %u, byte %u\n", i + 1, answers[0],
                number_at(answers + 5), answers[9], number_at(answers + 10));
        faults = 1;
    }
    return faults;
}

static uint64_t run(const struct bytes *calls, uint8_t *answers, size_t length)
{
    uint32_t weights[64], caps[64];
    for (uint32_t i = 0; i < 64; i++) {
        weights[i] = i + 1;
        caps[i] = 1;
    }
    return fogetsu_coverage_partition(2, weights, 64, caps, 64, calls->at, calls->length, answers, length);
}

int main(int argc, char **argv)
{
    if (argc != 2) {
        fprintf(stderr, "example FILE\n");
        return 2;
    }
    struct bytes file = read_all(argv[1]), calls = { NULL, 0, 0 };
    size_t texts = put_texts(&calls, &file);
    put_call(&calls, FOGETSU_PRINT_OUT, FOGETSU_LONGEST_DIGEST);

    size_t length = texts * FOGETSU_TEXT_ANSWER + FOGETSU_PRINT_OUT_ANSWER + FOGETSU_LONGEST_DIGEST;
    uint8_t *answers = need(calloc(length, 1));
    uint64_t returned = run(&calls, answers, length);
    if (fogetsu_refusal(returned) != 0) {
        fprintf(stderr, "example: refusal %u\n", fogetsu_refusal(returned));
        return 2;
    }
    const uint8_t *digest = answers + texts * FOGETSU_TEXT_ANSWER;
    fwrite(digest + 5, 1, number_at(digest + 1), stdout);
    int faults = tell_faults(answers, texts);
    free(answers);
    free(calls.at);
    free(file.at);
    return faults;
}
