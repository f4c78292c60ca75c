/* Goes through files by the plain CRC-32C of one table: a byte at a time, from all ones, without inversion at the end.
 *
 *   crc ROUNDS FILE..
 *
 * Prints of each file the digest of its bytes ROUNDS times in a row: with one round, the digest that pgs has of them. */

#include <stdint.h>
#include <stdio.h>
#include <stdlib.h>

static uint32_t table[256];

static void fill_table(void)
{
    for (uint32_t byte = 0; byte < 256; byte++) {
        uint32_t word = byte;
        for (int bit = 0; bit < 8; bit++)
            word = word & 1 ? word >> 1 ^ 0x82F63B78u : word >> 1;
        table[byte] = word;
    }
}

static uint32_t with_bytes(uint32_t digest, const unsigned char *bytes, size_t size)
{
    for (size_t at = 0; at < size; at++)
        digest = digest >> 8 ^ table[(digest ^ bytes[at]) & 0xFF];
    return digest;
}

struct content {
    unsigned char *bytes;
    size_t size;
    uint32_t digest;
};

static void give_up(const char *why)
{
    fprintf(stderr, "crc: %s\n", why);
    exit(1);
}

static struct content content_of(const char *path)
{
    struct content content = {NULL, 0, 0xFFFFFFFFu};
    FILE *file = fopen(path, "rb");
    if (file == NULL || fseek(file, 0, SEEK_END) != 0)
        give_up("a file isn't there");
    content.size = (size_t)ftell(file);
    rewind(file);
    content.bytes = malloc(content.size + 1);
    if (content.bytes == NULL || fread(content.bytes, 1, content.size, file) != content.size)
        give_up("a file isn't read");
    fclose(file);
    return content;
}

int main(int words, char **word)
{
    if (words < 3)
        give_up("wanted: crc ROUNDS FILE..");
    long rounds = strtol(word[1], NULL, 10);
    int files = words - 2;
    struct content *contents = malloc((size_t)files * sizeof *contents);
    if (contents == NULL)
        give_up("no memory");
    for (int at = 0; at < files; at++)
        contents[at] = content_of(word[at + 2]);
    fill_table();
    for (long round = 0; round < rounds; round++)
        for (int at = 0; at < files; at++)
            contents[at].digest = with_bytes(contents[at].digest, contents[at].bytes, contents[at].size);
    for (int at = 0; at < files; at++)
        printf("%08x\n", contents[at].digest);
    return 0;
}
