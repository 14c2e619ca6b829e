/* Looks blocks up as docs/METHOD.md says, for a time beside hkreplay's.

   looks_reference HOP < file

   The file has numbers of 32 bits, the low byte first: how many recordings, then for each its id, its number of words
   and the words; then how many prints, and the word and mask of each. A line for each block of 256 prints goes to
   standard output: its first print, and its list as a report has it. Words are found by chains of buckets. */

#include <stdint.h>
#include <stdio.h>
#include <stdlib.h>

enum { BLOCK = 256, MOST_ERRORS = 2867 };

typedef struct { uint32_t id, length; const uint32_t *words; } Song;
typedef struct { uint32_t id, start, errors; } Match;

static uint32_t *all;
static size_t at;

static uint32_t next(void) { return all[at++]; }

static void read_all(void)
{
    size_t room = 1 << 20, count = 0, got;
    all = malloc(room * sizeof *all);
    while (all && (got = fread(all + count, sizeof *all, room - count, stdin)) > 0) {
        count += got;
        if (count == room)
            all = realloc(all, (room *= 2) * sizeof *all);
    }
    if (!all) {
        fprintf(stderr, "looks_reference: no memory\n");
        exit(1);
    }
}

static int by_id_and_start(const void *a, const void *b)
{
    const Match *x = a, *y = b;
    if (x->id != y->id)
        return x->id < y->id ? -1 : 1;
    return (x->start > y->start) - (x->start < y->start);
}

int main(int argc, char **argv)
{
    uint32_t hop = argc > 1 ? (uint32_t)atoi(argv[1]) : 64;
    read_all();
    uint32_t count = next(), positions = 0;
    Song *songs = malloc((count + 1) * sizeof *songs);
    for (uint32_t s = 0; s < count; s++) {
        songs[s].id = next();
        songs[s].length = next();
        songs[s].words = all + at;
        at += songs[s].length;
        positions += songs[s].length;
    }
    int bits = 8;
    while (bits < 20 && (1u << bits) < positions)
        bits++;
    uint32_t *head = calloc((size_t)1 << bits, sizeof *head);
    uint32_t *link = malloc((positions + 1) * sizeof *link), *word_of = malloc((positions + 1) * sizeof *word_of);
    uint32_t *song_of = malloc((positions + 1) * sizeof *song_of), *place_of = malloc((positions + 1) * sizeof *place_of);
    uint32_t node = 1;
    for (uint32_t s = 0; s < count; s++)
        for (uint32_t p = 0; p < songs[s].length; p++, node++) {
            uint32_t word = songs[s].words[p], bucket = word * 2654435761u >> (32 - bits);
            word_of[node] = word, song_of[node] = s, place_of[node] = p;
            link[node] = head[bucket], head[bucket] = node;
        }
    uint32_t prints = next();
    const uint32_t *sent = all + at;
    size_t room = 1024;
    Match *matches = malloc(room * sizeof *matches);
    for (uint32_t first = 0; first + BLOCK <= prints; first += hop) {
        uint32_t words[BLOCK], masks[BLOCK];
        size_t found = 0;
        for (int j = 0; j < BLOCK; j++)
            words[j] = sent[2 * (first + j)], masks[j] = sent[2 * (first + j) + 1];
        for (int j = 0; j < BLOCK; j++) {
            uint32_t flipped = 0;
            do {
                uint32_t word = words[j] ^ flipped;
                for (uint32_t n = head[word * 2654435761u >> (32 - bits)]; n; n = link[n]) {
                    const Song *song = songs + song_of[n];
                    uint32_t place = place_of[n];
                    if (word_of[n] != word || place < (uint32_t)j || place - j + BLOCK > song->length)
                        continue;
                    const uint32_t *window = song->words + place - j;
                    int hit = 0;
                    while ((window[hit] ^ words[hit]) & ~masks[hit])
                        hit++;
                    if (hit < j)
                        continue;
                    uint32_t errors = 0;
                    for (int i = 0; i < BLOCK; i++)
                        errors += (uint32_t)__builtin_popcount(window[i] ^ words[i]);
                    if (errors > MOST_ERRORS)
                        continue;
                    if (found == room)
                        matches = realloc(matches, (room *= 2) * sizeof *matches);
                    matches[found++] = (Match){song->id, place - j, errors};
                }
                flipped = (flipped - masks[j]) & masks[j];
            } while (flipped);
        }
        qsort(matches, found, sizeof *matches, by_id_and_start);
        printf("%u:", first);
        for (size_t m = 0; m < found; m++)
            printf(" %u@%u~%u", matches[m].id, matches[m].start, matches[m].errors);
        printf(found ? "\n" : " none\n");
    }
    return 0;
}
