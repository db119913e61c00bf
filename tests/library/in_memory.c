/*
 * Answers a document on standard input by nidzaru_check.h, and prints what the programs print, with their status.
 *
 *     in_memory check | order [1 | 2] | play | picture
 *
 * The first buffer is small, so that most answers are asked for again.
 */
#include "../../c/nidzaru_check.h"

#include <stdio.h>
#include <stdlib.h>
#include <string.h>

static uint8_t *document;
static size_t document_size;

static int read_document(void) {
    size_t room = 1 << 16;
    document = (uint8_t *)malloc(room);
    while (document) {
        document_size += fread(document + document_size, 1, room - document_size, stdin);
        if (document_size < room) return 1;
        room *= 2;
        document = (uint8_t *)realloc(document, room);
    }
    return 0;
}

static uint32_t ask(const char *command, uint32_t show, uint8_t *buffer, size_t room, uint64_t *size) {
    if (!strcmp(command, "check")) return nidzaru_check(document, document_size, buffer, room, size);
    if (!strcmp(command, "order")) return nidzaru_order(show, document, document_size, buffer, room, size);
    if (!strcmp(command, "play")) return nidzaru_play(document, document_size, buffer, room, size);
    if (!strcmp(command, "picture")) return nidzaru_picture(document, document_size, buffer, room, size);
    exit(9);
}

int main(int count, char **words) {
    const char *command = count > 1 ? words[1] : "";
    uint32_t show = count > 2 ? (uint32_t)atoi(words[2]) : (uint32_t)NIDZARU_VERDICT, status;
    uint8_t first[10], *buffer = first;
    uint64_t size;
    if (!read_document()) return 9;
    status = ask(command, show, buffer, sizeof first, &size);
    if (size > sizeof first) {
        uint64_t whole = size;
        buffer = (uint8_t *)malloc(whole);
        if (!buffer || ask(command, show, buffer, whole, &size) != status || size != whole) return 9;
    }
    return fwrite(buffer, 1, size, status <= 1 ? stdout : stderr) == size ? (int)status : 9;
}
