/* Reads a program's text from standard input, and refuses a wrong one with its line and its diagnosis, as `inet check` does. */
#include <inet.h>

#include <stdio.h>
#include <stdlib.h>

typedef uint8_t call(const uint8_t *, size_t, uint8_t *, size_t, size_t *);

/* The program's statuses for a write or a read that failed, which are no call's. */
enum { STREAM = 6 };

/* A longer text is refused, and so no more is read. */
static uint8_t text[1048576 + 1];

/* Writes the whole answer of a call, and answers its status. */
static int write_answer(call *ask, size_t text_length, FILE *to)
{
    size_t length, room_size = 4096;
    uint8_t *room = malloc(room_size);
    uint8_t status = room ? ask(text, text_length, room, room_size, &length) : INET_MEMORY;
    if (room && length > room_size) {
        free(room);
        room_size = length;
        room = malloc(room_size);
        status = room ? ask(text, text_length, room, room_size, &length) : INET_MEMORY;
    }
    if (room)
        fwrite(room, 1, length, to);
    else if (to == stdout)
        fputs("memory\n", to);
    free(room);
    return status;
}

int main(void)
{
    size_t text_length = fread(text, 1, sizeof text, stdin);
    if (ferror(stdin))
        return STREAM;
    int status = write_answer(inet_check, text_length, stdout);
    if (fflush(stdout) || ferror(stdout))
        return STREAM;
    if (status == INET_REFUSED)
        write_answer(inet_diagnose, text_length, stderr);
    return status;
}
