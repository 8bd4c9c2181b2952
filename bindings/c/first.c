/* Reads a program, checks it, exports it and runs it. */
#include <inet.h>

#include <stdio.h>
#include <string.h>

static uint8_t text[1048577], room[1 << 20];

int main(void)
{
    struct inet_fault fault;
    size_t length, text_length = fread(text, 1, sizeof text, stdin);
    if (inet_version() / 1000000 != INET_VERSION / 1000000)
        return 70;
    uint8_t status = inet_refusal(text, text_length, &fault);
    if (status == INET_REFUSED) {
        printf("E%02u at line %u, column %u: %.*s\n", fault.code, fault.line, fault.column, (int)(fault.to - fault.from), (char *)text + fault.from);
        return status;
    }
    status = inet_export(text, text_length, room, sizeof room, &length);
    if (status != INET_OK || length > sizeof room)
        return status ? status : 70;
    printf("exported: %zu bytes of JSON\n", length);
    status = inet_run(text, text_length, 1000, 4096, room, sizeof room, &length);
    fwrite(room, 1, length < sizeof room ? length : sizeof room, stdout);
    if (fflush(stdout))
        return 6;
    return status == INET_LIMIT ? INET_OK : status;
}
