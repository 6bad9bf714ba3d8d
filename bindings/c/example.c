/* Reads settings, looks up a port, adds a member, and prints all. */
#include "sj.h"
#include <stdio.h>
#include <string.h>

#define TEXT(s) (const uint8_t *)(s), strlen(s)

int main(void) {
    char input[] = "{\"name\":\"kiosk\",\"ports\":[80,443]}";
    sj_doc settings = {0}, value = {0}, old = {0};
    sj_text print = {0};
    sj_value port;
    const uint8_t *at;
    size_t len;

    sj_status status = sj_read(&settings, (uint8_t *)input, strlen(input), false);
    if (status == SJ_OK && sj_find(&settings, TEXT("/ports/1"), &port) == SJ_OK && port.is_unsigned)
        printf("port %llu\n", (unsigned long long)port.number_unsigned);
    if (status == SJ_OK)
        status = sj_of_bool(&value, true);
    if (status == SJ_OK)
        status = sj_insert(&settings, TEXT(""), TEXT("debug"), &value, &old);
    if (status == SJ_OK)
        status = sj_print(&settings, &print, false);
    if (status == SJ_OK && sj_text_bytes(&print, &at, &len) == SJ_OK)
        printf("%.*s\n", (int)len, (const char *)at);

    sj_free(&settings);
    sj_free(&value);
    sj_free(&old);
    sj_text_free(&print);
    return status == SJ_OK ? 0 : 1;
}
