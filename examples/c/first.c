/* One write, and its reply: the shortest program with the library. `shopping.c` beside it checks each status.
 *
 *     first FILE
 */
#include "jdoc_file.h"

#include <stdio.h>
#include <string.h>

int main(int argc, char **argv)
{
    if (argc != 2)
        return 1;
    jdoc_file *file = NULL;
    const char *request = "[\"assign\",[\"title\"],\"Shopping\"]";
    const char *reply;
    size_t length;

    jdoc_file_open(&file, argv[1], 1);
    jdoc_file_call(file, request, strlen(request), &reply, &length);
    printf("%s", reply);
    jdoc_file_close(&file);
    return 0;
}
