/* A switch inside a program. With two words the rows of an event file happen to a living switch, one by one, and what each gives is printed. With four
   words the flow table of a file is read, a frame in hexadecimal is traced, and the JSON is printed.

       tools/library /tmp/library
       cc -I/tmp/library examples/embed.c -L/tmp/library -Wl,-rpath,/tmp/library -lofswitch -o /tmp/embed
       /tmp/embed examples/first-path.events
       /tmp/embed examples/router.flows 1 0200000000020200000000010806
*/
#include <ofswitch.h>
#include <stdio.h>
#include <string.h>

static uint8_t file[1 << 24], frame[9216], text[1 << 20];

/* A longer text would need a larger buffer, and the call once more. */
static void print_text(const struct ofswitch_answer *answer) {
    fwrite(text, 1, answer->length < sizeof text ? answer->length : sizeof text, stdout);
}

static int live(size_t length) {
    struct ofswitch_switch *at = ofswitch_new(1);
    struct ofswitch_answer answer = {.status = at == NULL ? OFSWITCH_NO_MEMORY : OFSWITCH_DONE};
    for (size_t begin = 0, end; begin < length && answer.status == OFSWITCH_DONE; begin = end + 1) {
        for (end = begin; end < length && file[end] != '\n';)
            end++;
        ofswitch_row(at, file + begin, end - begin, text, sizeof text, &answer);
        print_text(&answer);
    }
    ofswitch_free(at);
    return answer.status;
}

static int trace(size_t length, uint32_t port, const char *hex) {
    struct ofswitch_answer answer = {0};
    size_t size = 0, digits = strlen(hex);
    for (unsigned byte; size < sizeof frame && 2 * size + 1 < digits && sscanf(hex + 2 * size, "%2x", &byte) == 1; size++)
        frame[size] = (uint8_t)byte;
    ofswitch_trace(file, length, port, frame, size, false, text, sizeof text, &answer);
    print_text(&answer);
    if (answer.line != 0)
        fprintf(stderr, "line %llu is at fault\n", (unsigned long long)answer.line);
    return answer.status;
}

int main(int count, char **words) {
    FILE *from = count == 2 || count == 4 ? fopen(words[1], "rb") : NULL;
    if (from == NULL) {
        fprintf(stderr, "usage: %s EVENTS\n       %s FILE PORT FRAME\n", words[0], words[0]);
        return 1;
    }
    size_t length = fread(file, 1, sizeof file, from);
    fclose(from);
    return count == 2 ? live(length) : trace(length, (uint32_t)strtoul(words[2], NULL, 0), words[3]);
}
