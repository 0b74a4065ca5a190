/*
 * Replays inputs without a fuzzer. Where the two programs differ it ends by abort().
 *
 *   replay parts                 what is held, as CALL:PART, each of which ESKELVOR_PLANT may name
 *   replay input CALL FILE..     each file as an input of the call's target
 *   replay pack CALL PACK        each input of a pack
 *   replay into PACK FILE..      writes a pack of the inputs in the files
 *   replay out PACK FOLDER       writes the inputs of a pack as files FOLDER/0, FOLDER/1 and so on
 */
#include "packs.h"

#include <stdlib.h>
#include <string.h>

static uint8_t bytes[MOST_BYTES];

static void list(const target *targets)
{
    for (; targets->call != NULL; targets++) {
        char parts[64];
        strcpy(parts, targets->parts);
        for (char *part = strtok(parts, " "); part != NULL; part = strtok(NULL, " "))
            printf("%s:%s\n", targets->call, part);
    }
}

static const target *wanted(const char *call)
{
    const target *which = target_of(call);
    if (which == NULL) {
        fprintf(stderr, "replay: no target %s\n", call);
        exit(2);
    }
    return which;
}

static void run_files(const target *which, int count, char **files)
{
    for (int i = 0; i < count; i++)
        run_target(which, bytes, read_input(files[i], bytes));
    printf("%s: %d inputs, no difference\n", which->call, count);
}

static void run_pack(const target *which, const char *name)
{
    FILE *pack = opened(name, "rb");
    int count = 0;
    for (long length; (length = next_input(pack, name, bytes)) >= 0; count++)
        run_target(which, bytes, (size_t)length);
    fclose(pack);
    printf("%s: %d inputs, no difference\n", which->call, count);
}

static void write_pack(const char *name, int count, char **files)
{
    FILE *pack = opened(name, "wb");
    for (int i = 0; i < count; i++)
        add_input(pack, bytes, read_input(files[i], bytes));
    fclose(pack);
}

static void write_files(const char *name, const char *folder)
{
    FILE *pack = opened(name, "rb");
    char path[512];
    int count = 0;
    for (long length; (length = next_input(pack, name, bytes)) >= 0; count++) {
        snprintf(path, sizeof path, "%s/%d", folder, count);
        FILE *file = opened(path, "wb");
        fwrite(bytes, 1, (size_t)length, file);
        fclose(file);
    }
    fclose(pack);
}

int main(int argc, char **argv)
{
    const char *verb = argc > 1 ? argv[1] : "";
    if (strcmp(verb, "parts") == 0 && argc == 2) {
        list(downlink_targets);
        list(uplink_targets);
        list(board_targets);
        list(journal_targets);
    } else if (strcmp(verb, "input") == 0 && argc > 3) {
        run_files(wanted(argv[2]), argc - 3, argv + 3);
    } else if (strcmp(verb, "pack") == 0 && argc == 4) {
        run_pack(wanted(argv[2]), argv[3]);
    } else if (strcmp(verb, "into") == 0 && argc > 3) {
        write_pack(argv[2], argc - 3, argv + 3);
    } else if (strcmp(verb, "out") == 0 && argc == 4) {
        write_files(argv[2], argv[3]);
    } else {
        fprintf(stderr, "usage: replay parts | input CALL FILE.. | pack CALL PACK | into PACK FILE.. |"
                        " out PACK FOLDER\n");
        return 2;
    }
    return 0;
}
