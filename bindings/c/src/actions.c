/* What an emulator needs beside packets: the data of a volume node, and the names of actions. */
#include <jiponuwha_amiga.h>

/* Returns the answer to a packet, or the status or error with which it fails. */
static int32_t ask(jip_handle *handle, const jip_packet *packet, jip_answer *answer) {
    const int32_t status = jip_serve(handle, packet, answer);
    return status != JIP_DONE ? status : answer->res2;
}

int32_t jip_volume_of(jip_handle *handle, jip_volume *volume) {
    const jip_date never = {0, 0, 0};
    jip_packet packet;
    jip_answer root, disk;
    int32_t result;
    if (volume == NULL) return JIP_WRONG_ARGUMENT;
    jip_examine_object(&packet, never, 0);
    result = ask(handle, &packet, &root);
    if (result != JIP_DONE) return result;
    jip_disk_info(&packet, never);
    result = ask(handle, &packet, &disk);
    if (result != JIP_DONE) return result;
    volume->disk_type = disk.disk.disk_type;
    volume->date = root.entry.date;
    volume->name_length = root.entry.name_length;
    memcpy(volume->name, root.entry.name, sizeof volume->name);
    return JIP_DONE;
}

/* The actions of dos/dosextens.h, by their numbers. */
static const struct {
    int32_t action;
    const char *name;
} actions[] = {
    {0, "NIL"},
    {2, "GET_BLOCK"},
    {4, "SET_MAP"},
    {5, "DIE"},
    {6, "EVENT"},
    {7, "CURRENT_VOLUME"},
    {8, "LOCATE_OBJECT"},
    {9, "RENAME_DISK"},
    {15, "FREE_LOCK"},
    {16, "DELETE_OBJECT"},
    {17, "RENAME_OBJECT"},
    {18, "MORE_CACHE"},
    {19, "COPY_DIR"},
    {20, "WAIT_CHAR"},
    {21, "SET_PROTECT"},
    {22, "CREATE_DIR"},
    {23, "EXAMINE_OBJECT"},
    {24, "EXAMINE_NEXT"},
    {25, "DISK_INFO"},
    {26, "INFO"},
    {27, "FLUSH"},
    {28, "SET_COMMENT"},
    {29, "PARENT"},
    {30, "TIMER"},
    {31, "INHIBIT"},
    {32, "DISK_TYPE"},
    {33, "DISK_CHANGE"},
    {34, "SET_DATE"},
    {40, "SAME_LOCK"},
    {82, "READ"},
    {87, "WRITE"},
    {994, "SCREEN_MODE"},
    {995, "CHANGE_SIGNAL"},
    {1001, "READ_RETURN"},
    {1002, "WRITE_RETURN"},
    {1004, "FINDUPDATE"},
    {1005, "FINDINPUT"},
    {1006, "FINDOUTPUT"},
    {1007, "END"},
    {1008, "SEEK"},
    {1020, "FORMAT"},
    {1021, "MAKE_LINK"},
    {1022, "SET_FILE_SIZE"},
    {1023, "WRITE_PROTECT"},
    {1024, "READ_LINK"},
    {1026, "FH_FROM_LOCK"},
    {1027, "IS_FILESYSTEM"},
    {1028, "CHANGE_MODE"},
    {1030, "COPY_DIR_FH"},
    {1031, "PARENT_FH"},
    {1033, "EXAMINE_ALL"},
    {1034, "EXAMINE_FH"},
    {1035, "EXAMINE_ALL_END"},
    {1036, "SET_OWNER"},
    {2008, "LOCK_RECORD"},
    {2009, "FREE_RECORD"},
    {4097, "ADD_NOTIFY"},
    {4098, "REMOVE_NOTIFY"},
    {4200, "SERIALIZE_DISK"},
};

const char *jip_action_name(int32_t action) {
    size_t k;
    for (k = 0; k < sizeof actions / sizeof actions[0]; k++)
        if (actions[k].action == action) return actions[k].name;
    return "unknown action";
}
