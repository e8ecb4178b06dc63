/* The version, and the messages for statuses, errors and faults. */
#include <jiponuwha.h>

#define IN_WORDS(number) #number
#define VERSION_OF(major, minor, patch) IN_WORDS(major) "." IN_WORDS(minor) "." IN_WORDS(patch)

/* What the version says of a library that was compiled without proof. tools/wheel and tools/debian look for these bytes. */
#ifdef JIP_NOT_PROVED
#define PROOF " (not proved)"
#else
#define PROOF ""
#endif

struct text {
    int32_t number;
    const char *words;
};

static const struct text statuses[] = {
    {JIP_DONE, "done"},
    {JIP_NOT_AN_IMAGE, "not an image that can be used"},
    {JIP_NO_MEMORY, "out of memory"},
    {JIP_WRONG_ARGUMENT, "wrong argument"},
    {JIP_HOST_FAILED, "the host cannot read or write the file"},
};

/* The messages that AmigaDOS prints. They include errors of packets that are not served yet. */
static const struct text errors[] = {
    {JIP_ERROR_NO_FREE_STORE, "not enough memory available"},
    {115, "bad number"},
    {JIP_ERROR_OBJECT_IN_USE, "object is in use"},
    {JIP_ERROR_OBJECT_EXISTS, "object already exists"},
    {JIP_ERROR_DIR_NOT_FOUND, "directory not found"},
    {JIP_ERROR_OBJECT_NOT_FOUND, "object not found"},
    {207, "object too large"},
    {JIP_ERROR_ACTION_NOT_KNOWN, "packet request type unknown"},
    {JIP_ERROR_INVALID_COMPONENT_NAME, "object name invalid"},
    {JIP_ERROR_INVALID_LOCK, "invalid object lock"},
    {JIP_ERROR_OBJECT_WRONG_TYPE, "object is not of required type"},
    {213, "disk not validated"},
    {JIP_ERROR_DISK_WRITE_PROTECTED, "disk is write-protected"},
    {215, "rename across devices attempted"},
    {JIP_ERROR_DIRECTORY_NOT_EMPTY, "directory not empty"},
    {217, "too many levels"},
    {JIP_ERROR_DEVICE_NOT_MOUNTED, "device (or volume) is not mounted"},
    {JIP_ERROR_SEEK_ERROR, "seek failure"},
    {JIP_ERROR_COMMENT_TOO_BIG, "comment is too long"},
    {JIP_ERROR_DISK_FULL, "disk is full"},
    {JIP_ERROR_DELETE_PROTECTED, "object is protected from deletion"},
    {JIP_ERROR_WRITE_PROTECTED, "file is write protected"},
    {JIP_ERROR_READ_PROTECTED, "file is read protected"},
    {JIP_ERROR_NOT_A_DOS_DISK, "not a valid DOS disk"},
    {226, "no disk in drive"},
    {JIP_ERROR_NO_MORE_ENTRIES, "no more entries in directory"},
    {233, "object is soft link"},
    {234, "object is linked"},
    {236, "function not implemented"},
};

static const struct text faults[] = {
    {JIP_FAULT_NONE, "no fault"},
    {JIP_FAULT_NOT_A_DOS_DISK, "the image does not begin with the letters DOS"},
    {JIP_FAULT_UNSUPPORTED_KIND, "the file system is neither OFS nor FFS without further marks"},
    {JIP_FAULT_BAD_SUM, "the checksum of the block is wrong"},
    {JIP_FAULT_BAD_TYPE, "the block is of another type than its place asks for"},
    {JIP_FAULT_BAD_OWN_KEY, "the block has another number as its own"},
    {JIP_FAULT_BAD_PARENT, "the block does not name the directory or file that it is in"},
    {JIP_FAULT_BAD_POINTER, "the block has the number of a block that is not there, or not the right one"},
    {JIP_FAULT_BLOCK_USED_TWICE, "the block is used twice"},
    {JIP_FAULT_WRONG_CHAIN, "the entry is in another hash chain than that of its name"},
    {JIP_FAULT_BAD_NAME, "the name is not a valid one"},
    {JIP_FAULT_DUPLICATE_NAME, "another entry of its directory has the same name"},
    {JIP_FAULT_BAD_COMMENT, "the comment is too long"},
    {JIP_FAULT_BAD_COUNT, "a count or a size does not agree with the blocks of the file"},
    {JIP_FAULT_BAD_SEQUENCE, "the data block has another place in its file"},
    {JIP_FAULT_LINK_ENTRY, "the entry is a link"},
    {JIP_FAULT_MARKED_FREE, "the block is in use, and the bitmap says that it is free"},
    {JIP_FAULT_NOT_WHOLE_BLOCKS, "the image is not whole blocks of 512 bytes"},
    {JIP_FAULT_TOO_FEW_BLOCKS, "the image has fewer than 16 blocks"},
    {JIP_FAULT_TOO_MANY_BLOCKS, "the image has more than 101,602 blocks"},
};

static const char *text_of(const struct text *rows, size_t count, int32_t number) {
    for (size_t i = 0; i < count; i++)
        if (rows[i].number == number) return rows[i].words;
    return NULL;
}

#define TEXT_OF(rows, number) text_of(rows, sizeof(rows) / sizeof(rows)[0], number)

const char *jip_version(void) { return VERSION_OF(JIP_VERSION_MAJOR, JIP_VERSION_MINOR, JIP_VERSION_PATCH) PROOF; }

const char *jip_status_text(int32_t status) {
    const char *text = TEXT_OF(statuses, status);
    return text == NULL ? "unknown status" : text;
}

const char *jip_error_text(int32_t error) {
    const char *text = TEXT_OF(errors, error);
    if (text == NULL) text = TEXT_OF(statuses, error);
    return text == NULL ? "unknown error" : text;
}

const char *jip_fault_text(int32_t kind) {
    const char *text = TEXT_OF(faults, kind);
    return text == NULL ? "unknown fault" : text;
}
