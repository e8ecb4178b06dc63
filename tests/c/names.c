/* Tests names, letters, protection bits, notes and dates, both ways. */
#include "asking.h"

#define TEXT(bytes) bytes, sizeof(bytes) - 1

/* A result: the status, and the bytes with the number that was told. */
struct told {
    int32_t status;
    size_t length;
    char bytes[1024];
};

static const struct told nothing = {-1, 9999, "unchanged"};

static int is(const struct told *told, const char *bytes, size_t length) {
    return told->status == JIP_DONE && told->length == length && memcmp(told->bytes, bytes, length) == 0;
}

static int is_refused(const struct told *told) {
    return told->status == JIP_WRONG_ARGUMENT && told->length == nothing.length && strcmp(told->bytes, nothing.bytes) == 0;
}

/* Defines a function that calls one of the four conversions of texts. */
#define CONVERSION(name, call)                                                         \
    static struct told name(const char *from, size_t length) {                         \
        struct told told = nothing;                                                    \
        told.status = call(from, length, told.bytes, sizeof told.bytes, &told.length); \
        return told;                                                                   \
    }

CONVERSION(host_of, jip_host_of_name)
CONVERSION(name_of, jip_name_of_host)
CONVERSION(letters_of, jip_letters_of_bytes)
CONVERSION(bytes_of, jip_bytes_of_letters)

static struct told line_of(uint32_t bits, jip_date date, const char *text, size_t length) {
    struct told told = nothing;
    told.status = jip_uaem_line(bits, date, text, length, told.bytes, sizeof told.bytes, &told.length);
    return told;
}

struct pair {
    const char *from, *to;
};

static void names(void) {
    static const struct pair hosts[] = {
        {"a", "a"},           {".", "%2E"},           {"..", "%2E."},        {"...", "..."},
        {".a", ".a"},         {"a%b", "a%25b"},       {"a\\b", "a%5Cb"},     {"\xE9t\xE9", "\xC3\xA9t\xC3\xA9"},
        {"\x7F", "%7F"},      {"\x80\x9F", "%80%9F"}, {"\xA0", "\xC2\xA0"},  {"a b", "a b"},
        {"\x01\x1F", "%01%1F"}, {"\xFF", "\xC3\xBF"},
    };
    for (size_t i = 0; i < sizeof hosts / sizeof hosts[0]; i++) {
        struct told told = host_of(hosts[i].from, strlen(hosts[i].from));
        EXPECT(hosts[i].to, is(&told, hosts[i].to, strlen(hosts[i].to)));
        told = name_of(hosts[i].to, strlen(hosts[i].to));
        EXPECT(hosts[i].to, is(&told, hosts[i].from, strlen(hosts[i].from)));
    }
    struct told told = host_of(TEXT("a\0b"));
    EXPECT("a zero", is(&told, TEXT("a%00b")));
    static const char *const no_names[] = {"", "a/b", "a:", "abcdefghijklmnopqrstuvwxyz12345"};
    for (size_t i = 0; i < sizeof no_names / sizeof no_names[0]; i++) {
        told = host_of(no_names[i], strlen(no_names[i]));
        EXPECT("no name", is_refused(&told) && jip_is_name(no_names[i], strlen(no_names[i])) == 0);
    }
    EXPECT("a name", jip_is_name(TEXT("abcdefghijklmnopqrstuvwxyz1234")) == 1 && jip_is_name(TEXT("a\0")) == 1);
    EXPECT("no bytes", jip_is_name(NULL, 0) == 0 && jip_is_name(NULL, 1) == 0);
}

static void hosts(void) {
    struct told told = name_of(TEXT("%c3%A9"));
    EXPECT("digits of both cases", is(&told, TEXT("\xC3\xA9")));
    told = name_of(TEXT("%2g%%4"));
    EXPECT("no escapes", is(&told, TEXT("%2g%%4")));
    told = name_of(TEXT("a%2Fb"));
    EXPECT("bytes that are no name", is(&told, TEXT("a/b")) && jip_is_name(told.bytes, told.length) == 0);
    told = name_of(TEXT("\xC4\x80"));
    EXPECT("a letter past U+00FF", is_refused(&told));
    told = name_of(TEXT("\xE9"));
    EXPECT("not UTF-8", is_refused(&told));
    told = name_of("", 0);
    EXPECT("nothing", is(&told, "", 0));
}

/* Each byte of a name comes back, and each byte as a letter. */
static void each_byte(void) {
    char all[256];
    for (int byte = 0; byte < 256; byte++) {
        const char name[2] = {(char)byte, 'x'};
        all[byte] = (char)byte;
        if (byte == '/' || byte == ':') continue;
        struct told host = host_of(name, 2), back = name_of(host.bytes, host.length);
        EXPECT("a byte", host.status == JIP_DONE && memchr(host.bytes, '/', host.length) == NULL && is(&back, name, 2));
    }
    struct told letters = letters_of(all, sizeof all), back = bytes_of(letters.bytes, letters.length);
    EXPECT("letters", letters.status == JIP_DONE && letters.length == 128 + 2 * 128);
    EXPECT("their bytes", is(&back, all, sizeof all));
    back = bytes_of(TEXT("\xC4\x80"));
    EXPECT("a letter past U+00FF", is_refused(&back));
    back = bytes_of(TEXT("\xC3"));
    EXPECT("a letter that is cut off", is_refused(&back));
}

static void room(void) {
    char to[6] = "-----";
    size_t length = 0;
    EXPECT("too little", jip_host_of_name(TEXT("a%b"), to, 4, &length) == JIP_DONE && length == 5 && strcmp(to, "-----") == 0);
    EXPECT("enough", jip_host_of_name(TEXT("a%b"), to, 5, &length) == JIP_DONE && length == 5 && strcmp(to, "a%25b") == 0);
    EXPECT("the rest stays", jip_host_of_name(TEXT("xy"), to, 5, &length) == JIP_DONE && length == 2 && strcmp(to, "xy25b") == 0);
    EXPECT("none", jip_letters_of_bytes(TEXT("abc"), NULL, 0, &length) == JIP_DONE && length == 3);
    EXPECT("null", jip_letters_of_bytes(NULL, 0, NULL, 0, &length) == JIP_DONE && length == 0);
    EXPECT("null", jip_letters_of_bytes(NULL, 1, to, 5, &length) == JIP_WRONG_ARGUMENT);
    EXPECT("null", jip_letters_of_bytes("a", 1, NULL, 5, &length) == JIP_WRONG_ARGUMENT);
    EXPECT("null", jip_letters_of_bytes("a", 1, to, 5, NULL) == JIP_WRONG_ARGUMENT);
    EXPECT("an overlap", jip_letters_of_bytes(to, 2, to + 1, 4, &length) == JIP_WRONG_ARGUMENT);
    EXPECT("an overlap", jip_name_of_host((const char *)&length, 2, to, 5, &length) == JIP_WRONG_ARGUMENT);
}

static void protections(void) {
    static const struct {
        uint32_t bits;
        const char *letters;
    } rows[] = {{0, "----rwed"}, {255, "hspa----"}, {16, "---arwed"}, {1, "----rwe-"}, {8, "-----wed"}, {0x46, "-s--r--d"}};
    char letters[9] = "--------";
    size_t length = 0;
    uint32_t bits = 77;
    for (size_t i = 0; i < sizeof rows / sizeof rows[0]; i++) {
        EXPECT(rows[i].letters, jip_letters_of_protection(0xABCDEF00 | rows[i].bits, letters, 8, &length) == JIP_DONE && length == 8);
        EXPECT(rows[i].letters, strcmp(letters, rows[i].letters) == 0);
        EXPECT(rows[i].letters, jip_protection_of_letters(rows[i].letters, 8, &bits) == JIP_DONE && bits == rows[i].bits);
    }
    EXPECT("a set", jip_protection_of_letters(TEXT("ewr"), &bits) == JIP_DONE && bits == 1);
    EXPECT("all", jip_protection_of_letters(TEXT("dewraphs"), &bits) == JIP_DONE && bits == 240);
    bits = 77;
    EXPECT("twice", jip_protection_of_letters(TEXT("rr"), &bits) == JIP_WRONG_ARGUMENT && bits == 77);
    EXPECT("another letter", jip_protection_of_letters(TEXT("rx"), &bits) == JIP_WRONG_ARGUMENT && bits == 77);
    EXPECT("a wrong place", jip_protection_of_letters(TEXT("rwed----"), &bits) == JIP_WRONG_ARGUMENT && bits == 77);
    EXPECT("null", jip_protection_of_letters(NULL, 1, &bits) == JIP_WRONG_ARGUMENT);
    EXPECT("null", jip_protection_of_letters("r", 1, NULL) == JIP_WRONG_ARGUMENT);
    EXPECT("too little room", jip_letters_of_protection(0, letters, 7, &length) == JIP_DONE && length == 8);
    EXPECT("null", jip_letters_of_protection(0, letters, 8, NULL) == JIP_WRONG_ARGUMENT);
}

static void notes(void) {
    const jip_date noon = {4383, 720, 0}, last = {4383, 1439, 2999};
    struct told told = line_of(0, noon, TEXT("read me"));
    EXPECT("a line", is(&told, TEXT("----rwed 1990-01-01 12:00:00.00 read me\n")));
    told = line_of(0xF, last, TEXT(""));
    EXPECT("no comment", is(&told, TEXT("-------- 1990-01-01 23:59:59.98 \n")));
    told = line_of(0x12, noon, TEXT("\xE9%\n"));
    EXPECT("escapes", is(&told, TEXT("---arw-d 1990-01-01 12:00:00.00 \xC3\xA9%25%0A\n")));
    char many[81];
    memset(many, 'c', 80);
    told = line_of(0, noon, many, 79);
    EXPECT("a long comment", told.status == JIP_DONE && told.length == 32 + 79 + 1);
    told = line_of(0, noon, many, 80);
    EXPECT("a comment that is too long", is_refused(&told));
}

static void read_notes(void) {
    jip_note note;
    EXPECT("a file", jip_read_uaem(TEXT("---arw-d 1990-01-01 12:00:00.02 \xC3\xA9%25%0A\r\n"), &note) == JIP_DONE);
    EXPECT("its bits", note.bits == 0x12 && note.date.days == 4383 && note.date.minutes == 720 && note.date.ticks == 1);
    EXPECT("its comment", note.comment_length == 3 && strcmp((char *)note.comment, "\xE9%\n") == 0);
    EXPECT("no comment", jip_read_uaem(TEXT("-------- raw 1 2000 3"), &note) == JIP_DONE && note.comment_length == 0);
    EXPECT("its date", note.bits == 15 && note.date.days == 1 && note.date.minutes == 2000 && note.date.ticks == 3);
    static const char *const faults[] = {
        "",
        "---- 1990-01-01 12:00:00.00 x\n",
        "----rwed 1990-02-30 12:00:00.00 x\n",
        "----rwed 1990-01-01 12:00:00.01 x\n",
        "----rwed 1990-01-01 12:00:00.00 x\ny\n",
        "----rwed 1990-01-01 12:00:00.00 \xC4\x80\n",
        "----rwed 1990-01-01 12:00:00.00 \xE9\n",
    };
    for (size_t i = 0; i < sizeof faults / sizeof faults[0]; i++)
        EXPECT("a fault", jip_read_uaem(faults[i], strlen(faults[i]), &note) == JIP_WRONG_ARGUMENT && note.bits == 15);
    EXPECT("null", jip_read_uaem(NULL, 1, &note) == JIP_WRONG_ARGUMENT && jip_read_uaem("x", 1, NULL) == JIP_WRONG_ARGUMENT);
}

/* Dates with their texts, both ways, and texts of no date. */
static void dates(void) {
    static const struct {
        jip_date date;
        const char *text;
    } rows[] = {
        {{0, 0, 0}, "1978-01-01 00:00:00.00"},
        {{8095, 754, 2003}, "2000-03-01 12:34:40.06"},
        {{2929974, 1439, 2999}, "9999-12-31 23:59:59.98"},
        {{2929975, 0, 0}, "raw 2929975 0 0"},
        {{1, 1440, 0}, "raw 1 1440 0"},
        {{UINT32_MAX, UINT32_MAX, UINT32_MAX}, "raw 4294967295 4294967295 4294967295"},
    };
    static const char *const none[] = {
        "", "1978-01-01", "1978-01-01 00:00:00.01", "2001-02-29 00:00:00.00", "1977-12-31 00:00:00.00",
        "1978-01-01 24:00:00.00", "1978-01-01 00:00:00.00 ", "1978-01-01 00:00:00.00 x", "raw 0 0 0", "raw 1 1440 00",
        "raw 4294967296 0 0", "raw 1 1440 0 x", "10000-01-01 00:00:00.00",
    };
    jip_date date;
    for (size_t i = 0; i < sizeof rows / sizeof rows[0]; i++) {
        char text[40];
        size_t length = 0;
        EXPECT(rows[i].text, jip_text_of_date(rows[i].date, text, sizeof text, &length) == JIP_DONE);
        EXPECT(rows[i].text, length == strlen(rows[i].text) && memcmp(text, rows[i].text, length) == 0);
        memset(&date, 0x77, sizeof date);
        EXPECT(rows[i].text, jip_date_of_text(rows[i].text, strlen(rows[i].text), &date) == JIP_DONE);
        EXPECT(rows[i].text, memcmp(&date, &rows[i].date, sizeof date) == 0);
    }
    date.days = 77;
    for (size_t i = 0; i < sizeof none / sizeof none[0]; i++)
        EXPECT(none[i], jip_date_of_text(none[i], strlen(none[i]), &date) == JIP_WRONG_ARGUMENT && date.days == 77);
    EXPECT("null", jip_date_of_text(NULL, 0, &date) == JIP_WRONG_ARGUMENT && jip_date_of_text(NULL, 1, &date) == JIP_WRONG_ARGUMENT);
    EXPECT("null", jip_date_of_text("", 0, NULL) == JIP_WRONG_ARGUMENT);
    EXPECT("null", jip_text_of_date(now, NULL, 1, NULL) == JIP_WRONG_ARGUMENT);
}

/* Times of the host. The seconds are those that `date -u +%s` gives for the texts of the dates. */
static void times(void) {
    static const struct {
        jip_date date;
        int64_t seconds;
        uint32_t nanoseconds;
    } rows[] = {
        {{0, 0, 0}, 252460800, 0},
        {{4383, 720, 0}, 631195200, 0},
        {{8095, 754, 2003}, 951914080, 60000000},
        {{2929974, 1439, 2999}, 253402300799, 980000000},
    };
    jip_date date;
    int64_t seconds;
    uint32_t nanoseconds;
    for (size_t i = 0; i < sizeof rows / sizeof rows[0]; i++) {
        EXPECT("a time", jip_time_of_date(rows[i].date, &seconds, &nanoseconds) == JIP_DONE);
        EXPECT("a time", seconds == rows[i].seconds && nanoseconds == rows[i].nanoseconds);
        for (uint32_t more = 0; more < 20000000; more += 19999999) {
            EXPECT("its date", jip_date_of_time(seconds, nanoseconds + more, &date) == JIP_DONE);
            EXPECT("its date", memcmp(&date, &rows[i].date, sizeof date) == 0);
        }
    }
    EXPECT("minutes beyond a day", jip_time_of_date((jip_date){0, 1441, 3051}, &seconds, &nanoseconds) == JIP_DONE);
    EXPECT("minutes beyond a day", seconds == 252460800 + 86400 + 60 + 61 && nanoseconds == 20000000);
    static const int64_t early[] = {INT64_MIN, -1, 0, 252460799}, late[] = {252460800 + 86400 * (int64_t)UINT32_MAX + 86399, INT64_MAX};
    for (size_t i = 0; i < sizeof early / sizeof early[0]; i++)
        EXPECT("early", jip_date_of_time(early[i], 999999999, &date) == JIP_DONE && date.days == 0 && date.minutes == 0 && date.ticks == 0);
    for (size_t i = 0; i < sizeof late / sizeof late[0]; i++) {
        EXPECT("late", jip_date_of_time(late[i], 999999999, &date) == JIP_DONE);
        EXPECT("late", date.days == UINT32_MAX && date.minutes == 1439 && date.ticks == 2999);
    }
    date.days = 77;
    EXPECT("a second of nanoseconds", jip_date_of_time(0, 1000000000, &date) == JIP_WRONG_ARGUMENT && date.days == 77);
    EXPECT("null", jip_date_of_time(0, 0, NULL) == JIP_WRONG_ARGUMENT && jip_time_of_date(date, NULL, &nanoseconds) == JIP_WRONG_ARGUMENT);
    EXPECT("null", jip_time_of_date(date, &seconds, NULL) == JIP_WRONG_ARGUMENT);
}

int main(void) {
    names();
    hosts();
    each_byte();
    room();
    protections();
    notes();
    read_notes();
    dates();
    times();
    return summed_up();
}
