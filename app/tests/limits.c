/* Holds the numbers that benchdowel.h defines against what the archive does: at each limit nothing is refused for it, one step further it is. All
 * calls are made on a thread that has BD_STACK bytes of stack and no more. */
#include "benchdowel.h"

#include <pthread.h>
#include <stdio.h>
#include <stdlib.h>
#include <string.h>

static uint8_t scratch[BD_SCRATCH];
static uint32_t elements[BD_ELEMENTS_LIMIT * BD_ELEMENT_NUMBERS];
static uint32_t list[BD_ELEMENTS_LIMIT * BD_PROCEDURES * BD_FINDING_NUMBERS];

/* A document or a tables file that is being made. */
static char text[4 * BD_DOCUMENT_LIMIT];
static size_t length;

static void put(const char *part) {
    size_t size = strlen(part);
    memcpy(text + length, part, size);
    length += size;
}

static void repeat(const char *part, size_t count) {
    for (; count > 0; count--) put(part);
}

static int passed, failed;

static void expect(const char *what, bd_numbers answer, uint32_t refusal) {
    if (answer.refusal == refusal) {
        passed++;
    } else {
        failed++;
        printf("%s: refusal %u, not %u\n", what, (unsigned)answer.refusal, (unsigned)refusal);
    }
}

static const char no_rows[] = "0\n0\n0\n";

static bd_numbers check(const char *document, size_t document_length, const char *tables, size_t tables_length, size_t scratch_length,
                        size_t elements_length, size_t list_length) {
    return bd_check((const uint8_t *)document, document_length, (const uint8_t *)tables, tables_length, scratch, scratch_length, elements,
                    elements_length, list, list_length);
}

/* Checks the text as a document, or as tables, in the full rooms; then a new one is begun. */
static bd_numbers as_document(void) {
    size_t made = length;
    length = 0;
    return check(text, made, no_rows, strlen(no_rows), sizeof scratch, sizeof elements / 4, sizeof list / 4);
}

static bd_numbers as_tables(void) {
    size_t made = length;
    length = 0;
    return check("<a/>", 4, text, made, sizeof scratch, sizeof elements / 4, sizeof list / 4);
}

static bd_numbers in_rooms(size_t scratch_length, size_t elements_length, size_t list_length) {
    return check("<a><b/></a>", 11, no_rows, strlen(no_rows), scratch_length, elements_length, list_length);
}

static bd_numbers document_of(size_t bytes) {
    put("<a/>");
    repeat(" ", bytes - 4);
    return as_document();
}

/* Rows of 1,024 bytes and, last, what is left. */
static bd_numbers tables_of(size_t bytes) {
    size_t rows = bytes / 1024;
    length += (size_t)sprintf(text, "0\n%zu\n", rows);
    for (size_t row = 0; row < rows; row++) {
        size_t left = bytes - 2 - length, size = row + 1 < rows ? 1024 : left;
        put("1\t");
        repeat("n", size - 3);
        put("\n");
    }
    put("0\n");
    return as_tables();
}

static bd_numbers elements_of(size_t count) {
    put("<a>");
    repeat("<b/>", count - 1);
    put("</a>");
    return as_document();
}

static bd_numbers depth_of(size_t depth) {
    repeat("<a>", depth);
    repeat("</a>", depth);
    return as_document();
}

static bd_numbers attributes_of(size_t count) {
    put("<a");
    for (size_t number = 0; number < count; number++) length += (size_t)sprintf(text + length, " a%zu=''", number);
    put("/>");
    return as_document();
}

static bd_numbers name_of(size_t bytes) {
    put("<");
    repeat("a", bytes);
    put("/>");
    return as_document();
}

static bd_numbers value_of(size_t bytes) {
    put("<a b='");
    repeat("v", bytes);
    put("'/>");
    return as_document();
}

static bd_numbers content_of(size_t bytes) {
    put("<a>");
    repeat("v", bytes);
    put("</a>");
    return as_document();
}

static bd_numbers rows_of(size_t count) {
    length += (size_t)sprintf(text, "0\n%zu\n", count);
    repeat("1\t2\n", count);
    put("0\n");
    return as_tables();
}

static bd_numbers row_of(size_t bytes) {
    put("0\n1\n1\t");
    repeat("n", bytes - 2);
    put("\n0\n");
    return as_tables();
}

static bd_numbers merge_of(uint32_t procedure) {
    bd_finding finding = {procedure, 0, 4};
    uint32_t out[2 * BD_FINDING_NUMBERS];
    return bd_merge(&finding, 1, &finding, 1, out, 2 * BD_FINDING_NUMBERS);
}

/* Many operation codes, which are looked for in a long code list: then rows are sorted, which takes the most stack. */
static char many_rows[BD_TABLES_LIMIT];

static bd_numbers codes_of(size_t count) {
    size_t rows = 20000, made = (size_t)sprintf(many_rows, "%zu\n", rows);
    for (size_t row = 0; row < rows; row++) made += (size_t)sprintf(many_rows + made, "C%zu\tsystem\tname\n", rows - row);
    made += (size_t)sprintf(many_rows + made, "0\n0\n");
    put("<document><code code='51725-0' codeSystem='2.16.840.1.113883.6.1'/><author><assignedEntity><representedOrganization>");
    put("<assignedEntity><assignedOrganization><assignedEntity><assignedOrganization/>");
    repeat("<performance><actDefinition><code code='C7' codeSystem='system' displayName='name'/></actDefinition></performance>", count);
    put("</assignedEntity></assignedOrganization></assignedEntity></representedOrganization></assignedEntity></author></document>");
    size_t document_length = length;
    length = 0;
    return check(text, document_length, many_rows, made, sizeof scratch, sizeof elements / 4, sizeof list / 4);
}

static void *expect_all(void *nothing) {
    expect("document at its limit", document_of(BD_DOCUMENT_LIMIT), 0);
    expect("document over its limit", document_of(BD_DOCUMENT_LIMIT + 1), 1);
    expect("tables at their limit", tables_of(BD_TABLES_LIMIT), 0);
    expect("tables over their limit", tables_of(BD_TABLES_LIMIT + 1), 2);
    expect("elements at the limit", elements_of(BD_ELEMENTS_LIMIT), 0);
    expect("elements over the limit", elements_of(BD_ELEMENTS_LIMIT + 1), 8);
    expect("depth at the limit", depth_of(BD_DEPTH_LIMIT), 0);
    expect("depth over the limit", depth_of(BD_DEPTH_LIMIT + 1), 8);
    expect("attributes at the limit", attributes_of(BD_ATTRIBUTES_LIMIT), 0);
    expect("attributes over the limit", attributes_of(BD_ATTRIBUTES_LIMIT + 1), 8);
    expect("name at the limit", name_of(BD_NAME_LIMIT), 0);
    expect("name over the limit", name_of(BD_NAME_LIMIT + 1), 8);
    expect("value at the limit", value_of(BD_VALUE_LIMIT), 0);
    expect("value over the limit", value_of(BD_VALUE_LIMIT + 1), 8);
    expect("content at the limit", content_of(BD_VALUE_LIMIT), 0);
    expect("content over the limit", content_of(BD_VALUE_LIMIT + 1), 8);
    expect("rows at the limit", rows_of(BD_ROWS_LIMIT), 0);
    expect("rows over the limit", rows_of(BD_ROWS_LIMIT + 1), 4);
    expect("row at its limit", row_of(BD_ROW_LIMIT), 0);
    expect("row over its limit", row_of(BD_ROW_LIMIT + 1), 4);

    /* `<a><b/></a>` has two elements and seven findings. */
    expect("just the rooms", in_rooms(BD_SCRATCH, 2 * BD_ELEMENT_NUMBERS, 7 * BD_FINDING_NUMBERS), 0);
    expect("scratch one byte short", in_rooms(BD_SCRATCH - 1, 2 * BD_ELEMENT_NUMBERS, 7 * BD_FINDING_NUMBERS), 3);
    expect("elements one number short", in_rooms(BD_SCRATCH, 2 * BD_ELEMENT_NUMBERS - 1, 7 * BD_FINDING_NUMBERS), 9);
    expect("findings one number short", in_rooms(BD_SCRATCH, 2 * BD_ELEMENT_NUMBERS, 7 * BD_FINDING_NUMBERS - 1), 11);
    expect("the last procedure", merge_of(BD_PROCEDURES), 0);
    expect("one procedure more", merge_of(BD_PROCEDURES + 1), 12);
    expect("many codes under many rows", codes_of(5000), 0);
    expect("many attributes", attributes_of(100000), 8);
    if (bd_version() == BD_VERSION) {
        passed++;
    } else {
        failed++;
        printf("the archive has interface %u, not %u\n", (unsigned)bd_version(), (unsigned)BD_VERSION);
    }
    return nothing;
}

int main(void) {
    pthread_attr_t attributes;
    pthread_t thread;
    if (pthread_attr_init(&attributes) || pthread_attr_setstacksize(&attributes, BD_STACK) ||
        pthread_create(&thread, &attributes, expect_all, NULL) || pthread_join(thread, NULL)) {
        printf("no thread with %d bytes of stack\n", BD_STACK);
        return 1;
    }
    printf("%d passed, %d failed\n", passed, failed);
    return failed > 0;
}
