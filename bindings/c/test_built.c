/* Tests what tsc_built tells, by what `scripts/test library` hands in: VERSION and KIT as texts, NUMBER as
 * TSC_VERSION has it, and PROVED as a bool. At the end it says how many tests passed and failed. */
#include <stdio.h>
#include <string.h>
#include <tscache.h>

static int passed, failed;

static void expect(const char *what, bool holds)
{
    passed += holds;
    failed += !holds;
    if (!holds)
        printf("FAILED: %s\n", what);
}

/* Whether a text is a commit's hash, with a mark behind it where files differ, or `unknown`. */
static bool is_commit(const char *text)
{
    size_t digits = strspn(text, "0123456789abcdef");
    if (digits != 40)
        return strcmp(text, "unknown") == 0;
    return text[digits] == '\0' || strcmp(text + digits, "-dirty") == 0;
}

int main(void)
{
    const tsc_build *built = tsc_built();
    expect("the version", strcmp(built->version, VERSION) == 0);
    expect("the version as a number", tsc_version() == NUMBER && TSC_VERSION == NUMBER);
    expect("the commit", is_commit(built->commit));
    expect("the kit", strcmp(built->kit, KIT) == 0);
    expect("whether it was proved", built->proved == PROVED);
    expect("each call tells the same", tsc_built() == built);
    printf("%d passed, %d failed\n", passed, failed);
    return failed != 0;
}
