/* Cogunwa's operations from C. Build it with the package that `tools/install PREFIX` installs:
 *
 *   cc examples/link.c $(pkg-config --cflags --libs cogunwa) -o link
 *
 * or from the repository's folder, without installing anything:
 *
 *   cc -Iinclude examples/link.c $(bash tools/install --archive) -o target/link
 */
#include <stdio.h>
#include <string.h>

#include "cogunwa.h"

static void show(const char *what, uint64_t answer)
{
    if (cogunwa_number(answer) == 0)
        printf("%s: ok %u\n", what, (unsigned)cogunwa_value(answer));
    else
        printf("%s: refused %u %u %u %u, %s\n", what, (unsigned)cogunwa_number(answer), (unsigned)cogunwa_place(answer),
               (unsigned)cogunwa_name(answer), (unsigned)cogunwa_other(answer),
               cogunwa_refusal_text(cogunwa_number(answer)));
}

int main(void)
{
    /* The smallest pack: six words, one name, no records. */
    uint8_t pack[24] = {6, 0, 0, 1, 1, 0, 0, 2, 0, 0, 0, 3, 0, 0, 0, 5, 0, 0, 0, 22, 0, 0, 0, 28};
    uint8_t out[24] = {0};

    show("check", cogunwa_check(pack, sizeof pack));
    show("rewrite", cogunwa_rewrite(pack, sizeof pack, out, sizeof out));
    printf("the same bytes: %s\n", memcmp(pack, out, sizeof pack) == 0 ? "yes" : "no");

    show("all kinds", cogunwa_all_kinds(pack, sizeof pack, out, sizeof out));
    show("resolve", cogunwa_resolve(pack, sizeof pack, out, sizeof out));
    printf("the same bytes: %s\n", memcmp(pack, out, sizeof pack) == 0 ? "yes" : "no");
    show("resolve into five words", cogunwa_resolve(pack, sizeof pack, out, 20));

    show("kinds of the name 0", cogunwa_kinds_of(pack, sizeof pack, 0));
    show("kinds of the name 1", cogunwa_kinds_of(pack, sizeof pack, 1));

    show("lean of the name 0 on itself", cogunwa_lean(pack, sizeof pack, 0, 0));
    show("lean of the name 0 on the name 1", cogunwa_lean(pack, sizeof pack, 0, 1));

    /* The tables have one word for the one name. */
    show("direct", cogunwa_direct(pack, sizeof pack, out, sizeof out));
    printf("direct of the name 0: %u\n", (unsigned)cogunwa_word_at(out, 0));
    show("innermost", cogunwa_innermost(pack, sizeof pack, out, sizeof out));
    show("alias", cogunwa_alias(pack, sizeof pack, out, sizeof out));
    show("unresolved", cogunwa_unresolved(pack, sizeof pack, out, sizeof out));
    printf("unresolved of the name 0: %u\n", (unsigned)cogunwa_word_at(out, 0));
    show("direct into three bytes", cogunwa_direct(pack, sizeof pack, out, 3));

    pack[4] = 0; /* a pack has at least one name */
    show("check of a damaged pack", cogunwa_check(pack, sizeof pack));
    show("check of three bytes", cogunwa_check(pack, 3));
    show("check of nothing", cogunwa_check(NULL, 0));
    return 0;
}
