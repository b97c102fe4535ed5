/* A tree image changed in place: no list and no second copy of it. */
#include <stdio.h>
#include <ghatumri.h>

static uint32_t words[GH_WORDS_FOR(4)]; /* room for any 4 routes */
static uint16_t hops[4];
#define IMAGE words, GH_ELEMENTS(words), hops, GH_ELEMENTS(hops)

/* Prints what a call on the image answers. */
static void told(const char *what, uint64_t answer)
{
    unsigned number = GH_NUMBER(answer);
    if (number == GH_ACCEPTED)
        printf("%s: %u nodes, %u hops\n", what, (unsigned)GH_NODES(answer), GH_HOPS(answer));
    else
        printf("%s: refused %u, %s\n", what, number, gh_meaning(number));
}

int main(void)
{
    static const uint8_t input[] = { 10, 1, 2, 0, 24, 0, 0, 44 }; /* 10.1.2.0/24 to hop 44 */
    told("build", gh_build(input, sizeof input, IMAGE));
    told("10.1.2.128/25", gh_tree_announce(IMAGE, 0x0A010280, 25, 57));
    told("10.1.3.0/24", gh_tree_announce(IMAGE, 0x0A010300, 24, 31));
    printf("hop %u\n", GH_HOP(gh_tree_lookup(IMAGE, 0x0A0102C8))); /* 10.1.2.200 */
    told("10.1.3.1/24", gh_tree_withdraw(IMAGE, 0x0A010301, 24));
    told("10.1.3.0/24", gh_tree_withdraw(IMAGE, 0x0A010300, 24));
    words[1] = 7; /* the root's child base is lost */
    told("test", gh_tree_test(IMAGE));
    return 0;
}
