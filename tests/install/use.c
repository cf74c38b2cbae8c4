/* A small user of an installed Netbuff, in C: contexts by structs, a transform by arguments. */
#include <netbuff_structs.h>

#include <stdio.h>

int main(void)
{
    const uint8_t data[1] = {1};
    const struct netbuff_bytes bytes = {data, sizeof data};
    const struct netbuff_context_map none = {0, NULL, 0};
    static struct netbuff_contexts contexts;
    size_t bits_read = 0, wide, high, order, x, y;
    bool turn;
    if (netbuff_version() != NETBUFF_VERSION)
        return 1;
    if (netbuff_read_contexts(&bytes, &none, &contexts, &bits_read).number != NETBUFF_ACCEPTED)
        return 1;
    if (netbuff_transform(NETBUFF_TRANSFORMS, &wide, &high, &order, &turn, &x, &y) !=
        NETBUFF_REFUSED_TRANSFORM)
        return 1;
    printf("%u clusters, %s\n", (unsigned)contexts.num_block_clusters,
           netbuff_refusal_text(NETBUFF_REFUSED_TRANSFORM));
    return 0;
}
