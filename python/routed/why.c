/* Asks the cspf of FRR about rows on standard input. why.py compiles this with files of FRR's source. */
#include <zebra.h>
#include "if.h"
#include "linklist.h"
#include "memory.h"
#include "prefix.h"
#include "link_state.h"
#include "cspf.h"

static struct ls_ted network;
static const char *const words[] = {"FAILED", "NO_SOURCE", "NO_DESTINATION", "SAME_SRC_DST", "IN_PROGRESS", "SUCCESS"};

/* What the four files call elsewhere: a find in the tree of routers, and three functions that no run here reaches. */
struct ls_vertex *ls_find_vertex_by_key(struct ls_ted *ted, const uint64_t key)
{
    struct ls_vertex wanted = {.key = key};
    return vertices_find(&ted->vertices, &wanted);
}

void memory_oom(size_t size, const char *name) { abort(); }
int prefix_cmp(union prefixconstptr a, union prefixconstptr b) { abort(); }
int prefix_same(union prefixconstptr a, union prefixconstptr b) { abort(); }

static uint32_t number(const char *text) { return ntohl(inet_addr(text)); }
static int by_key(void *a, void *b) { return edge_cmp(a, b); }

static struct ls_vertex *router(const char *text)
{
    struct ls_vertex *found = ls_find_vertex_by_key(&network, number(text));
    if (found)
        return found;
    found = calloc(1, sizeof(*found));
    found->key = number(text);
    found->outgoing_edges = list_new();
    found->outgoing_edges->cmp = by_key;
    vertices_add(&network.vertices, found);
    return found;
}

/* put, router, local, neighbor, remote, metric, group, u0 to u7 */
static void put(char **field)
{
    struct ls_edge *edge = calloc(1, sizeof(*edge));
    struct ls_attributes *has = calloc(1, sizeof(*has));
    struct ls_standard *te = &has->standard;
    edge->key = number(field[2]);
    edge->attributes = has;
    edge->source = router(field[1]);
    edge->destination = router(field[3]);
    has->flags = LS_ATTR_TE_METRIC | LS_ATTR_LOCAL_ADDR | LS_ATTR_NEIGH_ADDR | LS_ATTR_MAX_BW | LS_ATTR_MAX_RSV_BW
                 | LS_ATTR_UNRSV_BW;
    te->local.s_addr = inet_addr(field[2]);
    te->remote.s_addr = inet_addr(field[4]);
    te->te_metric = strtoul(field[5], NULL, 10);
    for (int at = 0; at < 8; at++) {
        if (sscanf(field[7 + at], "%g", &te->unrsv_bw[at]) != 1)
            abort();
        te->max_bw = te->max_rsv_bw = MAX(te->max_bw, te->unrsv_bw[at]);
    }
    listnode_add_sort_nodup(edge->source->outgoing_edges, edge);
}

/* ask, id, from, to, setup, bandwidth; the bound of the cost is the largest that FRR's command takes */
static void ask(char **field)
{
    struct constraints csts = {.cost = 16777215, .ctype = CSPF_TE_METRIC, .family = AF_INET, .type = RSVP_TE};
    struct listnode *node;
    struct ls_edge *edge;
    csts.cos = atoi(field[4]);
    if (sscanf(field[5], "%g", &csts.bw) != 1)
        abort();
    struct cspf *algo = cspf_init(NULL, router(field[2]), router(field[3]), &csts);
    struct c_path *path = compute_p2p_path(algo, &network);
    cspf_del(algo);
    printf("ask %s %s", field[1], words[path->status]);
    if (path->status == SUCCESS) {
        printf(" cost=%u to", path->weight);
        for (ALL_LIST_ELEMENTS_RO(path->edges, node, edge))
            printf(" %s", inet_ntoa(edge->attributes->standard.remote));
    }
    printf("\n");
    fflush(stdout);
}

int main(void)
{
    char line[1000], *field[16];
    vertices_init(&network.vertices);
    while (fgets(line, sizeof(line), stdin)) {
        int count = 0;
        for (char *part = strtok(line, ",\n"); part && count < 16; part = strtok(NULL, ",\n"))
            field[count++] = part;
        if (count == 15 && !strcmp(field[0], "put"))
            put(field);
        else if (count >= 6 && !strcmp(field[0], "ask"))
            ask(field);
    }
    return 0;
}
