/* A task for each node of a linked list; the nodes are given back once all have ended.
   expect: none */
#include <stdio.h>
#include <stdlib.h>

struct node {
    int value;
    struct node *next;
};

static struct node *put(int value, struct node *next) {
    struct node *node = malloc(sizeof *node);
    node->value = value;
    node->next = next;
    return node;
}

int main(void) {
    struct node *list = put(1, put(2, put(3, NULL)));
    int sum = 0;
#pragma omp parallel
#pragma omp single
    {
        for (struct node *node = list; node; node = node->next) {
#pragma omp task firstprivate(node)
            node->value *= 10;
        }
#pragma omp taskwait
        for (struct node *node = list; node;) {
            struct node *next = node->next;
            sum += node->value;
            free(node);
            node = next;
        }
    }
    printf("%d\n", sum);
    return 0;
}
