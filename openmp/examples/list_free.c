/* The node is given back by its own task, once the pointer to the next one is taken.
   expect: none */
#include <stdio.h>
#include <stdlib.h>

struct node {
    int value;
    struct node *next;
};

static struct node *put(int value, struct node *next) {
    struct node *node = malloc(sizeof *node);
    node->value = value;
    node->next = next;
    return node;
}

int main(void) {
    struct node *list = put(1, put(2, put(3, NULL)));
    int last = 0;
#pragma omp parallel
#pragma omp single
    for (struct node *node = list, *next; node; node = next) {
        next = node->next;
#pragma omp task firstprivate(node) shared(last) depend(inout: last)
        {
            last = node->value;
            free(node);
        }
    }
    printf("%d\n", last);
    return 0;
}
