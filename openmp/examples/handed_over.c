/* Who takes a node from the list has it alone: its pointer was handed over under a lock.
   expect: alike */
#include <omp.h>
#include <stdio.h>
#include <stdlib.h>

struct node {
    int number;
    struct node *next;
};

static struct node *first;
static omp_lock_t lock;

static void give(int number) {
    struct node *node = malloc(sizeof *node);
    node->number = number;
    omp_set_lock(&lock);
    node->next = first;
    first = node;
    omp_unset_lock(&lock);
}

static struct node *take(void) {
    omp_set_lock(&lock);
    struct node *node = first;
    if (node)
        first = node->next;
    omp_unset_lock(&lock);
    return node;
}

int main(void) {
    int sum = 0;
    omp_init_lock(&lock);
#pragma omp parallel sections num_threads(2)
    {
#pragma omp section
        for (int i = 0; i < 10; i++)
            give(i);
#pragma omp section
        for (int taken = 0; taken < 10;) {
            struct node *node = take();
            if (node) {
                sum += node->number;
                taken++;
                free(node);
            }
        }
    }
    omp_destroy_lock(&lock);
    printf("%d\n", sum);
    return 0;
}
