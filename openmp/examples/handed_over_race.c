/* A node is changed behind the unlock from which on another thread may have it.
   expect: race node */
#include <omp.h>
#include <stdio.h>
#include <stdlib.h>

/* The number is at the end, where malloc has nothing of its own in a freed block: the late change spoils no list of it. */
struct node {
    struct node *next;
    struct node *unused;
    int number;
};

static struct node *first;
static omp_lock_t lock;

static void give(int number) {
    struct node *node = malloc(sizeof *node);
    node->number = number;
    omp_set_lock(&lock);
    node->next = first;
    first = node;
    omp_unset_lock(&lock);
    node->number++;
}

static struct node *take(void) {
    omp_set_lock(&lock);
    struct node *node = first;
    if (node)
        first = node->next;
    omp_unset_lock(&lock);
    return node;
}

int main(void) {
    int sum = 0;
    omp_init_lock(&lock);
#pragma omp parallel sections num_threads(2)
    {
#pragma omp section
        for (int i = 0; i < 10; i++)
            give(i);
#pragma omp section
        for (int taken = 0; taken < 10;) {
            struct node *node = take();
            if (node) {
                sum += node->number;
                taken++;
                free(node);
            }
        }
    }
    omp_destroy_lock(&lock);
    printf("%d\n", sum);
    return 0;
}
